//! Answers questions about the target conditions of Cargo manifests that other crates leave open: on which known
//! targets a key is true, whether one key implies another, where a rejected key is wrong, and on which targets each
//! package of a graph is in the build. [`run`] runs every command of the program `manifest_check` on files in memory.
//!
//! The answers come from the library `libnevgrasi`, whose calls are proved. This crate is not proved: it passes slices
//! to the library, and reads the answers.
//!
//! ```
//! use nevgrasi::Key;
//!
//! let key: Key = r#"cfg(all(target_os = "ios", target_env = "macabi"))"#.parse()?;
//! assert_eq!(key.targets()?, ["aarch64-apple-ios-macabi", "x86_64-apple-ios-macabi"]);
//! assert!(key.implies(&r#"cfg(target_os = "ios")"#.parse()?)?.holds);
//! # Ok::<(), nevgrasi::Error>(())
//! ```
//!
//! No call panics. A shared library with another interface than [`ABI`] is an error of each call.
#![warn(missing_docs)]

mod call;
mod error;
mod facts;
mod graph;
mod json;
mod key;
#[rustfmt::skip]
mod raw;
mod run;

pub use error::{Error, ErrorKind};
pub use facts::{match_keys, Condition, Facts};
pub use graph::{graph, graph_with, GraphOptions, Kind, Package, Sides, Targets};
pub use key::{Answer, Example, Key, BUDGET};
pub use raw::ABI;
pub use run::{run, Run};

use call::{text_of, written};

/// Returns the version of the library.
///
/// ```
/// assert_eq!(nevgrasi::version()?.split('.').count(), 3);
/// # Ok::<(), nevgrasi::Error>(())
/// ```
///
/// # Errors
///
/// [`ErrorKind::OtherInterface`].
pub fn version() -> Result<String, Error> {
    // SAFETY: as in `Key::new`.
    text_of(written(|out, room, outcome| unsafe { raw::nevgrasi_version(out, room, outcome) })?)
}

/// Returns the names of the targets that rustc 1.95.0 knows, sorted.
///
/// ```
/// assert_eq!(nevgrasi::known_targets()?.len(), 320);
/// # Ok::<(), nevgrasi::Error>(())
/// ```
///
/// # Errors
///
/// [`ErrorKind::OtherInterface`].
pub fn known_targets() -> Result<Vec<String>, Error> {
    (0..raw::TARGETS).map(target_name).collect()
}

/// Returns the facts of the known target of this name: the lines that `rustc --print cfg --target NAME` prints.
///
/// ```
/// let facts = nevgrasi::facts_of("x86_64-unknown-linux-gnu")?;
/// assert!(facts.contains(&r#"target_os="linux""#.to_string()));
/// # Ok::<(), nevgrasi::Error>(())
/// ```
///
/// # Errors
///
/// [`ErrorKind::UnknownTarget`], [`ErrorKind::OutOfMemory`] and [`ErrorKind::OtherInterface`].
pub fn facts_of(name: &str) -> Result<Vec<String>, Error> {
    // SAFETY: as in `Key::new`.
    let lines = text_of(written(|out, room, outcome| unsafe {
        raw::nevgrasi_facts(name.as_ptr(), name.len(), out, room, outcome)
    })?)?;
    // The library prints a space on both sides of `=`, which no name contains.
    Ok(lines.lines().map(|line| line.replacen(" = ", "=", 1)).collect())
}

/// Returns the name of the known target at a place.
fn target_name(place: usize) -> Result<String, Error> {
    // SAFETY: as in `Key::new`.
    text_of(written(|out, room, outcome| unsafe { raw::nevgrasi_target_name(place, out, room, outcome) })?)
}

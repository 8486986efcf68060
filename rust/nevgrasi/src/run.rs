//! The commands of the program `manifest_check`, on files that are handed over.

use crate::call::{check_code, made_in, text_of};
use crate::error::{Error, ErrorKind};
use crate::raw;

/// How many bytes the output of a command is expected to have, at least, and times the bytes of its files.
const LEAST_OUTPUT: usize = 1 << 16;
const OUTPUT_OF_FILES: usize = 4;

/// How a command ended, and what it printed.
#[derive(Clone, Debug, PartialEq, Eq, Hash)]
#[non_exhaustive]
pub struct Run {
    /// The exit status: 0, 1 or 2.
    pub status: u8,
    /// What the program prints on standard output.
    pub output: String,
    /// What the program prints on standard error.
    pub errors: String,
}

/// Runs a command of the program `manifest_check` on these files, each with its name, and returns what it prints.
///
/// The arguments are those of the program, without its name: `lint`, `select`, `graph` and every other command, with
/// their options. The file `-` is standard input. The current folder is the root, to which a relative name leads. No
/// file of the machine is read, no file is written, and there are no environment variables. What is invalid is in
/// `errors`, with status 2.
///
/// ```
/// let manifest = "[target.'cfg(windos)'.dependencies]\nlibc = \"0.2\"\n";
/// let run = nevgrasi::run(&["lint", "-q", "Cargo.toml"], &[("Cargo.toml", manifest.as_bytes())])?;
/// assert_eq!(run.status, 1);
/// assert!(run.output.starts_with("warning[unknown-fact]: "));
/// assert_eq!(nevgrasi::run(&["match", "--target", "avr-none", "cfg(unix)"], &[])?.status, 1);
/// # Ok::<(), nevgrasi::Error>(())
/// ```
///
/// # Errors
///
/// [`ErrorKind::InvalidArgument`], if an argument or a name has a NUL. [`ErrorKind::OutOfMemory`] and
/// [`ErrorKind::OtherInterface`].
pub fn run(arguments: &[&str], files: &[(&str, &[u8])]) -> Result<Run, Error> {
    let mut words = Vec::new();
    for word in arguments {
        push_word(&mut words, word)?;
    }
    let mut given = Vec::new();
    for (name, bytes) in files {
        push_word(&mut given, name)?;
        push_word(&mut given, &bytes.len().to_string())?;
        given.extend_from_slice(bytes);
    }
    let room = OUTPUT_OF_FILES.saturating_mul(given.len()).saturating_add(LEAST_OUTPUT);
    // SAFETY: as in `Key::new`.
    let (outcome, mut output) = made_in(room, |out, room, outcome| unsafe {
        raw::nevgrasi_run(words.as_ptr(), words.len(), given.as_ptr(), given.len(), out, room, outcome)
    })?;
    check_code(outcome.code)?;
    if outcome.start > output.len() {
        return Err(Error::unexpected("errors behind what is written"));
    }
    let errors = text_of(output.split_off(outcome.start))?;
    let status = u8::try_from(outcome.argument).map_err(|_| Error::unexpected("an exit status"))?;
    Ok(Run { status, output: text_of(output)?, errors })
}

/// Appends a text and a NUL. Fails if it has a NUL itself.
fn push_word(bytes: &mut Vec<u8>, word: &str) -> Result<(), Error> {
    if word.contains('\0') {
        return Err(Error::new(ErrorKind::InvalidArgument, "a NUL in an argument or in the name of a file"));
    }
    bytes.extend_from_slice(word.as_bytes());
    bytes.push(0);
    Ok(())
}

//! Conditions that are parsed once, and facts that are prepared once, to match them often; and many keys at once.

use crate::call::{check_code, check_interface, made, made_in, text_of};
use crate::error::{Error, ErrorKind};
use crate::raw::{self, Outcome};
use crate::{facts_of, Key};

/// The `cfg` facts of a target, and its name. They are prepared once, to match many conditions.
///
/// ```
/// use nevgrasi::{Facts, Key};
///
/// let linux = Facts::new("x86_64-unknown-linux-gnu", "unix\ntarget_os=\"linux\"\n")?;
/// let condition = Key::new(r#"cfg(all(unix, not(target_os = "macos")))"#)?.condition()?;
/// assert!(condition.matches(&linux)?);
/// # Ok::<(), nevgrasi::Error>(())
/// ```
#[derive(Clone, Debug)]
pub struct Facts {
    name: String,
    lines: String,
    prepared: Vec<u8>,
}

impl Facts {
    /// Reads facts from lines as `rustc --print cfg` prints them, of the target with this name.
    ///
    /// ```
    /// use nevgrasi::{ErrorKind, Facts};
    ///
    /// let error = Facts::new("", "unix\na =").unwrap_err();
    /// assert_eq!((error.kind(), error.span()), (ErrorKind::InvalidFacts, Some(8..8)));
    /// ```
    ///
    /// # Errors
    ///
    /// [`ErrorKind`](crate::ErrorKind)`::InvalidFacts`, with the span of the error in the lines, `OutOfMemory` and
    /// `OtherInterface`.
    pub fn new(name: &str, lines: &str) -> Result<Facts, Error> {
        // SAFETY: as in `Key::new`.
        let (outcome, out) = made(|out, room, outcome| unsafe {
            raw::nevgrasi_prepare_facts(lines.as_ptr(), lines.len(), out, room, outcome)
        })?;
        if outcome.code == raw::REFUSED {
            return Err(Error::of_facts(text_of(out)?, outcome.start..outcome.end));
        }
        check_code(outcome.code)?;
        Ok(Facts { name: name.to_string(), lines: lines.to_string(), prepared: out })
    }

    /// Reads the facts of the known target of this name.
    ///
    /// ```
    /// let facts = nevgrasi::Facts::of_target("x86_64-unknown-linux-gnu")?;
    /// assert!(nevgrasi::Key::new("cfg(unix)")?.condition()?.matches(&facts)?);
    /// # Ok::<(), nevgrasi::Error>(())
    /// ```
    ///
    /// # Errors
    ///
    /// [`ErrorKind`](crate::ErrorKind)`::UnknownTarget`, `OutOfMemory` and `OtherInterface`.
    pub fn of_target(name: &str) -> Result<Facts, Error> {
        Facts::new(name, &facts_of(name)?.join("\n"))
    }

    /// Returns the name of the target.
    pub fn name(&self) -> &str {
        &self.name
    }

    /// Returns the prepared facts, as the call `nevgrasi_prepared_matches` takes them.
    pub fn prepared(&self) -> &[u8] {
        &self.prepared
    }
}

/// A parsed key, which can be matched often.
///
/// Two conditions are equal if they consist of the same parts.
#[derive(Clone, Debug, PartialEq, Eq, Hash)]
pub struct Condition {
    flat: Vec<u8>,
}

impl Condition {
    pub(crate) fn of(key: &Key) -> Result<Condition, Error> {
        let text = key.text();
        // SAFETY: as in `Key::new`.
        let (outcome, flat) = made(|out, room, outcome| unsafe {
            raw::nevgrasi_read_key(text.as_ptr(), text.len(), out, room, outcome)
        })?;
        check_code(outcome.code)?;
        Ok(Condition { flat })
    }

    /// Returns the flat condition: bytes that you can copy, send and store.
    pub fn flat(&self) -> &[u8] {
        &self.flat
    }

    /// Returns whether the condition is true for these facts. The name of a target is compared with `facts.name()`.
    ///
    /// ```
    /// use nevgrasi::{Facts, Key};
    ///
    /// let facts = Facts::new("avr-none", "")?;
    /// assert!(Key::new("avr-none")?.condition()?.matches(&facts)?);
    /// assert!(!Key::new("cfg(unix)")?.condition()?.matches(&facts)?);
    /// # Ok::<(), nevgrasi::Error>(())
    /// ```
    ///
    /// # Errors
    ///
    /// [`ErrorKind`](crate::ErrorKind)`::OutOfMemory`, only if a group has more than 64 members or groups are nested as
    /// deeply, and `OtherInterface`.
    pub fn matches(&self, facts: &Facts) -> Result<bool, Error> {
        check_interface()?;
        let (flat, name, prepared) = (&self.flat, &facts.name, &facts.prepared);
        let mut outcome = Outcome::default();
        // SAFETY: as in `Key::new`.
        unsafe {
            raw::nevgrasi_prepared_matches(
                flat.as_ptr(),
                flat.len(),
                name.as_ptr(),
                name.len(),
                prepared.as_ptr(),
                prepared.len(),
                &mut outcome,
            )
        };
        check_code(outcome.code)?;
        Ok(outcome.holds)
    }
}

/// Returns for each of these keys whether it is true for these facts, or the kind of its error. This is one call.
///
/// [`Key::new`] returns the whole error of a key that is rejected.
///
/// ```
/// use nevgrasi::{match_keys, ErrorKind, Facts};
///
/// let linux = Facts::of_target("x86_64-unknown-linux-gnu")?;
/// let answers = match_keys(&["cfg(unix)", "cfg(windows)", "cfg(unix"], &linux)?;
/// assert_eq!(answers, [Ok(true), Ok(false), Err(ErrorKind::InvalidKey)]);
/// # Ok::<(), nevgrasi::Error>(())
/// ```
///
/// # Errors
///
/// [`ErrorKind::OutOfMemory`] and [`ErrorKind::OtherInterface`]. The kind of a key is [`ErrorKind::InvalidKey`],
/// [`ErrorKind::TooDeep`] or [`ErrorKind::OutOfMemory`].
pub fn match_keys<K: AsRef<str>>(keys: &[K], facts: &Facts) -> Result<Vec<Result<bool, ErrorKind>>, Error> {
    let mut given = Vec::new();
    for key in keys {
        let key = key.as_ref();
        given.extend_from_slice(&(key.len() as u64).to_le_bytes());
        given.extend_from_slice(key.as_bytes());
    }
    let (name, lines) = (&facts.name, &facts.lines);
    // SAFETY: as in `Key::new`.
    let (outcome, answers) = made_in(keys.len(), |out, room, outcome| unsafe {
        raw::nevgrasi_match_keys(
            given.as_ptr(),
            given.len(),
            name.as_ptr(),
            name.len(),
            lines.as_ptr(),
            lines.len(),
            out,
            room,
            outcome,
        )
    })?;
    check_code(outcome.code)?;
    Ok(answers.into_iter().map(answer_of).collect())
}

/// Returns the answer that a byte is: 0 or 1, or twice the code of the call on a key.
fn answer_of(byte: u8) -> Result<bool, ErrorKind> {
    match u32::from(byte) {
        0 => Ok(false),
        1 => Ok(true),
        byte if byte == 2 * raw::REFUSED => Err(ErrorKind::InvalidKey),
        byte if byte == 2 * raw::TOO_DEEP => Err(ErrorKind::TooDeep),
        byte if byte == 2 * raw::NO_MEMORY => Err(ErrorKind::OutOfMemory),
        _ => Err(ErrorKind::Unexpected),
    }
}

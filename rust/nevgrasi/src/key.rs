//! Keys, and questions about them.

use crate::call::{check_code, check_interface, made, text_of, texts_of};
use crate::error::Error;
use crate::facts::Condition;
use crate::raw::{self, Outcome};
use crate::target_name;
use std::cmp::Ordering;
use std::fmt;
use std::hash::{Hash, Hasher};
use std::ptr;
use std::str::FromStr;

/// How many case splits a comparison may make before it is undecided, if its caller names no other number.
pub const BUDGET: u64 = 10_000;

/// A possible target: its name, if the answer depends on it, and its facts.
#[derive(Clone, Debug, PartialEq, Eq, Hash)]
pub struct Example {
    /// The name of the target, if the answer depends on it.
    pub name: Option<String>,
    /// The facts of the target, as the library prints them.
    pub facts: Vec<String>,
}

/// A yes or a no, and an example that shows why, if there is one.
#[derive(Clone, Debug, PartialEq, Eq, Hash)]
pub struct Answer {
    /// Whether the answer is yes.
    pub holds: bool,
    /// A target that shows why.
    pub example: Option<Example>,
}

impl Answer {
    /// Reads the answer of a call. If it is `has_example`, the call wrote an example.
    fn new(outcome: Outcome, written: &[u8], has_example: bool) -> Result<Answer, Error> {
        if outcome.holds != has_example {
            return Ok(Answer { holds: outcome.holds, example: None });
        }
        let mut texts = texts_of(written)?.into_iter();
        let name = if outcome.is_named { texts.next() } else { None };
        Ok(Answer { holds: outcome.holds, example: Some(Example { name, facts: texts.collect() }) })
    }
}

type Comparison = unsafe extern "C" fn(*const u8, usize, *const u8, usize, u64, *mut u8, usize, *mut Outcome) -> u32;

/// The key of a table `[target.KEY.dependencies]`.
///
/// Keys are equal if they have the same canonical form, and they are ordered by it. [`equivalent`](Key::equivalent)
/// compares what they mean.
///
/// ```
/// use nevgrasi::Key;
///
/// let key: Key = "cfg( all(unix,) )".parse()?;
/// assert_eq!(key.to_string(), "cfg(all(unix))");
/// assert_eq!(key, Key::new("cfg(all(unix))")?);
/// assert!(key < Key::new("cfg(windows)")?);
/// # Ok::<(), nevgrasi::Error>(())
/// ```
#[derive(Clone, Debug)]
pub struct Key {
    text: String,
    canonical: String,
}

impl Key {
    /// Reads a key.
    ///
    /// ```
    /// use nevgrasi::{ErrorKind, Key};
    ///
    /// assert!(Key::new("cfg(unix)").is_ok());
    /// assert_eq!(Key::new("cfg(all(a b))").unwrap_err().kind(), ErrorKind::InvalidKey);
    /// ```
    ///
    /// # Errors
    ///
    /// [`ErrorKind`](crate::ErrorKind)`::InvalidKey`, `TooDeep`, `OutOfMemory` and `OtherInterface`.
    pub fn new(text: &str) -> Result<Key, Error> {
        // SAFETY: each pointer and length is a slice's, `out` and `outcome` are written by this call alone, and `out`
        // was filled. So it is at each call of this crate.
        let (outcome, out) = made(|out, room, outcome| unsafe {
            raw::nevgrasi_canonical(text.as_ptr(), text.len(), out, room, outcome)
        })?;
        if outcome.code == raw::REFUSED {
            // SAFETY: as above.
            let (_, snippet) = made(|out, room, outcome| unsafe {
                raw::nevgrasi_fault(text.as_ptr(), text.len(), out, room, outcome)
            })?;
            return Err(Error::of_key(text_of(out)?, outcome.start..outcome.end, text_of(snippet)?));
        }
        check_code(outcome.code)?;
        Ok(Key { text: text.to_string(), canonical: text_of(out)? })
    }

    /// Returns the text that was read.
    pub fn text(&self) -> &str {
        &self.text
    }

    /// Returns the canonical form, which is a key for the same condition. `Display` prints it too.
    ///
    /// ```
    /// let key = nevgrasi::Key::new(r#"cfg( not(target_os="macos") )"#)?;
    /// assert_eq!(key.canonical(), r#"cfg(not(target_os = "macos"))"#);
    /// # Ok::<(), nevgrasi::Error>(())
    /// ```
    pub fn canonical(&self) -> &str {
        &self.canonical
    }

    /// Returns the condition of the key, which can be matched often.
    ///
    /// # Errors
    ///
    /// [`ErrorKind`](crate::ErrorKind)`::OutOfMemory`.
    pub fn condition(&self) -> Result<Condition, Error> {
        Condition::of(self)
    }

    /// Returns the known targets, those of rustc 1.95.0, on which the key is true, sorted.
    ///
    /// ```
    /// let key = nevgrasi::Key::new(r#"cfg(target_arch = "avr")"#)?;
    /// assert_eq!(key.targets()?, ["avr-none"]);
    /// # Ok::<(), nevgrasi::Error>(())
    /// ```
    ///
    /// # Errors
    ///
    /// [`ErrorKind`](crate::ErrorKind)`::OutOfMemory`.
    pub fn targets(&self) -> Result<Vec<String>, Error> {
        check_interface()?;
        let mut words = [0; raw::WORDS];
        let mut outcome = Outcome::default();
        let text = &self.text;
        // SAFETY: as in `new`; a buffer of no bytes is not written.
        unsafe { raw::nevgrasi_targets(text.as_ptr(), text.len(), &mut words, ptr::null_mut(), 0, &mut outcome) };
        check_code(outcome.code)?;
        let true_at = |place: &usize| words.get(place / 64).is_some_and(|word| word >> (place % 64) & 1 == 1);
        (0..raw::TARGETS).filter(true_at).map(target_name).collect()
    }

    fn relates(&self, call: Comparison, other: &Key, budget: u64) -> Result<Answer, Error> {
        let (a, b) = (&self.text, &other.text);
        // SAFETY: as in `new`.
        let (outcome, out) = made(|out, room, outcome| unsafe {
            call(a.as_ptr(), a.len(), b.as_ptr(), b.len(), budget, out, room, outcome)
        })?;
        check_code(outcome.code)?;
        Answer::new(outcome, &out, false)
    }

    /// Returns whether the other key is true wherever this one is, for every set of facts that rustc's rules allow. A
    /// no has an example.
    ///
    /// ```
    /// use nevgrasi::Key;
    ///
    /// let answer = Key::new("cfg(unix)")?.implies(&Key::new(r#"cfg(target_os = "linux")"#)?)?;
    /// assert_eq!(answer.example.unwrap().facts, [r#"target_family = "unix""#, "unix"]);
    /// # Ok::<(), nevgrasi::Error>(())
    /// ```
    ///
    /// # Errors
    ///
    /// [`ErrorKind`](crate::ErrorKind)`::Undecided` if it takes more than [`BUDGET`] case splits, and `OutOfMemory`.
    pub fn implies(&self, other: &Key) -> Result<Answer, Error> {
        self.implies_within(other, BUDGET)
    }

    /// Returns what [`implies`](Key::implies) returns, by at most `budget` case splits.
    ///
    /// ```
    /// use nevgrasi::{ErrorKind, Key};
    ///
    /// let (any, all) = (Key::new("cfg(any(a, b))")?, Key::new("cfg(all(c, d))")?);
    /// assert_eq!(any.implies_within(&all, 0).unwrap_err().kind(), ErrorKind::Undecided);
    /// assert!(!any.implies_within(&all, 100)?.holds);
    /// # Ok::<(), nevgrasi::Error>(())
    /// ```
    ///
    /// # Errors
    ///
    /// [`ErrorKind`](crate::ErrorKind)`::Undecided` if it takes more than `budget` case splits, and `OutOfMemory`.
    pub fn implies_within(&self, other: &Key, budget: u64) -> Result<Answer, Error> {
        self.relates(raw::nevgrasi_implies, other, budget)
    }

    /// Returns whether both keys are true on the same targets. A no has an example.
    ///
    /// ```
    /// use nevgrasi::Key;
    ///
    /// assert!(Key::new("cfg(unix)")?.equivalent(&Key::new(r#"cfg(target_family = "unix")"#)?)?.holds);
    /// # Ok::<(), nevgrasi::Error>(())
    /// ```
    ///
    /// # Errors
    ///
    /// As [`implies`](Key::implies).
    pub fn equivalent(&self, other: &Key) -> Result<Answer, Error> {
        self.equivalent_within(other, BUDGET)
    }

    /// Returns what [`equivalent`](Key::equivalent) returns, by at most `budget` case splits.
    ///
    /// # Errors
    ///
    /// As [`implies_within`](Key::implies_within).
    pub fn equivalent_within(&self, other: &Key, budget: u64) -> Result<Answer, Error> {
        self.relates(raw::nevgrasi_equivalent, other, budget)
    }

    /// Returns whether no target exists on which both keys are true. A no has an example.
    ///
    /// ```
    /// use nevgrasi::Key;
    ///
    /// let linux = Key::new(r#"cfg(target_os = "linux")"#)?;
    /// assert!(linux.excludes(&Key::new(r#"cfg(target_os = "macos")"#)?)?.holds);
    /// # Ok::<(), nevgrasi::Error>(())
    /// ```
    ///
    /// # Errors
    ///
    /// As [`implies`](Key::implies).
    pub fn excludes(&self, other: &Key) -> Result<Answer, Error> {
        self.excludes_within(other, BUDGET)
    }

    /// Returns what [`excludes`](Key::excludes) returns, by at most `budget` case splits.
    ///
    /// # Errors
    ///
    /// As [`implies_within`](Key::implies_within).
    pub fn excludes_within(&self, other: &Key, budget: u64) -> Result<Answer, Error> {
        self.relates(raw::nevgrasi_excludes, other, budget)
    }

    /// Returns whether the key is true for some set of facts that rustc's rules allow. A yes has an example.
    ///
    /// ```
    /// use nevgrasi::Key;
    ///
    /// assert!(!Key::new("cfg(all(unix, not(unix)))")?.can_hold()?.holds);
    /// # Ok::<(), nevgrasi::Error>(())
    /// ```
    ///
    /// # Errors
    ///
    /// As [`implies`](Key::implies).
    pub fn can_hold(&self) -> Result<Answer, Error> {
        self.can_hold_within(BUDGET)
    }

    /// Returns what [`can_hold`](Key::can_hold) returns, by at most `budget` case splits.
    ///
    /// # Errors
    ///
    /// As [`implies_within`](Key::implies_within).
    pub fn can_hold_within(&self, budget: u64) -> Result<Answer, Error> {
        let key = &self.text;
        // SAFETY: as in `new`.
        let (outcome, out) = made(|out, room, outcome| unsafe {
            raw::nevgrasi_can_hold(key.as_ptr(), key.len(), budget, out, room, outcome)
        })?;
        check_code(outcome.code)?;
        Answer::new(outcome, &out, true)
    }
}

impl FromStr for Key {
    type Err = Error;

    fn from_str(text: &str) -> Result<Key, Error> {
        Key::new(text)
    }
}

impl fmt::Display for Key {
    fn fmt(&self, f: &mut fmt::Formatter<'_>) -> fmt::Result {
        f.pad(&self.canonical)
    }
}

impl PartialEq for Key {
    fn eq(&self, other: &Key) -> bool {
        self.canonical == other.canonical
    }
}

impl Eq for Key {}

impl Hash for Key {
    fn hash<H: Hasher>(&self, state: &mut H) {
        self.canonical.hash(state);
    }
}

impl Ord for Key {
    fn cmp(&self, other: &Key) -> Ordering {
        self.canonical.cmp(&other.canonical)
    }
}

impl PartialOrd for Key {
    fn partial_cmp(&self, other: &Key) -> Option<Ordering> {
        Some(self.cmp(other))
    }
}

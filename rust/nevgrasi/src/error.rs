//! The errors of calls.

use std::fmt;
use std::ops::Range;

/// What kind of error this is.
#[derive(Clone, Copy, Debug, PartialEq, Eq, Hash)]
#[non_exhaustive]
pub enum ErrorKind {
    /// The text is not a key. The error has a span and a snippet.
    InvalidKey,
    /// A line is not a fact. The error has a span.
    InvalidFacts,
    /// The document of a graph, or an option for it, can't be used.
    InvalidDocument,
    /// An argument or the name of a file has a NUL.
    InvalidArgument,
    /// A text has more parentheses open at once than the library accepts.
    TooDeep,
    /// A comparison took more case splits than its budget.
    Undecided,
    /// No known target has this name.
    UnknownTarget,
    /// An allocation failed.
    OutOfMemory,
    /// The shared library that is loaded has another interface than this crate.
    OtherInterface,
    /// The library returned something that its header rules out.
    Unexpected,
}

/// An error: its kind, a message, and its place in a key.
///
/// ```
/// use nevgrasi::{ErrorKind, Key};
///
/// let error = Key::new("cfg(all(a b))").unwrap_err();
/// assert_eq!(error.kind(), ErrorKind::InvalidKey);
/// assert_eq!(error.span(), Some(10..11));
/// assert_eq!(
///     error.to_string(),
///     "failed to parse `all(a b)` as a cfg expression: expected `)`, found an identifier"
/// );
/// ```
#[derive(Clone, Debug, PartialEq, Eq, Hash)]
pub struct Error {
    kind: ErrorKind,
    message: String,
    span: Option<Range<usize>>,
    snippet: Option<String>,
}

impl Error {
    /// Returns an error that has no place in a text.
    pub(crate) fn new(kind: ErrorKind, message: impl Into<String>) -> Error {
        Error { kind, message: message.into(), span: None, snippet: None }
    }

    /// Returns the error of a key.
    pub(crate) fn of_key(message: String, span: Range<usize>, snippet: String) -> Error {
        Error { kind: ErrorKind::InvalidKey, message, span: Some(span), snippet: Some(snippet) }
    }

    /// Returns the error of lines of facts.
    pub(crate) fn of_facts(message: String, span: Range<usize>) -> Error {
        Error { kind: ErrorKind::InvalidFacts, message, span: Some(span), snippet: None }
    }

    /// Returns the error of an answer that the header rules out.
    pub(crate) fn unexpected(what: impl fmt::Display) -> Error {
        Error::new(ErrorKind::Unexpected, format!("the library answered {what}"))
    }

    /// Returns what kind of error this is.
    pub fn kind(&self) -> ErrorKind {
        self.kind
    }

    /// Returns the bytes of the key at which the error is. If something is missing, the span is empty, at its place.
    pub fn span(&self) -> Option<Range<usize>> {
        self.span.clone()
    }

    /// Returns two lines that show the key, and carets below the error.
    ///
    /// ```
    /// let error = nevgrasi::Key::new("cfg(all(a b))").unwrap_err();
    /// assert_eq!(error.snippet(), Some("cfg(all(a b))\n          ^ expected `)`, found an identifier"));
    /// ```
    pub fn snippet(&self) -> Option<&str> {
        self.snippet.as_deref()
    }
}

impl fmt::Display for Error {
    fn fmt(&self, f: &mut fmt::Formatter<'_>) -> fmt::Result {
        f.write_str(&self.message)
    }
}

impl std::error::Error for Error {}

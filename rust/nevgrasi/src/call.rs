//! Calls of the library.

use crate::error::{Error, ErrorKind};
use crate::raw::{self, Outcome};

/// How many bytes an answer may have before its call is made again with more room, if its size is not estimated.
const ROOM: usize = 512;

/// Checks that the library has the interface for which this crate is written. Before this, no other call may be made.
pub(crate) fn check_interface() -> Result<(), Error> {
    // SAFETY: the call takes nothing, in every interface.
    match unsafe { raw::nevgrasi_abi() } {
        raw::ABI => Ok(()),
        other => Err(Error::new(
            ErrorKind::OtherInterface,
            format!("libnevgrasi.so has the interface {other}, and this crate is written for {}", raw::ABI),
        )),
    }
}

/// Makes a call that writes into a buffer, again if the buffer was too short. Returns what it wrote, whatever its code.
pub(crate) fn made(call: impl Fn(*mut u8, usize, *mut Outcome) -> u32) -> Result<(Outcome, Vec<u8>), Error> {
    made_in(ROOM, call)
}

/// Makes a call whose answer is estimated to have at most `room` bytes, as `made` does.
///
/// The buffer is filled with zeros that the system supplies: those that the call does not write take no memory.
pub(crate) fn made_in(
    room: usize,
    call: impl Fn(*mut u8, usize, *mut Outcome) -> u32,
) -> Result<(Outcome, Vec<u8>), Error> {
    check_interface()?;
    let mut out = vec![0; room];
    loop {
        let mut outcome = Outcome::default();
        call(out.as_mut_ptr(), out.len(), &mut outcome);
        if outcome.needed <= out.len() {
            out.truncate(outcome.needed);
            out.shrink_to_fit();
            return Ok((outcome, out));
        }
        out.resize(outcome.needed, 0);
    }
}

/// Returns the error that a code stands for, if it is neither an answer nor a text that is rejected.
pub(crate) fn check_code(code: u32) -> Result<(), Error> {
    match code {
        raw::DONE => Ok(()),
        raw::TOO_DEEP => Err(Error::new(ErrorKind::TooDeep, "too many parentheses are open")),
        raw::UNDECIDED => Err(Error::new(ErrorKind::Undecided, "the budget is used up")),
        raw::UNKNOWN_TARGET => Err(Error::new(ErrorKind::UnknownTarget, "no known target has the name")),
        raw::NO_MEMORY => Err(Error::new(ErrorKind::OutOfMemory, "an allocation failed")),
        other => Err(Error::unexpected(format_args!("the code {other}"))),
    }
}

/// Makes a call that rejects no text, and returns what it wrote.
pub(crate) fn written(call: impl Fn(*mut u8, usize, *mut Outcome) -> u32) -> Result<Vec<u8>, Error> {
    let (outcome, out) = made(call)?;
    check_code(outcome.code)?;
    Ok(out)
}

/// Returns the text that the library wrote.
pub(crate) fn text_of(bytes: Vec<u8>) -> Result<String, Error> {
    String::from_utf8(bytes).map_err(|_| Error::unexpected("no UTF-8"))
}

/// Returns the texts of an example, each of which has its length before it, in eight bytes.
pub(crate) fn texts_of(mut bytes: &[u8]) -> Result<Vec<String>, Error> {
    let mut texts = Vec::new();
    while !bytes.is_empty() {
        let (text, rest) = first_text(bytes).ok_or_else(|| Error::unexpected("no texts behind their lengths"))?;
        texts.push(text_of(text.to_vec())?);
        bytes = rest;
    }
    Ok(texts)
}

/// Returns the first text, and the bytes after it.
fn first_text(bytes: &[u8]) -> Option<(&[u8], &[u8])> {
    let length = u64::from_le_bytes(bytes.get(..8)?.try_into().ok()?);
    let end = usize::try_from(length).ok()?.checked_add(8)?;
    Some((bytes.get(8..end)?, bytes.get(end..)?))
}

#[cfg(test)]
mod tests {
    use super::*;
    use std::cell::Cell;

    /// Makes a call that writes `text` if the buffer is long enough. Returns how often it was made, and what it wrote.
    fn tried(room: usize, text: &[u8]) -> (u32, Vec<u8>) {
        let calls = Cell::new(0);
        let (_, written) = made_in(room, |out, size, outcome| {
            calls.set(calls.get() + 1);
            if text.len() <= size {
                // SAFETY: the buffer has `size` bytes.
                unsafe { std::ptr::copy_nonoverlapping(text.as_ptr(), out, text.len()) };
            }
            // SAFETY: the outcome is of the caller.
            unsafe { (*outcome).needed = text.len() };
            raw::DONE
        })
        .expect("the interface of the library");
        (calls.get(), written)
    }

    #[test]
    fn a_call_is_made_again_only_if_the_buffer_is_too_short() {
        for (room, text, calls) in [(4, "abcd", 1), (5, "abcd", 1), (3, "abcd", 2), (0, "", 1), (0, "a", 2)] {
            assert_eq!(tried(room, text.as_bytes()), (calls, text.as_bytes().to_vec()), "{room}, {text}");
        }
    }
}

//! The calls of the library, as its header has them: made by `.ci/c-library --header` of the exports.
#![allow(dead_code)]

/// How a call ended.
#[repr(C)]
#[derive(Clone, Copy, Default)]
pub struct Outcome {
    /// One of the constants above.
    pub code: u32,
    /// The index, from 0 on, of the text of the call that is rejected, not UTF-8 or too deep.
    pub argument: u32,
    /// The answer of a call that answers yes or no.
    pub holds: bool,
    /// True if the first text of an example is its name.
    pub is_named: bool,
    /// The number of bytes of the answer or the message. They are written if the buffer has as many.
    pub needed: usize,
    /// The first byte of the error, in the text that is rejected.
    pub start: usize,
    /// The byte after the error.
    pub end: usize,
}

/// The call has an answer.
pub const DONE: u32 = 0;
/// A text is rejected: the buffer has the message, and the bytes from `start` to `end` of the text are the error.
pub const REFUSED: u32 = 1;
/// A text is not UTF-8.
pub const NOT_UTF8: u32 = 2;
/// The bytes are not a flat condition, not flat facts, or not prepared facts.
pub const NOT_FLAT: u32 = 3;
/// An allocation failed.
pub const NO_MEMORY: u32 = 4;
/// The budget is used up.
pub const UNDECIDED: u32 = 5;
/// More than `MAX_OPEN` parentheses are open at once, or a flat condition has more than `MAX_FLAT_BYTES` bytes.
pub const TOO_DEEP: u32 = 6;
/// No known target has this name or index.
pub const UNKNOWN_TARGET: u32 = 7;
/// The maximum number of parentheses of a text that can be open at once. Matching, printing and comparing use some 100
/// bytes of stack for each open group that others follow.
pub const MAX_OPEN: usize = 10000;
/// The maximum number of bytes of a flat condition, which can contain one group for each 17 of them.
pub const MAX_FLAT_BYTES: usize = 680000;
/// The version of the interface. It rises whenever a caller of an earlier version may break.
pub const ABI: u32 = 2;
/// The number of targets.
pub const TARGETS: usize = 320;
/// The number of words in a set of targets.
pub const WORDS: usize = 5;

extern "C" {
    /// Returns the version of the interface. A caller that was compiled with another `NEVGRASI_ABI` should not go on.
    pub fn nevgrasi_abi() -> u32;
    /// Writes the version of the library: three numbers with dots between them.
    pub fn nevgrasi_version(
        out: *mut u8,
        out_length: usize,
        outcome: *mut Outcome,
    ) -> u32;
    /// Writes the canonical text of a key's condition, which is parsed as the same condition.
    pub fn nevgrasi_canonical(
        key: *const u8,
        key_length: usize,
        out: *mut u8,
        out_length: usize,
        outcome: *mut Outcome,
    ) -> u32;
    /// Shows the error of a rejected key: with `REFUSED`, writes two lines, the key and carets under the error. Returns
    /// `DONE`, with no bytes, if the key is a condition.
    pub fn nevgrasi_fault(
        key: *const u8,
        key_length: usize,
        out: *mut u8,
        out_length: usize,
        outcome: *mut Outcome,
    ) -> u32;
    /// Decides whether a key is true on the target with this name and the facts in these lines, which are as `rustc
    /// --print cfg` prints them. `holds` is the answer. With `REFUSED`, `argument` 2 means that a line is not a fact.
    pub fn nevgrasi_matches(
        key: *const u8,
        key_length: usize,
        name: *const u8,
        name_length: usize,
        lines: *const u8,
        lines_length: usize,
        out: *mut u8,
        out_length: usize,
        outcome: *mut Outcome,
    ) -> u32;
    /// Writes a byte for each of many keys: whether it is true on the target with this name and the facts in these
    /// lines, which are as `rustc --print cfg` prints them. Each key has its length before it, in 8 bytes, low byte
    /// first. The byte is 0 if the key is false, and 1 if it is true. Else it is twice the code that `nevgrasi_matches`
    /// returns for the key: `REFUSED`, `NOT_UTF8`, `TOO_DEEP` or `NO_MEMORY`. The call returns `NOT_FLAT` if the keys
    /// do not have this form. With `REFUSED`, a line is not a fact, and `argument` is 2.
    pub fn nevgrasi_match_keys(
        keys: *const u8,
        keys_length: usize,
        name: *const u8,
        name_length: usize,
        lines: *const u8,
        lines_length: usize,
        out: *mut u8,
        out_length: usize,
        outcome: *mut Outcome,
    ) -> u32;
    /// Sets `words` to the known targets on which a key is true: bit `k % 64` of word `k / 64` is the target at index
    /// `k`.
    pub fn nevgrasi_targets(
        key: *const u8,
        key_length: usize,
        words: *mut [u64; WORDS],
        out: *mut u8,
        out_length: usize,
        outcome: *mut Outcome,
    ) -> u32;
    /// Writes the name of the known target at an index, or returns `UNKNOWN_TARGET`. The names are sorted.
    pub fn nevgrasi_target_name(
        place: usize,
        out: *mut u8,
        out_length: usize,
        outcome: *mut Outcome,
    ) -> u32;
    /// Writes the facts of the known target with this name, one per line, as `nevgrasi_matches` reads them, or returns
    /// `UNKNOWN_TARGET`.
    pub fn nevgrasi_facts(
        name: *const u8,
        name_length: usize,
        out: *mut u8,
        out_length: usize,
        outcome: *mut Outcome,
    ) -> u32;
    /// Decides whether the second key is true wherever the first is, over every set of facts that rustc's rules allow.
    /// `holds` is the answer. If it is false, writes a counterexample.
    pub fn nevgrasi_implies(
        first: *const u8,
        first_length: usize,
        second: *const u8,
        second_length: usize,
        budget: u64,
        out: *mut u8,
        out_length: usize,
        outcome: *mut Outcome,
    ) -> u32;
    /// Decides whether both keys are true on the same targets, over every set of facts that rustc's rules allow.
    /// `holds` is the answer. If it is false, writes a counterexample.
    pub fn nevgrasi_equivalent(
        first: *const u8,
        first_length: usize,
        second: *const u8,
        second_length: usize,
        budget: u64,
        out: *mut u8,
        out_length: usize,
        outcome: *mut Outcome,
    ) -> u32;
    /// Decides whether the keys are true together on no target, over every set of facts that rustc's rules allow.
    /// `holds` is the answer. If it is false, writes a counterexample.
    pub fn nevgrasi_excludes(
        first: *const u8,
        first_length: usize,
        second: *const u8,
        second_length: usize,
        budget: u64,
        out: *mut u8,
        out_length: usize,
        outcome: *mut Outcome,
    ) -> u32;
    /// Decides whether a key can be true, over some set of facts that rustc's rules allow. `holds` is the answer. If it
    /// is true, writes an example.
    pub fn nevgrasi_can_hold(
        key: *const u8,
        key_length: usize,
        budget: u64,
        out: *mut u8,
        out_length: usize,
        outcome: *mut Outcome,
    ) -> u32;
    /// Writes the flat form of a key's condition: bytes that the caller can keep in place of the key.
    pub fn nevgrasi_read_key(
        key: *const u8,
        key_length: usize,
        out: *mut u8,
        out_length: usize,
        outcome: *mut Outcome,
    ) -> u32;
    /// Writes the canonical text of a flat condition.
    pub fn nevgrasi_flat_print(
        flat: *const u8,
        flat_length: usize,
        out: *mut u8,
        out_length: usize,
        outcome: *mut Outcome,
    ) -> u32;
    /// Decides whether a flat condition is true on the target with this name and these flat facts. `holds` is the
    /// answer.
    pub fn nevgrasi_flat_matches(
        flat: *const u8,
        flat_length: usize,
        name: *const u8,
        name_length: usize,
        flat_facts: *const u8,
        flat_facts_length: usize,
        outcome: *mut Outcome,
    ) -> u32;
    /// Writes prepared facts: the facts in these lines, which are as `rustc --print cfg` prints them, as bytes that the
    /// caller can keep to match many flat conditions.
    pub fn nevgrasi_prepare_facts(
        lines: *const u8,
        lines_length: usize,
        out: *mut u8,
        out_length: usize,
        outcome: *mut Outcome,
    ) -> u32;
    /// Decides whether a flat condition is true on the target with this name and these prepared facts. `holds` is the
    /// answer. Texts are compared as bytes, and not checked to be UTF-8.
    pub fn nevgrasi_prepared_matches(
        flat: *const u8,
        flat_length: usize,
        name: *const u8,
        name_length: usize,
        prepared: *const u8,
        prepared_length: usize,
        outcome: *mut Outcome,
    ) -> u32;
    /// Writes a line of JSON for each package of a graph, with the known targets on which it is in the build, as the
    /// program `manifest_check graph --json` prints them. The document is the output of `cargo metadata --format-
    /// version 1`. Builds run on the host, a known target with this name, or on the target itself if the name is empty.
    /// With `REFUSED`, writes why the document cannot be used, and sets no span.
    pub fn nevgrasi_graph(
        document: *const u8,
        document_length: usize,
        host: *const u8,
        host_length: usize,
        out: *mut u8,
        out_length: usize,
        outcome: *mut Outcome,
    ) -> u32;
    /// Runs a command of the program `manifest_check` on files that the caller hands over, and writes its output, and
    /// its errors after it. With `DONE`, `argument` is the exit status, and the errors are from `start` to `end` of
    /// what is written. Each argument of the program ends with a NUL. Each file is its name, a NUL, its length in
    /// decimal digits, a NUL, and its bytes, and the file `-` is standard input. The current folder is the root, to
    /// which a relative name leads, and there are no environment variables. No other file exists, and nothing is
    /// written: a call that would write a file fails as on a read-only file system. With `REFUSED`, bytes do not have
    /// this form, and the reason is written; `argument` is then 0 for the arguments, and 1 for the files.
    pub fn nevgrasi_run(
        arguments: *const u8,
        arguments_length: usize,
        files: *const u8,
        files_length: usize,
        out: *mut u8,
        out_length: usize,
        outcome: *mut Outcome,
    ) -> u32;
}

/* Reads, prints, matches and compares the target conditions of Cargo manifests, by proved code.

   `.ci/c-library --header` makes the declarations from crates/nevgrasi_c/src/lib.rt.

   A caller has these duties, which nothing checks:
   - A pointer with a length points to that many bytes, which the call may read or, for `out`, write until it returns.
     A null pointer is allowed with the length 0. `out`, `words` and `outcome` overlap nothing else that is passed.
   - `out` and `words` have been initialized, for example with zeros.
   - malloc, realloc and free belong to one allocator. No call is made from a signal handler.
   - The stack is large enough. The tests make calls at NEVGRASI_MOST_OPEN and NEVGRASI_MOST_FLAT_BYTES on a stack of
     8 MiB.
   Calls share no state: many threads may make calls at the same time.

   A call returns a code, which is also in `outcome`. The answer in `out` has `needed` bytes. If `out` has room for
   them, it begins with them. Otherwise nothing is written, and you can make the call again with more room.

   With NEVGRASI_REFUSED, `out` has the message, and the bytes from `start` to `end` of the rejected text are the error.
   `argument` is the index, from 0 on, of that text among the texts of the call.

   A field without a meaning is zero: `holds` and `is_named` unless the code is NEVGRASI_DONE, and `start` and `end`
   unless it is NEVGRASI_REFUSED. `nevgrasi_run` says what it sets.

   An example consists of texts, one after the other, each with its length before it: 8 bytes, little-endian. With
   `is_named`, the first text is the name of the target, and each other text is a fact. */
#ifndef NEVGRASI_H
#define NEVGRASI_H
#include <stdbool.h>
#include <stddef.h>
#include <stdint.h>
#ifdef __cplusplus
extern "C" {
#endif

/* The call has an answer. */
#define NEVGRASI_DONE 0
/* A text is rejected: the buffer has the message, and the bytes from `start` to `end` of the text are the error. */
#define NEVGRASI_REFUSED 1
/* A text is not UTF-8. */
#define NEVGRASI_NOT_UTF8 2
/* The bytes are not a flat condition, not flat facts, or not prepared facts. */
#define NEVGRASI_NOT_FLAT 3
/* An allocation failed. */
#define NEVGRASI_NO_MEMORY 4
/* The budget is used up. */
#define NEVGRASI_UNDECIDED 5
/* More than NEVGRASI_MOST_OPEN parentheses are open at once, or a flat condition has more than
   NEVGRASI_MOST_FLAT_BYTES bytes. */
#define NEVGRASI_TOO_DEEP 6
/* No known target has this name or index. */
#define NEVGRASI_UNKNOWN_TARGET 7
/* The maximum number of parentheses of a text that can be open at once. Matching, printing and comparing use some 100
   bytes of stack for each open group that others follow. */
#define NEVGRASI_MOST_OPEN 10000
/* The maximum number of bytes of a flat condition, which can contain one group for each 17 of them. */
#define NEVGRASI_MOST_FLAT_BYTES 680000
/* The version of the interface. It rises whenever a caller of an earlier version may break. */
#define NEVGRASI_ABI 2
/* The number of targets. */
#define NEVGRASI_TARGETS 320
/* The number of words in a set of targets. */
#define NEVGRASI_WORDS 5

/* How a call ended. */
typedef struct {
    /* One of the constants above. */
    uint32_t code;
    /* The index, from 0 on, of the text of the call that is rejected, not UTF-8 or too deep. */
    uint32_t argument;
    /* The answer of a call that answers yes or no. */
    bool holds;
    /* True if the first text of an example is its name. */
    bool is_named;
    /* The number of bytes of the answer or the message. They are written if the buffer has as many. */
    size_t needed;
    /* The first byte of the error, in the text that is rejected. */
    size_t start;
    /* The byte after the error. */
    size_t end;
} nevgrasi_outcome;

/* Returns the version of the interface. A caller that was compiled with another NEVGRASI_ABI should not go on. */
uint32_t nevgrasi_abi(void);

/* Writes the version of the library: three numbers with dots between them. */
uint32_t nevgrasi_version(uint8_t *out, size_t out_length, nevgrasi_outcome *outcome);

/* Writes the canonical text of a key's condition, which is parsed as the same condition. */
uint32_t nevgrasi_canonical(const uint8_t *key, size_t key_length, uint8_t *out, size_t out_length,
    nevgrasi_outcome *outcome);

/* Shows the error of a rejected key: with NEVGRASI_REFUSED, writes two lines, the key and carets under the error.
   Returns NEVGRASI_DONE, with no bytes, if the key is a condition. */
uint32_t nevgrasi_fault(const uint8_t *key, size_t key_length, uint8_t *out, size_t out_length,
    nevgrasi_outcome *outcome);

/* Decides whether a key is true on the target with this name and the facts in these lines, which are as `rustc
   --print cfg` prints them. `holds` is the answer. With NEVGRASI_REFUSED, `argument` 2 means that a line is not a
   fact. */
uint32_t nevgrasi_matches(const uint8_t *key, size_t key_length, const uint8_t *name, size_t name_length,
    const uint8_t *lines, size_t lines_length, uint8_t *out, size_t out_length, nevgrasi_outcome *outcome);

/* Writes a byte for each of many keys: whether it is true on the target with this name and the facts in these lines,
   which are as `rustc --print cfg` prints them. Each key has its length before it, in 8 bytes, low byte first. The
   byte is 0 if the key is false, and 1 if it is true. Else it is twice the code that `nevgrasi_matches` returns for
   the key: NEVGRASI_REFUSED, NEVGRASI_NOT_UTF8, NEVGRASI_TOO_DEEP or NEVGRASI_NO_MEMORY. The call returns
   NEVGRASI_NOT_FLAT if the keys do not have this form. With NEVGRASI_REFUSED, a line is not a fact, and `argument` is
   2. */
uint32_t nevgrasi_match_keys(const uint8_t *keys, size_t keys_length, const uint8_t *name, size_t name_length,
    const uint8_t *lines, size_t lines_length, uint8_t *out, size_t out_length, nevgrasi_outcome *outcome);

/* Sets `words` to the known targets on which a key is true: bit `k % 64` of word `k / 64` is the target at index
   `k`. */
uint32_t nevgrasi_targets(const uint8_t *key, size_t key_length, uint64_t words[NEVGRASI_WORDS], uint8_t *out,
    size_t out_length, nevgrasi_outcome *outcome);

/* Writes the name of the known target at an index, or returns NEVGRASI_UNKNOWN_TARGET. The names are sorted. */
uint32_t nevgrasi_target_name(size_t place, uint8_t *out, size_t out_length, nevgrasi_outcome *outcome);

/* Writes the facts of the known target with this name, one per line, as `nevgrasi_matches` reads them, or returns
   NEVGRASI_UNKNOWN_TARGET. */
uint32_t nevgrasi_facts(const uint8_t *name, size_t name_length, uint8_t *out, size_t out_length,
    nevgrasi_outcome *outcome);

/* Decides whether the second key is true wherever the first is, over every set of facts that rustc's rules allow.
   `holds` is the answer. If it is false, writes a counterexample. */
uint32_t nevgrasi_implies(const uint8_t *first, size_t first_length, const uint8_t *second, size_t second_length,
    uint64_t budget, uint8_t *out, size_t out_length, nevgrasi_outcome *outcome);

/* Decides whether both keys are true on the same targets, over every set of facts that rustc's rules allow. `holds`
   is the answer. If it is false, writes a counterexample. */
uint32_t nevgrasi_equivalent(const uint8_t *first, size_t first_length, const uint8_t *second, size_t second_length,
    uint64_t budget, uint8_t *out, size_t out_length, nevgrasi_outcome *outcome);

/* Decides whether the keys are true together on no target, over every set of facts that rustc's rules allow. `holds`
   is the answer. If it is false, writes a counterexample. */
uint32_t nevgrasi_excludes(const uint8_t *first, size_t first_length, const uint8_t *second, size_t second_length,
    uint64_t budget, uint8_t *out, size_t out_length, nevgrasi_outcome *outcome);

/* Decides whether a key can be true, over some set of facts that rustc's rules allow. `holds` is the answer. If it is
   true, writes an example. */
uint32_t nevgrasi_can_hold(const uint8_t *key, size_t key_length, uint64_t budget, uint8_t *out, size_t out_length,
    nevgrasi_outcome *outcome);

/* Writes the flat form of a key's condition: bytes that the caller can keep in place of the key. */
uint32_t nevgrasi_read_key(const uint8_t *key, size_t key_length, uint8_t *out, size_t out_length,
    nevgrasi_outcome *outcome);

/* Writes the canonical text of a flat condition. */
uint32_t nevgrasi_flat_print(const uint8_t *flat, size_t flat_length, uint8_t *out, size_t out_length,
    nevgrasi_outcome *outcome);

/* Decides whether a flat condition is true on the target with this name and these flat facts. `holds` is the
   answer. */
uint32_t nevgrasi_flat_matches(const uint8_t *flat, size_t flat_length, const uint8_t *name, size_t name_length,
    const uint8_t *flat_facts, size_t flat_facts_length, nevgrasi_outcome *outcome);

/* Writes prepared facts: the facts in these lines, which are as `rustc --print cfg` prints them, as bytes that the
   caller can keep to match many flat conditions. */
uint32_t nevgrasi_prepare_facts(const uint8_t *lines, size_t lines_length, uint8_t *out, size_t out_length,
    nevgrasi_outcome *outcome);

/* Decides whether a flat condition is true on the target with this name and these prepared facts. `holds` is the
   answer. Texts are compared as bytes, and not checked to be UTF-8. */
uint32_t nevgrasi_prepared_matches(const uint8_t *flat, size_t flat_length, const uint8_t *name, size_t name_length,
    const uint8_t *prepared, size_t prepared_length, nevgrasi_outcome *outcome);

/* Writes a line of JSON for each package of a graph, with the known targets on which it is in the build, as the
   program `manifest_check graph --json` prints them. The document is the output of `cargo metadata --format-version
   1`. Builds run on the host, a known target with this name, or on the target itself if the name is empty. With
   NEVGRASI_REFUSED, writes why the document cannot be used, and sets no span. */
uint32_t nevgrasi_graph(const uint8_t *document, size_t document_length, const uint8_t *host, size_t host_length,
    uint8_t *out, size_t out_length, nevgrasi_outcome *outcome);

/* Runs a command of the program `manifest_check` on files that the caller hands over, and writes its output, and its
   errors after it. With NEVGRASI_DONE, `argument` is the exit status, and the errors are from `start` to `end` of
   what is written. Each argument of the program ends with a NUL. Each file is its name, a NUL, its length in decimal
   digits, a NUL, and its bytes, and the file `-` is standard input. The current folder is the root, to which a
   relative name leads, and there are no environment variables. No other file exists, and nothing is written: a call
   that would write a file fails as on a read-only file system. With NEVGRASI_REFUSED, bytes do not have this form,
   and the reason is written; `argument` is then 0 for the arguments, and 1 for the files. */
uint32_t nevgrasi_run(const uint8_t *arguments, size_t arguments_length, const uint8_t *files, size_t files_length,
    uint8_t *out, size_t out_length, nevgrasi_outcome *outcome);

#ifdef __cplusplus
}
#endif
#endif

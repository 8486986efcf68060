/* Calls each export, and prints a line for each thing that is not as it should be. Runs under AddressSanitizer, so that
   a byte written or read outside a buffer ends it.

   Each call is made with a buffer as long as its answer, one byte shorter, and of no bytes; malloc refuses each of its
   allocations in turn; and eight threads ask at once, of the texts of a file that `.ci/second-reader --texts` writes.
   The last line is `N passed, M failed`. Usage: tests FILE */
#include <ctype.h>
#include <nevgrasi.h>
#include <pthread.h>
#include <stdio.h>
#include <stdlib.h>
#include <string.h>

static _Atomic int passed, failed;

static void expect(int is_so, const char *what, const char *of) {
    if (is_so) {
        passed++;
    } else {
        failed++;
        printf("FAILED: %s: %s\n", what, of);
    }
}

/* Some bytes. */
typedef struct {
    const uint8_t *at;
    size_t size;
} bytes;

/* What a call is asked: up to three texts. */
typedef struct {
    const char *name;
    bytes texts[3];
} question;

typedef uint32_t call(const question *, uint8_t *, size_t, nevgrasi_outcome *);

/* How many splits a comparison may make. */
static _Thread_local uint64_t splits = 1000;

#define TEXT(k) q->texts[k].at, q->texts[k].size
#define CALL(export, ...) \
    static uint32_t export(const question *q, uint8_t *out, size_t size, nevgrasi_outcome *o) { \
        return nevgrasi_##export(__VA_ARGS__, out, size, o); \
    }
#define CALL_WITHOUT_TEXT(export, ...) \
    static uint32_t export(const question *q, uint8_t *out, size_t size, nevgrasi_outcome *o) { \
        (void)out, (void)size; \
        return nevgrasi_##export(__VA_ARGS__, o); \
    }
CALL(canonical, TEXT(0))
CALL(fault, TEXT(0))
CALL(facts, TEXT(0))
CALL(read_key, TEXT(0))
CALL(flat_print, TEXT(0))
CALL(implies, TEXT(0), TEXT(1), splits)
CALL(equivalent, TEXT(0), TEXT(1), splits)
CALL(excludes, TEXT(0), TEXT(1), splits)
CALL(can_hold, TEXT(0), splits)
CALL(matches, TEXT(0), TEXT(1), TEXT(2))
CALL(match_keys, TEXT(0), TEXT(1), TEXT(2))
CALL(prepare_facts, TEXT(0))
CALL(targets, TEXT(0), (uint64_t[NEVGRASI_WORDS]){0})
CALL(graph, TEXT(0), TEXT(1))
CALL(run, TEXT(0), TEXT(1))
CALL(target_name, q->texts[1].size)
CALL_WITHOUT_TEXT(flat_matches, TEXT(0), TEXT(1), TEXT(2))
CALL_WITHOUT_TEXT(prepared_matches, TEXT(0), TEXT(1), TEXT(2))
static uint32_t version(const question *q, uint8_t *out, size_t size, nevgrasi_outcome *o) {
    (void)q;
    return nevgrasi_version(out, size, o);
}

/* Bytes of their own block, so that AddressSanitizer sees a read past them. */
static bytes copied(const void *from, size_t size) {
    uint8_t *copy = malloc(size);
    if (size) memcpy(copy, from, size);
    return (bytes){copy, size};
}

/* A question of up to three texts; those that are left out are empty. */
#define ASKED(name, ...) asked(name, (const char *[3]){__VA_ARGS__})
static question asked(const char *name, const char **texts) {
    question q = {name, {{0}}};
    for (int k = 0; k < 3; k++) q.texts[k] = copied(texts[k], texts[k] ? strlen(texts[k]) : 0);
    return q;
}

static void let_go(question *q) {
    for (int k = 0; k < 3; k++) free((void *)q->texts[k].at);
}

/* What a call answers, in a block of its own length. */
static bytes answered(call *made, question q) {
    nevgrasi_outcome o;
    made(&q, NULL, 0, &o);
    size_t size = o.needed;
    uint8_t *answer = calloc(size, 1);
    made(&q, answer, size, &o);
    let_go(&q);
    return (bytes){answer, size};
}

/* The flat form of a key, and the prepared form of lines of facts. */
static bytes flat_of(const char *key) { return answered(read_key, ASKED("read_key", key)); }
static bytes prepared_of(const char *lines) { return answered(prepare_facts, ASKED("prepare_facts", lines)); }

/* malloc refuses the allocation of this number, and none where it is 0. Only this file's first thread counts. */
static _Thread_local long refused, counted;
void *__real_malloc(size_t);
void *__real_realloc(void *, size_t);
void __real_free(void *);
static _Thread_local long held;
void *__wrap_malloc(size_t size) {
    if (refused && ++counted == refused) return NULL;
    void *block = __real_malloc(size);
    held += block != NULL;
    return block;
}
void *__wrap_realloc(void *block, size_t size) {
    if (refused && ++counted == refused) return NULL;
    void *moved = __real_realloc(block, size);
    held += block == NULL && moved != NULL;
    return moved;
}
void __wrap_free(void *block) {
    held -= block != NULL;
    __real_free(block);
}

/* A field that has no meaning for the code is zero. */
static void expect_zeros(const nevgrasi_outcome *o, const char *name) {
    expect(o->code == NEVGRASI_DONE || (!o->holds && !o->is_named), "an answer without DONE", name);
    expect(o->code == NEVGRASI_REFUSED || (o->start == 0 && o->end == 0), "a span without REFUSED", name);
}

/* The call with a buffer of each size; the code is this one, and the answer has so many bytes, where it is told. */
static void try_sizes(call *made, const question *q, uint32_t code, const char *answer) {
    nevgrasi_outcome o, again;
    uint32_t found = made(q, NULL, 0, &o);
    expect(found == code && o.code == code, "another code", q->name);
    expect_zeros(&o, q->name);
    uint8_t *exact = calloc(o.needed + 1, 1);
    expect(made(q, exact, o.needed, &again) == code && again.needed == o.needed, "another length", q->name);
    if (answer) {
        expect(o.needed == strlen(answer) && !memcmp(exact, answer, o.needed), "another answer", q->name);
        if (o.needed != strlen(answer) || memcmp(exact, answer, o.needed)) printf("    %s\n", (char *)exact);
    }
    free(exact);
    if (o.needed) {
        uint8_t *shorter = malloc(o.needed - 1);
        if (o.needed > 1) memset(shorter, 0xAA, o.needed - 1);
        expect(made(q, shorter, o.needed - 1, &again) == code && again.needed == o.needed, "a short buffer", q->name);
        int is_kept = 1;
        for (size_t k = 0; k + 1 < o.needed; k++) is_kept &= shorter[k] == 0xAA;
        expect(is_kept, "a short buffer is written", q->name);
        free(shorter);
    }
}

/* Each allocation of the call refused in turn: the code is NO_MEMORY or another one, and no block is kept. */
static void refuse_each(call *made, const question *q, uint32_t other) {
    uint8_t out[4096] = {0};
    for (long number = 1;; number++) {
        nevgrasi_outcome o;
        long before = held;
        refused = number, counted = 0;
        uint32_t code = made(q, out, sizeof out, &o);
        int is_past = counted < number;
        refused = 0;
        expect(held == before, "a block is kept", q->name);
        if (is_past) return;
        expect(code == NEVGRASI_NO_MEMORY || code == other, "a refused allocation is passed over", q->name);
        if (code == NEVGRASI_NO_MEMORY) expect_zeros(&o, q->name);
    }
}

static void try_call(call *made, question q, uint32_t code, const char *answer) {
    try_sizes(made, &q, code, answer);
    refuse_each(made, &q, NEVGRASI_NO_MEMORY);
    let_go(&q);
}

/* An answer with an example: these texts, each behind its length, and the first of them is a name or not. */
static void try_example(call *made, question q, int is_named, const char *first, const char *second) {
    const char *texts[2] = {first, second};
    uint8_t out[512] = {0}, wanted[512];
    size_t size = 0;
    for (int k = 0; k < 2 && texts[k]; k++) {
        size_t length = strlen(texts[k]);
        for (int byte = 0; byte < 8; byte++) wanted[size++] = (uint8_t)(length >> 8 * byte);
        memcpy(wanted + size, texts[k], length);
        size += length;
    }
    nevgrasi_outcome o;
    expect(made(&q, out, sizeof out, &o) == NEVGRASI_DONE && o.is_named == is_named, "no example", q.name);
    expect(o.needed == size && !memcmp(out, wanted, size), "another example", q.name);
    try_call(made, q, NEVGRASI_DONE, NULL);
}

static const char KEY[] = "cfg( all(unix,not(target_os=\"macos\"),) )";

/* Two packages, of which one is there at one target. */
static const char DOCUMENT[] =
    "{\"version\": 1, \"workspace_members\": [\"a\"], \"packages\": ["
    "{\"id\": \"a\", \"name\": \"a\", \"version\": \"1.0.0\", \"license\": \"MIT\", \"targets\": []}, "
    "{\"id\": \"b\", \"name\": \"b\", \"version\": \"0.1.0\", \"targets\": []}], "
    "\"resolve\": {\"nodes\": [{\"id\": \"b\", \"deps\": []}, {\"id\": \"a\", \"deps\": [{\"pkg\": \"b\", "
    "\"dep_kinds\": [{\"kind\": null, \"target\": \"x86_64-apple-darwin\"}]}]}]}}";
static const char PACKAGES[] =
    "{\"package\": \"a 1.0.0\", \"id\": \"a\", \"license\": \"MIT\", \"targets\": 320, \"at\": \"all\", "
    "\"side\": \"target\", \"kinds\": [], \"proc_macro\": false}\n"
    "{\"package\": \"b 0.1.0\", \"id\": \"b\", \"license\": null, \"targets\": 1, "
    "\"at\": [\"x86_64-apple-darwin\"], \"side\": \"target\", \"kinds\": [\"normal\"], "
    "\"proc_macro\": false}\n";

/* A key of so many levels: `not(`, or groups that a member follows. */
static char *nested(size_t levels, const char *before, const char *after) {
    size_t size = levels * (strlen(before) + strlen(after)) + 8, at = 4;
    char *key = malloc(size);
    memcpy(key, "cfg(", 4);
    for (size_t k = 0; k < levels; k++, at += strlen(before)) memcpy(key + at, before, strlen(before));
    key[at++] = 'a';
    for (size_t k = 0; k < levels; k++, at += strlen(after)) memcpy(key + at, after, strlen(after));
    memcpy(key + at, ")", 2);
    return key;
}

/* A document whose one condition has so many levels. */
static void try_deep_graph(size_t levels, uint32_t code) {
    char *key = nested(levels, "not(", ")"), *document = malloc(levels * 5 + 400);
    sprintf(document, "{\"version\": 1, \"workspace_members\": [\"a\"], \"packages\": [{\"id\": \"a\", \"name\": "
            "\"a\", \"version\": \"1.0.0\", \"targets\": []}], \"resolve\": {\"nodes\": [{\"id\": \"a\", \"deps\": "
            "[{\"pkg\": \"a\", \"dep_kinds\": [{\"kind\": null, \"target\": \"%s\"}]}]}]}}", key);
    nevgrasi_outcome o;
    uint32_t found = nevgrasi_graph((uint8_t *)document, strlen(document), NULL, 0, NULL, 0, &o);
    expect(found == code, "graph of a deep condition", code == NEVGRASI_DONE ? "refused" : "another code");
    free(key);
    free(document);
}

static void try_deep_graphs(void) {
    try_deep_graph(NEVGRASI_MOST_OPEN - 1, NEVGRASI_DONE);
    try_deep_graph(NEVGRASI_MOST_OPEN, NEVGRASI_TOO_DEEP);
    try_deep_graph(100 * NEVGRASI_MOST_OPEN, NEVGRASI_TOO_DEEP);
}

/* A command on these arguments and files, each ended by a NUL of the array: its code, its exit status, its output and
   the first byte of its errors. Where an allocation is refused, the command may do without it; no block is kept. */
#define RUN(code, argument, output, arguments, files) \
    try_run(code, argument, output, \
            (question){arguments, {copied(arguments, sizeof arguments), copied(files, sizeof files - 1)}})
static void try_run(uint32_t code, uint32_t argument, const char *output, question q) {
    uint8_t out[4096] = {0};
    nevgrasi_outcome o;
    expect(run(&q, out, sizeof out, &o) == code, "another code", q.name);
    expect(o.argument == argument, "another status", q.name);
    expect(o.needed >= strlen(output) && !memcmp(out, output, strlen(output)), "another output", q.name);
    expect(code != NEVGRASI_DONE || (o.start == strlen(output) && o.end == o.needed), "another end", q.name);
    refuse_each(run, &q, code);
    let_go(&q);
}

static void try_runs(void) {
    RUN(NEVGRASI_DONE, 1, "no\n", "match\0--target\0avr-none\0cfg(unix)", "");
    RUN(NEVGRASI_DONE, 0, "Cargo.toml: a (target.'cfg(unix)'.dependencies): left out\n",
        "select\0--target\0avr-none", "Cargo.toml\00042\0[target.'cfg(unix)'.dependencies]\na = \"1\"\n");
    RUN(NEVGRASI_DONE, 2, "", "graph", "-\0001\0[");
    RUN(NEVGRASI_REFUSED, 1, "a file is not", "lint", "Cargo.toml\0002\0[");
    RUN(NEVGRASI_NOT_UTF8, 0, "", "\xFF", "");
}

/* Where a call has several texts, it tells of which one is refused, and where in it. */
static void try_place(call *made, question q, uint32_t code, uint32_t argument, size_t start, size_t end) {
    nevgrasi_outcome o;
    expect(made(&q, NULL, 0, &o) == code && o.argument == argument, "another argument", q.name);
    expect(o.start == start && o.end == end, "another span", q.name);
    expect_zeros(&o, q.name);
    let_go(&q);
}

/* Texts one after the other, each behind its length, in a block of their own length. */
static bytes counted_texts(const bytes *listed, size_t count) {
    size_t size = 0, at = 0;
    for (size_t k = 0; k < count; k++) size += 8 + listed[k].size;
    uint8_t *all = malloc(size);
    for (size_t k = 0; k < count; k++) {
        for (int byte = 0; byte < 8; byte++) all[at++] = (uint8_t)(listed[k].size >> 8 * byte);
        if (listed[k].size) memcpy(all + at, listed[k].at, listed[k].size);
        at += listed[k].size;
    }
    return (bytes){all, size};
}

/* The byte that stands for what a key answers: twice the code, and 1 more for yes. */
static uint8_t byte_of_key(bytes key, bytes name, bytes lines) {
    nevgrasi_outcome o;
    nevgrasi_matches(key.at, key.size, name.at, name.size, lines.at, lines.size, NULL, 0, &o);
    return (uint8_t)(2 * o.code + o.holds);
}

/* Many keys at once: these bytes, and each is what the key answers alone. */
static void try_keys(const char *what, const bytes *keys, size_t count, const char *name, const char *lines,
                     const uint8_t *wanted) {
    question q = {what, {counted_texts(keys, count), copied(name, strlen(name)), copied(lines, strlen(lines))}};
    uint8_t *out = calloc(count + 1, 1);
    nevgrasi_outcome o;
    expect(match_keys(&q, out, count, &o) == NEVGRASI_DONE && o.needed == count, "another length", what);
    for (size_t k = 0; k < count; k++) {
        expect(out[k] == byte_of_key(keys[k], q.texts[1], q.texts[2]), "another answer than alone", what);
        expect(!wanted || out[k] == wanted[k], "another answer", what);
    }
    free(out);
    try_sizes(match_keys, &q, NEVGRASI_DONE, NULL);
    let_go(&q);
}

#define KEYS(what, name, lines, wanted, ...) \
    do { \
        const char *listed[] = {__VA_ARGS__}; \
        bytes keys[sizeof listed / sizeof *listed]; \
        for (size_t k = 0; k < sizeof listed / sizeof *listed; k++) \
            keys[k] = (bytes){(const uint8_t *)listed[k], strlen(listed[k])}; \
        try_keys(what, keys, sizeof listed / sizeof *listed, name, lines, (const uint8_t *)wanted); \
    } while (0)

/* The rows of crates/nevgrasi_c/calls.json, of which `.ci/c-library` makes calls of the functions above. */
static void try_rows(void) {
#include "rows.h"
}

/* Calls a function with each byte of a text of a question changed in turn. */
static void change_each(question *q, int k, void (*tried)(const question *, uint8_t)) {
    uint8_t *text = (uint8_t *)q->texts[k].at;
    for (size_t at = 0; at < q->texts[k].size; at++) {
        for (int by = 1; by < 256; by++) {
            text[at] ^= by;
            tried(q, text[at]);
            text[at] ^= by;
        }
    }
}

/* Flat bytes of which one was changed: they are refused, or print a condition. Where the byte became a letter or a
   digit, so that a name stays one that a key may spell, they are the flat form of what they print. */
static size_t reread;
static void try_changed_flat(const question *q, uint8_t changed) {
    uint8_t text[4096] = {0}, again[4096] = {0};
    nevgrasi_outcome o, read;
    uint32_t code = flat_print(q, text, sizeof text, &o);
    expect(code == NEVGRASI_DONE || code == NEVGRASI_NOT_FLAT, "changed flat bytes", "another code");
    if (code == NEVGRASI_DONE && isalnum(changed)
        && nevgrasi_read_key(text, o.needed, again, sizeof again, &read) == NEVGRASI_DONE) {
        reread++;
        int is_same = read.needed == q->texts[0].size && !memcmp(again, q->texts[0].at, read.needed);
        expect(is_same, "changed flat bytes", (char *)text);
    }
}

static void change_flat(void) {
    question q = {"flat bytes", {flat_of(KEY)}};
    change_each(&q, 0, try_changed_flat);
    expect(reread > 0, "changed flat bytes", "none is read");
    for (size_t shorter = 0; shorter < q.texts[0].size; shorter++) {
        nevgrasi_outcome o;
        question front = {"the front of flat bytes", {copied(q.texts[0].at, shorter)}};
        uint32_t code = flat_print(&front, NULL, 0, &o);
        expect(code == NEVGRASI_NOT_FLAT || code == NEVGRASI_DONE, front.name, "another code");
        let_go(&front);
    }
    let_go(&q);
}

/* Each kind of record: the flat form of a key is accepted, and prints as the key does. */
static void try_flat_forms(void) {
    const char *keys[] = {"cfg(a)", "cfg(r#a)", "cfg(a = \"\")", "cfg(r#a = \"b\")", "cfg(true)",
                          "cfg(false)", "cfg(all())", "cfg(any())", "cfg(not(not(a)))",
                          "cfg(any(a, not(b), all(c, any(d)), e))", "x86_64-x", ""};
    for (size_t k = 0; k < sizeof keys / sizeof *keys; k++) {
        uint8_t text[512] = {0};
        nevgrasi_outcome o;
        question q = {keys[k], {flat_of(keys[k])}};
        uint32_t code = flat_print(&q, text, sizeof text, &o);
        expect(code == NEVGRASI_DONE && !strcmp((char *)text, keys[k]), "a flat form", keys[k]);
        let_go(&q);
    }
}

/* A flat condition matched against prepared facts answers what the key answers on the lines of facts. */
static void try_prepared(const char *key, const char *name, const char *lines) {
    question plain = ASKED(key, key, name, lines);
    question q = {key, {flat_of(key), copied(name, strlen(name)), prepared_of(lines)}};
    nevgrasi_outcome o, wanted;
    matches(&plain, NULL, 0, &wanted);
    long before = held;
    uint32_t code = prepared_matches(&q, NULL, 0, &o);
    expect(code == NEVGRASI_DONE && o.holds == wanted.holds, "prepared facts: another answer", key);
    expect(held == before, "prepared facts: a block is kept", key);
    expect_zeros(&o, key);
    let_go(&q);
    let_go(&plain);
}

/* Keys with each kind of record, on the facts of each known target and on facts that are like one another. */
static void try_all_prepared(void) {
    const char *keys[] = {"cfg(unix)", "cfg(r#unix)", "cfg(target_os = \"linux\")", "cfg(target_abi = \"\")",
                          "cfg(true)", "cfg(false)", "cfg(all())", "cfg(any())", "cfg(not(not(windows)))",
                          "cfg(target_abi)", "cfg(any(a, not(unix), all(target_os = \"linux\", any(unix)), e))",
                          "x86_64-unknown-linux-gnu",
                          "cfg(all(unix, not(target_os = \"macos\")))", "cfg(target_feature = \"sse2\")", "x",
                          "cfg(any(target_arch = \"wasm32\", target_pointer_width = \"64\"))", "cfg(ab = \"c\")",
                          "cfg(a = \"bc\")", "cfg(abc)", "cfg(abc = \"\")", "cfg(a)"};
    const char *lines[] = {"", "a = \"bc\"", "ab = \"c\"\nabc", "abc = \"\"\na\nb\n", "a\na\nr#a\n", "r#a = \"bc\""};
    for (size_t k = 0; k < sizeof keys / sizeof *keys; k++) {
        for (size_t f = 0; f < sizeof lines / sizeof *lines; f++) try_prepared(keys[k], "x", lines[f]);
        for (size_t at = 0; at < NEVGRASI_TARGETS; at++) {
            char name[64] = {0}, facts[1 << 13] = {0};
            nevgrasi_outcome o;
            nevgrasi_target_name(at, (uint8_t *)name, sizeof name - 1, &o);
            nevgrasi_facts((uint8_t *)name, strlen(name), (uint8_t *)facts, sizeof facts - 1, &o);
            expect(o.code == NEVGRASI_DONE && o.needed < sizeof facts, "the facts of a target", name);
            try_prepared(keys[k], name, facts);
        }
    }
}

/* Prepared facts with each byte changed in turn, each front of them and bytes at random: the code is one of two, and a
   byte read outside of them ends this program. */
static size_t others;
static uint32_t match_prepared(const question *q) {
    nevgrasi_outcome o;
    uint32_t code = prepared_matches(q, NULL, 0, &o);
    others += code != NEVGRASI_DONE && (code != NEVGRASI_NOT_FLAT || o.argument != 2);
    return code;
}

static void try_changed_prepared(const question *q, uint8_t changed) {
    (void)changed;
    match_prepared(q);
}

static void try_changed_condition(const question *q, uint8_t changed) {
    nevgrasi_outcome o;
    uint32_t code = prepared_matches(q, NULL, 0, &o), print = flat_print(q, NULL, 0, &o);
    (void)changed;
    expect(print == NEVGRASI_NOT_FLAT || code == print, "changed flat bytes, prepared facts", "another code");
}

static void change_prepared(void) {
    bytes prepared = prepared_of("unix\ntarget_os = \"macos\"\na\n");
    question q = {"prepared facts", {flat_of(KEY), {0}, prepared}};
    change_each(&q, 2, try_changed_prepared);
    uint32_t seed = 1;
    for (size_t round = 0; round < 20000; round++) {
        size_t length = round % (prepared.size + 1);
        bytes part = copied(prepared.at + (round < prepared.size ? 0 : prepared.size - length), length);
        for (size_t k = 0; round >= 2 * prepared.size && k < 4 && length > 16; k++) {
            seed = seed * 1664525 + 1013904223;
            ((uint8_t *)part.at)[(seed >> 8) % (length - 8)] = seed >> 24;
        }
        q.texts[2] = part;
        uint32_t code = match_prepared(&q);
        if (round < prepared.size) expect(code == NEVGRASI_NOT_FLAT, "the front of prepared facts", "another code");
        free((void *)part.at);
    }
    expect(others == 0, "changed prepared facts", "another code");
    q.texts[2] = prepared;
    change_each(&q, 0, try_changed_condition);
    let_go(&q);
}

/* As many levels as a text may have, and one more. The `cfg(` is one of them. */
static void try_depth(const char *before, const char *after) {
    for (size_t more = 0; more < 2; more++) {
        char *key = nested(NEVGRASI_MOST_OPEN - 1 + more, before, after);
        uint32_t code = more ? NEVGRASI_TOO_DEEP : NEVGRASI_DONE;
        question q = ASKED(before, key, "", "a\n");
        nevgrasi_outcome o;
        expect(canonical(&q, NULL, 0, &o) == code, "canonical of a deep key", before);
        expect(matches(&q, NULL, 0, &o) == code, "matches of a deep key", before);
        expect(can_hold(&q, NULL, 0, &o) == code, "can_hold of a deep key", before);
        let_go(&q);
        if (!more) {
            question flat = {before, {flat_of(key)}};
            int is_long = flat.texts[0].size > NEVGRASI_MOST_FLAT_BYTES;
            code = is_long ? NEVGRASI_TOO_DEEP : NEVGRASI_DONE;
            expect(flat_print(&flat, NULL, 0, &o) == code, "flat, deep", before);
            let_go(&flat);
        }
        free(key);
    }
}

static void try_limit(void) {
    uint8_t *flat = calloc(NEVGRASI_MOST_FLAT_BYTES + 1, 1);
    question q = {"flat", {{flat, NEVGRASI_MOST_FLAT_BYTES + 1}}};
    nevgrasi_outcome o;
    expect(flat_print(&q, NULL, 0, &o) == NEVGRASI_TOO_DEEP, q.name, "too long");
    q.texts[0].size--;
    expect(flat_print(&q, NULL, 0, &o) == NEVGRASI_NOT_FLAT, q.name, "at its limit");
    let_go(&q);
}

/* The deepest flat condition that is as long as one may be: each level is `all` of the next and of `true`. */
static void try_deep_flat(void) {
    size_t record = 17, levels = (NEVGRASI_MOST_FLAT_BYTES / record - 1) / 2, size = (2 * levels + 1) * record;
    uint8_t *flat = calloc(size, 1);
    for (size_t k = 0; k < 2 * levels + 1; k++) {
        flat[k * record] = k < levels ? 2 : 0;
        flat[k * record + 16] = k < levels ? 7 : 4;
    }
    nevgrasi_outcome o;
    question q = {"the deepest flat condition", {{flat, size}}};
    expect(flat_print(&q, NULL, 0, &o) == NEVGRASI_DONE, q.name, "no print");
    expect(o.needed == 5 + 11 * levels + 4, q.name, "another length");
    expect(flat_matches(&q, NULL, 0, &o) == NEVGRASI_DONE && o.holds, q.name, "does not match");
    q.texts[2] = prepared_of("");
    int is_true = prepared_matches(&q, NULL, 0, &o) == NEVGRASI_DONE && o.holds;
    expect(is_true, q.name, "does not match prepared facts");
    let_go(&q);
}

/* The texts of rows, and one number for all that the calls answer on each of them. */
enum { THREADS = 8, MAX_TEXTS = 20000, ROOM = 1 << 18 };
static bytes texts[MAX_TEXTS];
static size_t text_count;
static uint64_t answers[MAX_TEXTS];

static uint64_t mixed(uint64_t sum, const void *from, size_t size) {
    for (size_t k = 0; k < size; k++) sum = (sum ^ ((const uint8_t *)from)[k]) * 0x100000001B3;
    return sum;
}

/* FNV-1a over what a call answered. */
static uint64_t with_outcome(uint64_t sum, const nevgrasi_outcome *o, const uint8_t *out) {
    size_t numbers[] = {o->code, o->argument, o->holds, o->is_named, o->needed, o->start, o->end};
    return mixed(mixed(sum, numbers, sizeof numbers), out, o->needed < ROOM ? o->needed : 0);
}

static uint64_t answer_on(bytes text, uint8_t *out) {
    uint64_t sum = 0xCBF29CE484222325, words[NEVGRASI_WORDS] = {0};
    const bytes key = {(const uint8_t *)"cfg(unix)", 9};
    nevgrasi_outcome o;
    nevgrasi_canonical(text.at, text.size, out, ROOM, &o);
    sum = with_outcome(sum, &o, out);
    nevgrasi_fault(text.at, text.size, out, ROOM, &o);
    sum = with_outcome(sum, &o, out);
    nevgrasi_targets(text.at, text.size, words, out, ROOM, &o);
    sum = mixed(with_outcome(sum, &o, out), words, sizeof words);
    nevgrasi_matches(key.at, key.size, NULL, 0, text.at, text.size, out, ROOM, &o);
    sum = with_outcome(sum, &o, out);
    nevgrasi_implies(text.at, text.size, key.at, key.size, 100, out, ROOM, &o);
    return with_outcome(sum, &o, out);
}

/* Keys of which none is there, keys that are too deep, memory that is refused, and bytes that are no keys. */
static void try_batches(void) {
    char *deep = nested(NEVGRASI_MOST_OPEN, "not(", ")"), *shallow = nested(100, "all(", ", a)");
    const uint8_t wanted[] = {2 * NEVGRASI_TOO_DEEP, 1, 0};
    try_keys("no keys", NULL, 0, "x", "a", wanted);
    KEYS("deep keys", "", "a", wanted, deep, shallow, "cfg(b)");
    bytes keys[] = {{(const uint8_t *)shallow, strlen(shallow)}, {(const uint8_t *)"cfg(a b)", 8}};
    question q = {"refused memory", {counted_texts(keys, 2), {0}, copied("a\nb", 3)}};
    refuse_each(match_keys, &q, NEVGRASI_DONE);
    for (size_t shorter = 1; shorter < q.texts[0].size; shorter++) {
        nevgrasi_outcome o;
        question front = {"the front of keys", {copied(q.texts[0].at, shorter), {0}, copied("a", 1)}};
        uint32_t code = match_keys(&front, NULL, 0, &o), is_one = shorter == 8 + keys[0].size;
        expect(code == (is_one ? NEVGRASI_DONE : NEVGRASI_NOT_FLAT), front.name, "another code");
        expect(o.argument == 0 && o.needed == is_one, front.name, "another outcome");
        let_go(&front);
    }
    memset((void *)q.texts[0].at, 0xFF, 8);
    try_call(match_keys, q, NEVGRASI_NOT_FLAT, "");
    free(shallow);
    free(deep);
}

/* All texts of rows as keys, at once. */
static void try_all_keys(void) {
    const char *lines = "unix\ntarget_os=\"linux\"\na\n";
    try_keys("the texts of rows", texts, text_count, "x86_64-unknown-linux-gnu", lines, NULL);
}

/* Each thread begins at another text, so that at any time they are at others. */
static void *ask_all(void *which) {
    uint8_t *out = calloc(ROOM, 1);
    size_t first = *(size_t *)which * text_count / THREADS, wrong = 0;
    for (size_t k = 0; k < text_count; k++) {
        size_t at = (first + k) % text_count;
        wrong += answer_on(texts[at], out) != answers[at];
    }
    expect(wrong == 0, "a thread", "another answer than alone");
    free(out);
    return NULL;
}

static void read_texts(const char *file) {
    FILE *from = fopen(file, "rb");
    uint8_t size[4];
    while (from && text_count < MAX_TEXTS && fread(size, 1, 4, from) == 4) {
        size_t length = size[0] | size[1] << 8 | size[2] << 16 | (size_t)size[3] << 24;
        uint8_t *text = malloc(length);
        if (fread(text, 1, length, from) != length) break;
        texts[text_count++] = (bytes){text, length};
    }
    expect(from && feof(from), "the texts", "the file is not read to its end");
    if (from) fclose(from);
}

static void try_threads(const char *file) {
    read_texts(file);
    expect(text_count > 1000, "the texts", "there are few");
    uint8_t *out = calloc(ROOM, 1);
    for (size_t k = 0; k < text_count; k++) answers[k] = answer_on(texts[k], out);
    free(out);
    try_all_keys();
    pthread_t threads[THREADS];
    size_t places[THREADS];
    for (size_t k = 0; k < THREADS; k++) {
        places[k] = k;
        pthread_create(&threads[k], NULL, ask_all, &places[k]);
    }
    for (size_t k = 0; k < THREADS; k++) pthread_join(threads[k], NULL);
    for (size_t k = 0; k < text_count; k++) free((void *)texts[k].at);
}

int main(int count, char **words) {
    if (count != 2) return 2;
    expect(nevgrasi_abi() == NEVGRASI_ABI, "abi", "another number");
    try_rows();
    try_deep_graphs();
    try_runs();
    try_batches();
    try_call(flat_matches, (question){"flat_matches", {flat_of(KEY), copied("x", 1)}}, NEVGRASI_DONE, "");
    try_call(flat_print, (question){"flat_print", {flat_of(KEY)}}, NEVGRASI_DONE,
             "cfg(all(unix, not(target_os = \"macos\")))");
    try_call(prepare_facts, ASKED("prepare_facts", "unix\na = \"b\"\n"), NEVGRASI_DONE, NULL);
    try_flat_forms();
    change_flat();
    try_depth("not(", ")");
    try_depth("all(", ", a)");
    try_depth("all(a = \")\", ", ", a)");
    try_limit();
    try_deep_flat();
    try_all_prepared();
    change_prepared();
    try_threads(words[1]);
    printf("%d passed, %d failed\n", passed, failed);
    return failed != 0;
}

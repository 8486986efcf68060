/* Prints the canonical form of a key, on how many known targets it is true, and whether it implies cfg(unix). */
#include <nevgrasi.h>
#include <stdio.h>
#include <string.h>

#define TEXT(text) (const uint8_t *)(text), strlen(text)

int main(int count, char **words) {
    const char *key = count > 1 ? words[1] : "cfg( all(unix,not(target_os = \"macos\"),) )";
    uint8_t out[4096] = {0};
    uint64_t targets[NEVGRASI_WORDS] = {0};
    nevgrasi_outcome outcome;
    if (nevgrasi_canonical(TEXT(key), out, sizeof out, &outcome) == NEVGRASI_REFUSED) {
        nevgrasi_fault(TEXT(key), out, sizeof out, &outcome);
        printf("%.*s\n", (int)outcome.needed, (char *)out);
        return 2;
    }
    printf("%.*s\n", (int)outcome.needed, (char *)out);
    if (nevgrasi_targets(TEXT(key), targets, out, sizeof out, &outcome) != NEVGRASI_DONE) return 3;
    int held = 0;
    for (int k = 0; k < NEVGRASI_TARGETS; k++) held += targets[k / 64] >> (k % 64) & 1;
    printf("true on %d of %d known targets\n", held, NEVGRASI_TARGETS);
    if (nevgrasi_implies(TEXT(key), TEXT("cfg(unix)"), 1000, out, sizeof out, &outcome) != NEVGRASI_DONE) return 3;
    printf("implies cfg(unix): %s\n", outcome.holds ? "yes" : "no");
    return 0;
}

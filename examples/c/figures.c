/* figures: tries the figures that fastpsbt.h gives in words. How many entries suffice for a file of a length, and that one
   fewer doesn't; how long a transaction is beside its file; how deep calls reach into the stack. Ends with 1 where one fails. */
#include <stdio.h>
#include <stdlib.h>
#include <string.h>

#include "fastpsbt.h"

/* Bytes of stack that a call takes at most, with its arguments. */
#define MOST_STACK 768

static uint64_t answer[FASTPSBT_ANSWER_WORDS];
static unsigned long long tried;

static void expect(int right, const char *what, size_t len)
{
    tried++;
    if (right) return;
    fprintf(stderr, "figures: not so: %s (a file of %zu bytes)\n", what, len);
    exit(1);
}

/* Memory of exactly so many bytes, or of one where there are none. */
static void *room(size_t bytes)
{
    void *at = malloc(bytes == 0 ? 1 : bytes);
    if (at == NULL) exit(2);
    return at;
}

/* A parse with room for so many pairs and maps, no more. */
static uint64_t parsed(struct fastpsbt_lent *l, const uint8_t *file, size_t len, size_t pairs, size_t maps)
{
    l->file = file;
    l->file_len = len;
    l->pairs_len = pairs * FASTPSBT_PAIR_WORDS;
    l->maps_len = maps * FASTPSBT_MAP_WORDS;
    l->pairs = room(l->pairs_len * sizeof *l->pairs);
    l->maps = room(l->maps_len * sizeof *l->maps);
    return fastpsbt_parse(FASTPSBT_LENT(*l));
}

static void back(struct fastpsbt_lent *l)
{
    free(l->pairs);
    free(l->maps);
}

/* The same where only the result counts. */
static uint64_t result(const uint8_t *file, size_t len, size_t pairs, size_t maps)
{
    struct fastpsbt_lent l;
    uint64_t refusal = parsed(&l, file, len, pairs, maps);
    back(&l);
    return refusal;
}

static void put(uint8_t *file, size_t *len, const char *bytes, size_t many)
{
    memcpy(file + *len, bytes, many);
    *len += many;
}

/* The magic and the four pairs that a global map has to have, for so many inputs and outputs; its end is still to come. */
static size_t begun(uint8_t *file, unsigned inputs, unsigned outputs)
{
    size_t len = 0;
    put(file, &len, "psbt\xff\1\2\4\2\0\0\0\1\4\1", 15);
    file[len++] = (uint8_t)inputs;
    put(file, &len, "\1\5\1", 3);
    file[len++] = (uint8_t)outputs;
    return len;
}

static void version(uint8_t *file, size_t *len)
{
    put(file, len, "\1\xfb\4\2\0\0\0", 7);
}

/* Empty inputs: as many maps as a file of that length can have. */
static void most_maps(void)
{
    uint8_t file[512];
    for (unsigned n = 0; n <= 252; n++) {
        size_t len = begun(file, n, 0);
        version(file, &len);
        memset(file + len, 0, n + 1);
        len += n + 1;
        struct fastpsbt_lent l;
        expect(parsed(&l, file, len, FASTPSBT_MOST_PAIRS(len), FASTPSBT_MOST_MAPS(len)) == FASTPSBT_OK, "maps suffice", len);
        expect(l.report[FASTPSBT_REPORT_MAPS] == len - 27, "an accepted file has len - 27 maps", len);
        back(&l);
        expect(result(file, len, 4, len - 28) == FASTPSBT_MAPS_FULL, "a map fewer is full", len);
        /* One input more is counted, and the file ends where it would begin. */
        file[15] = (uint8_t)(n + 1);
        if (n == 252) continue;
        expect(result(file, len, 4, FASTPSBT_MOST_MAPS(len)) == FASTPSBT_UNEXPECTED_EOF, "a map begins", len);
        expect(result(file, len, 4, FASTPSBT_MOST_MAPS(len) - 1) == FASTPSBT_MAPS_FULL, "and one fewer is full", len);
    }
}

/* Keys of one byte and empty values: as many pairs as a file of that length can have. */
static void most_pairs(void)
{
    uint8_t file[1024];
    for (unsigned n = 0; n <= 200; n++) {
        size_t len = begun(file, 0, 0);
        for (unsigned k = 0; k < n; k++) {
            file[len++] = 1;
            file[len++] = (uint8_t)(9 + k);
            file[len++] = 0;
        }
        version(file, &len);
        file[len++] = 0;
        struct fastpsbt_lent l;
        expect(parsed(&l, file, len, FASTPSBT_MOST_PAIRS(len), 1) == FASTPSBT_OK, "pairs suffice", len);
        expect(3 * l.report[FASTPSBT_REPORT_PAIRS] + l.report[FASTPSBT_REPORT_MAPS] == len - 15, "3 pairs + maps", len);
        back(&l);
        expect(result(file, len, n + 3, 1) == FASTPSBT_PAIRS_FULL, "a pair fewer is full", len);
        /* Pairs and nothing else, and an end that is missing. */
        if (n == 0) continue;
        memmove(file + 5, file + 20, 3 * n);
        len = 5 + 3 * n;
        expect(result(file, len, FASTPSBT_MOST_PAIRS(len), 1) == FASTPSBT_UNEXPECTED_EOF, "pairs alone", len);
        expect(result(file, len, FASTPSBT_MOST_PAIRS(len) - 1, 1) == FASTPSBT_PAIRS_FULL, "and one fewer is full", len);
    }
}

static uint64_t seed = 1;

static unsigned below(unsigned n)
{
    seed = seed * 6364136223846793005u + 1442695040888963407u;
    return (unsigned)(seed >> 33) % n;
}

/* An input with an output, a silent payment or a MuSig2 field now and then, and bytes changed, put in or taken out. */
static void any_file(void)
{
    static const uint8_t no_scripts[1] = {0};
    uint8_t file[2048], out[2048];
    unsigned inputs = below(4), outputs = below(4), damages = below(4);
    size_t len = begun(file, inputs, outputs);
    if (below(3) == 0) put(file, &len, "\1\6\1\0", 4);
    version(file, &len);
    file[len++] = 0;
    for (unsigned k = 0; k < inputs; k++) {
        put(file, &len, "\1\16\40", 3);
        memset(file + len, (int)below(256), 32);
        len += 32;
        put(file, &len, "\1\17\4\0\0\0\0", 7);
        if (below(2)) put(file, &len, "\1\20\4\1\0\0\0", 7);
        file[len++] = 0;
    }
    for (unsigned k = 0; k < outputs; k++) {
        put(file, &len, "\1\3\10\0\0\0\0\0\0\0\0\1\4", 13);
        unsigned script = below(40);
        file[len++] = (uint8_t)script;
        memset(file + len, 0x51, script);
        len += script;
        file[len++] = 0;
    }
    while (damages-- > 0) {
        size_t at = below((unsigned)len);
        switch (below(3)) {
        case 0: file[at] = (uint8_t)(below(2) ? below(4) : below(256)); break;
        case 1: memmove(file + at + 1, file + at, len++ - at); break;
        default: memmove(file + at, file + at + 1, --len - at);
        }
    }
    struct fastpsbt_lent l;
    uint64_t refusal = parsed(&l, file, len, FASTPSBT_MOST_PAIRS(len), FASTPSBT_MOST_MAPS(len));
    expect(refusal != FASTPSBT_PAIRS_FULL && refusal != FASTPSBT_MAPS_FULL, "the bounds suffice", len);
    if (refusal == FASTPSBT_OK) {
        refusal = fastpsbt_unsigned_tx(
            FASTPSBT_LENT(l), 0, 0, no_scripts, 0, out, len - 18, answer, FASTPSBT_ANSWER_WORDS);
        expect(refusal != FASTPSBT_NO_ROOM, "a transaction is 18 bytes shorter than its file", len);
    }
    back(&l);
}

/* The stack, by painting it: a call is made from the same depth as `painted`, and `depth` says how far paint is gone. */
#if defined(__GNUC__)
#define APART __attribute__((noinline))
#else
#define APART
#endif
#define PAINTED 16384
static uintptr_t lowest;

APART static void painted(void)
{
    volatile uint8_t space[PAINTED];
    for (size_t k = 0; k < PAINTED; k++) space[k] = 0xa5;
    lowest = (uintptr_t)&space[0];
}

APART static size_t depth(void)
{
    const volatile uint8_t *at = (const volatile uint8_t *)lowest;
    size_t k = 0;
    while (k < PAINTED && at[k] == 0xa5) k++;
    return PAINTED - k;
}

static size_t deepest;

static void seen(size_t bytes)
{
    if (bytes > deepest) deepest = bytes;
}

/* A file of one input with the participants of an aggregate key and one output, and calls of each kind on it. */
static void stack(void)
{
    static const uint8_t no_scripts[1] = {0};
    uint8_t file[512], key[33], leaf[32], out[512];
    uint32_t pairs[16 * FASTPSBT_PAIR_WORDS], maps[4 * FASTPSBT_MAP_WORDS];
    size_t len = begun(file, 1, 1);
    version(file, &len);
    memset(key, 2, sizeof key);
    memset(leaf, 3, sizeof leaf);
    put(file, &len, "\0\1\16\40", 4);
    memset(file + len, 0x11, 32);
    len += 32;
    put(file, &len, "\1\17\4\0\0\0\0\102\32", 9);
    memcpy(file + len, key, 33);
    memcpy(file + len + 33, leaf, 32);
    len += 65;
    put(file, &len, "\102", 1);
    memset(file + len, 2, 66);
    len += 66;
    put(file, &len, "\0\1\3\10\0\0\0\0\0\0\0\0\1\4\1\121\0", 17);
    struct fastpsbt_lent l = {file, len, pairs, sizeof pairs / sizeof pairs[0], maps, sizeof maps / sizeof maps[0], {0}};

    /* The first call of either may take kilobytes, for the loader finds it then. */
    volatile size_t bytes = len;
    memcpy(out, file, bytes);
    memset(out, 0, bytes);
    painted();
    uint64_t refusal = fastpsbt_parse(FASTPSBT_LENT(l));
    seen(depth());
    expect(refusal == FASTPSBT_OK, "the file is in order", len);
    painted();
    refusal = fastpsbt_lock_decided(FASTPSBT_LENT(l), answer, FASTPSBT_ANSWER_WORDS);
    seen(depth());
    expect(refusal == FASTPSBT_OK, "it has a lock", len);
    painted();
    refusal = fastpsbt_unsigned_tx(
        FASTPSBT_LENT(l), 0, 0, no_scripts, 0, out, sizeof out, answer, FASTPSBT_ANSWER_WORDS);
    seen(depth());
    expect(refusal == FASTPSBT_OK && answer[FASTPSBT_TX_LENGTH] == 61, "it has a transaction", len);
    painted();
    refusal = fastpsbt_input_get_musig2_participant(
        FASTPSBT_LENT(l), 0, key, sizeof key, leaf, sizeof leaf, 1, answer, FASTPSBT_ANSWER_WORDS);
    seen(depth());
    expect(refusal == FASTPSBT_OK && answer[FASTPSBT_PLACE_LENGTH] == 33, "it has participants", len);
    painted();
    refusal = fastpsbt_input_get_musig2_pub_nonce(
        FASTPSBT_LENT(l), 0, key, sizeof key, key, sizeof key, leaf, sizeof leaf, answer, FASTPSBT_ANSWER_WORDS);
    seen(depth());
    expect(refusal == FASTPSBT_OK && answer[FASTPSBT_VALUES] == 0, "it has no nonce", len);
    expect(deepest <= MOST_STACK, "a call takes no more stack than is said", len);
}

int main(void)
{
    most_maps();
    most_pairs();
    for (unsigned k = 0; k < 20000; k++) any_file();
    stack();
    printf("figures: %llu tried, the deepest of five calls took %zu bytes of stack\n", tried, deepest);
    return 0;
}

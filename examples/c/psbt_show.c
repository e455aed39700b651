/* psbt_show FILE: the inputs of a signing file, what decides its lock time, and its unsigned transaction in hex. */
#include <stdio.h>

#include "fastpsbt.h"

/* All memory there is: a file of up to 64 KiB, 1,024 pairs and 256 maps, and a transaction, which is shorter than its file. */
#define LEN(slice) (sizeof(slice) / sizeof((slice)[0]))
static uint8_t file[65536], tx[sizeof file];
static uint32_t pairs[1024 * FASTPSBT_PAIR_WORDS], maps[256 * FASTPSBT_MAP_WORDS];
static uint64_t answer[FASTPSBT_ANSWER_WORDS];
static struct fastpsbt_lent psbt = {file, 0, pairs, LEN(pairs), maps, LEN(maps), {0}};

static void hex(const uint8_t *bytes, size_t len)
{
    for (size_t k = 0; k < len; k++) printf("%02x", bytes[k]);
}

/* A number of an input behind its name, if the input has it. */
static void number(const char *name, uint64_t refusal)
{
    if (refusal != FASTPSBT_OK) printf(" %s refused %llu", name, (unsigned long long)refusal);
    else if (answer[FASTPSBT_VALUES] != 0) printf(" %s %llu", name, (unsigned long long)answer[FASTPSBT_NUMBER]);
}

static void show_input(uint64_t i)
{
    printf("input %llu", (unsigned long long)i);
    uint64_t refusal = fastpsbt_input_previous_txid(FASTPSBT_LENT(psbt), i, answer, FASTPSBT_ANSWER_WORDS);
    if (refusal == FASTPSBT_OK && answer[FASTPSBT_VALUES] != 0) {
        printf(" txid ");
        hex(file + answer[FASTPSBT_PLACE_START], answer[FASTPSBT_PLACE_LENGTH]);
    }
    number("index", fastpsbt_input_output_index(FASTPSBT_LENT(psbt), i, answer, FASTPSBT_ANSWER_WORDS));
    number("height", fastpsbt_input_required_height_locktime(FASTPSBT_LENT(psbt), i, answer, FASTPSBT_ANSWER_WORDS));
    number("time", fastpsbt_input_required_time_locktime(FASTPSBT_LENT(psbt), i, answer, FASTPSBT_ANSWER_WORDS));
    printf("\n");
}

static void show_lock(void)
{
    uint64_t refusal = fastpsbt_lock_decided(FASTPSBT_LENT(psbt), answer, FASTPSBT_ANSWER_WORDS);
    if (refusal != FASTPSBT_OK) {
        printf("lock refused %llu\n", (unsigned long long)refusal);
        return;
    }
    switch (answer[FASTPSBT_LOCK_WHAT]) {
    case FASTPSBT_LOCK_HEIGHT: printf("lock height"); break;
    case FASTPSBT_LOCK_TIME: printf("lock time"); break;
    default: printf("lock fallback");
    }
    printf(" %llu\n", (unsigned long long)answer[FASTPSBT_LOCK_NUMBER]);
}

int main(int argc, char **argv)
{
    static const uint8_t no_scripts[1] = {0};
    FILE *in = argc == 2 ? fopen(argv[1], "rb") : NULL;
    if (in == NULL) return fprintf(stderr, "usage: psbt_show FILE\n"), 2;
    psbt.file_len = fread(file, 1, sizeof file, in);
    if (fgetc(in) != EOF) return fprintf(stderr, "the file is longer than %zu bytes\n", sizeof file), 2;
    fclose(in);

    uint64_t refusal = fastpsbt_parse(FASTPSBT_LENT(psbt));
    if (refusal != FASTPSBT_OK) return printf("refused %llu\n", (unsigned long long)refusal), 1;
    for (uint64_t i = 0; i < psbt.report[FASTPSBT_REPORT_INPUTS]; i++) show_input(i);
    show_lock();

    refusal = fastpsbt_unsigned_tx(
        FASTPSBT_LENT(psbt), 0, 0, no_scripts, 0, tx, sizeof tx, answer, FASTPSBT_ANSWER_WORDS);
    if (refusal != FASTPSBT_OK) return printf("unsigned refused %llu\n", (unsigned long long)refusal), 1;
    printf("unsigned ");
    hex(tx, answer[FASTPSBT_TX_LENGTH]);
    printf("\n");
    return 0;
}

/* Xoshberan, a verified reader of Bitcoin signing files (PSBT version 2), for C and C++.

   The library is libfastpsbt.a: `./library` in the repository proves it and writes it with this header into
   target/library. It is for machines with 64-bit sizes. It allocates nothing, and of C's library needs memcpy
   and memset alone.

   What is lent. Memory crosses as a pointer and how many items it has, not how many bytes: bytes of a file or a
   buffer, 32-bit words of a table, 64-bit words of an answer. `file` is the signing file (up to
   FASTPSBT_MAX_FILE bytes), `pairs` and `maps` are the tables that fastpsbt_parse fills, `report` is the answer
   that it gave. All are only read, but for the slices whose pointer isn't const. `struct fastpsbt_lent` (below)
   holds what every call is lent first.

   What the caller owes, and nothing checks: every pointer is valid for its length for the time of the call,
   aligned for its type and not null, with length 0 too; a slice that is written (its pointer isn't const)
   overlaps no other slice of the call. Nothing else is asked: any bytes in any slice, any length and any number
   get an answer. A `report` that isn't the answer of an accepted parse (its first word isn't
   FASTPSBT_REPORT_VALUES) is refused with FASTPSBT_BAD_INDEX before anything else is looked at. Tables that
   don't fit the file, damaged or mixed up, are refused with FASTPSBT_BAD_INDEX too or answered by what they say
   of the file; a place that is answered always lies in the file (in `scripts`, where SCRIPT says so).

   What comes back. The result is FASTPSBT_OK or the number of a refusal. `answer` takes FASTPSBT_ANSWER_WORDS
   words: how many values there are (word FASTPSBT_VALUES), the values from word 1 on, and zeros; words behind
   stay. An `answer` that is shorter gives FASTPSBT_NO_ROOM, and then nothing at all is changed.

     kind      values
     REPORT    7: tx version (its 32 bits), fallback lock time, modifiable byte (each FASTPSBT_ABSENT where the
               file has none), inputs, outputs, entries used of `pairs`, entries used of `maps`; with a refusal
               2: the entries used of `pairs` and of `maps`
     PLACE     2: where the value starts in the file, and its length; absent: 0 values
     NUMBER    1: the number; absent: 0 values
     LISTING   2: the first pair's number in its map (where there is none, the place where it would stand), and
               how many there are; fastpsbt_map_nth gives each
     PAIR      4: key start, key length, value start, value length, in the file; the key begins with its type
               byte
     UTXO      3: amount, where the script starts in the file, and its length; absent: 0 values
     LOCK      height: 3: FASTPSBT_LOCK_HEIGHT, the number, the input that asks it; time: 3: FASTPSBT_LOCK_TIME,
               the number, the input; nothing asked: 2: FASTPSBT_LOCK_FALLBACK, the number. With
               FASTPSBT_BAD_VALUE the rule that refuses: 3: FASTPSBT_LOCK_BOTH_KINDS, an input that asks a
               height, one that asks a time; 3: FASTPSBT_LOCK_HEIGHT_TOO_GREAT or FASTPSBT_LOCK_TIME_TOO_SMALL,
               the number, the input; 2: FASTPSBT_LOCK_MALFORMED, the input
     STATE     2: set, written (1 or 0)
     TX        3: the transaction's length, set, written (1 or 0)
     SCRIPT    3: FASTPSBT_SCRIPT_IN_FILE or FASTPSBT_SCRIPT_IN_TABLE (in `scripts`), where the script starts,
               and its length; absent: 0 values

   All other refusals have 0 values. The names below say at which word of `answer` each value stands.

   The state. `set` and `written` say whether scripts were set and a transaction was written for this file: both
   0 after a parse, then as the last STATE or TX said. Any number but 0 counts as 1.

   Asked keys. A scan key, participant, aggregate or leaf hash of another length than is named below is refused
   with FASTPSBT_BAD_VALUE.

   Threads. Calls share nothing and keep nothing: there is no memory but what is lent. They may run at the same
   time, on one file and its tables too, where each has written memory of its own (`answer`, and the tables of
   a parse, `scripts` or `out`). A file or table that a call reads isn't to be written meanwhile.

   Stack. No call recurses. The deepest takes 536 bytes with its return address in the archive for x86-64 and 576
   in that for 64-bit Arm: the compiler's frames (-O3), summed along the calls. On top come the arguments that the
   caller puts there (there are up to 18) and what memcpy and memset take, at their first call with what finds
   them. Painted stacks on x86-64 show up to 624 bytes, arguments included.

   Room. A parse that finds a table full says which: FASTPSBT_PAIRS_FULL, FASTPSBT_MAPS_FULL. How many entries
   were used is in its answer, refused or not. Where tables can't grow, choose how many pairs and maps to serve.
   A bound by the file's length always suffices: FASTPSBT_MOST_PAIRS, FASTPSBT_MOST_MAPS. A transaction that is
   made of a parse's own tables is at least 18 bytes shorter than the file, so an `out` of `file_len` bytes
   suffices. */
#ifndef FASTPSBT_H
#define FASTPSBT_H

#include <stddef.h>
#include <stdint.h>

#if !defined(SIZE_MAX) || !defined(UINT64_MAX)
#error "fastpsbt.h needs the SIZE_MAX and UINT64_MAX of stdint.h: C99, or C++11 or later"
#elif SIZE_MAX != UINT64_MAX
#error "fastpsbt.h needs a size_t of 64 bits: lengths cross as 64-bit numbers"
#endif

#ifdef __cplusplus
extern "C" {
#endif

#define FASTPSBT_MAX_FILE 1048576
#define FASTPSBT_ANSWER_WORDS 8
#define FASTPSBT_PAIR_WORDS 4
#define FASTPSBT_MAP_WORDS 2
#define FASTPSBT_SCRIPT_BYTES 35
#define FASTPSBT_ASSIGNMENT_WORDS 3
#define FASTPSBT_ABSENT UINT64_MAX

/* How many entries are enough for every file of `len` bytes: with these neither FASTPSBT_PAIRS_FULL nor
   FASTPSBT_MAPS_FULL is given. A pair takes at least 3 bytes (its key's length, a key byte, its value's
   length), the end of a map 1, the magic 5; a second map only begins behind four pairs of 22 bytes together;
   and a map that begins takes an entry even if the file ends there. An accepted file of `len` bytes has
   3 * pairs + maps <= len - 15 and maps <= len - 27. Constant where `len` is:

     uint32_t pairs[FASTPSBT_MOST_PAIRS(sizeof file) * FASTPSBT_PAIR_WORDS];
     uint32_t maps[FASTPSBT_MOST_MAPS(sizeof file) * FASTPSBT_MAP_WORDS]; */
#define FASTPSBT_MOST_PAIRS(len) ((len) < 8 ? 1 : ((len) - 5) / 3)
#define FASTPSBT_MOST_MAPS(len) ((len) < 28 ? 1 : (len) - 26)

/* What a call says. Numbers that aren't here are never given. */
#define FASTPSBT_OK 0
#define FASTPSBT_INVALID_MAGIC 1          /* the file doesn't begin with the five magic bytes */
#define FASTPSBT_UNEXPECTED_EOF 2         /* bytes run out, or some remain behind the last map */
#define FASTPSBT_INVALID_COMPACT_SIZE 3   /* a count field is longer than its number */
#define FASTPSBT_DUPLICATE_KEY 5          /* a key is the one before it */
#define FASTPSBT_UNSORTED_KEYS 6          /* a key is below the one before it */
#define FASTPSBT_BAD_VALUE 7              /* a wrong size, a lock rule broken, a field missing from a transaction */
#define FASTPSBT_MISSING_COUNTS 8         /* the global map lacks a field that has to be there */
#define FASTPSBT_NOT_ALLOWED 13           /* an unsigned transaction in the global map, or a version that isn't 2 */
#define FASTPSBT_OUT_OF_RANGE 14          /* no such map, input, output, pair or participant */
#define FASTPSBT_MISSING_OUTPUT_SCRIPT 17 /* an output has neither script nor silent payment code */
#define FASTPSBT_INVALID_SILENT_PAYMENT 18 /* an output's silent payment fields don't go together */
#define FASTPSBT_INVALID_OUTPUT_SCRIPTS 19 /* scripts that can't be set, or not any more */
#define FASTPSBT_TOO_LONG 21              /* the file is longer than FASTPSBT_MAX_FILE */
#define FASTPSBT_PAIRS_FULL 22            /* no free entry in `pairs` */
#define FASTPSBT_MAPS_FULL 23             /* no free entry in `maps` */
#define FASTPSBT_BAD_INDEX 24             /* `report` is no accepted parse's, or a table isn't fit for the file */
#define FASTPSBT_NO_ROOM 25               /* a lent buffer, or `answer`, is too short */

/* Where an answer's values stand: words of `answer`. Word FASTPSBT_VALUES says how many there are, 0 where what
   was asked is absent. */
#define FASTPSBT_VALUES 0

/* REPORT of an accepted parse, which has so many values, and of a refused one. */
#define FASTPSBT_REPORT_VALUES 7
#define FASTPSBT_REPORT_TX_VERSION 1
#define FASTPSBT_REPORT_FALLBACK 2
#define FASTPSBT_REPORT_MODIFIABLE 3
#define FASTPSBT_REPORT_INPUTS 4
#define FASTPSBT_REPORT_OUTPUTS 5
#define FASTPSBT_REPORT_PAIRS 6
#define FASTPSBT_REPORT_MAPS 7
#define FASTPSBT_REFUSED_PAIRS 1
#define FASTPSBT_REFUSED_MAPS 2

/* PLACE, NUMBER, LISTING */
#define FASTPSBT_PLACE_START 1
#define FASTPSBT_PLACE_LENGTH 2
#define FASTPSBT_NUMBER 1
#define FASTPSBT_LISTING_FIRST 1
#define FASTPSBT_LISTING_COUNT 2

/* PAIR, UTXO */
#define FASTPSBT_PAIR_KEY_START 1
#define FASTPSBT_PAIR_KEY_LENGTH 2
#define FASTPSBT_PAIR_VALUE_START 3
#define FASTPSBT_PAIR_VALUE_LENGTH 4
#define FASTPSBT_UTXO_AMOUNT 1
#define FASTPSBT_UTXO_SCRIPT_START 2
#define FASTPSBT_UTXO_SCRIPT_LENGTH 3

/* LOCK; with FASTPSBT_LOCK_BOTH_KINDS both inputs, with FASTPSBT_LOCK_MALFORMED the one */
#define FASTPSBT_LOCK_WHAT 1
#define FASTPSBT_LOCK_NUMBER 2
#define FASTPSBT_LOCK_INPUT 3
#define FASTPSBT_LOCK_HEIGHT_INPUT 2
#define FASTPSBT_LOCK_TIME_INPUT 3
#define FASTPSBT_LOCK_MALFORMED_INPUT 2

/* STATE, TX, SCRIPT */
#define FASTPSBT_STATE_SET 1
#define FASTPSBT_STATE_WRITTEN 2
#define FASTPSBT_TX_LENGTH 1
#define FASTPSBT_TX_SET 2
#define FASTPSBT_TX_WRITTEN 3
#define FASTPSBT_SCRIPT_WHERE 1
#define FASTPSBT_SCRIPT_START 2
#define FASTPSBT_SCRIPT_LENGTH 3

/* What FASTPSBT_LOCK_WHAT says with FASTPSBT_OK: what decided. */
#define FASTPSBT_LOCK_FALLBACK 0
#define FASTPSBT_LOCK_HEIGHT 1
#define FASTPSBT_LOCK_TIME 2

/* What it says with FASTPSBT_BAD_VALUE: the rule that refuses. */
#define FASTPSBT_LOCK_BOTH_KINDS 1
#define FASTPSBT_LOCK_HEIGHT_TOO_GREAT 2
#define FASTPSBT_LOCK_TIME_TOO_SMALL 3
#define FASTPSBT_LOCK_MALFORMED 4

/* What FASTPSBT_SCRIPT_WHERE says. */
#define FASTPSBT_SCRIPT_IN_FILE 0
#define FASTPSBT_SCRIPT_IN_TABLE 1

/* What every call is lent first. FASTPSBT_LENT(l) spells it as those eight arguments, for fastpsbt_parse too,
   which writes `report`. `pairs_len` and `maps_len` count words. `l` is evaluated more than once.

     struct fastpsbt_lent l = {file, file_len, pairs, pairs_len, maps, maps_len, {0}};
     uint64_t refusal = fastpsbt_parse(FASTPSBT_LENT(l));
     ..
     refusal = fastpsbt_input_previous_txid(FASTPSBT_LENT(l), i, answer, FASTPSBT_ANSWER_WORDS);
     if (refusal == FASTPSBT_OK && answer[FASTPSBT_VALUES] != 0)
         show(file + answer[FASTPSBT_PLACE_START], answer[FASTPSBT_PLACE_LENGTH]); */
struct fastpsbt_lent {
    const uint8_t *file;
    size_t file_len;
    uint32_t *pairs;
    size_t pairs_len;
    uint32_t *maps;
    size_t maps_len;
    uint64_t report[FASTPSBT_ANSWER_WORDS];
};

#define FASTPSBT_LENT(l) \
    (l).file, (l).file_len, (l).pairs, (l).pairs_len, (l).maps, (l).maps_len, (l).report, FASTPSBT_ANSWER_WORDS

/* ---- The whole file. ---- */

/* Reads a file. Each pair that is accepted takes the next FASTPSBT_PAIR_WORDS words of `pairs` (key start, key
   length, value start, value length), each map that ends the next FASTPSBT_MAP_WORDS of `maps` (first pair,
   number of pairs). Only whole entries count as room: FASTPSBT_PAIRS_FULL or FASTPSBT_MAPS_FULL where it isn't
   enough. The entries past those used keep what they held, after a refusal too. Answer: REPORT. Keep these
   words: they are the `report` of every other call. After a refusal they are none, and every other call refuses
   them with FASTPSBT_BAD_INDEX. */
uint64_t fastpsbt_parse(
    const uint8_t *file, size_t file_len, uint32_t *pairs, size_t pairs_len, uint32_t *maps, size_t maps_len,
    uint64_t *answer, size_t answer_len);

/* What decides the transaction's lock time. Answer: LOCK. */
uint64_t fastpsbt_lock_decided(
    const uint8_t *file, size_t file_len, const uint32_t *pairs, size_t pairs_len,
    const uint32_t *maps, size_t maps_len, const uint64_t *report, size_t report_len,
    uint64_t *answer, size_t answer_len);

/* Sets scripts for the outputs that have none. `list` has FASTPSBT_ASSIGNMENT_WORDS words for each
   assignment: the output's number, where its script starts in `buffer`, and the script's length (34). `scripts` takes FASTPSBT_SCRIPT_BYTES
   bytes for each output; the bytes behind stay. Answer: STATE, which the later calls are handed together with
   `scripts`. A refusal changes neither `scripts` nor the state. */
uint64_t fastpsbt_set_sp_output_scripts(
    const uint8_t *file, size_t file_len, const uint32_t *pairs, size_t pairs_len,
    const uint32_t *maps, size_t maps_len, const uint64_t *report, size_t report_len,
    const uint64_t *list, size_t list_len, const uint8_t *buffer, size_t buffer_len, uint64_t set,
    uint64_t written, uint8_t *scripts, size_t scripts_len, uint64_t *answer, size_t answer_len);

/* Writes the unsigned transaction from the front of `out` on; the bytes behind it stay. Where `set` is not 0,
   the outputs without a script of their own take that of `scripts`; otherwise `scripts` may be empty. Answer:
   TX. A refusal writes nothing: FASTPSBT_NO_ROOM where `out` is too short. */
uint64_t fastpsbt_unsigned_tx(
    const uint8_t *file, size_t file_len, const uint32_t *pairs, size_t pairs_len,
    const uint32_t *maps, size_t maps_len, const uint64_t *report, size_t report_len, uint64_t set,
    uint64_t written, const uint8_t *scripts, size_t scripts_len, uint8_t *out, size_t out_len,
    uint64_t *answer, size_t answer_len);

/* ---- Any map, by its number: 0 is the global one, then come the inputs, then the outputs. ---- */

/* The value of a key, by its type and its data. Answer: PLACE. */
uint64_t fastpsbt_map_get(
    const uint8_t *file, size_t file_len, const uint32_t *pairs, size_t pairs_len,
    const uint32_t *maps, size_t maps_len, const uint64_t *report, size_t report_len, uint64_t m,
    uint8_t key_type, const uint8_t *key_data, size_t key_data_len, uint64_t *answer, size_t answer_len);

/* The pairs of a type. Answer: LISTING. */
uint64_t fastpsbt_map_list(
    const uint8_t *file, size_t file_len, const uint32_t *pairs, size_t pairs_len,
    const uint32_t *maps, size_t maps_len, const uint64_t *report, size_t report_len, uint64_t m,
    uint8_t key_type, uint64_t *answer, size_t answer_len);

/* Pair number `i` of the map, counted from 0; FASTPSBT_OUT_OF_RANGE past the last. Answer: PAIR. */
uint64_t fastpsbt_map_nth(
    const uint8_t *file, size_t file_len, const uint32_t *pairs, size_t pairs_len,
    const uint32_t *maps, size_t maps_len, const uint64_t *report, size_t report_len, uint64_t m, size_t i,
    uint64_t *answer, size_t answer_len);

/* ---- The global map. ---- */

/* The ECDH share of a scan key (33 bytes), 33 bytes. Answer: PLACE. */
uint64_t fastpsbt_global_get_sp_ecdh_share(
    const uint8_t *file, size_t file_len, const uint32_t *pairs, size_t pairs_len,
    const uint32_t *maps, size_t maps_len, const uint64_t *report, size_t report_len,
    const uint8_t *scan_key, size_t scan_key_len, uint64_t *answer, size_t answer_len);

/* The DLEQ proof of a scan key (33 bytes), 64 bytes. Answer: PLACE. */
uint64_t fastpsbt_global_get_sp_dleq_proof(
    const uint8_t *file, size_t file_len, const uint32_t *pairs, size_t pairs_len,
    const uint32_t *maps, size_t maps_len, const uint64_t *report, size_t report_len,
    const uint8_t *scan_key, size_t scan_key_len, uint64_t *answer, size_t answer_len);

/* All ECDH shares. Answer: LISTING. */
uint64_t fastpsbt_global_sp_ecdh_shares(
    const uint8_t *file, size_t file_len, const uint32_t *pairs, size_t pairs_len,
    const uint32_t *maps, size_t maps_len, const uint64_t *report, size_t report_len,
    uint64_t *answer, size_t answer_len);

/* All DLEQ proofs. Answer: LISTING. */
uint64_t fastpsbt_global_sp_dleq_proofs(
    const uint8_t *file, size_t file_len, const uint32_t *pairs, size_t pairs_len,
    const uint32_t *maps, size_t maps_len, const uint64_t *report, size_t report_len,
    uint64_t *answer, size_t answer_len);

/* ---- Input number `i`, counted from 0. ---- */

/* The whole previous transaction, as its bytes. Answer: PLACE. */
uint64_t fastpsbt_input_non_witness_utxo(
    const uint8_t *file, size_t file_len, const uint32_t *pairs, size_t pairs_len,
    const uint32_t *maps, size_t maps_len, const uint64_t *report, size_t report_len, uint64_t i,
    uint64_t *answer, size_t answer_len);

/* The output that is spent, as its bytes (fastpsbt_input_get_witness_utxo reads them). Answer: PLACE. */
uint64_t fastpsbt_input_witness_utxo(
    const uint8_t *file, size_t file_len, const uint32_t *pairs, size_t pairs_len,
    const uint32_t *maps, size_t maps_len, const uint64_t *report, size_t report_len, uint64_t i,
    uint64_t *answer, size_t answer_len);

/* The signature hash type. Answer: NUMBER. */
uint64_t fastpsbt_input_sighash_type(
    const uint8_t *file, size_t file_len, const uint32_t *pairs, size_t pairs_len,
    const uint32_t *maps, size_t maps_len, const uint64_t *report, size_t report_len, uint64_t i,
    uint64_t *answer, size_t answer_len);

/* The redeem script. Answer: PLACE. */
uint64_t fastpsbt_input_redeem_script(
    const uint8_t *file, size_t file_len, const uint32_t *pairs, size_t pairs_len,
    const uint32_t *maps, size_t maps_len, const uint64_t *report, size_t report_len, uint64_t i,
    uint64_t *answer, size_t answer_len);

/* The witness script. Answer: PLACE. */
uint64_t fastpsbt_input_witness_script(
    const uint8_t *file, size_t file_len, const uint32_t *pairs, size_t pairs_len,
    const uint32_t *maps, size_t maps_len, const uint64_t *report, size_t report_len, uint64_t i,
    uint64_t *answer, size_t answer_len);

/* The final script. Answer: PLACE. */
uint64_t fastpsbt_input_final_scriptsig(
    const uint8_t *file, size_t file_len, const uint32_t *pairs, size_t pairs_len,
    const uint32_t *maps, size_t maps_len, const uint64_t *report, size_t report_len, uint64_t i,
    uint64_t *answer, size_t answer_len);

/* The final witness. Answer: PLACE. */
uint64_t fastpsbt_input_final_scriptwitness(
    const uint8_t *file, size_t file_len, const uint32_t *pairs, size_t pairs_len,
    const uint32_t *maps, size_t maps_len, const uint64_t *report, size_t report_len, uint64_t i,
    uint64_t *answer, size_t answer_len);

/* The txid of the previous transaction, 32 bytes in the order in which the file has them. Answer: PLACE. */
uint64_t fastpsbt_input_previous_txid(
    const uint8_t *file, size_t file_len, const uint32_t *pairs, size_t pairs_len,
    const uint32_t *maps, size_t maps_len, const uint64_t *report, size_t report_len, uint64_t i,
    uint64_t *answer, size_t answer_len);

/* Which output of the previous transaction is spent. Answer: NUMBER. */
uint64_t fastpsbt_input_output_index(
    const uint8_t *file, size_t file_len, const uint32_t *pairs, size_t pairs_len,
    const uint32_t *maps, size_t maps_len, const uint64_t *report, size_t report_len, uint64_t i,
    uint64_t *answer, size_t answer_len);

/* The sequence number. Answer: NUMBER. */
uint64_t fastpsbt_input_sequence(
    const uint8_t *file, size_t file_len, const uint32_t *pairs, size_t pairs_len,
    const uint32_t *maps, size_t maps_len, const uint64_t *report, size_t report_len, uint64_t i,
    uint64_t *answer, size_t answer_len);

/* The lock time that the input asks for, as a time. Answer: NUMBER. */
uint64_t fastpsbt_input_required_time_locktime(
    const uint8_t *file, size_t file_len, const uint32_t *pairs, size_t pairs_len,
    const uint32_t *maps, size_t maps_len, const uint64_t *report, size_t report_len, uint64_t i,
    uint64_t *answer, size_t answer_len);

/* The lock time that the input asks for, as a block height. Answer: NUMBER. */
uint64_t fastpsbt_input_required_height_locktime(
    const uint8_t *file, size_t file_len, const uint32_t *pairs, size_t pairs_len,
    const uint32_t *maps, size_t maps_len, const uint64_t *report, size_t report_len, uint64_t i,
    uint64_t *answer, size_t answer_len);

/* The silent payment tweak, 32 bytes. Answer: PLACE. */
uint64_t fastpsbt_input_sp_tweak(
    const uint8_t *file, size_t file_len, const uint32_t *pairs, size_t pairs_len,
    const uint32_t *maps, size_t maps_len, const uint64_t *report, size_t report_len, uint64_t i,
    uint64_t *answer, size_t answer_len);

/* The pairs of a type. Answer: LISTING. */
uint64_t fastpsbt_input_iter_keys(
    const uint8_t *file, size_t file_len, const uint32_t *pairs, size_t pairs_len,
    const uint32_t *maps, size_t maps_len, const uint64_t *report, size_t report_len, uint64_t i,
    uint8_t key_type, uint64_t *answer, size_t answer_len);

/* The pairs that say how keys are derived. Answer: LISTING. */
uint64_t fastpsbt_input_bip32_derivations(
    const uint8_t *file, size_t file_len, const uint32_t *pairs, size_t pairs_len,
    const uint32_t *maps, size_t maps_len, const uint64_t *report, size_t report_len, uint64_t i,
    uint64_t *answer, size_t answer_len);

/* The ECDH share of a scan key (33 bytes), 33 bytes. Answer: PLACE. */
uint64_t fastpsbt_input_get_sp_ecdh_share(
    const uint8_t *file, size_t file_len, const uint32_t *pairs, size_t pairs_len,
    const uint32_t *maps, size_t maps_len, const uint64_t *report, size_t report_len, uint64_t i,
    const uint8_t *scan_key, size_t scan_key_len, uint64_t *answer, size_t answer_len);

/* The DLEQ proof of a scan key (33 bytes), 64 bytes. Answer: PLACE. */
uint64_t fastpsbt_input_get_sp_dleq_proof(
    const uint8_t *file, size_t file_len, const uint32_t *pairs, size_t pairs_len,
    const uint32_t *maps, size_t maps_len, const uint64_t *report, size_t report_len, uint64_t i,
    const uint8_t *scan_key, size_t scan_key_len, uint64_t *answer, size_t answer_len);

/* All ECDH shares. Answer: LISTING. */
uint64_t fastpsbt_input_sp_ecdh_shares(
    const uint8_t *file, size_t file_len, const uint32_t *pairs, size_t pairs_len,
    const uint32_t *maps, size_t maps_len, const uint64_t *report, size_t report_len, uint64_t i,
    uint64_t *answer, size_t answer_len);

/* All DLEQ proofs. Answer: LISTING. */
uint64_t fastpsbt_input_sp_dleq_proofs(
    const uint8_t *file, size_t file_len, const uint32_t *pairs, size_t pairs_len,
    const uint32_t *maps, size_t maps_len, const uint64_t *report, size_t report_len, uint64_t i,
    uint64_t *answer, size_t answer_len);

/* The pairs that say how silent payment spend keys are derived. Answer: LISTING. */
uint64_t fastpsbt_input_sp_spend_bip32_derivations(
    const uint8_t *file, size_t file_len, const uint32_t *pairs, size_t pairs_len,
    const uint32_t *maps, size_t maps_len, const uint64_t *report, size_t report_len, uint64_t i,
    uint64_t *answer, size_t answer_len);

/* The MuSig2 public nonce (66 bytes) of a participant (33 bytes) under an aggregate key (33 bytes); `leaf` is a
   leaf hash (32 bytes), or empty. Answer: PLACE. */
uint64_t fastpsbt_input_get_musig2_pub_nonce(
    const uint8_t *file, size_t file_len, const uint32_t *pairs, size_t pairs_len,
    const uint32_t *maps, size_t maps_len, const uint64_t *report, size_t report_len, uint64_t i,
    const uint8_t *participant, size_t participant_len, const uint8_t *aggregate, size_t aggregate_len,
    const uint8_t *leaf, size_t leaf_len, uint64_t *answer, size_t answer_len);

/* The MuSig2 partial signature (32 bytes), asked in the same way. Answer: PLACE. */
uint64_t fastpsbt_input_get_musig2_partial_sig(
    const uint8_t *file, size_t file_len, const uint32_t *pairs, size_t pairs_len,
    const uint32_t *maps, size_t maps_len, const uint64_t *report, size_t report_len, uint64_t i,
    const uint8_t *participant, size_t participant_len, const uint8_t *aggregate, size_t aggregate_len,
    const uint8_t *leaf, size_t leaf_len, uint64_t *answer, size_t answer_len);

/* The participants of an aggregate key (33 bytes), keys of 33 bytes one after the other; `leaf` is a leaf hash
   (32 bytes), or empty. Answer: PLACE. */
uint64_t fastpsbt_input_get_musig2_participant_pubkeys(
    const uint8_t *file, size_t file_len, const uint32_t *pairs, size_t pairs_len,
    const uint32_t *maps, size_t maps_len, const uint64_t *report, size_t report_len, uint64_t i,
    const uint8_t *aggregate, size_t aggregate_len, const uint8_t *leaf, size_t leaf_len,
    uint64_t *answer, size_t answer_len);

/* How many participants these are. Answer: NUMBER. */
uint64_t fastpsbt_input_get_musig2_participant_count(
    const uint8_t *file, size_t file_len, const uint32_t *pairs, size_t pairs_len,
    const uint32_t *maps, size_t maps_len, const uint64_t *report, size_t report_len, uint64_t i,
    const uint8_t *aggregate, size_t aggregate_len, const uint8_t *leaf, size_t leaf_len,
    uint64_t *answer, size_t answer_len);

/* Participant number `n` of these, 33 bytes; FASTPSBT_OUT_OF_RANGE past the last. Answer: PLACE. */
uint64_t fastpsbt_input_get_musig2_participant(
    const uint8_t *file, size_t file_len, const uint32_t *pairs, size_t pairs_len,
    const uint32_t *maps, size_t maps_len, const uint64_t *report, size_t report_len, uint64_t i,
    const uint8_t *aggregate, size_t aggregate_len, const uint8_t *leaf, size_t leaf_len, size_t n,
    uint64_t *answer, size_t answer_len);

/* The output that is spent: its amount, and where its script stands. Answer: UTXO. */
uint64_t fastpsbt_input_get_witness_utxo(
    const uint8_t *file, size_t file_len, const uint32_t *pairs, size_t pairs_len,
    const uint32_t *maps, size_t maps_len, const uint64_t *report, size_t report_len, uint64_t i,
    uint64_t *answer, size_t answer_len);

/* ---- Output number `i`, counted from 0. ---- */

/* The redeem script. Answer: PLACE. */
uint64_t fastpsbt_output_redeem_script(
    const uint8_t *file, size_t file_len, const uint32_t *pairs, size_t pairs_len,
    const uint32_t *maps, size_t maps_len, const uint64_t *report, size_t report_len, uint64_t i,
    uint64_t *answer, size_t answer_len);

/* The witness script. Answer: PLACE. */
uint64_t fastpsbt_output_witness_script(
    const uint8_t *file, size_t file_len, const uint32_t *pairs, size_t pairs_len,
    const uint32_t *maps, size_t maps_len, const uint64_t *report, size_t report_len, uint64_t i,
    uint64_t *answer, size_t answer_len);

/* The amount. Answer: NUMBER. */
uint64_t fastpsbt_output_amount(
    const uint8_t *file, size_t file_len, const uint32_t *pairs, size_t pairs_len,
    const uint32_t *maps, size_t maps_len, const uint64_t *report, size_t report_len, uint64_t i,
    uint64_t *answer, size_t answer_len);

/* The script that the file itself has. Answer: PLACE. */
uint64_t fastpsbt_output_script(
    const uint8_t *file, size_t file_len, const uint32_t *pairs, size_t pairs_len,
    const uint32_t *maps, size_t maps_len, const uint64_t *report, size_t report_len, uint64_t i,
    uint64_t *answer, size_t answer_len);

/* The silent payment code, 66 bytes. Answer: PLACE. */
uint64_t fastpsbt_output_sp_v0_info(
    const uint8_t *file, size_t file_len, const uint32_t *pairs, size_t pairs_len,
    const uint32_t *maps, size_t maps_len, const uint64_t *report, size_t report_len, uint64_t i,
    uint64_t *answer, size_t answer_len);

/* The label of the silent payment code. Answer: NUMBER. */
uint64_t fastpsbt_output_sp_v0_label(
    const uint8_t *file, size_t file_len, const uint32_t *pairs, size_t pairs_len,
    const uint32_t *maps, size_t maps_len, const uint64_t *report, size_t report_len, uint64_t i,
    uint64_t *answer, size_t answer_len);

/* The pairs of a type. Answer: LISTING. */
uint64_t fastpsbt_output_iter_keys(
    const uint8_t *file, size_t file_len, const uint32_t *pairs, size_t pairs_len,
    const uint32_t *maps, size_t maps_len, const uint64_t *report, size_t report_len, uint64_t i,
    uint8_t key_type, uint64_t *answer, size_t answer_len);

/* The pairs that say how keys are derived. Answer: LISTING. */
uint64_t fastpsbt_output_bip32_derivations(
    const uint8_t *file, size_t file_len, const uint32_t *pairs, size_t pairs_len,
    const uint32_t *maps, size_t maps_len, const uint64_t *report, size_t report_len, uint64_t i,
    uint64_t *answer, size_t answer_len);

/* The participants of an aggregate key (33 bytes), keys of 33 bytes one after the other. Answer: PLACE. */
uint64_t fastpsbt_output_get_musig2_participant_pubkeys(
    const uint8_t *file, size_t file_len, const uint32_t *pairs, size_t pairs_len,
    const uint32_t *maps, size_t maps_len, const uint64_t *report, size_t report_len, uint64_t i,
    const uint8_t *aggregate, size_t aggregate_len, uint64_t *answer, size_t answer_len);

/* How many participants these are. Answer: NUMBER. */
uint64_t fastpsbt_output_get_musig2_participant_count(
    const uint8_t *file, size_t file_len, const uint32_t *pairs, size_t pairs_len,
    const uint32_t *maps, size_t maps_len, const uint64_t *report, size_t report_len, uint64_t i,
    const uint8_t *aggregate, size_t aggregate_len, uint64_t *answer, size_t answer_len);

/* Participant number `n` of these, 33 bytes; FASTPSBT_OUT_OF_RANGE past the last. Answer: PLACE. */
uint64_t fastpsbt_output_get_musig2_participant(
    const uint8_t *file, size_t file_len, const uint32_t *pairs, size_t pairs_len,
    const uint32_t *maps, size_t maps_len, const uint64_t *report, size_t report_len, uint64_t i,
    const uint8_t *aggregate, size_t aggregate_len, size_t n, uint64_t *answer, size_t answer_len);

/* The script that a transaction takes for the output: its own, or that of `scripts` where `set` is not 0.
   Answer: SCRIPT. */
uint64_t fastpsbt_output_output_script(
    const uint8_t *file, size_t file_len, const uint32_t *pairs, size_t pairs_len,
    const uint32_t *maps, size_t maps_len, const uint64_t *report, size_t report_len, uint64_t set,
    uint64_t written, const uint8_t *scripts, size_t scripts_len, uint64_t i,
    uint64_t *answer, size_t answer_len);

#ifdef __cplusplus
}
#endif

#endif

/* Pannuqreik: an index of picture frames in lent 64-bit words.
 *
 * Every call takes any numbers, words and bytes and comes to an end. A refusal is a number, and leaves the table, the
 * record and every output as they were. The library keeps nothing between calls, takes no memory and starts no thread.
 *
 * What a caller owes, since a library cannot judge it: a pointer points to as many elements as the length beside it says
 * (an array of fixed size to all of them), aligned for its type, and is not NULL, also where the length is 0; what one call
 * is lent does not overlap; and no other thread touches it until the call returns.
 *
 * Every promise below is proved of the code; docs/PROMISES.md names the definitions.
 */
#ifndef PANNUQREIK_H
#define PANNUQREIK_H

#include <stdbool.h>
#include <stddef.h>
#include <stdint.h>

#ifdef __cplusplus
extern "C" {
#endif

/* Answers. Each call below says which of them it gives. */
enum pannuqreik_answer {
    PANNUQREIK_DONE = 0,   /* done; the value is in its place */
    PANNUQREIK_GOING = 0,  /* a step: the work goes on, call again */
    PANNUQREIK_YES = 16,   /* a step: the work ended with yes. Check: the table is sound */
    PANNUQREIK_NO = 17,    /* a step: the work ended with no. Check: the table is not sound */
    PANNUQREIK_FULL = 5,   /* a step: the insert ended, there was no free slot */

    /* Refusals, in the order in which they are judged, where nothing else is said. */
    PANNUQREIK_TABLE = 1,     /* words not SLOT_WORDS a slot, under FEWEST_WORDS, over MOST_WORDS; root's pair breaks a rule */
    PANNUQREIK_STATE = 2,     /* start on a busy record; step or withdraw on an idle one */
    PANNUQREIK_RANGE = 3,     /* a key that is not legal, or fields out of range */
    PANNUQREIK_BUSY = 4,      /* 16 workers are busy */
    PANNUQREIK_DAMAGED = 6,   /* the record or a pair is damaged; the table is not sound */
    PANNUQREIK_STORED = 7,    /* withdraw after the first store */
    PANNUQREIK_WORKING = 8,   /* sweep while a worker is busy */
    PANNUQREIK_READERS = 9,   /* 16 readers hold the word already: step again later */
    PANNUQREIK_TEXT = 10,     /* no text of the forms; a date or time that does not exist */
    PANNUQREIK_BEYOND = 11,   /* place or length beyond the buffer; more keys than the buffer holds */
    PANNUQREIK_UNKNOWN = 12,  /* the text says that the time is unknown */
    PANNUQREIK_NONE = 13      /* first frame: no key at or above */
};

/* Sizes. A table has PANNUQREIK_SLOT_WORDS words for each slot, PANNUQREIK_FEWEST_SLOTS to PANNUQREIK_MOST_SLOTS slots; slot 0
 * is the root, so it holds at most one frame less. A table of 64 slots:
 *
 *     uint64_t words[64 * PANNUQREIK_SLOT_WORDS];
 */
enum pannuqreik_size {
    PANNUQREIK_SLOT_WORDS = 2, /* the words of a slot */
    PANNUQREIK_FEWEST_SLOTS = 2,
    PANNUQREIK_MOST_SLOTS = 1024,
    PANNUQREIK_FEWEST_WORDS = PANNUQREIK_FEWEST_SLOTS * PANNUQREIK_SLOT_WORDS,
    PANNUQREIK_MOST_WORDS = PANNUQREIK_MOST_SLOTS * PANNUQREIK_SLOT_WORDS,
    PANNUQREIK_RECORD_WORDS = 11,
    PANNUQREIK_MOST_WORKERS = 16,
    PANNUQREIK_KEY_FIELDS = 9,
    PANNUQREIK_MOMENT_FIELDS = 6,
    PANNUQREIK_TEXT_BYTES = 20
};

/* A worker's record is 11 words: work (0 idle, 1 lookup, 2 insert, 3 remove), key, phase (0 to 7), then what the phase
 * notes: this slot, previous, its side, the one before, its side, the child, its side, and the actions done; what a phase
 * does not note is 0. The caller keeps them and changes none of them. **Eleven zeros are an idle record**:
 *
 *     uint64_t record[PANNUQREIK_RECORD_WORDS] = {0};
 *
 * Use a record on one table only, and do not copy one that is busy. Words that are no record (another length, a number that
 * no record has, something noted that its phase does not note) are refused 6, right after 1: what cannot be read is neither
 * idle nor busy.
 */

/* ---- the table ---- */

/* Makes a fresh table of the words, whatever they held: the root, and all slots free. Only the length is judged.
 * DONE, or 1. */
uint64_t pannuqreik_fresh(uint64_t *words, size_t words_length);

/* Is the table sound? Nothing is changed. YES or NO, or 1. */
uint64_t pannuqreik_check(const uint64_t *words, size_t words_length);

/* The keys of the set from low to high, both included, smallest first, into the front of out; the rest of out stays.
 * The number of keys goes into *count. Low above high: none. DONE, or 1, 6 (not sound), 11 (more keys than out holds; out and
 * *count stay). */
uint64_t pannuqreik_list(const uint64_t *words, size_t words_length, uint64_t low, uint64_t high, uint64_t *out,
                         size_t out_length, uint64_t *count);

/* The smallest key of the set at or above from, into *key. DONE, or 1, 6 (not sound), 13 (there is none); *key stays then. */
uint64_t pannuqreik_first(const uint64_t *words, size_t words_length, uint64_t from, uint64_t *key);

/* Every deleted slot becomes free; the set stays. DONE, or 1, 8 (a worker is busy), 6 (not sound, a lock held, or a deleted
 * slot still linked). */
uint64_t pannuqreik_sweep(uint64_t *words, size_t words_length);

/* ---- workers ---- */

/* Begins a work on a key: takes a seat, and the record stands at the root. DONE, or 1, 6 (no record), 2 (busy), 3 (key), 4
 * (16 are busy). */
uint64_t pannuqreik_start_lookup(uint64_t *words, size_t words_length, uint64_t *record, size_t record_length, uint64_t key);
uint64_t pannuqreik_start_insert(uint64_t *words, size_t words_length, uint64_t *record, size_t record_length, uint64_t key);
uint64_t pannuqreik_start_remove(uint64_t *words, size_t words_length, uint64_t *record, size_t record_length, uint64_t key);

/* One step of a busy record. GOING; or YES, NO or FULL, which end the work: locks and seat are given up, the record is idle.
 * Lookup: YES if the key is in. Insert: YES if it put the key in, NO if it was in. Remove: YES if it took the key out, NO if it
 * was not in. Or 1, 6 (no record), 2 (idle), 6 (damaged), 9 (16 readers; step again later). */
uint64_t pannuqreik_step(uint64_t *words, size_t words_length, uint64_t *record, size_t record_length);

/* Gives up locks and seat of a work that has not stored yet; the record is idle then. DONE, or 1, 6 (no record), 2 (idle), 6
 * (damaged), 7 (it has stored: step it to its end). */
uint64_t pannuqreik_withdraw(uint64_t *words, size_t words_length, uint64_t *record, size_t record_length);

/* ---- keys ---- */

/* A key orders as the moments do. Its fields: year 1990 to 2999, month, day, hour, minute, second, hundredth to 99, camera to
 * 31 (31: from the wire), file number to 9999. */

/* The key of the nine fields, into *key. DONE, or 3; *key stays then. */
uint64_t pannuqreik_pack(const uint64_t fields[PANNUQREIK_KEY_FIELDS], uint64_t *key);

/* The nine fields of any key, legal or not. */
void pannuqreik_unpack(uint64_t key, uint64_t fields[PANNUQREIK_KEY_FIELDS]);

/* Is the key legal? (true or false, no answer number) */
bool pannuqreik_legal(uint64_t key);

/* ---- texts ---- */

/* Reads the capture text that is that part of the block: YYYY:MM:DD, a blank, the hour as two digits, a blank and a digit, or
 * one digit, :MM:SS and a NUL, which length counts. Year, month, day, hour, minute and second go into fields. DONE, or 11,
 * 12 (time unknown), 10; fields stay then. */
uint64_t pannuqreik_read_text(const uint8_t *block, size_t block_length, size_t place, size_t length,
                              uint64_t fields[PANNUQREIK_MOMENT_FIELDS]);

/* Writes the two-digit form of the key's date and time, 20 bytes with its NUL, at a place of the buffer; every other byte
 * stays. DONE, or 3 (key), 11 (beyond the buffer). */
uint64_t pannuqreik_write_text(uint8_t *buffer, size_t buffer_length, size_t place, uint64_t key);

/* Reads the sub-second text that is that part of the block: one or two digits and a NUL, or nothing (length 0), which is 0.
 * The hundredths go into *hundredths. DONE, or 11, 10; *hundredths stays then. */
uint64_t pannuqreik_read_sub_second(const uint8_t *block, size_t block_length, size_t place, size_t length,
                                    uint64_t *hundredths);

#ifdef __cplusplus
}
#endif

#endif

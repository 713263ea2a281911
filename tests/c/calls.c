/* Every call of include/pannuqreik.h, from C: the specification's light table, and a refusal of each number that a caller can
 * bring about. Prints what fails, by line, and exits 1 then. Buffers are taken from the heap at their exact size, so that
 * valgrind sees any access of the library beyond them (a sanitizer sees those of this program alone). */
#include "pannuqreik.h"
#include <inttypes.h>
#include <stdio.h>
#include <stdlib.h>
#include <string.h>

/* the fields of a slot's second word that this program looks at, from the top down */
enum { STATE_BITS = 2, LINK_BITS = 10, LOCK_BITS = 6 };
enum {
    STATE_AT = 64 - STATE_BITS,
    LEFT_AT = STATE_AT - LINK_BITS,
    RIGHT_AT = LEFT_AT - LINK_BITS,
    STATE_LOCK_AT = RIGHT_AT - LOCK_BITS
};
enum { DATA = 1, ROUTING = 2, DELETED = 3 };

static int failures = 0;
static int checks = 0;

static void expect_at(int line, uint64_t got, uint64_t want, const char *what)
{
    checks++;
    if (got == want)
        return;
    failures++;
    printf("line %d: %s is %" PRIx64 ", not %" PRIx64 "\n", line, what, got, want);
}

#define EXPECT(got, want) expect_at(__LINE__, (uint64_t)(got), (uint64_t)(want), #got)

/* a word that no table has */
static const uint64_t NO_TABLE = UINT64_C(0x5A5A5A5A5A5A5A5A);

/* words of the heap, n of them, filled with what is no table */
static uint64_t *words_of(size_t n)
{
    uint64_t *words = malloc(n * sizeof *words);
    for (size_t i = 0; i < n; i++)
        words[i] = NO_TABLE;
    return words;
}

static uint64_t *slot_key(uint64_t *words, size_t slot)
{
    return words + PANNUQREIK_SLOT_WORDS * slot;
}

static uint64_t *slot_fields(uint64_t *words, size_t slot)
{
    return slot_key(words, slot) + 1;
}

static uint64_t slot_state(uint64_t *words, size_t slot)
{
    return *slot_fields(words, slot) >> STATE_AT;
}

static uint64_t *record_of(void)
{
    return calloc(PANNUQREIK_RECORD_WORDS, sizeof(uint64_t));
}

static uint64_t key_of(uint64_t hour, uint64_t minute, uint64_t number)
{
    uint64_t fields[PANNUQREIK_KEY_FIELDS] = {2024, 6, 15, hour, minute, 7, 0, 1, number};
    uint64_t key = 0;
    EXPECT(pannuqreik_pack(fields, &key), PANNUQREIK_DONE);
    return key;
}

/* steps until the work ends; how many there were */
static int run(uint64_t *words, size_t n, uint64_t *record, uint64_t last)
{
    int steps = 1;
    uint64_t said;
    while ((said = pannuqreik_step(words, n, record, PANNUQREIK_RECORD_WORDS)) == PANNUQREIK_GOING)
        steps++;
    EXPECT(said, last);
    return steps;
}

static int insert(uint64_t *words, size_t n, uint64_t *record, uint64_t key, uint64_t last)
{
    EXPECT(pannuqreik_start_insert(words, n, record, PANNUQREIK_RECORD_WORDS, key), PANNUQREIK_DONE);
    return run(words, n, record, last);
}

static int remove_key(uint64_t *words, size_t n, uint64_t *record, uint64_t key, uint64_t last)
{
    EXPECT(pannuqreik_start_remove(words, n, record, PANNUQREIK_RECORD_WORDS, key), PANNUQREIK_DONE);
    return run(words, n, record, last);
}

static void keys_and_texts(void)
{
    EXPECT(key_of(9, 58, 101), UINT64_C(0x7E867A7A1C004065));
    EXPECT(key_of(10, 2, 102), UINT64_C(0x7E867A821C004066));
    uint64_t nine[PANNUQREIK_KEY_FIELDS];
    pannuqreik_unpack(UINT64_C(0x7E867A7A1C004065), nine);
    EXPECT(nine[0], 2024);
    EXPECT(nine[3], 9);
    EXPECT(nine[8], 101);
    nine[6] = 100;
    uint64_t key = 5;
    EXPECT(pannuqreik_pack(nine, &key), PANNUQREIK_RANGE);
    EXPECT(key, 5);
    EXPECT(pannuqreik_legal(UINT64_C(0x7E867A7A1C004065)), true);
    EXPECT(pannuqreik_legal(0), false);

    static const struct {
        const char *text;
        size_t length;
        uint64_t said, hour;
    } texts[] = {
        {"2024:06:15 09:58:07", 20, 0, 9},  {"2024:06:15  9:58:07", 20, 0, 9},  {"2024:06:15 9:58:07", 19, 0, 9},
        {"2024:06:15 9:58:07\0", 20, 0, 9}, {"2024:06:15 23:59:59", 20, 0, 23}, {"2024:06:15 24:00:00", 20, 10, 77},
        {"2000:02:29 10:00:00", 20, 0, 10}, {"2100:02:29 10:00:00", 20, 10, 77}, {"                   ", 20, 12, 77},
        {"    :  :     :  :  ", 20, 12, 77}, {"2024:06:15 09:58:07", 19, 10, 77}, {"", 0, 10, 77},
    };
    for (size_t i = 0; i < sizeof texts / sizeof *texts; i++) {
        uint64_t six[PANNUQREIK_MOMENT_FIELDS] = {77, 77, 77, 77, 77, 77};
        size_t place = i % 4, size = place + texts[i].length;
        uint8_t *block = malloc(size + 1);
        memset(block, '#', size + 1);
        memcpy(block + place, texts[i].text, texts[i].length);
        EXPECT(pannuqreik_read_text(block, size, place, texts[i].length, six), texts[i].said);
        EXPECT(six[3], texts[i].hour);
        EXPECT(pannuqreik_read_text(block, size, place + 1, texts[i].length, six), PANNUQREIK_BEYOND);
        EXPECT(pannuqreik_read_text(block, size, SIZE_MAX, SIZE_MAX, six), PANNUQREIK_BEYOND);
        free(block);
    }

    uint8_t *buffer = malloc(22);
    memset(buffer, '#', 22);
    EXPECT(pannuqreik_write_text(buffer, 22, 1, key_of(9, 58, 101)), PANNUQREIK_DONE);
    EXPECT(memcmp(buffer, "#2024:06:15 09:58:07\0#", 22), 0);
    EXPECT(pannuqreik_write_text(buffer, 22, 3, key_of(9, 58, 101)), PANNUQREIK_BEYOND);
    EXPECT(pannuqreik_write_text(buffer, 22, 3, 0), PANNUQREIK_RANGE);
    EXPECT(memcmp(buffer, "#2024:06:15 09:58:07\0#", 22), 0);
    free(buffer);

    uint64_t hundredths = 77;
    EXPECT(pannuqreik_read_sub_second((const uint8_t *)"123", 4, 0, 4, &hundredths), PANNUQREIK_TEXT);
    EXPECT(hundredths, 77);
    EXPECT(pannuqreik_read_sub_second((const uint8_t *)"42", 3, 0, 3, &hundredths), PANNUQREIK_DONE);
    EXPECT(hundredths, 42);
    EXPECT(pannuqreik_read_sub_second((const uint8_t *)"7", 2, 0, 2, &hundredths), PANNUQREIK_DONE);
    EXPECT(hundredths, 7);
    EXPECT(pannuqreik_read_sub_second((const uint8_t *)"", 1, 1, 0, &hundredths), PANNUQREIK_DONE);
    EXPECT(hundredths, 0);
}

static void two_slots(void)
{
    const size_t n = 2 * PANNUQREIK_SLOT_WORDS;
    uint64_t *words = words_of(n), *a = record_of(), *b = record_of();
    uint64_t key = key_of(10, 2, 102);
    EXPECT(pannuqreik_check(words, n), PANNUQREIK_TABLE);
    EXPECT(pannuqreik_fresh(words, n), PANNUQREIK_DONE);
    EXPECT(*slot_fields(words, 0), UINT64_C(0x4000000000000000));
    EXPECT(pannuqreik_step(words, n, a, PANNUQREIK_RECORD_WORDS), PANNUQREIK_STATE);
    EXPECT(pannuqreik_start_insert(words, n, a, PANNUQREIK_RECORD_WORDS, 0), PANNUQREIK_RANGE);
    EXPECT(pannuqreik_start_insert(words, n, a, PANNUQREIK_RECORD_WORDS, key), PANNUQREIK_DONE);
    EXPECT(pannuqreik_start_insert(words, n, a, PANNUQREIK_RECORD_WORDS, key), PANNUQREIK_STATE);
    EXPECT(pannuqreik_start_insert(words, n, b, PANNUQREIK_RECORD_WORDS, key_of(9, 58, 101)), PANNUQREIK_DONE);
    /* both end their walks under the fresh root; one locks, the other's next step restarts */
    EXPECT(pannuqreik_step(words, n, a, PANNUQREIK_RECORD_WORDS), PANNUQREIK_GOING);
    EXPECT(pannuqreik_step(words, n, b, PANNUQREIK_RECORD_WORDS), PANNUQREIK_GOING);
    EXPECT(b[2], 2);
    EXPECT(pannuqreik_step(words, n, a, PANNUQREIK_RECORD_WORDS), PANNUQREIK_GOING);
    EXPECT(pannuqreik_step(words, n, b, PANNUQREIK_RECORD_WORDS), PANNUQREIK_GOING);
    EXPECT(b[2], 0);
    EXPECT(pannuqreik_withdraw(words, n, b, PANNUQREIK_RECORD_WORDS), PANNUQREIK_DONE);
    EXPECT(*slot_fields(words, 0), UINT64_C(0x4000000040080000));
    EXPECT(pannuqreik_sweep(words, n), PANNUQREIK_WORKING);
    EXPECT(pannuqreik_step(words, n, a, PANNUQREIK_RECORD_WORDS), PANNUQREIK_GOING);
    EXPECT(pannuqreik_step(words, n, a, PANNUQREIK_RECORD_WORDS), PANNUQREIK_GOING);
    EXPECT(pannuqreik_withdraw(words, n, a, PANNUQREIK_RECORD_WORDS), PANNUQREIK_STORED);
    EXPECT(pannuqreik_step(words, n, a, PANNUQREIK_RECORD_WORDS), PANNUQREIK_YES);
    EXPECT(*slot_fields(words, 0), UINT64_C(0x4010000000000000));
    /* a record that no record is: another length, a word that its phase does not note */
    EXPECT(pannuqreik_step(words, n, a, PANNUQREIK_RECORD_WORDS - 1), PANNUQREIK_DAMAGED);
    a[10] = 1;
    EXPECT(pannuqreik_step(words, n, a, PANNUQREIK_RECORD_WORDS), PANNUQREIK_DAMAGED);
    EXPECT(a[10], 1);
    *slot_key(words, 0) = 0;
    EXPECT(pannuqreik_step(words, n, a, PANNUQREIK_RECORD_WORDS), PANNUQREIK_TABLE);
    free(words);
    free(a);
    free(b);
}

static void four_slots(void)
{
    const size_t n = 4 * PANNUQREIK_SLOT_WORDS;
    uint64_t *words = words_of(n), *r = record_of();
    const uint64_t a = key_of(9, 0, 1), b = key_of(10, 0, 2), c = key_of(11, 0, 3), d = key_of(12, 0, 4);
    EXPECT(pannuqreik_fresh(words, n), PANNUQREIK_DONE);
    EXPECT(insert(words, n, r, b, PANNUQREIK_YES), 5);
    insert(words, n, r, a, PANNUQREIK_YES);
    insert(words, n, r, c, PANNUQREIK_YES);
    EXPECT(*slot_key(words, 1), b);
    EXPECT(*slot_key(words, 2), a);
    EXPECT(*slot_key(words, 3), c);
    EXPECT(pannuqreik_start_lookup(words, n, r, PANNUQREIK_RECORD_WORDS, c), PANNUQREIK_DONE);
    EXPECT(run(words, n, r, PANNUQREIK_YES), 3);
    insert(words, n, r, c, PANNUQREIK_NO);
    insert(words, n, r, d, PANNUQREIK_FULL);

    uint64_t *out = words_of(3), count = 77, first = 77;
    EXPECT(pannuqreik_list(words, n, 0, UINT64_MAX, out, 2, &count), PANNUQREIK_BEYOND);
    EXPECT(count, 77);
    EXPECT(pannuqreik_list(words, n, 0, UINT64_MAX, out, 3, &count), PANNUQREIK_DONE);
    EXPECT(count, 3);
    EXPECT(out[0], a);
    EXPECT(out[2], c);
    EXPECT(pannuqreik_first(words, n, a + 1, &first), PANNUQREIK_DONE);
    EXPECT(first, b);
    EXPECT(pannuqreik_first(words, n, c + 1, &first), PANNUQREIK_NONE);
    EXPECT(first, b);
    EXPECT(pannuqreik_check(words, n), PANNUQREIK_YES);

    EXPECT(remove_key(words, n, r, b, PANNUQREIK_YES), 5);
    EXPECT(slot_state(words, 1), ROUTING);
    EXPECT(remove_key(words, n, r, a, PANNUQREIK_YES), 13);
    EXPECT(slot_state(words, 1), DELETED);
    EXPECT(slot_state(words, 2), DELETED);
    EXPECT(*slot_fields(words, 0), (uint64_t)DATA << STATE_AT | UINT64_C(3) << LEFT_AT);
    remove_key(words, n, r, a, PANNUQREIK_NO);
    insert(words, n, r, d, PANNUQREIK_FULL);
    EXPECT(pannuqreik_sweep(words, n), PANNUQREIK_DONE);
    insert(words, n, r, d, PANNUQREIK_YES);
    EXPECT(*slot_key(words, 1), d);
    *slot_fields(words, 2) = 1;
    EXPECT(pannuqreik_check(words, n), PANNUQREIK_NO);
    EXPECT(pannuqreik_list(words, n, 0, UINT64_MAX, out, 3, &count), PANNUQREIK_DAMAGED);
    EXPECT(pannuqreik_first(words, n, 0, &first), PANNUQREIK_DAMAGED);
    EXPECT(pannuqreik_sweep(words, n), PANNUQREIK_DAMAGED);
    free(words);
    free(r);
    free(out);
}

static void limits(void)
{
    enum { MORE_WORDS = PANNUQREIK_MOST_WORDS + PANNUQREIK_SLOT_WORDS, RECORDS = PANNUQREIK_MOST_WORKERS + 1 };
    const size_t n = PANNUQREIK_MOST_WORDS;
    uint64_t *words = words_of(MORE_WORDS);
    EXPECT(pannuqreik_fresh(words, MORE_WORDS), PANNUQREIK_TABLE);
    EXPECT(pannuqreik_fresh(words, PANNUQREIK_FEWEST_WORDS + 1), PANNUQREIK_TABLE);
    EXPECT(pannuqreik_fresh(words, PANNUQREIK_SLOT_WORDS), PANNUQREIK_TABLE);
    EXPECT(pannuqreik_fresh(words, 0), PANNUQREIK_TABLE);
    EXPECT(words[0], NO_TABLE);
    EXPECT(pannuqreik_fresh(words, n), PANNUQREIK_DONE);
    EXPECT(words[n], NO_TABLE);
    uint64_t *records[RECORDS], key = key_of(10, 2, 102);
    for (int i = 0; i < RECORDS; i++) {
        records[i] = record_of();
        EXPECT(pannuqreik_start_insert(words, n, records[i], PANNUQREIK_RECORD_WORDS, key),
               i < PANNUQREIK_MOST_WORKERS ? PANNUQREIK_DONE : PANNUQREIK_BUSY);
    }
    /* 16 readers on the root's state, by hand: an insert that wants to read it is refused 9 and may try again */
    EXPECT(pannuqreik_step(words, n, records[0], PANNUQREIK_RECORD_WORDS), PANNUQREIK_GOING);
    EXPECT(pannuqreik_step(words, n, records[0], PANNUQREIK_RECORD_WORDS), PANNUQREIK_GOING);
    *slot_fields(words, 0) += UINT64_C(32) << STATE_LOCK_AT;
    EXPECT(pannuqreik_step(words, n, records[0], PANNUQREIK_RECORD_WORDS), PANNUQREIK_READERS);
    for (int i = 0; i < RECORDS; i++)
        free(records[i]);
    free(words);
}

int main(void)
{
    keys_and_texts();
    two_slots();
    four_slots();
    limits();
    printf("%d checks, %d failed\n", checks, failures);
    return failures != 0;
}

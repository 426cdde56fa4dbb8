/* Every call of the library, with answers known by hand: full rooms, small rooms, empty slices, refusals; then two
   threads at once. Prints what is wrong, and how many checks passed. */
#include <pthread.h>

#include "checks.h"
#include "files.h"

struct answer {
    uint32_t status;
    size_t needed;
    struct heavy_fault told;
    uint8_t *room;
};

/* An answer of nothing yet, with a room of so many bytes, all 0xAA. */
static struct answer room_of(size_t size) {
    struct answer a = {77, 77, {77, 77, 77}, malloc(size ? size : 1)};
    if (!a.room)
        abort();
    memset(a.room, 0xAA, size ? size : 1);
    return a;
}

static struct answer summarise(const char *text, uint64_t k, size_t room) {
    struct answer a = room_of(room);
    uint8_t *lent = block(text, strlen(text));
    a.status = file_of_text(lent, strlen(text), k, a.room, room, &a.needed, &a.told);
    free(lent);
    return a;
}

static struct answer table(const char *text, uint64_t width, uint64_t depth, size_t room) {
    struct answer a = room_of(room);
    uint8_t *lent = block(text, strlen(text));
    a.status = table_of_text(lent, strlen(text), width, depth, 0, a.room, room, &a.needed, &a.told);
    free(lent);
    return a;
}

static struct answer merge(const void *files, size_t size, const size_t *lengths, size_t count, size_t room) {
    struct answer a = room_of(room);
    uint8_t *lent = block(files, size);
    a.status = merge_of(lent, size, lengths, count, a.room, room, &a.needed, &a.told);
    free(lent);
    return a;
}

static struct answer confirm(const struct answer *file, const char *text, size_t room) {
    struct answer a = room_of(room);
    uint8_t *lent = block(text, strlen(text));
    a.status = confirm_records_by(file->room, file->needed, lent, strlen(text), &RECORDS, NULL, 0, NULL, 0, 0, 0, a.room, room,
                                  &a.needed, &a.told);
    free(lent);
    return a;
}

static struct answer condense(const void *file, size_t size, const char *text, size_t room) {
    struct answer a = room_of(room);
    uint8_t *lent = block(text, strlen(text)), *held = block(file, size);
    a.status = condense_records_by(held, size, lent, strlen(text), &RECORDS, NULL, 0, NULL, 0, a.room, room, &a.needed, &a.told);
    free(held);
    free(lent);
    return a;
}

/* The room is an array of so many bounds, or entries. */
static struct answer ask_keys(const void *file, size_t size, const char *keys, const size_t *lengths, size_t count,
                              size_t room) {
    struct answer a = room_of(room * sizeof(struct heavy_bounds));
    uint8_t *lent = block(keys, strlen(keys)), *held = block(file, size);
    a.status = ask_file_keys(held, size, lent, strlen(keys), lengths, count, (struct heavy_bounds *)a.room, room,
                              &a.needed, &a.told);
    free(held);
    free(lent);
    return a;
}

static struct answer entries(const void *file, size_t size, size_t room) {
    struct answer a = room_of(room * sizeof(struct heavy_entry));
    uint8_t *held = block(file, size);
    a.status = entries_of_file(held, size, (struct heavy_entry *)a.room, room, &a.needed, &a.told);
    free(held);
    return a;
}

static struct answer list(const void *file, size_t size, size_t room) {
    struct answer a = room_of(room);
    uint8_t *held = block(file, size);
    a.status = list_file(held, size, a.room, room, &a.needed, &a.told);
    free(held);
    return a;
}

static struct answer confirm_above(const void *file, size_t size, const char *text, uint64_t p, uint64_t q,
                                   size_t room) {
    struct answer a = room_of(room);
    uint8_t *lent = block(text, strlen(text)), *held = block(file, size);
    a.status = confirm_records_by(held, size, lent, strlen(text), &RECORDS, NULL, 0, NULL, 0, p, q, a.room, room, &a.needed,
                                  &a.told);
    free(held);
    free(lent);
    return a;
}

static struct answer empty(uint64_t k, size_t room) {
    struct answer a = room_of(room);
    struct heavy *value = NULL;
    uint32_t status = heavy_new_summary(&value, k, &FIXED, &a.told);
    a.status = saved(value, status, a.room, room, &a.needed, &a.told);
    return a;
}

/* Which call takes the items, and its share where it has one. */
enum items_call { ADD, CONDENSE, CONFIRM, CONFIRM_ABOVE };

/* The weights may be none. */
static struct answer of_items_by(const struct heavy_hash *hash, enum items_call call, const void *file, size_t size,
                                 const char *keys, const uint64_t *ends, size_t count, const uint64_t *weights, size_t weighed,
                                 const uint64_t *share, size_t room) {
    struct answer a = room_of(room);
    struct heavy *value = NULL;
    uint8_t *lent = block(keys, strlen(keys)), *held = block(file, size);
    uint64_t *places = (uint64_t *)block(ends, count * sizeof *ends);
    uint64_t *numbers = (uint64_t *)block(weights, weighed * sizeof *weights);
    const uint64_t p = call == CONFIRM_ABOVE ? share[0] : 0, q = call == CONFIRM_ABOVE ? share[1] : 0;
    size_t len = strlen(keys);
    a.needed = 0;
    a.status = heavy_load(&value, held, size, hash, &a.told);
    if (a.status != HEAVY_DONE) {
    } else if (call == ADD) {
        a.status = heavy_update_items(value, lent, len, places, count, numbers, weighed, &a.told);
        a.status = a.status ? a.status : heavy_save(value, a.room, room, &a.needed, &a.told);
    } else if (call == CONDENSE) {
        a.status = heavy_condense_items(value, lent, len, places, count, numbers, weighed, a.room, room, &a.needed, &a.told);
    } else {
        a.status = heavy_confirm_items(value, lent, len, places, count, numbers, weighed, p, q, a.room, room, &a.needed, &a.told);
    }
    heavy_free(value);
    free(held);
    free(lent);
    free(places);
    free(numbers);
    return a;
}

static int is_same(const struct answer *a, const struct answer *b, size_t room) {
    return a->status == b->status && a->needed == b->needed && memcmp(&a->told, &b->told, sizeof a->told) == 0
        && memcmp(a->room, b->room, room) == 0;
}

/* The answer, which words of a hash leave as it is. */
static struct answer of_items(enum items_call call, const void *file, size_t size, const char *keys, const uint64_t *ends,
                              size_t count, const uint64_t *weights, size_t weighed, const uint64_t *share, size_t room) {
    static const struct heavy_hash DRAWN = {{5, 9}};
    struct answer a = of_items_by(&FIXED, call, file, size, keys, ends, count, weights, weighed, share, room);
    struct answer b = of_items_by(&DRAWN, call, file, size, keys, ends, count, weights, weighed, share, room);
    check("the same by words of a hash", is_same(&a, &b, room));
    free(b.room);
    return a;
}

static struct answer add(const void *file, size_t size, const char *keys, const uint64_t *ends, size_t count,
                         const uint64_t *weights, size_t weighed, size_t room) {
    return of_items(ADD, file, size, keys, ends, count, weights, weighed, NULL, room);
}

static int told(const struct answer *a, uint32_t status, uint32_t kind, uint32_t cause, uint64_t number) {
    return a->status == status && a->needed == 0 && a->told.kind == kind && a->told.cause == cause
        && a->told.number == number && a->room[0] == 0xAA;
}

static int gave(const struct answer *a, const void *bytes, size_t size) {
    return a->status == HEAVY_DONE && a->needed == size && memcmp(a->room, bytes, size) == 0 && a->told.kind == 0
        && a->told.cause == 0 && a->told.number == 0;
}

static int small(const struct answer *a, size_t size) {
    return a->status == HEAVY_TOO_SMALL && a->needed == size && a->room[0] == 0xAA && a->told.kind == 0
        && a->told.cause == 0 && a->told.number == 0;
}

static void try_summaries(void) {
    struct answer a = summarise("a,5\nb,3\n", 2, sizeof ONE - 1);
    check("a summary in a room of its size", gave(&a, BYTES(ONE)));
    free(a.room);
    a = summarise("a,5\nb,3\n", 2, sizeof ONE - 2);
    check("a summary in a room that is a byte too small", small(&a, sizeof ONE - 1));
    free(a.room);
    a = summarise("", 2, 0);
    check("no records, and no room", small(&a, 17));
    free(a.room);
    struct {
        const char *text;
        uint64_t k;
        uint32_t status, kind, cause;
        uint64_t number;
    } rows[] = {
        {"a,0\n", 0, HEAVY_USAGE, HEAVY_BAD_K, 0, 0},
        {"a,0\n", 65536, HEAVY_USAGE, HEAVY_BAD_K, 0, 0},
        {"b\na,0\n", 2, HEAVY_REFUSED, HEAVY_BAD_RECORD, HEAVY_RECORD_ZERO_WEIGHT, 2},
        {"a,1,2\n", 2, HEAVY_REFUSED, HEAVY_BAD_RECORD, HEAVY_RECORD_FIELD_COUNT, 1},
        {",1\n", 2, HEAVY_REFUSED, HEAVY_BAD_RECORD, HEAVY_RECORD_EMPTY_KEY, 1},
        {"a,x\n", 2, HEAVY_REFUSED, HEAVY_BAD_RECORD, HEAVY_RECORD_BAD_WEIGHT, 1},
        {"a,9223372036854775807\nb\n", 2, HEAVY_REFUSED, HEAVY_BAD_RECORD, HEAVY_RECORD_TOTAL_TOO_LARGE, 2},
    };
    for (size_t i = 0; i < sizeof rows / sizeof *rows; i++) {
        struct answer a = summarise(rows[i].text, rows[i].k, 64);
        check(rows[i].text, told(&a, rows[i].status, rows[i].kind, rows[i].cause, rows[i].number));
        free(a.room);
    }
}

static void try_merges(void) {
    char files[sizeof ONE + sizeof TWO];
    memcpy(files, ONE, sizeof ONE - 1);
    memcpy(files + sizeof ONE - 1, TWO, sizeof TWO - 1);
    size_t both = sizeof ONE + sizeof TWO - 2, lengths[] = {sizeof ONE - 1, sizeof TWO - 1};
    struct answer a = merge(files, both, lengths, 2, sizeof BOTH - 1);
    check("two summaries", gave(&a, BYTES(BOTH)));
    free(a.room);
    a = merge(files, both, lengths, 1, sizeof ONE - 1);
    check("the first alone", gave(&a, BYTES(ONE)));
    free(a.room);
    a = merge(files, both, lengths, 2, 1);
    check("two summaries in a small room", small(&a, sizeof BOTH - 1));
    free(a.room);
    a = merge(files, both - 1, lengths, 2, 64);
    check("bytes that end before the lengths", told(&a, HEAVY_REFUSED, HEAVY_BAD_FILE, HEAVY_FILE_TRUNCATED, 2));
    free(a.room);
    size_t huge[] = {sizeof ONE - 1, SIZE_MAX};
    a = merge(files, both, huge, 2, sizeof BOTH - 1);
    check("a length above all that is left", gave(&a, BYTES(BOTH)));
    free(a.room);
    struct answer other = summarise("a\n", 3, 64);
    memcpy(files, other.room, other.needed);
    memcpy(files + other.needed, ONE, sizeof ONE - 1);
    size_t mixed[] = {other.needed, sizeof ONE - 1};
    a = merge(files, other.needed + sizeof ONE - 1, mixed, 2, 64);
    check("another k", told(&a, HEAVY_REFUSED, HEAVY_CANNOT_MERGE, HEAVY_MERGE_DIFFERENT_K, 2));
    free(a.room);
    free(other.room);
}

static void try_tables(void) {
    struct answer a = table("a,5\n", 1, 1, 64);
    check("a table of one cell", a.status == HEAVY_DONE && a.needed == 4 + 1 + 4 + 1 + 8 + 16 + 8 + 8);
    uint64_t low = 77, high = 77;
    struct heavy_fault told_of = {77, 77, 77};
    uint32_t status = ask_file(a.room, a.needed, (const uint8_t *)"z", 1, &low, &high, &told_of);
    check("its one cell", status == HEAVY_DONE && low == 0 && high == 5 && told_of.kind == 0);
    struct answer b = confirm(&a, "a,5\n", 64);
    check("a table isn't confirmed", told(&b, HEAVY_REFUSED, HEAVY_NOT_COUNTERS, 0, 0));
    free(a.room);
    free(b.room);
    a = table("a,0\n", 0, 0, 64);
    check("the depth comes first", told(&a, HEAVY_USAGE, HEAVY_BAD_DEPTH, 0, 0));
    free(a.room);
    a = table("a,0\n", 65537, 16, 64);
    check("then the width", told(&a, HEAVY_USAGE, HEAVY_BAD_WIDTH, 0, 0));
    free(a.room);
}

static void try_keys(void) {
    struct answer file = summarise("a,5\nb,3\nc,2\na,1\n", 2, 64);
    uint64_t low = 77, high = 77;
    struct heavy_fault fault = {77, 77, 77};
    /* 2 is taken from each of three counters at c: a 3 + 1, b 1, and of the total of 11 at most 2 for each */
    uint32_t status = ask_file(file.room, file.needed, (const uint8_t *)"a", 1, &low, &high, &fault);
    check("a key with a counter", status == HEAVY_DONE && low == 4 && high == 6 && fault.kind == 0);
    low = high = 77;
    status = ask_file(file.room, file.needed, (const uint8_t *)"a", 0, &low, &high, &fault);
    check("a key of no bytes", status == HEAVY_REFUSED && fault.kind == HEAVY_BAD_KEY && fault.cause == HEAVY_KEY_EMPTY
          && fault.number == 1 && low == 77 && high == 77);
    status = ask_file(file.room, 0, (const uint8_t *)"a", 0, &low, &high, &fault);
    check("the file comes first", status == HEAVY_REFUSED && fault.kind == HEAVY_BAD_FILE
          && fault.cause == HEAVY_FILE_TRUNCATED && fault.number == 1);
    struct answer rows = confirm(&file, "a,5\nb,3\nc,2\na,1\n", 4);
    check("confirmed rows", gave(&rows, BYTES("a,6\n")));
    free(rows.room);
    rows = confirm(&file, "a,5\n", 4);
    check("another total", told(&rows, HEAVY_REFUSED, HEAVY_TOTAL_DIFFERS, 0, 0));
    free(rows.room);
    free(file.room);
}

static int is_bounds(const struct answer *a, size_t i, uint64_t low, uint64_t high) {
    const struct heavy_bounds *all = (const struct heavy_bounds *)a->room;
    return all[i].low == low && all[i].high == high;
}

static void try_many_keys(void) {
    struct answer file = summarise("a,5\nb,3\nc,2\na,1\n", 2, 64);
    size_t lengths[] = {1, 2, 1, 1};
    /* the counters are as in try_keys, and no other key weighs more than 2 */
    struct answer a = ask_keys(file.room, file.needed, "bnoaz", lengths, 4, 4);
    check("many keys", a.status == HEAVY_DONE && a.needed == 4 && a.told.kind == 0 && is_bounds(&a, 0, 1, 3)
          && is_bounds(&a, 1, 0, 2) && is_bounds(&a, 2, 4, 6) && is_bounds(&a, 3, 0, 2));
    free(a.room);
    a = ask_keys(file.room, file.needed, "bnoaz", lengths, 4, 3);
    check("many keys in a room that is one too small", small(&a, 4));
    free(a.room);
    a = ask_keys(file.room, file.needed, "", lengths, 0, 0);
    check("no keys", a.status == HEAVY_DONE && a.needed == 0);
    free(a.room);
    a = ask_keys(file.room, file.needed, "bno", lengths, 3, 3);
    check("keys that end before the lengths", told(&a, HEAVY_REFUSED, HEAVY_BAD_KEY, HEAVY_KEY_EMPTY, 3));
    free(a.room);
    char *longest = malloc(4098);
    if (!longest)
        abort();
    memset(longest, 'x', 4097);
    longest[4097] = 0;
    size_t limits[] = {4096, 1}, beyond[] = {0, 4097};
    a = ask_keys(file.room, file.needed, longest, limits, 2, 2);
    check("a key of the most bytes", a.status == HEAVY_DONE && is_bounds(&a, 0, 0, 2) && is_bounds(&a, 1, 0, 2));
    free(a.room);
    limits[0] = 4097;
    a = ask_keys(file.room, file.needed, longest, limits, 1, 2);
    check("a key of more bytes", told(&a, HEAVY_REFUSED, HEAVY_BAD_KEY, HEAVY_KEY_TOO_LONG, 1));
    free(a.room);
    a = ask_keys(file.room, file.needed, longest, beyond, 2, 2);
    check("the first bad key", told(&a, HEAVY_REFUSED, HEAVY_BAD_KEY, HEAVY_KEY_EMPTY, 1));
    free(a.room);
    a = ask_keys(file.room, file.needed - 1, longest, beyond, 2, 2);
    check("the file comes before the keys", told(&a, HEAVY_REFUSED, HEAVY_BAD_FILE, HEAVY_FILE_TRUNCATED, 1));
    free(a.room);
    free(longest);
    free(file.room);
}

/* The key of an entry is these bytes of the file, and its counter is this. */
static int is_entry(const struct answer *a, size_t i, const char *file, const char *key, uint64_t counter) {
    struct heavy_entry e = ((const struct heavy_entry *)a->room)[i];
    return e.len == strlen(key) && memcmp(file + e.start, key, e.len) == 0 && e.counter == counter;
}

static void try_entries(void) {
    struct answer a = entries(BYTES(BOTH), 2);
    check("entries", a.status == HEAVY_DONE && a.needed == 2 && a.told.kind == 0 && is_entry(&a, 0, BOTH, "a", 4)
          && is_entry(&a, 1, BOTH, "c", 1));
    free(a.room);
    a = entries(BYTES(BOTH), 1);
    check("entries in a small room", small(&a, 2));
    free(a.room);
    /* version 1, in which a key's length has one byte: k 2, a total of 9, b 3 and cd 5; and what is saved of it */
    static const char FIRST[] = "HHS1\1\0\2\0\0\0\0\0\0\0\11\0\2\1b\0\0\0\0\0\0\0\3\2cd\0\0\0\0\0\0\0\5";
    static const char SAVED[] = "HHS2\1\0\2\0\0\0\0\0\0\0\11\0\2\0\1b\0\0\0\0\0\0\0\3\0\2cd\0\0\0\0\0\0\0\5";
    a = entries(BYTES(FIRST), 2);
    check("entries of version 1", a.status == HEAVY_DONE && a.needed == 2 && is_entry(&a, 0, SAVED, "b", 3)
          && is_entry(&a, 1, SAVED, "cd", 5));
    free(a.room);
    struct answer file = summarise("", 2, 17);
    a = entries(file.room, file.needed, 0);
    check("no entries", a.status == HEAVY_DONE && a.needed == 0);
    free(a.room);
    free(file.room);
    a = entries(BYTES(BOTH) - 1, 2);
    check("no entries of a damaged file", told(&a, HEAVY_REFUSED, HEAVY_BAD_FILE, HEAVY_FILE_TRUNCATED, 1));
    free(a.room);
    file = table("a,5\n", 1, 1, 64);
    a = entries(file.room, file.needed, 2);
    check("no entries of a table", told(&a, HEAVY_REFUSED, HEAVY_NOT_COUNTERS, 0, 0));
    free(a.room);
    free(file.room);
}

static void try_condensed(void) {
    /* of the keys a and c, c comes not; b and d weigh 3 + 7 */
    struct answer a = condense(BYTES(BOTH), "d,7\nb,3\na,5\na,1\n", 14);
    check("condensed records", gave(&a, BYTES("a,6\nothers,10\n")));
    free(a.room);
    a = condense(BYTES(BOTH), "d,7\nb,3\na,5\na,1\n", 13);
    check("condensed records in a small room", small(&a, 14));
    free(a.room);
    a = condense(BYTES(BOTH), "", 0);
    check("no records, condensed", a.status == HEAVY_DONE && a.needed == 0 && a.told.kind == 0);
    free(a.room);
    a = condense(BYTES(BOTH), "a\nb,0\n", 64);
    check("records that aren't condensed", told(&a, HEAVY_REFUSED, HEAVY_BAD_RECORD, HEAVY_RECORD_ZERO_WEIGHT, 2));
    free(a.room);
    a = condense(BYTES(BOTH) - 1, "a\nb,0\n", 64);
    check("the file comes before the records", told(&a, HEAVY_REFUSED, HEAVY_BAD_FILE, HEAVY_FILE_TRUNCATED, 1));
    free(a.room);
}

static void try_lists(void) {
    /* of BOTH's total of 14 the counters have 5, so that each key may weigh 3 more */
    struct answer a = list(BYTES(BOTH), 12);
    check("a list", gave(&a, BYTES("a,4,7\nc,1,4\n")));
    free(a.room);
    a = list(BYTES(BOTH), 11);
    check("a list in a small room", small(&a, 12));
    free(a.room);
    a = list(BYTES(BOTH) - 1, 64);
    check("no list of a damaged file", told(&a, HEAVY_REFUSED, HEAVY_BAD_FILE, HEAVY_FILE_TRUNCATED, 1));
    free(a.room);
    struct answer file = table("a,5\n", 3, 1, 128);
    a = list(file.room, file.needed, 64);
    check("no list of a table", told(&a, HEAVY_REFUSED, HEAVY_NOT_COUNTERS, 0, 0));
    free(a.room);
    free(file.room);
}

static void try_thresholds(void) {
    /* of the total of 8 a has 5 and b 3: above a third both, above 3/8 a alone */
    struct answer a = confirm_above(BYTES(ONE), "a,5\nb,3\n", 1, 3, 8);
    check("the least share", gave(&a, BYTES("a,5\nb,3\n")));
    free(a.room);
    a = confirm_above(BYTES(ONE), "a,5\nb,3\n", 3, 8, 4);
    check("a larger share", gave(&a, BYTES("a,5\n")));
    free(a.room);
    a = confirm_above(BYTES(ONE), "a,5\nb,3\n", 3, 8, 3);
    check("a larger share in a small room", small(&a, 4));
    free(a.room);
    static const uint64_t BAD[][2] = {{1, 4}, {0, 1}, {2, 1}, {4294967297, 4294967297}, {18446744073709551615u, 18446744073709551615u}};
    for (size_t i = 0; i < sizeof BAD / sizeof *BAD; i++) {
        a = confirm_above(BYTES(ONE), "a,0\n", BAD[i][0], BAD[i][1], 64);
        check("no share, before the records", told(&a, HEAVY_USAGE, HEAVY_BAD_THRESHOLD, 0, 0));
        free(a.room);
    }
    a = confirm_above(BYTES(ONE), "a,5\n", 1, 1, 64);
    check("another total, above a share", told(&a, HEAVY_REFUSED, HEAVY_TOTAL_DIFFERS, 0, 0));
    free(a.room);
    a = confirm_above(BYTES(ONE) - 1, "a,5\n", 0, 1, 64);
    check("the file before the share", told(&a, HEAVY_REFUSED, HEAVY_BAD_FILE, HEAVY_FILE_TRUNCATED, 1));
    free(a.room);
}

static void try_items(void) {
    struct answer none = empty(2, 17);
    check("no items", none.status == HEAVY_DONE && none.needed == 17 && heavy_summary_room(0, 0) == 17);
    struct answer a = empty(2, 16);
    check("no items in a small room", small(&a, 17));
    free(a.room);
    a = empty(0, 17);
    check("no k", told(&a, HEAVY_USAGE, HEAVY_BAD_K, 0, 0));
    free(a.room);
    a = empty(65536, 17);
    check("a k too large", told(&a, HEAVY_USAGE, HEAVY_BAD_K, 0, 0));
    free(a.room);
    static const uint64_t ENDS[] = {1, 2, 3, 4}, FIVE[] = {5, 3};
    a = add(none.room, 17, "ab", ENDS, 2, FIVE, 2, sizeof ONE - 1);
    check("two items", gave(&a, BYTES(ONE)));
    free(a.room);
    a = add(none.room, 17, "ab", ENDS, 2, FIVE, 2, sizeof ONE - 2);
    check("two items in a small room", small(&a, sizeof ONE - 1));
    free(a.room);
    /* a 5, b 3 and c 2 are three keys; 2 is taken from each; and then a comes again: a 4, b 1 */
    a = add(BYTES(ONE), "cca", ENDS, 3, NULL, 0, 64);
    struct answer b = summarise("a,5\nb,3\nc\nc\na\n", 2, 64);
    check("items of weight 1 behind a stream", a.status == HEAVY_DONE && gave(&b, a.room, a.needed));
    free(b.room);
    b = list(a.room, a.needed, 12);
    /* 1 is taken from each of the three counters at each c: a 3 + 1, b 1, and of the total of 11 at most 2 for each */
    check("their counters", gave(&b, BYTES("a,4,6\nb,1,3\n")));
    free(b.room);
    free(a.room);
    a = add(BYTES(ONE), "", NULL, 0, NULL, 0, sizeof ONE - 1);
    check("no items more", gave(&a, BYTES(ONE)));
    free(a.room);
    static const uint64_t GAPS[] = {1, 1}, FALLS[] = {2, 1}, ZERO[] = {5, 0}, MANY[] = {9223372036854775807u, 1};
    static const uint64_t BEHIND[] = {1, 3};
    struct {
        const uint64_t *ends, *weights;
        size_t weighed;
        uint32_t status, kind, cause;
        uint64_t number;
    } rows[] = {
        {FALLS, FIVE, 1, HEAVY_USAGE, HEAVY_BAD_END, 0, 2},
        {BEHIND, FIVE, 1, HEAVY_USAGE, HEAVY_BAD_END, 0, 2},
        {ENDS + 2, FIVE, 1, HEAVY_USAGE, HEAVY_BAD_END, 0, 1},
        {ENDS, FIVE, 1, HEAVY_USAGE, HEAVY_BAD_WEIGHT_COUNT, 0, 0},
        {GAPS, ZERO, 2, HEAVY_REFUSED, HEAVY_BAD_RECORD, HEAVY_RECORD_EMPTY_KEY, 2},
        {ENDS, ZERO, 2, HEAVY_REFUSED, HEAVY_BAD_RECORD, HEAVY_RECORD_ZERO_WEIGHT, 2},
        {ENDS, MANY, 2, HEAVY_REFUSED, HEAVY_BAD_RECORD, HEAVY_RECORD_TOTAL_TOO_LARGE, 2},
    };
    for (size_t i = 0; i < sizeof rows / sizeof *rows; i++) {
        a = add(none.room, 17, "ab", rows[i].ends, 2, rows[i].weights, rows[i].weighed, 64);
        check("items that are refused", told(&a, rows[i].status, rows[i].kind, rows[i].cause, rows[i].number));
        free(a.room);
    }
    a = add(none.room, 16, "ab", GAPS, 2, FIVE, 2, 64);
    check("the file before the items", told(&a, HEAVY_REFUSED, HEAVY_BAD_FILE, HEAVY_FILE_TRUNCATED, 1));
    free(a.room);
    free(none.room);
}

static struct answer empty_table(uint64_t width, uint64_t depth, uint64_t seed, size_t room) {
    struct answer a = room_of(room);
    struct heavy *value = NULL;
    uint32_t status = heavy_new_table(&value, width, depth, seed, &a.told);
    a.status = saved(value, status, a.room, room, &a.needed, &a.told);
    return a;
}

static struct answer add_text(const void *file, size_t size, const char *text, size_t room) {
    struct answer a = room_of(room);
    uint8_t *lent = block(text, strlen(text)), *held = block(file, size);
    a.status = file_with_records(held, size, lent, strlen(text), &RECORDS, NULL, 0, NULL, 0, a.room, room, &a.needed, &a.told);
    free(held);
    free(lent);
    return a;
}

static size_t whole(const char *text) {
    uint8_t *lent = block(text, strlen(text));
    size_t bytes = heavy_whole_records(lent, strlen(text), ',');
    free(lent);
    return bytes;
}

static void try_whole_records(void) {
    check("the whole records of a part", whole("a,5\nb,3\nc") == 7);
    check("a part that ends behind a record", whole("a,5\nb,3\n") == 7);
    check("a line feed in quotes", whole("a,5\n\"b\nc") == 3);
    check("a record of two lines", whole("\"a\nb\",2\nc") == 7);
    check("a doubled quote", whole("\"a\"\"\nb\"\nc") == 7);
    check("a quote in a field", whole("a\"\n\"b\n") == 2);
    check("a quote behind a mark", whole("\xef\xbb\xbf\"a\nb\"\nc") == 8);
    check("carriage returns alone", whole("a\rb\r") == 0);
    check("no record behind the first line feed", whole("\na,5") == 0);
    check("a part in quotes", whole("\"a\nb\n") == 0);
    check("an empty part", whole("") == 0);
}

static void try_added_texts(void) {
    /* b 3 and then a 2 are added to a 3 alone */
    struct answer part = summarise("a,3\n", 2, 64), a = add_text(part.room, part.needed, "b,3\na,2\n", sizeof ONE - 1);
    check("a text added", gave(&a, BYTES(ONE)));
    free(a.room);
    a = add_text(part.room, part.needed, "b,3\na,2\n", sizeof ONE - 2);
    check("a text added in a small room", small(&a, sizeof ONE - 1));
    free(a.room);
    a = add_text(part.room, part.needed, "\n\"b\"\r\n\nb,2\na,2", 64);
    check("a text of other lines added", gave(&a, BYTES(ONE)));
    free(a.room);
    a = add_text(BYTES(ONE), "", sizeof ONE - 1);
    check("no text added", gave(&a, BYTES(ONE)));
    free(a.room);
    a = add_text(part.room, part.needed, "b\nc,0\n", 64);
    check("a bad record added", told(&a, HEAVY_REFUSED, HEAVY_BAD_RECORD, HEAVY_RECORD_ZERO_WEIGHT, 2));
    free(a.room);
    a = add_text(part.room, part.needed, "b\nc,9223372036854775804\n", 64);
    check("a total too large for the file", told(&a, HEAVY_REFUSED, HEAVY_BAD_RECORD, HEAVY_RECORD_TOTAL_TOO_LARGE, 2));
    free(a.room);
    a = add_text(part.room, part.needed - 1, "c,0\n", 64);
    check("the file before the text", told(&a, HEAVY_REFUSED, HEAVY_BAD_FILE, HEAVY_FILE_TRUNCATED, 1));
    free(a.room);
    free(part.room);
    struct answer cells = table("a,5\n", 3, 2, 128), whole = table("a,5\nb,2\n", 3, 2, 128);
    a = add_text(cells.room, cells.needed, "b,2\n", 128);
    check("a text added to a table", a.status == HEAVY_DONE && gave(&a, whole.room, whole.needed));
    free(a.room);
    free(whole.room);
    free(cells.room);
}

static void try_table_items(void) {
    static const uint64_t ENDS[] = {1, 2, 3}, WEIGHTS[] = {5, 3, 2}, ZERO[] = {5, 0};
    static const uint64_t MANY[] = {9223372036854775807u, 1};
    size_t room = HEAVY_TABLE_ROOM(3, 2);
    struct answer none = empty_table(3, 2, 0, room), of_none = table("", 3, 2, room);
    check("a table of no items", of_none.status == HEAVY_DONE && gave(&none, of_none.room, of_none.needed));
    struct answer a = empty_table(3, 2, 0, room - 1);
    check("a table of no items in a small room", small(&a, room));
    free(a.room);
    a = empty_table(3, 2, 1, room);
    check("another seed, another family", a.status == HEAVY_DONE && memcmp(a.room, none.room, room) != 0);
    free(a.room);
    a = empty_table(0, 0, 0, 64);
    check("no depth", told(&a, HEAVY_USAGE, HEAVY_BAD_DEPTH, 0, 0));
    free(a.room);
    a = empty_table(65537, 16, 0, 64);
    check("a width too large", told(&a, HEAVY_USAGE, HEAVY_BAD_WIDTH, 0, 0));
    free(a.room);
    /* the table of all, added in two parts */
    a = add(none.room, none.needed, "aba", ENDS, 3, WEIGHTS, 3, room);
    struct answer both = add(a.room, a.needed, "c", ENDS, 1, NULL, 0, room);
    struct answer whole = table("a,5\nb,3\na,2\nc\n", 3, 2, room);
    check("items added to a table", a.status == HEAVY_DONE && gave(&both, whole.room, whole.needed));
    free(both.room);
    free(whole.room);
    both = add(a.room, a.needed, "c", ENDS, 1, NULL, 0, room - 1);
    check("a larger table in a small room", small(&both, room));
    free(both.room);
    free(a.room);
    a = add(none.room, none.needed, "ab", ENDS, 2, ZERO, 2, room);
    check("no weight for a table", told(&a, HEAVY_REFUSED, HEAVY_BAD_RECORD, HEAVY_RECORD_ZERO_WEIGHT, 2));
    free(a.room);
    a = add(none.room, none.needed, "ab", ENDS, 2, MANY, 2, room);
    check("too much for a table", told(&a, HEAVY_REFUSED, HEAVY_BAD_RECORD, HEAVY_RECORD_TOTAL_TOO_LARGE, 2));
    free(a.room);
    free(of_none.room);
    free(none.room);
}

static void try_long_items(void) {
    struct answer none = empty(1, 17);
    char *longest = malloc(4098);
    if (!longest)
        abort();
    memset(longest, 'x', 4097);
    longest[4097] = 0;
    static const uint64_t MOST[] = {4096, 4097}, MORE[] = {4097};
    struct answer a = add(none.room, 17, longest, MOST, 1, NULL, 0, heavy_summary_room(1, HEAVY_MAX_KEY));
    check("an item of the longest key", a.status == HEAVY_DONE && a.needed == heavy_summary_room(1, HEAVY_MAX_KEY));
    free(a.room);
    a = add(none.room, 17, longest, MORE, 1, NULL, 0, 64);
    check("an item of a longer key", told(&a, HEAVY_REFUSED, HEAVY_BAD_RECORD, HEAVY_RECORD_KEY_TOO_LONG, 1));
    free(a.room);
    free(longest);
    free(none.room);
}

static void try_counted_items(void) {
    static const uint64_t ENDS[] = {1, 2, 3, 4}, WEIGHTS[] = {1, 2, 4, 1}, THIRD[] = {1, 3}, HALF[] = {1, 2};
    /* of the keys a and b: a weighs 1 + 4, b 2, and the last item, c, 1 */
    struct answer a = of_items(CONDENSE, BYTES(ONE), "abac", ENDS, 4, WEIGHTS, 4, NULL, 17);
    check("condensed items", gave(&a, BYTES("a,5\nb,2\nothers,1\n")));
    free(a.room);
    a = of_items(CONDENSE, BYTES(ONE), "abac", ENDS, 4, WEIGHTS, 4, NULL, 16);
    check("condensed items in a small room", small(&a, 17));
    free(a.room);
    a = of_items(CONDENSE, BYTES(ONE), "abac", ENDS, 4, NULL, 0, NULL, 64);
    check("condensed items of weight 1", gave(&a, BYTES("a,2\nb,1\nothers,1\n")));
    free(a.room);
    a = of_items(CONDENSE, BYTES(ONE), "", NULL, 0, NULL, 0, NULL, 0);
    check("no items condensed", gave(&a, "", 0));
    free(a.room);
    /* of the total of 8 a has 5, which is above a third and above a half; b has 2 */
    for (enum items_call call = CONFIRM; call <= CONFIRM_ABOVE; call++) {
        a = of_items(call, BYTES(ONE), "abac", ENDS, 4, WEIGHTS, 4, THIRD, 4);
        check("confirmed items", gave(&a, BYTES("a,5\n")));
        free(a.room);
        a = of_items(call, BYTES(ONE), "abac", ENDS, 4, WEIGHTS, 4, THIRD, 3);
        check("confirmed items in a small room", small(&a, 4));
        free(a.room);
        a = of_items(call, BYTES(ONE), "abac", ENDS, 4, NULL, 0, THIRD, 64);
        check("items of another total", told(&a, HEAVY_REFUSED, HEAVY_TOTAL_DIFFERS, 0, 0));
        free(a.room);
    }
    /* a and b have 4 of 8 each: just a half is not above it */
    static const uint64_t FOURS[] = {4, 4};
    a = of_items(CONFIRM, BYTES(ONE), "ba", ENDS, 2, FOURS, 2, NULL, 64);
    check("equal weights by rising key", gave(&a, BYTES("a,4\nb,4\n")));
    free(a.room);
    a = of_items(CONFIRM_ABOVE, BYTES(ONE), "ba", ENDS, 2, FOURS, 2, HALF, 64);
    check("none above a half", gave(&a, "", 0));
    free(a.room);
    static const uint64_t LOW[] = {1, 4}, NONE[] = {0, 1}, WRONG[] = {2, 1};
    const uint64_t *shares[] = {LOW, NONE, WRONG};
    static const uint64_t ZEROS[] = {0, 0};
    for (size_t i = 0; i < sizeof shares / sizeof *shares; i++) {
        a = of_items(CONFIRM_ABOVE, BYTES(ONE), "ba", ENDS, 2, ZEROS, 2, shares[i], 64);
        check("no share, before the items", told(&a, HEAVY_USAGE, HEAVY_BAD_THRESHOLD, 0, 0));
        free(a.room);
    }
}

static void try_refused_items(void) {
    static const uint64_t ENDS[] = {1, 2}, GAPS[] = {1, 1}, FALLS[] = {2, 1}, BEHIND[] = {1, 3}, THIRD[] = {1, 3};
    static const uint64_t FIVE[] = {5, 3}, ZERO[] = {5, 0}, MANY[] = {9223372036854775807u, 1};
    struct {
        const uint64_t *ends, *weights;
        size_t weighed;
        uint32_t status, kind, cause;
        uint64_t number;
    } rows[] = {
        {FALLS, FIVE, 1, HEAVY_USAGE, HEAVY_BAD_END, 0, 2},
        {BEHIND, FIVE, 1, HEAVY_USAGE, HEAVY_BAD_END, 0, 2},
        {ENDS, FIVE, 1, HEAVY_USAGE, HEAVY_BAD_WEIGHT_COUNT, 0, 0},
        {GAPS, ZERO, 2, HEAVY_REFUSED, HEAVY_BAD_RECORD, HEAVY_RECORD_EMPTY_KEY, 2},
        {ENDS, ZERO, 2, HEAVY_REFUSED, HEAVY_BAD_RECORD, HEAVY_RECORD_ZERO_WEIGHT, 2},
        {ENDS, MANY, 2, HEAVY_REFUSED, HEAVY_BAD_RECORD, HEAVY_RECORD_TOTAL_TOO_LARGE, 2},
    };
    struct answer cells = table("a,5\n", 1, 1, 64);
    for (enum items_call call = CONDENSE; call <= CONFIRM_ABOVE; call++) {
        for (size_t i = 0; i < sizeof rows / sizeof *rows; i++) {
            struct answer a = of_items(call, BYTES(ONE), "ab", rows[i].ends, 2, rows[i].weights, rows[i].weighed, THIRD, 64);
            check("counted items that are refused", told(&a, rows[i].status, rows[i].kind, rows[i].cause, rows[i].number));
            free(a.room);
        }
        struct answer a = of_items(call, BYTES(ONE) - 1, "ab", GAPS, 2, FIVE, 2, THIRD, 64);
        check("the file before the items, counted", told(&a, HEAVY_REFUSED, HEAVY_BAD_FILE, HEAVY_FILE_TRUNCATED, 1));
        free(a.room);
        a = of_items(call, cells.room, cells.needed, "ab", GAPS, 2, FIVE, 2, THIRD, 64);
        check("no items counted by a table", told(&a, HEAVY_REFUSED, HEAVY_NOT_COUNTERS, 0, 0));
        free(a.room);
    }
    free(cells.room);
}

/* The most that the header says is needed is needed, and no more. */
static void try_rooms(void) {
    struct answer a = summarise("ab\ncd\nef\n", 3, heavy_summary_room(3, 2));
    check("a full summary of keys of two bytes", a.status == HEAVY_DONE && a.needed == heavy_summary_room(3, 2));
    free(a.room);
    for (uint64_t width = 1; width < 9; width += 3) {
        for (uint64_t depth = 1; depth < 4; depth++) {
            a = table("a,5\n", width, depth, HEAVY_TABLE_ROOM(width, depth));
            check("a table's room", a.status == HEAVY_DONE && a.needed == HEAVY_TABLE_ROOM(width, depth));
            free(a.room);
        }
    }
}

/* Many calls of one thread; null where all are right. */
static void *many(void *unused) {
    (void)unused;
    for (int i = 0; i < 2000; i++) {
        struct answer a = summarise("a,5\nb,3\n", 2, sizeof ONE - 1);
        int right = gave(&a, BYTES(ONE));
        struct answer rows = confirm(&a, "b,3\na,5\n", 8);
        right = right && gave(&rows, BYTES("a,5\nb,3\n"));
        struct answer fewer = condense(a.room, a.needed, "c\nb,3\n", 64);
        right = right && gave(&fewer, BYTES("b,3\nothers,1\n"));
        static const uint64_t ENDS[] = {1, 2}, FIVE[] = {5, 3};
        struct answer none = empty(2, 17), sum = add(none.room, 17, "ab", ENDS, 2, FIVE, 2, sizeof ONE - 1);
        right = right && gave(&sum, BYTES(ONE));
        struct answer part = of_items(CONDENSE, a.room, a.needed, "ab", ENDS, 2, FIVE, 2, NULL, 8);
        right = right && gave(&part, BYTES("a,5\nb,3\n"));
        free(part.room);
        free(none.room);
        free(sum.room);
        struct answer both = entries(a.room, a.needed, 2);
        right = right && both.needed == 2 && is_entry(&both, 0, ONE, "a", 5) && is_entry(&both, 1, ONE, "b", 3);
        free(a.room);
        free(rows.room);
        free(fewer.room);
        free(both.room);
        if (!right)
            return "wrong";
    }
    return NULL;
}

int main(void) {
    try_summaries();
    try_merges();
    try_tables();
    try_keys();
    try_many_keys();
    try_entries();
    try_condensed();
    try_lists();
    try_thresholds();
    try_items();
    try_whole_records();
    try_added_texts();
    try_table_items();
    try_long_items();
    try_counted_items();
    try_refused_items();
    try_rooms();
    check("the version", heavy_version() == HEAVY_VERSION);
    pthread_t threads[2];
    for (int i = 0; i < 2; i++)
        check("a thread starts", pthread_create(&threads[i], NULL, many, NULL) == 0);
    for (int i = 0; i < 2; i++) {
        void *wrong = NULL;
        pthread_join(threads[i], &wrong);
        check("a thread's answers", wrong == NULL);
    }
    printf("%d passed, %d failed\n", passed, failed);
    return failed != 0;
}

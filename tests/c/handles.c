/* Handles, with answers known by hand: made, added to, merged, saved, loaded and given back; refusals, after which values are as
   they were; and NULL, wherever it may stand. Prints what is wrong, and how many checks passed. */
#include "checks.h"

static const struct heavy_hash FIXED = {{0, 0}}, DRAWN = {{77, 5}};
static const struct heavy_layout PLAIN = {',', 0, 0, 0, 0};
static struct heavy_fault told;

static int is_fault(uint32_t kind, uint32_t cause, uint64_t number) {
    return told.kind == kind && told.cause == cause && told.number == number;
}

static uint32_t updated(struct heavy *value, const char *key, size_t size, uint64_t weight) {
    uint8_t *lent = block(key, size);
    uint32_t status = heavy_update(value, lent, size, weight, &told);
    free(lent);
    return status;
}

static struct heavy *summary(uint64_t k) {
    struct heavy *value = NULL;
    check("a summary is made", heavy_new_summary(&value, k, &DRAWN, &told) == HEAVY_DONE && value && is_fault(0, 0, 0));
    return value;
}

static struct heavy *loaded(const char *file, size_t size) {
    struct heavy *value = NULL;
    uint8_t *lent = block(file, size);
    check("a file is loaded", heavy_load(&value, lent, size, &FIXED, &told) == HEAVY_DONE && value);
    free(lent);
    return value;
}

static uint32_t merged(struct heavy *value, const char *file, size_t size) {
    uint8_t *lent = block(file, size);
    uint32_t status = heavy_merge_saved(value, lent, size, &told);
    free(lent);
    return status;
}

/* Whether the value is saved as these bytes, in a room of their size, and not in a smaller one. */
static int saves(struct heavy *value, const void *bytes, size_t size) {
    size_t needed = 77;
    uint8_t *room = block(bytes, size);
    memset(room, 0xAA, size);
    int small = heavy_save(value, room, size - 1, &needed, &told) == HEAVY_TOO_SMALL && needed == size && room[0] == 0xAA
             && is_fault(0, 0, 0);
    int done = heavy_save(value, room, size, &needed, &told) == HEAVY_DONE && needed == size && memcmp(room, bytes, size) == 0
            && is_fault(0, 0, 0);
    free(room);
    return small && done;
}

static void try_growth(void) {
    struct heavy *value = summary(2);
    check("a is added", updated(value, "a", 1, 3) == HEAVY_DONE && is_fault(0, 0, 0));
    check("b is added", updated(value, "b", 1, 3) == HEAVY_DONE);
    check("a is added again", updated(value, "a", 1, 2) == HEAVY_DONE);
    check("they are saved", saves(value, BYTES(ONE)));
    heavy_free(value);
    heavy_free(NULL);
    struct heavy *table = NULL;
    check("a table is made", heavy_new_table(&table, 3, 2, 0, &told) == HEAVY_DONE);
    check("an item of a table", updated(table, "a", 1, 5) == HEAVY_DONE && is_fault(0, 0, 0));
    struct heavy_bounds bounds = {7, 7};
    check("what a table tells", heavy_ask(table, (const uint8_t *)"a", 1, &bounds, &told) == HEAVY_DONE && bounds.low == 0
          && bounds.high == 5);
    heavy_free(table);
}

static void try_merges(void) {
    struct heavy *value = loaded(BYTES(ONE)), *other = loaded(BYTES(TWO)), *third = summary(3), *table = NULL;
    heavy_new_table(&table, 3, 2, 0, &told);
    check("another k", heavy_merge(value, third, &told) == HEAVY_REFUSED
          && is_fault(HEAVY_CANNOT_MERGE, HEAVY_MERGE_DIFFERENT_K, 2));
    check("a table", heavy_merge(value, table, &told) == HEAVY_REFUSED && is_fault(HEAVY_MIXED_KINDS, 0, 2));
    check("a summary, into a table", heavy_merge(table, value, &told) == HEAVY_REFUSED && is_fault(HEAVY_MIXED_KINDS, 0, 2));
    check("a file that is cut short", merged(value, TWO, sizeof TWO - 2) == HEAVY_REFUSED
          && is_fault(HEAVY_BAD_FILE, HEAVY_FILE_TRUNCATED, 2));
    check("itself", heavy_merge(value, value, &told) == HEAVY_USAGE && is_fault(HEAVY_NO_VALUE, 0, 0));
    check("they leave the value as it was", saves(value, BYTES(ONE)));
    check("another value", heavy_merge(value, other, &told) == HEAVY_DONE && is_fault(0, 0, 0) && saves(value, BYTES(BOTH)));
    check("the other stays", saves(other, BYTES(TWO)));
    heavy_free(value);
    value = summary(2);
    updated(value, "a", 1, 5);
    updated(value, "b", 1, 3);
    check("a file", merged(value, BYTES(TWO)) == HEAVY_DONE && saves(value, BYTES(BOTH)));
    struct heavy *all[] = {value, other, third, table};
    for (size_t i = 0; i < sizeof all / sizeof *all; i++)
        heavy_free(all[i]);
}

static void try_refusals(void) {
    static char longest[HEAVY_MAX_KEY + 1];
    memset(longest, 'a', sizeof longest);
    struct heavy *value = loaded(BYTES(ONE)), *none = NULL;
    struct {
        const char *key;
        size_t size;
        uint64_t weight;
        uint32_t cause;
    } rows[] = {
        {"", 0, 1, HEAVY_RECORD_EMPTY_KEY},
        {longest, sizeof longest, 1, HEAVY_RECORD_KEY_TOO_LONG},
        {"a", 1, 0, HEAVY_RECORD_ZERO_WEIGHT},
        {"a", 1, UINT64_MAX / 2 - 7, HEAVY_RECORD_TOTAL_TOO_LARGE},
    };
    for (size_t i = 0; i < sizeof rows / sizeof *rows; i++) {
        const uint64_t ends[] = {1, 1 + rows[i].size}, weights[] = {1, rows[i].weight};
        uint8_t *keys = block(longest, ends[1] < sizeof longest ? ends[1] : sizeof longest);
        check("an item that is wrong", updated(value, rows[i].key, rows[i].size, rows[i].weight) == HEAVY_REFUSED
              && is_fault(HEAVY_BAD_RECORD, rows[i].cause, 1));
        if (ends[1] <= sizeof longest)
            check("the second of two", heavy_update_items(value, keys, ends[1], ends, 2, weights, 2, &told) == HEAVY_REFUSED
                  && is_fault(HEAVY_BAD_RECORD, rows[i].cause, 2));
        check("it leaves the value as it was", saves(value, BYTES(ONE)));
        free(keys);
    }
    check("the second of two records", heavy_update_records(value, (const uint8_t *)"a\nb,0\n", 6, &PLAIN, NULL, 0, NULL, 0, &told)
          == HEAVY_REFUSED && is_fault(HEAVY_BAD_RECORD, HEAVY_RECORD_ZERO_WEIGHT, 2) && saves(value, BYTES(ONE)));
    check("a file that is cut short", heavy_load(&none, (const uint8_t *)ONE, sizeof ONE - 2, &FIXED, &told) == HEAVY_REFUSED
          && is_fault(HEAVY_BAD_FILE, HEAVY_FILE_TRUNCATED, 1) && !none);
    check("no k", heavy_new_summary(&none, 0, &FIXED, &told) == HEAVY_USAGE && is_fault(HEAVY_BAD_K, 0, 0) && !none);
    check("no depth", heavy_new_table(&none, 0, 0, 0, &told) == HEAVY_USAGE && is_fault(HEAVY_BAD_DEPTH, 0, 0) && !none);
    heavy_free(value);
}

/* The statuses of all calls on a handle that is NULL, which say so, where nobody asks for the fault too. */
static void try_no_value(struct heavy *other, struct heavy_fault *fault) {
    uint8_t room[8] = {0xAA};
    struct heavy_bounds bounds = {7, 7};
    struct heavy_entry entry = {7, 7, 7};
    struct heavy_info info = {.kind = 7};
    size_t needed[8] = {77, 77, 77, 77, 77, 77, 77, 77};
    const uint64_t end = 1;
    const uint8_t *a = (const uint8_t *)"a";
    const uint32_t statuses[] = {
        heavy_save(NULL, room, 8, &needed[0], fault),
        heavy_update(NULL, a, 1, 1, fault),
        heavy_update_items(NULL, a, 1, &end, 1, NULL, 0, fault),
        heavy_update_records(NULL, a, 1, &PLAIN, NULL, 0, NULL, 0, fault),
        heavy_merge(NULL, other, fault),
        heavy_merge(other, NULL, fault),
        heavy_merge_saved(NULL, (const uint8_t *)ONE, 3, fault),
        heavy_ask(NULL, a, 1, &bounds, fault),
        heavy_ask_items(NULL, a, 1, &end, 1, &bounds, 1, &needed[1], fault),
        heavy_info(NULL, &info, fault),
        heavy_entries(NULL, &entry, 1, &needed[2], fault),
        heavy_list(NULL, room, 8, &needed[3], fault),
        heavy_confirm_items(NULL, a, 1, &end, 1, NULL, 0, 0, 0, room, 8, &needed[4], fault),
        heavy_confirm_records(NULL, a, 1, &PLAIN, NULL, 0, NULL, 0, 0, 0, room, 8, &needed[5], fault),
        heavy_condense_items(NULL, a, 1, &end, 1, NULL, 0, room, 8, &needed[6], fault),
        heavy_condense_records(NULL, a, 1, &PLAIN, NULL, 0, NULL, 0, room, 8, &needed[7], fault),
    };
    for (size_t i = 0; i < sizeof statuses / sizeof *statuses; i++)
        check("a call with no value", statuses[i] == HEAVY_USAGE);
    for (size_t i = 0; i < 8; i++)
        check("no answer of no value", needed[i] == 0);
    check("all is as it was", room[0] == 0xAA && bounds.low == 7 && entry.len == 7 && info.kind == 7);
    if (fault)
        check("no value is told", is_fault(HEAVY_NO_VALUE, 0, 0));
}

/* NULL, where the length is 0. */
static void try_nulls(void) {
    struct heavy *value = summary(2), *none = NULL;
    struct heavy_hash hash = DRAWN;
    size_t needed = 77;
    try_no_value(value, &told);
    try_no_value(value, NULL);
    check("no file", heavy_load(&none, NULL, 0, &hash, &told) == HEAVY_REFUSED && is_fault(HEAVY_BAD_FILE, HEAVY_FILE_TRUNCATED, 1));
    check("no key", heavy_update(value, NULL, 0, 1, NULL) == HEAVY_REFUSED);
    check("no items", heavy_update_items(value, NULL, 0, NULL, 0, NULL, 0, NULL) == HEAVY_DONE);
    check("no text", heavy_update_records(value, NULL, 0, &PLAIN, NULL, 0, NULL, 0, NULL) == HEAVY_DONE);
    check("no keys", heavy_ask_items(value, NULL, 0, NULL, 0, NULL, 0, &needed, NULL) == HEAVY_DONE && needed == 0);
    check("no entries", heavy_entries(value, NULL, 0, &needed, NULL) == HEAVY_DONE && needed == 0);
    check("no rows", heavy_list(value, NULL, 0, &needed, NULL) == HEAVY_DONE && needed == 0);
    check("no items to confirm", heavy_confirm_items(value, NULL, 0, NULL, 0, NULL, 0, 0, 0, NULL, 0, &needed, NULL) == HEAVY_DONE);
    check("none to condense", heavy_condense_items(value, NULL, 0, NULL, 0, NULL, 0, NULL, 0, &needed, NULL) == HEAVY_DONE);
    check("no report", heavy_report(NULL, 0, &PLAIN, NULL, 0, NULL, 0, 2, 0, 0, &hash, NULL, 0, &needed, NULL) == HEAVY_DONE);
    check("no greatest keys", heavy_top(NULL, 0, &PLAIN, NULL, 0, NULL, 0, 2, 0, &hash, NULL, 0, &needed, NULL) == HEAVY_DONE);
    check("no room", heavy_save(value, NULL, 0, &needed, NULL) == HEAVY_TOO_SMALL && needed == 17);
    check("no part", heavy_whole_records(NULL, 0, ',') == 0);
    heavy_free(value);
}

static void try_release(void) {
    uint8_t room[16] = {0};
    size_t needed = 77;
    check("the version", heavy_version() == HEAVY_VERSION);
    check("the release", heavy_release(room, sizeof room, &needed) == HEAVY_DONE && needed == sizeof HEAVY_RELEASE - 1
          && memcmp(room, HEAVY_RELEASE, needed) == 0);
    check("the release in no room", heavy_release(NULL, 0, &needed) == HEAVY_TOO_SMALL && needed == sizeof HEAVY_RELEASE - 1);
    check("rooms", heavy_summary_room(0, 0) == 17 && heavy_summary_room(3, 2) == 17 + 3 * 12
          && heavy_summary_room(HEAVY_MAX_K, HEAVY_MAX_KEY) == 17 + 65535u * 4106u
          && heavy_summary_room(UINT64_MAX, UINT64_MAX) == heavy_summary_room(HEAVY_MAX_K, HEAVY_MAX_KEY));
}

int main(void) {
    try_growth();
    try_merges();
    try_refusals();
    try_nulls();
    try_release();
    printf("%d passed, %d failed\n", passed, failed);
    return failed != 0;
}

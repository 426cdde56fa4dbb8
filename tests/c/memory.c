/* Each request for memory of each call refused in turn: the call answers HEAVY_MEMORY and leaves room and values as they were, or
   asks for less and answers as with ample memory, until one run meets no refusal and is done. This file's malloc, realloc and free
   are the library's. */
#include <stdio.h>
#include <stdlib.h>
#include <string.h>

#include "heavy.h"

extern void *__libc_malloc(size_t);
extern void *__libc_realloc(void *, size_t);
extern void __libc_free(void *);

static long left = -1, held;

static int is_refused(void) { return left >= 0 && left-- == 0; }

void *malloc(size_t size) {
    void *made = is_refused() ? NULL : __libc_malloc(size);
    held += made != NULL;
    return made;
}

void *realloc(void *old, size_t size) {
    void *made = is_refused() ? NULL : __libc_realloc(old, size);
    held += old == NULL && made != NULL;
    return made;
}

void free(void *old) {
    held -= old != NULL;
    __libc_free(old);
}

static const uint8_t TEXT[] = "a,5\nb,3\nc,2\na,1\n", KEYS[] = "abzzzzzzzzzzzzzzzzzzzzzzzzzzzzzz", COLUMNS[] = "12";
static const uint64_t ENDS[] = {1, 2, 32}, WEIGHTS[] = {5, 3, 2}, ALL[] = {5, 3, 3}, COLUMN_ENDS[] = {1, 2};
static const struct heavy_hash HASH = {{5, 9}};
static const struct heavy_layout LAYOUT = {',', 0, 0, 0, 1};
static uint8_t room[256], file[128];
static size_t file_len, needed;
static struct heavy_fault told;
static struct heavy_bounds bounds[3], one;
static struct heavy_entry entries[3];
static struct heavy_info info;
/* A summary with k 2 of TEXT, another, which is one item more and many more of a key that is there, a table, and one that a
   call makes. */
static struct heavy *value, *other, *table, *made;

enum { CALLS = 23, ITEMS = 90 };

static uint32_t call(int which) {
    switch (which) {
    case 0: return heavy_new_summary(&made, 2, &HASH, &told);
    case 1: return heavy_new_table(&made, 4, 2, 0, &told);
    case 2: return heavy_load(&made, file, file_len, &HASH, &told);
    case 3: return heavy_save(value, room, sizeof room, &needed, &told);
    case 4: return heavy_save(other, room, sizeof room, &needed, &told);
    case 5: return heavy_update(value, KEYS + 2, 30, 9, &told);
    case 6: return heavy_update(other, KEYS + 2, 30, 9, &told);
    case 7: return heavy_update_items(value, KEYS, 32, ENDS, 3, WEIGHTS, 3, &told);
    case 8: return heavy_update_items(table, KEYS, 32, ENDS, 3, WEIGHTS, 3, &told);
    case 9: return heavy_update_records(value, TEXT, 16, &LAYOUT, COLUMNS, 2, COLUMN_ENDS, 2, &told);
    case 10: return heavy_merge(value, other, &told);
    case 11: return heavy_merge_saved(other, file, file_len, &told);
    case 12: return heavy_ask(value, KEYS + 2, 30, &one, &told);
    case 13: return heavy_ask_items(other, KEYS, 32, ENDS, 3, bounds, 3, &needed, &told);
    case 14: return heavy_info(value, &info, &told);
    case 15: return heavy_entries(value, entries, 3, &needed, &told);
    case 16: return heavy_list(value, room, sizeof room, &needed, &told);
    case 17: return heavy_confirm_items(value, KEYS, 32, ENDS, 3, ALL, 3, 1, 3, room, sizeof room, &needed, &told);
    case 18: return heavy_condense_items(value, KEYS, 32, ENDS, 3, WEIGHTS, 3, room, sizeof room, &needed, &told);
    case 19:
        return heavy_confirm_records(value, TEXT, 16, &LAYOUT, COLUMNS, 2, COLUMN_ENDS, 2, 1, 2, room, sizeof room, &needed, &told);
    case 20:
        return heavy_condense_records(value, TEXT, 16, &LAYOUT, COLUMNS, 2, COLUMN_ENDS, 2, room, sizeof room, &needed, &told);
    case 21: return heavy_top(TEXT, 16, &LAYOUT, COLUMNS, 2, COLUMN_ENDS, 2, 2, 0, &HASH, room, sizeof room, &needed, &told);
    default:
        return heavy_report(TEXT, 16, &LAYOUT, COLUMNS, 2, COLUMN_ENDS, 2, 2, 0, 0, &HASH, room, sizeof room, &needed, &told);
    }
}

/* The calls that say no number of elements. */
static int says_no_number(int which) { return which < 3 || (which >= 5 && which <= 12) || which == 14; }

/* Makes all values anew. */
static int begin(void) {
    int wrong = heavy_new_summary(&value, 2, &HASH, &told) + heavy_new_summary(&other, 2, &HASH, &told)
              + heavy_new_table(&table, 4, 2, 0, &told);
    wrong += heavy_update_records(value, TEXT, 16, &LAYOUT, COLUMNS, 2, COLUMN_ENDS, 2, &told);
    wrong += heavy_update_records(other, TEXT, 16, &LAYOUT, COLUMNS, 2, COLUMN_ENDS, 2, &told);
    for (int i = 0; i < ITEMS; i++)
        wrong += heavy_update(other, KEYS, 1, 9, &told);
    return wrong == HEAVY_DONE;
}

static void end(void) {
    struct heavy *all[] = {value, other, table, made};
    for (size_t i = 0; i < sizeof all / sizeof *all; i++)
        heavy_free(all[i]);
    made = NULL;
}

/* The files of all values, one after the other. */
static size_t saved(uint8_t *out, size_t size) {
    struct heavy *all[] = {value, other, table};
    size_t len = 0, one_len = 0;
    for (size_t i = 0; i < sizeof all / sizeof *all; i++) {
        if (heavy_save(all[i], out + len, size - len, &one_len, NULL) != HEAVY_DONE)
            abort();
        len += one_len;
    }
    return len;
}

/* What a call leaves: all rooms, and then the files of all values. */
struct outcome {
    size_t len;
    uint8_t bytes[1024];
};

static struct outcome outcome(void) {
    const struct {
        const void *at;
        size_t size;
    } rooms[] = {{room, sizeof room}, {bounds, sizeof bounds}, {entries, sizeof entries}, {&info, sizeof info}, {&one, sizeof one}};
    struct outcome all = {0};
    for (size_t i = 0; i < sizeof rooms / sizeof *rooms; i++) {
        memcpy(all.bytes + all.len, rooms[i].at, rooms[i].size);
        all.len += rooms[i].size;
    }
    all.len += saved(all.bytes + all.len, sizeof all.bytes - all.len);
    return all;
}

static int is_same(struct outcome a, struct outcome b) { return a.len == b.len && memcmp(a.bytes, b.bytes, a.len) == 0; }

/* Makes all values anew, and fills the rooms. */
static int begin_call(void) {
    memset(room, 0xAA, sizeof room);
    memset(bounds, 0xAA, sizeof bounds);
    memset(&one, 0xAA, sizeof one);
    memset(entries, 0xAA, sizeof entries);
    memset(&info, 0xAA, sizeof info);
    needed = 77;
    return begin();
}

/* How many refusals the call met, after which all is as it was, or as the call leaves it; -1 where one was answered wrongly. */
static int refusals_of(int which) {
    if (!begin_call())
        return -1;
    struct outcome before = outcome();
    end();
    if (!begin_call() || call(which) != HEAVY_DONE)
        return -1;
    struct outcome ample = outcome();
    size_t number = needed;
    end();
    for (int i = 0; i < 1000; i++) {
        long all = held;
        if (!begin_call())
            return -1;
        left = i;
        uint32_t status = call(which);
        int was_refused = left < 0;
        left = -1;
        int right = status == HEAVY_DONE ? needed == number && is_same(outcome(), ample)
                                         : was_refused && status == HEAVY_MEMORY && told.kind == HEAVY_NO_MEMORY && made == NULL
                && (says_no_number(which) || needed == 0) && is_same(outcome(), before);
        end();
        if (!right || held != all)
            return -1;
        if (!was_refused)
            return i;
    }
    return -1;
}

/* How many refusals the text of a fault met; -1 where one was answered wrongly. */
static int refusals_of_text(struct heavy_fault fault, const char *text) {
    for (int i = 0; i < 1000; i++) {
        memset(room, 0xAA, sizeof room);
        left = i;
        uint32_t status = heavy_strerror(&fault, room, sizeof room, &needed);
        int was_refused = left < 0;
        left = -1;
        if (!was_refused)
            return status == HEAVY_DONE && needed == strlen(text) && memcmp(room, text, needed) == 0 ? i : -1;
        if (status != HEAVY_MEMORY || needed != 0 || room[0] != 0xAA)
            return -1;
    }
    return -1;
}

/* Whether a head that promises far more than follows is told as cut short, where there is no memory but for a handle. */
static int is_cut_short(const char *head, size_t size) {
    left = 1;
    uint32_t status = heavy_load(&made, (const uint8_t *)head, size, &HASH, &told);
    int was_refused = left < 0;
    left = -1;
    return !was_refused && status == HEAVY_REFUSED && told.kind == HEAVY_BAD_FILE && told.cause == HEAVY_FILE_TRUNCATED;
}

int main(void) {
    char line[80];
    int wrong = 0, refusals = 0;
    setbuf(stdout, NULL);
    wrong += !begin() || heavy_save(value, file, sizeof file, &file_len, &told) != HEAVY_DONE;
    end();
    for (int which = 0; which < CALLS; which++) {
        int met = refusals_of(which);
        if (met <= 0) {
            snprintf(line, sizeof line, "FAILED: call %d\n", which);
            fputs(line, stdout);
        }
        wrong += met <= 0;
        refusals += met > 0 ? met : 0;
    }
    static const struct heavy_fault ZERO = {HEAVY_BAD_RECORD, HEAVY_RECORD_ZERO_WEIGHT, 3}, NONE = {HEAVY_NO_MEMORY, 0, 0};
    wrong += refusals_of_text(ZERO, "record 3: zero weight") <= 0;
    wrong += refusals_of_text(NONE, "out of memory") != 0;
    static const char SUMMARY[] = "HHS1\1\xff\xff\0\0\0\0\0\0\0\0\xff\xff", TABLE[] = "HHS1\2\0\1\0\0\20";
    wrong += !is_cut_short(SUMMARY, sizeof SUMMARY - 1) + !is_cut_short(TABLE, sizeof TABLE - 1);
    snprintf(line, sizeof line, "%d refusals, %d wrong\n", refusals, wrong);
    fputs(line, stdout);
    return wrong != 0;
}

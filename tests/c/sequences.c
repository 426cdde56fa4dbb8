/* Random sequences of calls beside an exact dictionary: summaries or tables grow by items, one or many, and by records of a
   layout, are saved and loaded, merged with others and with files, asked, and summaries confirm, condense and report. Each
   sequence has handles and streams of its own. Prints what is wrong, and how many sequences passed.

   usage: sequences [COUNT [SEED]] */
#include <stdio.h>
#include <stdlib.h>
#include <string.h>

#include "heavy.h"

enum { KEYS = 12, ROOM = 4096 };

static uint64_t state;

/* The next number of xorshift64 (Marsaglia 2003), below n. */
static uint64_t below(uint64_t n) {
    state ^= state << 13;
    state ^= state >> 7;
    state ^= state << 17;
    return state % n;
}

/* A value, and what each key weighs in its stream. */
struct stream {
    struct heavy *value;
    uint64_t weights[KEYS];
};

static uint64_t k;
static int has_tables;
static struct heavy_fault fault;

/* Where nobody asks for the fault, NULL. */
static struct heavy_fault *asked(void) { return below(2) ? &fault : NULL; }

static struct heavy_hash words(void) { return (struct heavy_hash){{below(3), below(3)}}; }

static uint8_t *new_room(size_t size) {
    uint8_t *made = malloc(size ? size : 1);
    if (!made)
        abort();
    return made;
}

static uint64_t total_of(const struct stream *s) {
    uint64_t total = 0;
    for (int i = 0; i < KEYS; i++)
        total += s->weights[i];
    return total;
}

static int begin(struct stream *s) {
    struct heavy_hash hash = words();
    memset(s, 0, sizeof *s);
    return (has_tables ? heavy_new_table(&s->value, 3, 2, 7, asked()) : heavy_new_summary(&s->value, k, &hash, asked()))
        == HEAVY_DONE;
}

/* Key i is i + 1 times the letter after it. */
static size_t put_key(uint8_t *at, int i) {
    memset(at, 'a' + i, (size_t)i + 1);
    return (size_t)i + 1;
}

static int add_items(struct stream *s) {
    uint8_t keys[8 * KEYS];
    uint64_t ends[8], weights[8];
    size_t count = below(8), len = 0, weighed = below(2) ? count : 0;
    for (size_t i = 0; i < count; i++) {
        int key = (int)below(KEYS);
        len += put_key(keys + len, key);
        ends[i] = len;
        weights[i] = 1 + below(9);
        s->weights[key] += weighed ? weights[i] : 1;
    }
    return heavy_update_items(s->value, count ? keys : NULL, len, count ? ends : NULL, count, weighed ? weights : NULL, weighed,
                              asked()) == HEAVY_DONE;
}

/* A text of records, of which some have a third field; and their weights in a dictionary. */
static size_t put_text(uint8_t *text, uint64_t weights[KEYS], char delimiter, int has_more) {
    size_t len = 0;
    for (size_t count = below(8); count > 0; count--) {
        int key = (int)below(KEYS);
        uint64_t weight = 1 + below(9);
        weights[key] += weight;
        if (has_more)
            len += (size_t)sprintf((char *)text + len, "%d%c", (int)below(100), delimiter);
        len += put_key(text + len, key);
        len += (size_t)sprintf((char *)text + len, "%c%d\n", delimiter, (int)weight);
    }
    return len;
}

static const struct heavy_layout PLAIN = {',', 0, 0, 0, 0}, NAMED = {';', 1, 0, 0, 1};
static const uint8_t COLUMNS[] = "keyweight";
static const uint64_t ENDS[] = {3, 9};

static int add_records(struct stream *s) {
    uint8_t text[320] = "n;key;weight\n";
    if (below(2)) {
        size_t len = put_text(text, s->weights, ',', 0);
        return heavy_update_records(s->value, text, len, &PLAIN, NULL, 0, NULL, 0, asked()) == HEAVY_DONE;
    }
    size_t len = 13 + put_text(text + 13, s->weights, ';', 1);
    return heavy_update_records(s->value, text, len, &NAMED, COLUMNS, 9, ENDS, 2, asked()) == HEAVY_DONE;
}

/* Adds some items one by one. */
static int update(struct stream *s) {
    for (uint64_t count = below(8); count > 0; count--) {
        int key = (int)below(KEYS);
        uint8_t *bytes = new_room((size_t)key + 1);
        uint64_t weight = 1 + below(9);
        size_t len = put_key(bytes, key);
        uint32_t status = heavy_update(s->value, bytes, len, weight, asked());
        free(bytes);
        if (status != HEAVY_DONE)
            return 0;
        s->weights[key] += weight;
    }
    return 1;
}

/* The value's file, in a room of its size after one that is too small, or NULL. */
static uint8_t *save(struct stream *s, size_t *len) {
    uint8_t head[16];
    if (heavy_save(s->value, head, sizeof head, len, asked()) != HEAVY_TOO_SMALL)
        return NULL;
    uint8_t *room = new_room(*len);
    return heavy_save(s->value, room, *len, len, asked()) == HEAVY_DONE ? room : NULL;
}

/* Saves the value, gives it back, and loads it again. */
static int load(struct stream *s) {
    size_t len;
    uint8_t *file = save(s, &len);
    struct heavy_hash hash = words();
    heavy_free(s->value);
    s->value = NULL;
    int right = file && heavy_load(&s->value, file, len, &hash, asked()) == HEAVY_DONE;
    free(file);
    return right;
}

/* Wrong items are refused, one or among others, and so are all where there is no value; then a file that is cut short is. */
static int refuse(struct stream *s) {
    static const struct {
        size_t len;
        uint64_t weight;
    } ITEMS[] = {{0, 1}, {HEAVY_MAX_KEY + 1, 1}, {1, 0}, {1, (uint64_t)1 << 63}};
    static const uint8_t KEY[HEAVY_MAX_KEY + 2] = "ab";
    struct heavy *none = NULL;
    struct heavy_hash hash = words();
    size_t len;
    int right = 1;
    for (size_t i = 0; i < sizeof ITEMS / sizeof *ITEMS; i++) {
        const uint64_t ends[] = {1, 1 + ITEMS[i].len}, weights[] = {1, ITEMS[i].weight};
        right = right && heavy_update(s->value, KEY, ITEMS[i].len, ITEMS[i].weight, asked()) == HEAVY_REFUSED
            && heavy_update(NULL, KEY, ITEMS[i].len, ITEMS[i].weight, asked()) == HEAVY_USAGE
            && heavy_update_items(s->value, KEY, ends[1], ends, 2, weights, 2, asked()) == HEAVY_REFUSED;
    }
    uint8_t *file = save(s, &len);
    right = right && file && heavy_load(&none, file, below(len), &hash, asked()) == HEAVY_REFUSED && !none
        && heavy_merge_saved(s->value, file, below(len), asked()) == HEAVY_REFUSED;
    free(file);
    return right;
}

/* Merges another value, or its file. */
static int merge(struct stream *s, struct stream *other) {
    size_t len;
    if (s == other)
        return heavy_merge(s->value, s->value, asked()) == HEAVY_USAGE;
    for (int i = 0; i < KEYS; i++)
        s->weights[i] += other->weights[i];
    if (below(2))
        return heavy_merge(s->value, other->value, asked()) == HEAVY_DONE;
    uint8_t *file = save(other, &len);
    int right = file && heavy_merge_saved(s->value, file, len, asked()) == HEAVY_DONE;
    free(file);
    return right;
}

/* Whether the value is of its kind, with the stream's total and, of a summary, as little slack as it has to have. */
static int is_told(const struct stream *s, struct heavy_info *info) {
    uint64_t total = total_of(s);
    if (heavy_info(s->value, info, asked()) != HEAVY_DONE || info->total != total)
        return 0;
    if (has_tables)
        return info->kind == HEAVY_TABLE && info->width == 3 && info->depth == 2;
    return info->kind == HEAVY_SUMMARY && info->k == k && info->keys <= k && info->slack * (k + 1) <= total;
}

/* Each key's weight is within its bounds, which are as far apart as the value says, and are the same where all are asked. */
static int holds(const struct stream *s) {
    struct heavy_info info;
    struct heavy_bounds all[KEYS], one;
    uint8_t keys[KEYS * KEYS];
    uint64_t ends[KEYS];
    size_t len = 0, needed;
    for (int i = 0; i < KEYS; i++)
        ends[i] = len += put_key(keys + len, i);
    if (!is_told(s, &info) || heavy_ask_items(s->value, keys, len, ends, KEYS, all, KEYS, &needed, asked()) != HEAVY_DONE
        || needed != KEYS)
        return 0;
    for (int i = 0; i < KEYS; i++) {
        uint64_t low = all[i].low, high = all[i].high, start = i ? ends[i - 1] : 0;
        if (low > s->weights[i] || s->weights[i] > high || (has_tables ? low != 0 || high > info.total : high - low != info.slack)
            || heavy_ask(s->value, keys + start, ends[i] - start, &one, asked()) != HEAVY_DONE || one.low != low
            || one.high != high)
            return 0;
    }
    return 1;
}

/* The exact rows above 1/(k + 1), by falling weight and then by rising key. */
static size_t exact_rows(const struct stream *s, char *rows) {
    uint64_t total = total_of(s), last = UINT64_MAX;
    size_t len = 0;
    rows[0] = 0;
    for (;;) {
        uint64_t most = 0;
        for (int i = 0; i < KEYS; i++)
            if (s->weights[i] < last && s->weights[i] > most)
                most = s->weights[i];
        if (most * (k + 1) <= total)
            return len;
        for (int i = 0; i < KEYS; i++) {
            if (s->weights[i] == most) {
                len += put_key((uint8_t *)rows + len, i);
                len += (size_t)sprintf(rows + len, ",%llu\n", (unsigned long long)most);
            }
        }
        last = most;
    }
}

static int is_rows(const uint8_t *room, size_t needed, const char *rows, size_t wanted) {
    return needed == wanted && memcmp(room, rows, wanted) == 0;
}

static uint64_t count_of(const char *rows, size_t len) {
    uint64_t count = 0;
    for (size_t i = 0; i < len; i++)
        count += rows[i] == '\n';
    return count;
}

/* What the stream's records and items confirm, in any order, condensed or not, and report is the dictionary's rows, and so are
   as many of the greatest keys. */
static int confirms(const struct stream *s) {
    char rows[1024];
    uint8_t text[1024] = "key;weight\n", keys[KEYS * KEYS], *room = new_room(ROOM), *parts = new_room(ROOM);
    uint64_t ends[KEYS], weights[KEYS];
    struct heavy_hash hash = words();
    size_t wanted = exact_rows(s, rows), len = 11, count = 0, keys_len = 0, needed, condensed;
    int first = (int)below(KEYS);
    for (int i = 0; i < KEYS; i++) {
        int key = (first + i) % KEYS;
        if (s->weights[key] == 0)
            continue;
        len += put_key(text + len, key);
        len += (size_t)sprintf((char *)text + len, ";%llu\n", (unsigned long long)s->weights[key]);
        keys_len += put_key(keys + keys_len, key);
        weights[count] = s->weights[key];
        ends[count++] = keys_len;
    }
    int right = heavy_confirm_records(s->value, text, len, &NAMED, COLUMNS, 9, ENDS, 2, 0, 0, room, ROOM, &needed, asked())
            == HEAVY_DONE && is_rows(room, needed, rows, wanted);
    right = right && heavy_confirm_items(s->value, keys, keys_len, ends, count, weights, count, 0, 0, room, ROOM, &needed, asked())
            == HEAVY_DONE && is_rows(room, needed, rows, wanted);
    right = right && (below(2) ? heavy_condense_records(s->value, text, len, &NAMED, COLUMNS, 9, ENDS, 2, parts, ROOM, &condensed,
                                                        asked())
                               : heavy_condense_items(s->value, keys, keys_len, ends, count, weights, count, parts, ROOM,
                                                      &condensed, asked())) == HEAVY_DONE;
    right = right && heavy_confirm_records(s->value, parts, condensed, &PLAIN, NULL, 0, NULL, 0, 0, 0, room, ROOM, &needed,
                                           asked()) == HEAVY_DONE && is_rows(room, needed, rows, wanted);
    right = right && heavy_report(text, len, &NAMED, COLUMNS, 9, ENDS, 2, k, 0, 0, &hash, room, ROOM, &needed, asked())
            == HEAVY_DONE && is_rows(room, needed, rows, wanted);
    right = right && heavy_top(text, len, &NAMED, COLUMNS, 9, ENDS, 2, count_of(rows, wanted), below(1000000), &hash, room, ROOM,
                               &needed, asked()) == HEAVY_DONE && is_rows(room, needed, rows, wanted);
    free(room);
    free(parts);
    return right;
}

/* A random call on one of two values, which the other may be merged with. */
static int is_called(struct stream *s, struct stream *other) {
    switch (below(has_tables ? 6 : 7)) {
    case 0: return update(s);
    case 1: return load(s);
    case 2: return refuse(s);
    case 3: return add_items(s);
    case 4: return add_records(s);
    case 5: return merge(s, other);
    default: return confirms(s);
    }
}

/* One sequence over two values. */
static int is_right(void) {
    struct stream both[2];
    k = 1 + below(6);
    has_tables = below(4) == 0;
    int right = begin(&both[0]) & begin(&both[1]);
    for (uint64_t calls = 1 + below(20); right && calls > 0; calls--) {
        struct stream *s = &both[below(2)];
        right = is_called(s, &both[below(2)]) && (calls % 2 || holds(s));
    }
    for (int i = 0; i < 2; i++) {
        right = right && holds(&both[i]);
        heavy_free(both[i].value);
    }
    return right;
}

int main(int count, char **given) {
    unsigned long sequences = count > 1 ? strtoul(given[1], NULL, 10) : 300, seed = count > 2 ? strtoul(given[2], NULL, 10) : 1;
    unsigned long wrong = 0;
    for (unsigned long i = 0; i < sequences; i++) {
        state = 0x9E3779B97F4A7C15u * (seed * 1000003u + i + 1);
        if (!is_right()) {
            printf("FAILED: sequence %lu of seed %lu\n", i, seed);
            wrong++;
        }
    }
    printf("%lu sequences, %lu wrong\n", sequences, wrong);
    return wrong != 0;
}

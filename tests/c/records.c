/* The calls over records of any layout, what is told of a saved file and of a fault, with answers known by hand. Prints what
   is wrong, and how many checks passed. */
#include "checks.h"
#include "files.h"

enum call { SUMMARISE, TABLE, ADD, CONFIRM, CONDENSE, REPORT, TOP };

/* What a call is lent beside the layout: a file, where it takes one, a text, and numbers. */
struct asked {
    enum call call;
    const char *file;
    size_t file_len;
    const char *text;
    uint64_t k, p, q;
};

struct answer {
    uint32_t status;
    size_t needed;
    struct heavy_fault told;
    uint8_t room[256];
};

/* The columns are words between blanks. */
static struct answer ask(struct asked it, struct heavy_layout layout, const char *columns, size_t room) {
    struct answer a = {77, 77, {77, 77, 77}, {0}};
    size_t count = 0, len = 0;
    uint64_t places[8];
    char joined[64];
    for (const char *at = columns; *at; at += *at == ' ') {
        size_t size = strcspn(at, " ");
        memcpy(joined + len, at, size);
        places[count++] = len += size;
        at += size;
    }
    uint8_t *text = block(it.text, strlen(it.text)), *file = block(it.file, it.file_len), *words = block(joined, len);
    uint64_t *ends = (uint64_t *)block(places, count * sizeof *places);
    uint8_t *out = malloc(room ? room : 1);
    struct heavy_layout *lent = (struct heavy_layout *)block(&layout, sizeof layout);
    if (!out)
        abort();
    memset(out, 0xAA, room ? room : 1);
    size_t text_len = strlen(it.text);
    switch (it.call) {
    case SUMMARISE:
        a.status = file_of_records(text, text_len, lent, words, len, ends, count, it.k, out, room, &a.needed, &a.told);
        break;
    case TABLE:
        a.status = table_of_records(text, text_len, lent, words, len, ends, count, it.k, it.p, it.q, out, room, &a.needed,
                                       &a.told);
        break;
    case ADD:
        a.status = file_with_records(file, it.file_len, text, text_len, lent, words, len, ends, count, out, room, &a.needed,
                                     &a.told);
        break;
    case CONFIRM:
        a.status = confirm_records_by(file, it.file_len, text, text_len, lent, words, len, ends, count, it.p, it.q, out,
                                         room, &a.needed, &a.told);
        break;
    case CONDENSE:
        a.status = condense_records_by(file, it.file_len, text, text_len, lent, words, len, ends, count, out, room,
                                          &a.needed, &a.told);
        break;
    case REPORT:
        a.status = heavy_report(text, text_len, lent, words, len, ends, count, it.k, it.p, it.q, &FIXED, out, room, &a.needed, &a.told);
        break;
    case TOP:
        a.status = heavy_top(text, text_len, lent, words, len, ends, count, it.k, it.p, &FIXED, out, room, &a.needed, &a.told);
        break;
    }
    memcpy(a.room, out, room ? room : 1);
    free(text);
    free(file);
    free(words);
    free(ends);
    free(lent);
    free(out);
    return a;
}

static int told(struct answer a, uint32_t status, uint32_t kind, uint32_t cause, uint64_t number) {
    return a.status == status && a.needed == 0 && a.told.kind == kind && a.told.cause == cause && a.told.number == number
        && a.room[0] == 0xAA;
}

static int gave(struct answer a, const void *bytes, size_t size) {
    return a.status == HEAVY_DONE && a.needed == size && memcmp(a.room, bytes, size) == 0 && a.told.kind == 0
        && a.told.cause == 0 && a.told.number == 0;
}

/* ONE of no items. */
static const char NONE[] = "HHS2\1\0\2\0\0\0\0\0\0\0\0\0\0";

static const struct heavy_layout PLAIN = {',', 0, 0, 0, 0}, NAMED = {';', 1, 0, 0, 1};

static struct asked summary(const char *text) { return (struct asked){SUMMARISE, NULL, 0, text, 2, 0, 0}; }

static struct asked of_one(enum call call, const char *text) {
    return (struct asked){call, ONE, sizeof ONE - 1, text, 2, 0, 0};
}

static struct asked report(const char *text, uint64_t k, uint64_t p, uint64_t q) {
    return (struct asked){REPORT, NULL, 0, text, k, p, q};
}

static struct asked top(const char *text, uint64_t n) { return (struct asked){TOP, NULL, 0, text, n, 0, 0}; }

static void try_layouts(void) {
    struct heavy_layout layout = PLAIN;
    check("a plain layout", gave(ask(summary("a,5\nb,3\n"), layout, "", 64), BYTES(ONE)));
    check("columns by name", gave(ask(summary("n;w;k\n1;5;a\n2;3;b\n"), NAMED, "k w", 64), BYTES(ONE)));
    check("columns by number", gave(ask(summary("n;w;k\n1;5;a\n2;3;b\n"), NAMED, "3 2", 64), BYTES(ONE)));
    check("a full room", gave(ask(summary("k;w\na;5\nb;3\n"), NAMED, "1 2", sizeof ONE - 1), BYTES(ONE)));
    struct answer a = ask(summary("k;w\na;5\nb;3\n"), NAMED, "1 2", sizeof ONE - 2);
    check("a small room", a.status == HEAVY_TOO_SMALL && a.needed == sizeof ONE - 1 && a.room[0] == 0xAA);
    layout = NAMED;
    layout.has_weight = 0;
    check("no weight's column", gave(ask(report("k;w\na;5\nb;3\na;1\n", 2, 0, 0), layout, "k", 64), BYTES("a,2\n")));
    layout = PLAIN;
    layout.has_weight = 1;
    check("a weight's column alone", gave(ask(report("a,9,5\nb,9,1\n", 2, 0, 0), layout, "3", 64), BYTES("a,5\n")));
    layout.decimals = 1;
    check("weights with a point", gave(ask(report("a,0.5\nb,12\n", 2, 0, 0), layout, "1 2", 64), BYTES("b,12.0\n")));
    layout.decimals = 0;
    layout.allow_zero = 1;
    check("weights of 0", gave(ask(report("a,0\nb,-\nc,4\n", 2, 0, 0), layout, "1 2", 64), BYTES("c,4\n")));
    layout.allow_zero = 0;
    check("a key of two columns", gave(ask(report("x,y,3\nx,z,1\n", 2, 0, 0), layout, "1 2 3", 64), BYTES("\"x,y\",3\n")));
    check("an empty text has no header", gave(ask(summary(""), NAMED, "k w", 64), BYTES(NONE)));
}

static void try_bad_layouts(void) {
    struct heavy_layout bad[] = {PLAIN, PLAIN, PLAIN, PLAIN, PLAIN};
    bad[0].header = 2;
    bad[1].allow_zero = 2;
    bad[2].decimals = 10;
    bad[3].has_weight = 2;
    bad[4].has_weight = 1;
    for (enum call call = SUMMARISE; call <= TOP; call++) {
        struct asked it = {call, ONE, sizeof ONE - 1, "a,0\n", 2, 1, 1};
        for (size_t i = 0; i < sizeof bad / sizeof *bad; i++)
            check("bad numbers of a layout", told(ask(it, bad[i], "", 64), HEAVY_USAGE, HEAVY_BAD_LAYOUT, 0, 0));
        struct heavy_layout layout = PLAIN;
        for (const char *byte = "\"\r\n"; *byte; byte++) {
            layout.delimiter = (uint8_t)*byte;
            check("a bad delimiter", told(ask(it, layout, "0", 64), HEAVY_USAGE, HEAVY_BAD_DELIMITER, 0, 0));
        }
        check("a column of number 0", told(ask(it, PLAIN, "0", 64), HEAVY_USAGE, HEAVY_BAD_COLUMN, 0, 0));
        check("a name without a header", told(ask(it, PLAIN, "1 k", 64), HEAVY_USAGE, HEAVY_BAD_COLUMN, 0, 0));
        struct asked right = {call, ONE, sizeof ONE - 1, "k;w\na;0\n", 1, call == TABLE, 0};
        if (call != TABLE)
            right.p = right.q = 1;
        check("a name that the header has not",
              told(ask(right, NAMED, "k v", 64), HEAVY_REFUSED, HEAVY_NO_COLUMN, 0, 0));
        check("a bad record of a layout",
              told(ask(right, NAMED, "k w", 64), HEAVY_REFUSED, HEAVY_BAD_RECORD, HEAVY_RECORD_ZERO_WEIGHT, 1));
        check("a record without the column",
              told(ask(right, NAMED, "k 3", 64), HEAVY_REFUSED, HEAVY_BAD_RECORD, HEAVY_RECORD_FIELD_COUNT, 1));
    }
    struct asked it = summary("a,0\n");
    it.k = 0;
    check("k before the records", told(ask(it, PLAIN, "", 64), HEAVY_USAGE, HEAVY_BAD_K, 0, 0));
    it = (struct asked){TABLE, NULL, 0, "a,0\n", 0, 0, 0};
    check("the depth first", told(ask(it, PLAIN, "", 64), HEAVY_USAGE, HEAVY_BAD_DEPTH, 0, 0));
    it.p = 1;
    check("then the width", told(ask(it, PLAIN, "", 64), HEAVY_USAGE, HEAVY_BAD_WIDTH, 0, 0));
}

static void try_saved(void) {
    struct asked grown = {ADD, NONE, sizeof NONE - 1, "k;w\na;5\nb;3\n", 0, 0, 0};
    check("records added", gave(ask(grown, NAMED, "k w", 64), BYTES(ONE)));
    check("records confirmed", gave(ask(of_one(CONFIRM, "k;w\nb;3\na;5\n"), NAMED, "k w", 64), BYTES("a,5\nb,3\n")));
    struct asked half = of_one(CONFIRM, "b,3\na,5\n");
    half.p = 1;
    half.q = 2;
    check("records confirmed above a half", gave(ask(half, PLAIN, "", 64), BYTES("a,5\n")));
    half.q = 4;
    check("a share below 1/(k + 1)", told(ask(half, PLAIN, "", 64), HEAVY_USAGE, HEAVY_BAD_THRESHOLD, 0, 0));
    half.p = 0;
    check("a share of nothing", told(ask(half, PLAIN, "", 64), HEAVY_USAGE, HEAVY_BAD_THRESHOLD, 0, 0));
    check("another total", told(ask(of_one(CONFIRM, "a,5\n"), PLAIN, "", 64), HEAVY_REFUSED, HEAVY_TOTAL_DIFFERS, 0, 0));
    check("keys outside their bounds",
          told(ask(of_one(CONFIRM, "a,3\nb,5\n"), PLAIN, "", 64), HEAVY_REFUSED, HEAVY_WEIGHT_OUTSIDE, 0, 0));
    check("a part condensed", gave(ask(of_one(CONDENSE, "c,2\na,4\n"), PLAIN, "", 64), BYTES("a,4\nothers,2\n")));
    check("a part with more than all",
          told(ask(of_one(CONDENSE, "a,6\n"), PLAIN, "", 64), HEAVY_REFUSED, HEAVY_WEIGHT_OUTSIDE, 0, 0));
    struct asked cut = {CONDENSE, ONE, sizeof ONE - 2, "a,0\n", 0, 0, 0};
    check("the file before the records",
          told(ask(cut, PLAIN, "", 64), HEAVY_REFUSED, HEAVY_BAD_FILE, HEAVY_FILE_TRUNCATED, 1));
    struct asked cells = {TABLE, NULL, 0, "k;w\na;5\n", 3, 1, 9};
    struct answer a = ask(cells, NAMED, "k w", HEAVY_TABLE_ROOM(3, 1)), b;
    b.status = table_of_text((const uint8_t *)"a,5\n", 4, 3, 1, 9, b.room, sizeof b.room, &b.needed, &b.told);
    check("a table of records", b.status == HEAVY_DONE && gave(a, b.room, b.needed));
    struct asked more = {ADD, (const char *)a.room, a.needed, "a,1\n", 0, 0, 0};
    a = ask(more, PLAIN, "", HEAVY_TABLE_ROOM(3, 1));
    b.status = table_of_text((const uint8_t *)"a,6\n", 4, 3, 1, 9, b.room, sizeof b.room, &b.needed, &b.told);
    check("records added to a table", gave(a, b.room, b.needed));
}

static void try_reports(void) {
    /* of 9 a third is 3 */
    check("a report", gave(ask(report("b,3\na,5\nc,1\n", 2, 0, 0), PLAIN, "", 64), BYTES("a,5\n")));
    check("a report above 1/9", gave(ask(report("b,3\na,5\nc,1\n", 8, 0, 0), PLAIN, "", 64), BYTES("a,5\nb,3\n")));
    check("a report above 1/4", gave(ask(report("b,3\na,5\nc,1\n", 8, 1, 4), PLAIN, "", 64), BYTES("a,5\nb,3\n")));
    /* one counter, which d, e and f took from a before it came again */
    check("one counter", gave(ask(report("a,2\nd\ne\nf\na,4\n", 1, 0, 0), PLAIN, "", 64), BYTES("a,6\n")));
    check("a report of nothing", gave(ask(report("", 1, 0, 0), PLAIN, "", 64), "", 0));
    check("k of a report", told(ask(report("a,0\n", 0, 1, 1), PLAIN, "", 64), HEAVY_USAGE, HEAVY_BAD_K, 0, 0));
    check("k is at most 65535", told(ask(report("a,0\n", 65536, 0, 0), PLAIN, "", 64), HEAVY_USAGE, HEAVY_BAD_K, 0, 0));
    check("a report's share", told(ask(report("a,0\n", 2, 1, 4), PLAIN, "", 64), HEAVY_USAGE, HEAVY_BAD_THRESHOLD, 0, 0));
}

static void try_tops(void) {
    struct heavy_layout tenths = {',', 0, 0, 1, 1};
    check("the greatest keys", gave(ask(top("b,3\na,5\nc,1\nb,1\n", 2), PLAIN, "", 64), BYTES("a,5\nb,4\n")));
    check("equal weights by rising key", gave(ask(top("b,3\na,3\nc,3\n", 2), PLAIN, "", 64), BYTES("a,3\nb,3\n")));
    check("all keys", gave(ask(top("b,3\na,5\n", 9), PLAIN, "", 64), BYTES("a,5\nb,3\n")));
    check("no key", gave(ask(top("b,3\na,5\n", 0), PLAIN, "", 64), "", 0));
    check("tenths", gave(ask(top("b,3\na,0.5\n", 1), tenths, "1 2", 64), BYTES("b,3.0\n")));
    struct answer a = ask(top("b,3\na,5\n", 2), PLAIN, "", 7);
    check("a small room", a.status == HEAVY_TOO_SMALL && a.needed == 8 && a.room[0] == 0xAA);
    check("a bad record", told(ask(top("b\na,0\n", 2), PLAIN, "", 64), HEAVY_REFUSED, HEAVY_BAD_RECORD,
                               HEAVY_RECORD_ZERO_WEIGHT, 2));
}

/* Of so many keys of one weight that counters of the least memory leave open which are the greatest, only the heavier one is
   certain. */
static void try_uncertain_tops(void) {
    static uint8_t text[12 * 20000], room[64];
    struct heavy_fault fault;
    size_t len = (size_t)sprintf((char *)text, "a,60000\n"), needed = 77;
    for (int i = 0; i < 15000; i++)
        len += (size_t)sprintf((char *)text + len, "k%d\n", i);
    uint32_t status = heavy_top(text, len, &PLAIN, NULL, 0, NULL, 0, 3, 0, &FIXED, room, sizeof room, &needed, &fault);
    check("three of many", status == HEAVY_REFUSED && needed == 0 && fault.kind == HEAVY_TOP_UNCERTAIN && fault.number == 1);
    status = heavy_top(text, len, &PLAIN, NULL, 0, NULL, 0, fault.number, 0, &FIXED, room, sizeof room, &needed, &fault);
    check("as many as are certain", status == HEAVY_DONE && needed == 8 && memcmp(room, "a,60000\n", 8) == 0);
    status = heavy_top(text, len, &PLAIN, NULL, 0, NULL, 0, 3, 64000000, &FIXED, room, sizeof room, &needed, &fault);
    check("three of many, in more memory", status == HEAVY_DONE && needed == 18 && memcmp(room, "a,60000\nk0,1\nk1,1\n", 18) == 0);
}

static void try_whole_records(void) {
    struct {
        const char *text;
        uint8_t delimiter;
        size_t whole;
    } rows[] = {{"a;b\nc", ';', 3}, {"\"a;\n", ';', 0}, {"x;\"a\n", ';', 0}, {"x;\"a\n", ',', 4}, {"a\nb\n", '\n', 0}, {"", ',', 0}};
    for (size_t i = 0; i < sizeof rows / sizeof *rows; i++) {
        uint8_t *lent = block(rows[i].text, strlen(rows[i].text));
        check("whole records", heavy_whole_records(lent, strlen(rows[i].text), rows[i].delimiter) == rows[i].whole);
        free(lent);
    }
}

static int has(const struct heavy_info *info, uint64_t kind, const uint64_t numbers[7]) {
    const uint64_t found[] = {info->total, info->k, info->keys, info->counters, info->slack, info->width, info->depth};
    return info->kind == kind && memcmp(found, numbers, sizeof found) == 0;
}

static void try_infos(void) {
    struct heavy_info info, before;
    struct heavy_fault fault = {7, 7, 7};
    check("a summary's numbers", info_of_file((const uint8_t *)BYTES(ONE), &info, &fault) == HEAVY_DONE && fault.kind == 0
          && has(&info, HEAVY_SUMMARY, (uint64_t[]){8, 2, 2, 8, 0, 0, 0}));
    /* k 1, a total of 9, a 3: 6 are left for two, so the counter may be 3 too low */
    static const char LOW[] = "HHS1\1\0\1\0\0\0\0\0\0\0\11\0\1\1a\0\0\0\0\0\0\0\3";
    uint32_t status = info_of_file((const uint8_t *)BYTES(LOW), &info, &fault);
    check("a slack", status == HEAVY_DONE && has(&info, HEAVY_SUMMARY, (uint64_t[]){9, 1, 1, 3, 3, 0, 0}));
    uint8_t cells[HEAVY_TABLE_ROOM(3, 2)];
    size_t needed;
    table_of_text((const uint8_t *)"a,5\n", 4, 3, 2, 0, cells, sizeof cells, &needed, &fault);
    check("a table's numbers", info_of_file(cells, needed, &info, &fault) == HEAVY_DONE
          && has(&info, HEAVY_TABLE, (uint64_t[]){5, 0, 0, 0, 0, 3, 2}));
    before = info;
    status = info_of_file((const uint8_t *)ONE, sizeof ONE - 2, &info, &fault);
    check("a file that is cut short", status == HEAVY_REFUSED && fault.kind == HEAVY_BAD_FILE && fault.number == 1
          && fault.cause == HEAVY_FILE_TRUNCATED && memcmp(&before, &info, sizeof info) == 0);
}

static void try_texts(void) {
    struct {
        struct heavy_fault fault;
        const char *text;
    } rows[] = {
        {{0, 0, 0}, "unknown fault"},
        {{HEAVY_BAD_DEPTH, 0, 0}, "depth must be 1 to 16"},
        {{HEAVY_BAD_K, 0, 0}, "k must be 1 to 65535"},
        {{HEAVY_BAD_WIDTH, 0, 0}, "width must be 1 to 65536"},
        {{HEAVY_BAD_METHOD, 0, 0}, "method must be mg or ss"},
        {{HEAVY_BAD_RECORD, HEAVY_RECORD_ZERO_WEIGHT, 3}, "record 3: zero weight"},
        {{HEAVY_BAD_RECORD, HEAVY_RECORD_FIELD_COUNT, 1}, "record 1: wrong number of fields"},
        {{HEAVY_BAD_RECORD, HEAVY_RECORD_TOTAL_TOO_LARGE, 18446744073709551615u}, "record 18446744073709551615: total too large"},
        {{HEAVY_BAD_FILE, HEAVY_FILE_TRUNCATED, 2}, "file 2: truncated"},
        {{HEAVY_BAD_FILE, HEAVY_FILE_TRAILING, 1}, "file 1: trailing bytes"},
        {{HEAVY_BAD_FILE, HEAVY_FILE_DAMAGED, 1}, "file 1: damaged: its checksum is another"},
        {{HEAVY_BAD_FILE, HEAVY_FILE_BAD_DECIMALS, 2}, "file 2: bad decimals"},
        {{HEAVY_MIXED_KINDS, 0, 2}, "file 2: another kind"},
        {{HEAVY_CANNOT_MERGE, HEAVY_MERGE_DIFFERENT_K, 2}, "file 2: another k"},
        {{HEAVY_CANNOT_MERGE, HEAVY_MERGE_TOTAL_TOO_LARGE, 3}, "file 3: total too large"},
        {{HEAVY_BAD_KEY, HEAVY_KEY_EMPTY, 1}, "key 1: empty"},
        {{HEAVY_BAD_KEY, HEAVY_KEY_TOO_LONG, 4}, "key 4: too long"},
        {{HEAVY_NOT_COUNTERS, 0, 0}, "file 1: not a counter summary"},
        {{HEAVY_TOTAL_DIFFERS, 0, 0}, "file 1: its total is not the input's"},
        {{HEAVY_NO_MEMORY, 0, 0}, "out of memory"},
        {{HEAVY_BAD_THRESHOLD, 0, 0}, "threshold must be P/Q with 1 <= P <= Q <= 4294967296 and P*(K+1) >= Q"},
        {{HEAVY_BAD_END, 0, 4}, "end 4: before the one before it, or after all bytes"},
        {{HEAVY_BAD_WEIGHT_COUNT, 0, 0}, "weights must be none, or one for each end"},
        {{HEAVY_BAD_DELIMITER, 0, 0}, "delimiter must be no quote, CR or LF"},
        {{HEAVY_BAD_COLUMN, 0, 0}, "columns must be numbers from 1 on or, with header 1, names"},
        {{HEAVY_NO_COLUMN, 0, 0}, "the header has no such column"},
        {{HEAVY_WEIGHT_OUTSIDE, 0, 0}, "file 1: a key's weight in the input is outside its bounds"},
        {{HEAVY_BAD_LAYOUT, 0, 0}, "header, allow_zero and has_weight must be 0 or 1, decimals 0 to 9"},
        {{HEAVY_TOP_UNCERTAIN, 0, 0}, "of the greatest keys only 0 are certain"},
        {{HEAVY_TOP_UNCERTAIN, 0, 3}, "of the greatest keys only 3 are certain"},
        {{HEAVY_NO_VALUE, 0, 0}, "a handle is NULL, or is lent twice"},
        {{77, 0, 0}, "unknown fault"},
        {{HEAVY_BAD_RECORD, 77, 1}, "unknown fault"},
        {{HEAVY_BAD_K, 1, 0}, "unknown fault"},
        {{HEAVY_BAD_K, 0, 1}, "unknown fault"},
    };
    for (size_t i = 0; i < sizeof rows / sizeof *rows; i++) {
        size_t size = strlen(rows[i].text), needed = 77;
        uint8_t *room = block(rows[i].text, size);
        memset(room, 0xAA, size);
        uint32_t status = heavy_strerror(&rows[i].fault, room, size - 1, &needed);
        check("a text in a small room", status == HEAVY_TOO_SMALL && needed == size && room[0] == 0xAA);
        status = heavy_strerror(&rows[i].fault, room, size, &needed);
        check(rows[i].text, status == HEAVY_DONE && needed == size && memcmp(room, rows[i].text, size) == 0);
        check("no text has more than 128 bytes", size <= 128);
        free(room);
    }
}

int main(void) {
    try_layouts();
    try_bad_layouts();
    try_saved();
    try_reports();
    try_tops();
    try_uncertain_tops();
    try_whole_records();
    try_infos();
    try_texts();
    printf("%d passed, %d failed\n", passed, failed);
    return failed != 0;
}

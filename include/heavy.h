/* heavy: the heavy keys of weighted records, in summaries and tables that a handle has.

   Each call is proved against the definitions that the program is proved against (crates/heavy_ffi); nothing checks the C
   side, which owes what stands here.

   Handles. A `struct heavy` is the value of a saved file in the library's memory: a summary or a table. heavy_new_summary,
   heavy_new_table and heavy_load make one, and heavy_free gives it back. No pointer to it is of use after that. A call on a
   handle makes of its value what is said here, and at another status than HEAVY_DONE the value is as it was. Where the
   handle is NULL, there is no value: the call answers HEAVY_USAGE and HEAVY_NO_VALUE.

   Answers. A call answers a status: HEAVY_DONE, one of the program's exit statuses 1 to 4, or HEAVY_TOO_SMALL.
     HEAVY_DONE       the first *needed elements of out are the answer; fault has zeros
     HEAVY_TOO_SMALL  the answer has *needed elements, which are more than out_len; out is as it was; fault has zeros.
                      The call can be made again with so much room
     another          fault says why, *needed is 0, and out is as it was
   No call answers HEAVY_DEVICE today; treat it as a fault.

   Pointers. Lengths are counted in elements. A pointer may be NULL where its length is 0, and fault where nobody asks why a
   call refused. No other may be. No slice has 2^63 bytes or more. Memory that a call writes (out, *needed, *bounds, *info,
   *heavy, *fault) overlaps nothing else that the same call is lent, and no other thread reads or writes it during the call.
   Memory that is only read may be lent to many calls at once.

   Memory. The caller owns all that it lends, and the library keeps handles alone after a call. A call takes memory by malloc
   and realloc, gives it back by free, and answers HEAVY_MEMORY where it gets none. The three functions have to be of one
   allocator.

   Threads. Calls on different handles share nothing: any number may run at once. No two calls at once are lent the same
   handle, also where both only ask. None may be made from a signal handler, nor by the forked child of a process with
   threads. A call takes some 64 KB of stack.

   Keys that are lent together lie in one buffer: key i is the bytes of keys from ends[i - 1], or from 0, to ends[i]. Each end
   has to be at least the end before it and at most keys_len. Else the call answers HEAVY_USAGE and HEAVY_BAD_END with the
   number of the first end that isn't. Items are such keys with weights: key i weighs weights[i], or 1 where weights_len is 0.
   Another number of weights is refused after the ends, with HEAVY_USAGE and HEAVY_BAD_WEIGHT_COUNT. Then come the items in
   order: HEAVY_BAD_RECORD with the item's number, and the causes HEAVY_RECORD_EMPTY_KEY, _KEY_TOO_LONG, _ZERO_WEIGHT and
   _TOTAL_TOO_LARGE.

   Texts are CSV records, laid out as a struct heavy_layout says. Saved files are what the program's `summarise`, `table` and
   `merge` write, byte for byte. */
#ifndef HEAVY_H
#define HEAVY_H

#include <stddef.h>
#include <stdint.h>

#ifdef __cplusplus
extern "C" {
#endif

/* The number of this interface, as heavy_version() gives it. It grows where a call changes. */
#define HEAVY_VERSION 1u

/* The version of the program that this header came with. */
#define HEAVY_RELEASE "1.0.0"

/* Statuses. */
#define HEAVY_DONE 0u
#define HEAVY_DEVICE 1u
#define HEAVY_USAGE 2u
#define HEAVY_REFUSED 3u
#define HEAVY_MEMORY 4u
#define HEAVY_TOO_SMALL 5u

/* Kinds of fault. Those with a number and a cause say so; else both are 0. No call gives HEAVY_BAD_METHOD or
   HEAVY_REPORT_UNCERTAIN today. */
#define HEAVY_BAD_DEPTH 1u
#define HEAVY_BAD_K 2u
#define HEAVY_BAD_WIDTH 4u
#define HEAVY_BAD_METHOD 7u
#define HEAVY_BAD_RECORD 9u    /* number of the record or item; cause HEAVY_RECORD_.. */
#define HEAVY_BAD_FILE 10u     /* number of the file; cause HEAVY_FILE_.. */
#define HEAVY_MIXED_KINDS 11u  /* number of the file */
#define HEAVY_CANNOT_MERGE 12u /* number of the file; cause HEAVY_MERGE_.. */
#define HEAVY_BAD_KEY 13u      /* number of the key; cause HEAVY_KEY_.. */
#define HEAVY_NOT_COUNTERS 14u
#define HEAVY_TOTAL_DIFFERS 15u
#define HEAVY_NO_MEMORY 18u
#define HEAVY_BAD_THRESHOLD 19u
#define HEAVY_BAD_END 20u /* number of the end */
#define HEAVY_BAD_WEIGHT_COUNT 21u
#define HEAVY_BAD_DELIMITER 22u
#define HEAVY_BAD_COLUMN 23u
#define HEAVY_NO_COLUMN 24u
#define HEAVY_WEIGHT_OUTSIDE 25u
#define HEAVY_BAD_LAYOUT 26u
#define HEAVY_TOP_UNCERTAIN 27u /* number of the greatest keys that are certain */
#define HEAVY_NO_VALUE 28u
#define HEAVY_REPORT_UNCERTAIN 29u

#define HEAVY_RECORD_FIELD_COUNT 1u
#define HEAVY_RECORD_EMPTY_KEY 2u
#define HEAVY_RECORD_KEY_TOO_LONG 3u
#define HEAVY_RECORD_BAD_WEIGHT 4u
#define HEAVY_RECORD_ZERO_WEIGHT 5u
#define HEAVY_RECORD_TOTAL_TOO_LARGE 6u

#define HEAVY_FILE_TRUNCATED 1u
#define HEAVY_FILE_BAD_MAGIC 2u
#define HEAVY_FILE_BAD_KIND 3u
#define HEAVY_FILE_BAD_K 4u
#define HEAVY_FILE_BAD_COUNT 5u
#define HEAVY_FILE_BAD_KEY 6u
#define HEAVY_FILE_KEY_ORDER 7u
#define HEAVY_FILE_BAD_COUNTER 8u
#define HEAVY_FILE_SUM_TOO_LARGE 9u
#define HEAVY_FILE_BAD_WIDTH 10u
#define HEAVY_FILE_BAD_DEPTH 11u
#define HEAVY_FILE_BAD_COEFFICIENT 12u
#define HEAVY_FILE_TOTAL_TOO_LARGE 13u
#define HEAVY_FILE_ROW_SUM 14u
#define HEAVY_FILE_TRAILING 15u
#define HEAVY_FILE_DAMAGED 17u      /* of a sealed file, which no call reads today */
#define HEAVY_FILE_BAD_DECIMALS 18u /* likewise */

#define HEAVY_MERGE_DIFFERENT_K 1u
#define HEAVY_MERGE_DIFFERENT_FAMILY 2u
#define HEAVY_MERGE_DIFFERENT_WIDTH 3u
#define HEAVY_MERGE_TOTAL_TOO_LARGE 4u

#define HEAVY_KEY_EMPTY 1u
#define HEAVY_KEY_TOO_LONG 2u

/* Kinds of value. */
#define HEAVY_SUMMARY 1u
#define HEAVY_TABLE 2u

/* The most bytes of a key, and the largest k. */
#define HEAVY_MAX_KEY 4096u
#define HEAVY_MAX_K 65535u

/* The bytes of a saved table. */
#define HEAVY_TABLE_ROOM(width, depth) ((size_t)26 + (size_t)16 * (depth) + (size_t)8 * (depth) * (width))

/* A value in the library's memory. */
struct heavy;

/* Why a call refused. Records, items, files, ends and keys are numbered from 1. */
struct heavy_fault {
    uint32_t kind;
    uint32_t cause;
    uint64_t number;
};

/* The words by which keys are hashed. Draw them at random, so that nobody who chooses keys can choose such as collide. Both
   0 are the words that all runs have. They decide how fast an answer comes, and no answer. */
struct heavy_hash {
    uint64_t words[2];
};

/* The least and the most that a key's weight can be. */
struct heavy_bounds {
    uint64_t low;
    uint64_t high;
};

/* An entry of a summary: its key is the len bytes from start on of what heavy_save gives. */
struct heavy_entry {
    size_t start;
    size_t len;
    uint64_t counter;
};

/* How the records of a text are laid out, beside the columns, which a call takes after it, as keys lie: each is a column's
   number in digits, from 1 on, or with a header its name. A key of several columns is the CSV text of their fields, as the
   program's --key makes it. Where there are no columns, a record is a key and, after the delimiter, its weight, or 1. Where
   there are only those of the key, each record weighs 1; where there is only that of the weight, the key is column 1.
   A call tests the layout first, before everything else: the columns' ends (HEAVY_BAD_END), the layout's numbers
   (HEAVY_BAD_LAYOUT), then the delimiter (HEAVY_BAD_DELIMITER), then the columns (HEAVY_BAD_COLUMN), all with HEAVY_USAGE.
   A column that the text's header doesn't have is refused where the text is read, before its records: HEAVY_REFUSED and
   HEAVY_NO_COLUMN. */
struct heavy_layout {
    uint8_t delimiter;   /* the byte between two fields, but for a quote, CR or LF */
    uint8_t header;      /* 1: the first record names the columns, and is no record; else 0 */
    uint8_t allow_zero;  /* 1: a record of weight 0 or - adds nothing, and is no fault; else 0 */
    uint8_t decimals;    /* the most digits of a weight after its point, 0 to 9; it counts in units of the last */
    uint32_t has_weight; /* 1: the last of the columns is the weight's; 0: all are the key's */
};

/* What is in a value. The fields of the other kind are 0. */
struct heavy_info {
    uint64_t kind;     /* HEAVY_SUMMARY or HEAVY_TABLE */
    uint64_t total;    /* what all items weigh */
    uint64_t k;        /* a summary's k */
    uint64_t keys;     /* how many keys have a counter */
    uint64_t counters; /* what the counters add up to */
    uint64_t slack;    /* how far a counter may be below its key's weight */
    uint64_t width;    /* a table's width and depth */
    uint64_t depth;
};

/* HEAVY_VERSION of the library. */
uint32_t heavy_version(void);

/* Gives HEAVY_RELEASE of the library, without a 0 at its end. It answers HEAVY_DONE or HEAVY_TOO_SMALL. */
uint32_t heavy_release(uint8_t *out, size_t out_len, size_t *needed);

/* Gives the text of a fault, without a 0 at its end: "record 3: zero weight". Of numbers that no call gives it is "unknown
   fault". It answers HEAVY_DONE, HEAVY_TOO_SMALL or HEAVY_MEMORY, and never that last one for HEAVY_NO_MEMORY. No text has
   more than 128 bytes. */
uint32_t heavy_strerror(const struct heavy_fault *fault, uint8_t *out, size_t out_len, size_t *needed);

/* The most bytes of a saved summary with k counters, k at most HEAVY_MAX_K, whose keys have at most longest bytes,
   HEAVY_MAX_KEY at the most: of a larger number, as of the largest. */
size_t heavy_summary_room(uint64_t k, uint64_t longest);

/* Makes the summary of no items with k counters, k from 1 to HEAVY_MAX_K, whose calls hash keys by these words. At another
   status than HEAVY_DONE *heavy is as it was; so it is with heavy_new_table and heavy_load. */
uint32_t heavy_new_summary(struct heavy **heavy, uint64_t k, const struct heavy_hash *hash, struct heavy_fault *fault);

/* Makes the Count-Min table of no items, with the hash family that is drawn from the seed: width from 1 to 65536, depth from
   1 to 16. The depth is tested first, then the width. */
uint32_t heavy_new_table(struct heavy **heavy, uint64_t width, uint64_t depth, uint64_t seed, struct heavy_fault *fault);

/* Makes the value of a saved file, of either version, whose calls hash keys by these words. A file that is none is refused
   as file 1. */
uint32_t heavy_load(struct heavy **heavy, const uint8_t *file, size_t file_len, const struct heavy_hash *hash,
                    struct heavy_fault *fault);

/* Gives the saved file of the value, of version 2. */
uint32_t heavy_save(struct heavy *heavy, uint8_t *out, size_t out_len, size_t *needed, struct heavy_fault *fault);

/* Gives back the memory of a handle, and does nothing where it is NULL. */
void heavy_free(struct heavy *heavy);

/* Adds an item. The cost of a new key of a full summary grows as the logarithm of k. The first new keys after a value is
   made, saved, asked or merged, fewer than two thousand, cost a walk over the counters each. An item is refused as item 1. */
uint32_t heavy_update(struct heavy *heavy, const uint8_t *key, size_t key_len, uint64_t weight, struct heavy_fault *fault);

/* Adds items in order, all or none. The value is copied for that, so give it many. */
uint32_t heavy_update_items(struct heavy *heavy, const uint8_t *keys, size_t keys_len, const uint64_t *ends, size_t count,
                            const uint64_t *weights, size_t weights_len, struct heavy_fault *fault);

/* Adds the records of a text in order, all or none. A long text goes through a buffer in parts of whole records, which
   heavy_whole_records counts. With a header each part is lent with the header's line in front. A byte order mark at the front
   of a text is left out. A part that is cut so begins with a line feed, which is no record, and so keeps such bytes. Records
   are refused by their numbers in this text. Then their items are tested in order, and the first that makes the total too
   large is refused. Weights that were summarised with other decimals are other units. */
uint32_t heavy_update_records(struct heavy *heavy, const uint8_t *text, size_t text_len, const struct heavy_layout *layout,
                              const uint8_t *columns, size_t columns_len, const uint64_t *ends, size_t count,
                              struct heavy_fault *fault);

/* Merges another value into this one: the summaries of two streams become that of both, and so do two tables. The other is as
   it was. It has a handle of its own: the same handle twice is refused as NULL is. Another value is refused as file 2:
   HEAVY_MIXED_KINDS or HEAVY_CANNOT_MERGE. */
uint32_t heavy_merge(struct heavy *heavy, struct heavy *other, struct heavy_fault *fault);

/* Merges the value of a saved file into this one. A file that is none is refused first, as file 2. */
uint32_t heavy_merge_saved(struct heavy *heavy, const uint8_t *file, size_t file_len, struct heavy_fault *fault);

/* Gives the least and the most that a key's weight can be, of 1 to HEAVY_MAX_KEY bytes. At another status than HEAVY_DONE
   *bounds is as it was. */
uint32_t heavy_ask(struct heavy *heavy, const uint8_t *key, size_t key_len, struct heavy_bounds *bounds,
                   struct heavy_fault *fault);

/* Gives for each of count keys what heavy_ask gives for one: out[i] is that of key i. The first key that is none is refused
   with its number. */
uint32_t heavy_ask_items(struct heavy *heavy, const uint8_t *keys, size_t keys_len, const uint64_t *ends, size_t count,
                         struct heavy_bounds *out, size_t out_len, size_t *needed, struct heavy_fault *fault);

/* Says what is in the value. At another status than HEAVY_DONE *info is as it was. */
uint32_t heavy_info(struct heavy *heavy, struct heavy_info *info, struct heavy_fault *fault);

/* Gives the entries of a summary, by rising key: where each key lies in what heavy_save gives, and its counter. A table is
   refused: HEAVY_NOT_COUNTERS. */
uint32_t heavy_entries(struct heavy *heavy, struct heavy_entry *out, size_t out_len, size_t *needed,
                       struct heavy_fault *fault);

/* Gives the rows `key,low,high` of all keys of a summary that have a counter, by falling low and then by rising key: between
   which weights each key's weight is. A table is refused. */
uint32_t heavy_list(struct heavy *heavy, uint8_t *out, size_t out_len, size_t *needed, struct heavy_fault *fault);

/* Gives the rows `key,weight` of a summary's keys above the share p/q of the items, which have to be those that were
   summarised: 1 <= p <= q <= 2^32, and p/q at least 1/(k + 1), or both 0 for that. A table is refused first, then another share
   (HEAVY_USAGE and HEAVY_BAD_THRESHOLD), then the items, then another total than the summary's (HEAVY_TOTAL_DIFFERS). */
uint32_t heavy_confirm_items(struct heavy *heavy, const uint8_t *keys, size_t keys_len, const uint64_t *ends, size_t count,
                             const uint64_t *weights, size_t weights_len, uint64_t p, uint64_t q, uint8_t *out,
                             size_t out_len, size_t *needed, struct heavy_fault *fault);

/* Gives the same of the records of a text. Weights have as many digits after the point as the layout's. As in the program,
   records that contradict the summary are refused last, where a key weighs less than its counter, or more than its counter
   and the slack: HEAVY_REFUSED and HEAVY_WEIGHT_OUTSIDE. */
uint32_t heavy_confirm_records(struct heavy *heavy, const uint8_t *text, size_t text_len, const struct heavy_layout *layout,
                               const uint8_t *columns, size_t columns_len, const uint64_t *ends, size_t count, uint64_t p,
                               uint64_t q, uint8_t *out, size_t out_len, size_t *needed, struct heavy_fault *fault);

/* Gives records that say the same to heavy_confirm_records as these items, at most one more than the summary has keys. They
   are the weight of each of its keys that comes there, by rising key. Where other keys come, one record of their weight
   follows. It is named by the first of `others`, `others1`, `others2` and so on that is no key of the summary. So parts of a
   stream are condensed one by one, and the rows of all, one after the other, are a text to confirm. A table is refused first,
   then the items, whose total is at most 2^63 - 1, and need not be the summary's. */
uint32_t heavy_condense_items(struct heavy *heavy, const uint8_t *keys, size_t keys_len, const uint64_t *ends, size_t count,
                              const uint64_t *weights, size_t weights_len, uint8_t *out, size_t out_len, size_t *needed,
                              struct heavy_fault *fault);

/* Gives the same of the records of a text, which may be a part of those that were summarised: records of a key, a comma and a
   weight, with as many digits after the point as the layout's. Where a key weighs more than its counter and the slack, the
   records are refused last: HEAVY_REFUSED and HEAVY_WEIGHT_OUTSIDE. */
uint32_t heavy_condense_records(struct heavy *heavy, const uint8_t *text, size_t text_len, const struct heavy_layout *layout,
                                const uint8_t *columns, size_t columns_len, const uint64_t *ends, size_t count, uint8_t *out,
                                size_t out_len, size_t *needed, struct heavy_fault *fault);

/* Gives the exact report of the records of a text, as the program's report has it: the rows `key,weight` of all keys above the
   share p/q of the total, by falling weight and then by rising key. k is from 1 to HEAVY_MAX_K, and p and q are as
   heavy_confirm_items takes them. The text is read twice, and k counters are kept. The layout is tested first, then k, then
   the share, then the records. Keys are hashed by these words. */
uint32_t heavy_report(const uint8_t *text, size_t text_len, const struct heavy_layout *layout, const uint8_t *columns,
                      size_t columns_len, const uint64_t *ends, size_t count, uint64_t k, uint64_t p, uint64_t q,
                      const struct heavy_hash *hash, uint8_t *out, size_t out_len, size_t *needed, struct heavy_fault *fault);

/* Gives the rows `key,weight` of the n greatest keys of the records of a text, or of all where they are fewer, by falling
   weight and then by rising key, as the program's top has them. Counters take so many bytes of memory, a few more or less,
   and 256,000 at least. The text is read once where they tell the greatest keys, and else twice. The layout is tested first,
   then the records. Where fewer than n keys are certain, that is refused last: HEAVY_REFUSED and HEAVY_TOP_UNCERTAIN. Keys
   are hashed by these words. */
uint32_t heavy_top(const uint8_t *text, size_t text_len, const struct heavy_layout *layout, const uint8_t *columns,
                   size_t columns_len, const uint64_t *ends, size_t count, uint64_t n, uint64_t memory,
                   const struct heavy_hash *hash, uint8_t *out, size_t out_len, size_t *needed, struct heavy_fault *fault);

/* Gives the number of bytes of a part of a text that are whole records, with this byte between two fields: those before the
   last line feed that is not in quotes. It is 0 where there is no such line feed after the first byte. The next part begins
   with the bytes that are left. Where the number is 0, read more after the part; at the text's end take the whole part. */
size_t heavy_whole_records(const uint8_t *text, size_t text_len, uint8_t delimiter);

#ifdef __cplusplus
}
#endif

#if defined(__STDC_VERSION__) && __STDC_VERSION__ >= 201112L
_Static_assert(sizeof(struct heavy_fault) == 16, "a fault has 16 bytes");
_Static_assert(offsetof(struct heavy_fault, number) == 8, "the number comes last");
_Static_assert(sizeof(struct heavy_hash) == 16, "the words of a hash have 16 bytes");
_Static_assert(sizeof(struct heavy_bounds) == 16, "bounds have 16 bytes");
_Static_assert(sizeof(struct heavy_entry) == 24, "an entry has 24 bytes");
_Static_assert(sizeof(struct heavy_layout) == 8, "a layout has 8 bytes");
_Static_assert(sizeof(struct heavy_info) == 64, "an info has 64 bytes");
_Static_assert(sizeof(size_t) == 8, "the library is built for 64-bit machines");
#endif

#endif

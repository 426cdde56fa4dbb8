/* Calls on saved files, over those on handles: each loads a file, makes one call on its value, and gives the value back. */
#include "heavy.h"

static const struct heavy_hash FIXED = {{0, 0}};
static const struct heavy_layout RECORDS = {',', 0, 0, 0, 0};

/* Where the keys end that have these lengths, at most eight; beyond all bytes as they do. */
static inline const uint64_t *ends_of(uint64_t ends[8], const size_t *lengths, size_t count, size_t len) {
    uint64_t end = 0;
    for (size_t i = 0; i < count; i++)
        ends[i] = end = lengths[i] < len - end ? end + lengths[i] : len;
    return ends;
}

/* The saved file of the value, where the call before is done; and the value is given back. */
static inline uint32_t saved(struct heavy *value, uint32_t status, uint8_t *out, size_t out_len, size_t *needed,
                      struct heavy_fault *fault) {
    *needed = 0;
    if (status == HEAVY_DONE)
        status = heavy_save(value, out, out_len, needed, fault);
    heavy_free(value);
    return status;
}

/* What a call answered, whose value is given back. */
static inline uint32_t left(struct heavy *value, uint32_t status) {
    heavy_free(value);
    return status;
}

static inline uint32_t load(struct heavy **value, const uint8_t *file, size_t len, size_t *needed, struct heavy_fault *fault) {
    *value = NULL;
    *needed = 0;
    return heavy_load(value, file, len, &FIXED, fault);
}

static inline uint32_t file_of_records(const uint8_t *text, size_t text_len, const struct heavy_layout *layout,
                                const uint8_t *columns, size_t columns_len, const uint64_t *ends, size_t count, uint64_t k,
                                uint8_t *out, size_t out_len, size_t *needed, struct heavy_fault *fault) {
    struct heavy *value = NULL;
    uint32_t status = heavy_new_summary(&value, k, &FIXED, fault);
    if (status == HEAVY_DONE)
        status = heavy_update_records(value, text, text_len, layout, columns, columns_len, ends, count, fault);
    return saved(value, status, out, out_len, needed, fault);
}

static inline uint32_t file_of_text(const uint8_t *text, size_t text_len, uint64_t k, uint8_t *out, size_t out_len, size_t *needed,
                             struct heavy_fault *fault) {
    return file_of_records(text, text_len, &RECORDS, NULL, 0, NULL, 0, k, out, out_len, needed, fault);
}

static inline uint32_t table_of_records(const uint8_t *text, size_t text_len, const struct heavy_layout *layout,
                                 const uint8_t *columns, size_t columns_len, const uint64_t *ends, size_t count,
                                 uint64_t width, uint64_t depth, uint64_t seed, uint8_t *out, size_t out_len, size_t *needed,
                                 struct heavy_fault *fault) {
    struct heavy *value = NULL;
    uint32_t status = heavy_new_table(&value, width, depth, seed, fault);
    if (status == HEAVY_DONE)
        status = heavy_update_records(value, text, text_len, layout, columns, columns_len, ends, count, fault);
    return saved(value, status, out, out_len, needed, fault);
}

static inline uint32_t table_of_text(const uint8_t *text, size_t text_len, uint64_t width, uint64_t depth, uint64_t seed,
                              uint8_t *out, size_t out_len, size_t *needed, struct heavy_fault *fault) {
    return table_of_records(text, text_len, &RECORDS, NULL, 0, NULL, 0, width, depth, seed, out, out_len, needed, fault);
}

static inline uint32_t file_with_records(const uint8_t *file, size_t file_len, const uint8_t *text, size_t text_len,
                                  const struct heavy_layout *layout, const uint8_t *columns, size_t columns_len,
                                  const uint64_t *ends, size_t count, uint8_t *out, size_t out_len, size_t *needed,
                                  struct heavy_fault *fault) {
    struct heavy *value;
    uint32_t status = load(&value, file, file_len, needed, fault);
    if (status == HEAVY_DONE)
        status = heavy_update_records(value, text, text_len, layout, columns, columns_len, ends, count, fault);
    return saved(value, status, out, out_len, needed, fault);
}

/* The merge of files that lie one after the other. A file that is refused has its number among them. */
static inline uint32_t merge_of(const uint8_t *files, size_t files_len, const size_t *lengths, size_t count, uint8_t *out,
                         size_t out_len, size_t *needed, struct heavy_fault *fault) {
    uint64_t ends[8];
    struct heavy *value;
    ends_of(ends, lengths, count, files_len);
    uint32_t status = load(&value, files, ends[0], needed, fault);
    for (size_t i = 1; i < count && status == HEAVY_DONE; i++) {
        status = heavy_merge_saved(value, files + ends[i - 1], ends[i] - ends[i - 1], fault);
        fault->number += status == HEAVY_REFUSED ? i - 1 : 0;
    }
    return saved(value, status, out, out_len, needed, fault);
}

static inline uint32_t ask_file(const uint8_t *file, size_t file_len, const uint8_t *key, size_t key_len, uint64_t *low,
                         uint64_t *high, struct heavy_fault *fault) {
    struct heavy *value;
    struct heavy_bounds bounds = {*low, *high};
    size_t needed;
    uint32_t status = load(&value, file, file_len, &needed, fault);
    if (status == HEAVY_DONE)
        status = heavy_ask(value, key, key_len, &bounds, fault);
    *low = bounds.low;
    *high = bounds.high;
    return left(value, status);
}

static inline uint32_t ask_file_keys(const uint8_t *file, size_t file_len, const uint8_t *keys, size_t keys_len,
                              const size_t *lengths, size_t count, struct heavy_bounds *out, size_t out_len, size_t *needed,
                              struct heavy_fault *fault) {
    uint64_t ends[8];
    struct heavy *value;
    uint32_t status = load(&value, file, file_len, needed, fault);
    if (status == HEAVY_DONE)
        status = heavy_ask_items(value, keys, keys_len, ends_of(ends, lengths, count, keys_len), count, out, out_len, needed,
                                 fault);
    return left(value, status);
}

static inline uint32_t entries_of_file(const uint8_t *file, size_t file_len, struct heavy_entry *out, size_t out_len,
                                size_t *needed, struct heavy_fault *fault) {
    struct heavy *value;
    uint32_t status = load(&value, file, file_len, needed, fault);
    return left(value, status != HEAVY_DONE ? status : heavy_entries(value, out, out_len, needed, fault));
}

static inline uint32_t list_file(const uint8_t *file, size_t file_len, uint8_t *out, size_t out_len, size_t *needed,
                          struct heavy_fault *fault) {
    struct heavy *value;
    uint32_t status = load(&value, file, file_len, needed, fault);
    return left(value, status != HEAVY_DONE ? status : heavy_list(value, out, out_len, needed, fault));
}

static inline uint32_t info_of_file(const uint8_t *file, size_t file_len, struct heavy_info *info, struct heavy_fault *fault) {
    struct heavy *value;
    size_t needed;
    uint32_t status = load(&value, file, file_len, &needed, fault);
    return left(value, status != HEAVY_DONE ? status : heavy_info(value, info, fault));
}

static inline uint32_t confirm_records_by(const uint8_t *file, size_t file_len, const uint8_t *text, size_t text_len,
                                   const struct heavy_layout *layout, const uint8_t *columns, size_t columns_len,
                                   const uint64_t *ends, size_t count, uint64_t p, uint64_t q, uint8_t *out, size_t out_len,
                                   size_t *needed, struct heavy_fault *fault) {
    struct heavy *value;
    uint32_t status = load(&value, file, file_len, needed, fault);
    if (status == HEAVY_DONE)
        status = heavy_confirm_records(value, text, text_len, layout, columns, columns_len, ends, count, p, q, out, out_len,
                                       needed, fault);
    return left(value, status);
}

static inline uint32_t condense_records_by(const uint8_t *file, size_t file_len, const uint8_t *text, size_t text_len,
                                    const struct heavy_layout *layout, const uint8_t *columns, size_t columns_len,
                                    const uint64_t *ends, size_t count, uint8_t *out, size_t out_len, size_t *needed,
                                    struct heavy_fault *fault) {
    struct heavy *value;
    uint32_t status = load(&value, file, file_len, needed, fault);
    if (status == HEAVY_DONE)
        status = heavy_condense_records(value, text, text_len, layout, columns, columns_len, ends, count, out, out_len, needed,
                                        fault);
    return left(value, status);
}

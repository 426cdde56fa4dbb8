// A caller in C++: a handle that gives itself back, made, added to and asked.
#include <cstdio>
#include <cstring>
#include <memory>

#include "heavy.h"

int main() {
    const heavy_hash hash = {{77, 5}};
    heavy *made = nullptr;
    if (heavy_new_summary(&made, 2, &hash, nullptr) != HEAVY_DONE)
        return 1;
    std::unique_ptr<heavy, void (*)(heavy *)> value(made, heavy_free);
    const uint8_t keys[] = {'a', 'b', 'a'};
    const uint64_t ends[] = {1, 2, 3}, weights[] = {5, 3, 1};
    if (heavy_update_items(value.get(), keys, sizeof keys, ends, 3, weights, 3, nullptr) != HEAVY_DONE)
        return 2;
    uint8_t rows[64];
    size_t needed = 0;
    if (heavy_list(value.get(), rows, sizeof rows, &needed, nullptr) != HEAVY_DONE)
        return 3;
    std::fwrite(rows, 1, needed, stdout);
    heavy_fault fault = {};
    uint8_t text[128];
    if (heavy_update(value.get(), nullptr, 0, 1, &fault) != HEAVY_REFUSED
        || heavy_strerror(&fault, text, sizeof text, &needed) != HEAVY_DONE)
        return 4;
    std::printf("%.*s\n", static_cast<int>(needed), reinterpret_cast<const char *>(text));
    return 0;
}

/* Look-ups by calls from C, which doors.rs times beside those in Rust, of the same table and the same addresses. Each returns the sum of
 * the rows that are found. */
#include <pcidr.h>

enum { PART = 1000 };

uint64_t doors_table_lookup(const pcidr_table *table, const pcidr_value *asked, size_t asked_len) {
    uint64_t sum = 0;
    for (size_t i = 0; i < asked_len; i++) {
        uint32_t row = pcidr_table_lookup(table, &asked[i]);
        if (row != PCIDR_NO_ROW) sum += row;
    }
    return sum;
}

/* `none` is 0, which the compiler doesn't know: so each address is known only when the row of the one before is. */
uint64_t doors_table_lookup_chained(const pcidr_table *table, const pcidr_value *asked, size_t asked_len, size_t none) {
    uint64_t sum = 0;
    uint32_t row = 0;
    for (size_t i = 0; i < asked_len; i++) {
        row = pcidr_table_lookup(table, &asked[i + (row & none)]);
        if (row != PCIDR_NO_ROW) sum += row;
    }
    return sum;
}

uint64_t doors_table_lookup_each(const pcidr_table *table, const pcidr_value *asked, size_t asked_len) {
    static uint32_t found[PART];
    uint64_t sum = 0;
    for (size_t from = 0; from < asked_len; from += PART) {
        size_t count = asked_len - from < PART ? asked_len - from : PART;
        if (pcidr_table_lookup_each(table, asked + from, count, found, PART) != PCIDR_OK) return 0;
        for (size_t i = 0; i < count; i++)
            if (found[i] != PCIDR_NO_ROW) sum += found[i];
    }
    return sum;
}

uint64_t doors_file_lookup(const uint8_t *bytes, size_t bytes_len, const pcidr_value *asked, size_t asked_len) {
    pcidr_file file;
    pcidr_found found;
    uint64_t sum = 0;
    if (pcidr_file_open(bytes, bytes_len, &file) != PCIDR_OK) return 0;
    for (size_t i = 0; i < asked_len; i++)
        if (pcidr_file_lookup(bytes, bytes_len, &file, &asked[i], &found)) sum += found.row;
    return sum;
}

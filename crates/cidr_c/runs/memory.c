/* Refuses each allocation of a call in turn: the call returns PCIDR_NO_MEMORY, leaves all as it was, and gives back what it
 * has, which the address sanitizer sees. Linked with --wrap=malloc and --wrap=realloc. */
#include <pcidr.h>
#include <stdio.h>
#include <stdlib.h>
#include <string.h>

enum { COUNT = 64, ROOM = 4 * COUNT };
/* More than any call allocates. */
enum { TRIES = 10000 };
/* What memory full of 9 is. */
#define NINES ((size_t)0x0909090909090909)

static int failures;
/* How many allocations there are before the one that is refused. */
static size_t before = SIZE_MAX;

void *__real_malloc(size_t size);
void *__real_realloc(void *block, size_t size);

void *__wrap_malloc(size_t size) { return before-- == 0 ? NULL : __real_malloc(size); }
void *__wrap_realloc(void *block, size_t size) { return before-- == 0 ? NULL : __real_realloc(block, size); }

static pcidr_value networks[ROOM], others[COUNT], out[ROOM], kept[ROOM];
static uint8_t held[COUNT];
static size_t matches[COUNT], count;
/* Networks that ascend, and room for their table. */
static pcidr_value ascending[COUNT];
static uint32_t first[1 << 12], words[1 << 12];
static pcidr_table table, built;
static pcidr_table_sizes sizes;
/* The same of IPv6. */
static pcidr_value ascending_ipv6[COUNT];
static uint32_t first_ipv6[1 << 16], words_ipv6[1 << 12];
static pcidr_table table_ipv6, built_ipv6;
/* Their file, and room for it. */
static uint32_t offsets[COUNT + 1];
static uint8_t file[1 << 16], written[1 << 16];
static size_t file_len;

static uint32_t cover(void) { return pcidr_cover(networks, COUNT, &count); }
static uint32_t make_union(void) { return pcidr_union(networks, COUNT, others, COUNT, out, ROOM, &count); }
static uint32_t intersection(void) { return pcidr_intersection(networks, COUNT, others, COUNT, out, ROOM, &count); }
static uint32_t difference(void) { return pcidr_difference(networks, COUNT, others, COUNT, out, ROOM, &count); }
static uint32_t symmetric_difference(void) {
    return pcidr_symmetric_difference(networks, COUNT, others, COUNT, out, ROOM, &count);
}
static uint32_t union_in_place(void) { return pcidr_union_in_place(networks, ROOM, &count, others, COUNT); }
static uint32_t intersection_in_place(void) { return pcidr_intersection_in_place(networks, ROOM, &count, others, COUNT); }
static uint32_t difference_in_place(void) { return pcidr_difference_in_place(networks, ROOM, &count, others, COUNT); }
static uint32_t contains_each(void) { return pcidr_contains_each(networks, COUNT, others, COUNT, held, COUNT); }
static uint32_t longest_match_each(void) {
    return pcidr_longest_match_each(networks, COUNT, others, COUNT, matches, COUNT);
}

static const pcidr_value begin = {0, 1, 32}, end = {0, 6, 32};
static pcidr_rule rules[COUNT];
static uint32_t summarize(void) { return pcidr_summarize(&begin, &end, out, ROOM, &count); }
static uint32_t first_free(void) { return pcidr_first_free(networks, COUNT, 9, out); }
static uint32_t best_free(void) { return pcidr_best_free(networks, COUNT, 9, out); }
static uint32_t permitted(void) { return pcidr_permitted(rules, COUNT, out, ROOM, &count); }
static uint32_t shadowed(void) { return pcidr_shadowed(rules, COUNT, matches, COUNT, &count); }

static uint32_t deciding(void) { return pcidr_deciding(rules, COUNT, &networks[0], matches, COUNT, &count); }
static uint32_t answer;
static uint32_t complement(void) { return pcidr_complement(networks, COUNT / 2, &networks[0], out, ROOM, &count); }
static uint32_t is_subset(void) { return pcidr_is_subset(networks, COUNT, others, COUNT, &answer); }
static uint32_t is_disjoint(void) { return pcidr_is_disjoint(networks, COUNT, others, COUNT, &answer); }

static pcidr_range ranges[COUNT];
static pcidr_halves number;
static uint32_t make_ranges(void) { return pcidr_ranges(networks, COUNT, ranges, COUNT, &count); }
static uint32_t count_ipv4(void) { return pcidr_count_ipv4(networks, COUNT, &number); }
static uint32_t nth_ipv4(void) { return pcidr_nth_ipv4(networks, COUNT, 0, 3, out); }
static uint32_t count_ipv6(void) { return pcidr_count_ipv6(ascending_ipv6, COUNT, &number); }
static uint32_t nth_ipv6(void) { return pcidr_nth_ipv6(ascending_ipv6, COUNT, 0, 3, out); }
static uint32_t covering(void) { return pcidr_covering(networks, COUNT, &networks[0], matches, COUNT, &count); }
static uint32_t covered(void) { return pcidr_covered(networks, COUNT, &networks[0], matches, COUNT, &count); }
static uint32_t nearest_each(void) { return pcidr_nearest_each(networks, COUNT, matches, COUNT); }
static uint32_t sort_order(void) { return pcidr_sort_order(networks, COUNT, matches, COUNT, &count); }
static uint32_t table_order(void) { return pcidr_table_order(networks, COUNT, matches, COUNT, &count); }

static pcidr_row rows[COUNT], fewer[COUNT];
static uint32_t smallest(void) { return pcidr_smallest(rows, COUNT, fewer, COUNT, &count); }
static uint32_t forwards_same(void) { return pcidr_forwards_same(rows, COUNT, rows, COUNT / 2, &answer); }

static const char list[] = "10.0.0.1-10.0.0.6 # four\n2001:db8::/32\r\n";
static uint64_t line;
static char told[PCIDR_LINE_ROOM];
static uint32_t read_list(void) {
    return pcidr_read_list(list, sizeof list - 1, PCIDR_HOST_BITS_REFUSED, out, ROOM, &count, &line, told, sizeof told);
}

static const char plan[] = "10.0.0.1-10.0.0.6 four\nx\n2001:db8::/32 six\r\n";
static pcidr_plan_row plan_rows[COUNT];
static pcidr_plan_fault faults[COUNT];
static size_t wrong;
static uint32_t read_plan(void) { return pcidr_read_plan(plan, sizeof plan - 1, 0, plan_rows, COUNT, &count, faults, COUNT, &wrong); }

static uint32_t build_table(void) { return pcidr_table_build(&table, ascending, COUNT, &sizes); }
static uint32_t check_table(void) { return pcidr_table_check(&built, ascending, COUNT); }
static uint32_t build_table_ipv6(void) { return pcidr_table_build(&table_ipv6, ascending_ipv6, COUNT, &sizes); }
static uint32_t check_table_ipv6(void) { return pcidr_table_check(&built_ipv6, ascending_ipv6, COUNT); }

static uint32_t write_file(void) {
    return pcidr_file_write(ascending, COUNT, offsets, COUNT + 1, NULL, 0, written, sizeof written, &count);
}
static uint32_t write_set(void) { return pcidr_set_write(ascending, COUNT, written, sizeof written, &count); }
static uint32_t check_file(void) { return pcidr_file_check(file, file_len); }

/* Networks of which some overlap, in no order, and a mark in what is written. */
static void set_values(void) {
    memset(out, 0, sizeof out), memset(held, 9, sizeof held), memset(matches, 9, sizeof matches);
    memset(networks, 0, sizeof networks);
    for (uint64_t i = 0; i < COUNT; i++) {
        networks[i].low = i * 37 % COUNT << 26, networks[i].tag = 6;
        others[i].low = i * 23 % COUNT << 27 & 0xffffffff, others[i].tag = 9;
        ascending[i].low = i << 26, ascending[i].tag = 6;
        ascending_ipv6[i].high = i << 58, ascending_ipv6[i].tag = 64 + 7;
        rules[i].network = networks[i], rules[i].action = i % 2;
        rows[i].network = networks[i], rows[i].value = i % 3;
        if (i == COUNT - 1) rules[i].network = networks[0];
    }
    table.family = 4, table.first = first, table.first_len = 1 << 12, table.words = words, table.words_len = 1 << 12;
    if (build_table() != PCIDR_OK) failures++;
    built = table, table.first_len = table.words_len = 1 << 12;
    table_ipv6.family = 6, table_ipv6.first = first_ipv6, table_ipv6.first_len = 1 << 16;
    table_ipv6.words = words_ipv6, table_ipv6.words_len = 1 << 12;
    if (build_table_ipv6() != PCIDR_OK) failures++;
    built_ipv6 = table_ipv6, table_ipv6.first_len = 1 << 16, table_ipv6.words_len = 1 << 12;
    memset(&sizes, 9, sizeof sizes);
    if (pcidr_set_write(ascending, COUNT, file, sizeof file, &file_len) != PCIDR_OK) failures++;
    memset(written, 0, sizeof written), memset(ranges, 0, sizeof ranges), number.high = 0, number.low = 9;
    line = 9, told[0] = 9, wrong = 9;
    memset(plan_rows, 0, sizeof plan_rows), memset(faults, 0, sizeof faults);
    memcpy(kept, networks, sizeof kept);
    count = COUNT;
}

/* Whether all is as `set_values` leaves it. */
static int is_left(void) {
    static const pcidr_value no_values[ROOM];
    static const pcidr_range no_ranges[COUNT];
    static const pcidr_plan_row no_rows[COUNT];
    static const pcidr_plan_fault no_faults[COUNT];
    if (line != 9 || told[0] != 9 || wrong != 9) return 0;
    if (memcmp(plan_rows, no_rows, sizeof plan_rows) != 0 || memcmp(faults, no_faults, sizeof faults) != 0) return 0;
    if (sizes.first != NINES || sizes.words != NINES || sizes.index != NINES || sizes.steps != 0x09090909) return 0;
    if (number.high != 0 || number.low != 9 || memcmp(ranges, no_ranges, sizeof ranges) != 0) return 0;
    for (size_t i = 0; i < sizeof written; i++)
        if (written[i] != 0) return 0;
    for (size_t i = 0; i < COUNT; i++)
        if (held[i] != 9 || matches[i] != NINES) return 0;
    return count == COUNT && memcmp(networks, kept, sizeof kept) == 0 && memcmp(out, no_values, sizeof out) == 0;
}

int main(void) {
    static uint32_t (*const calls[])(void) = {
        cover, make_union, intersection, difference, symmetric_difference, union_in_place, intersection_in_place,
        difference_in_place, contains_each, longest_match_each, summarize, first_free, best_free, permitted, shadowed,
        deciding, complement, is_subset, is_disjoint, make_ranges, count_ipv4, count_ipv6, nth_ipv4, nth_ipv6, covering,
        covered, nearest_each, sort_order, table_order, smallest, forwards_same, read_list, read_plan, build_table, check_table, build_table_ipv6, check_table_ipv6,
        write_file, write_set, check_file};
    for (size_t i = 0; i < sizeof calls / sizeof *calls; i++) {
        uint32_t code = PCIDR_NO_MEMORY;
        size_t refused = 0;
        for (; code == PCIDR_NO_MEMORY && refused < TRIES; refused++) {
            set_values();
            before = refused;
            code = calls[i]();
            before = SIZE_MAX;
            if (code == PCIDR_NO_MEMORY && !is_left()) {
                fprintf(stderr, "call %zu, allocation %zu: something is changed\n", i, refused);
                failures++;
            }
        }
        if (code != PCIDR_OK || refused < 2) {
            fprintf(stderr, "call %zu: error %u after %zu tries\n", i, (unsigned)code, refused);
            failures++;
        }
    }
    return failures != 0;
}

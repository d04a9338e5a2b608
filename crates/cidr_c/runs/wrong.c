/* Calls with arguments that may be wrong: each returns its error, and writes nothing that it shouldn't. */
#include <pcidr.h>
#include <stdio.h>
#include <stdlib.h>
#include <string.h>

static int failures;

#define WANT(holds)                                             \
    do {                                                        \
        if (!(holds)) {                                         \
            fprintf(stderr, "line %d: %s\n", __LINE__, #holds); \
            failures++;                                         \
        }                                                       \
    } while (0)

/* A mark in what is written, to see that an error leaves it. */
static const pcidr_value mark = {7, 8, 9};
static pcidr_value out = {7, 8, 9}, wide, host, any, address;
static char text[PCIDR_TEXT_ROOM];
static uint8_t bytes[PCIDR_BYTES_ROOM];
static size_t count = 77;

static int is_same(pcidr_value a, pcidr_value b) { return a.high == b.high && a.low == b.low && a.tag == b.tag; }

/* Whether the mark is still there. */
static int is_left(void) { return is_same(out, mark) && count == 77; }

#define LENGTH(array) (sizeof(array) / sizeof *(array))

static uint32_t (*const readers[])(const char *, size_t, pcidr_value *) = {
    pcidr_read_address, pcidr_read_loose_address, pcidr_read_host, pcidr_read_network, pcidr_read_short_network};

/* What a reader returns for a string that has no address: the first two read addresses alone. */
static uint32_t no_address(size_t reader) { return reader < 2 ? PCIDR_NOT_ADDRESS : PCIDR_ADDRESS; }

static size_t (*const printers[])(const pcidr_value *, char *, size_t) = {
    pcidr_print_address, pcidr_print_host, pcidr_print_host_with_length, pcidr_print_network,
    pcidr_print_network_with_length, pcidr_print_with_mask, pcidr_print_with_host_mask, pcidr_print_host_with_mask,
    pcidr_print_host_with_host_mask, pcidr_print_exploded_address, pcidr_print_exploded_host};
static size_t (*const writers[])(const pcidr_value *, uint8_t *, size_t) = {pcidr_network_to_bytes,
                                                                           pcidr_host_to_bytes};
static uint32_t (*const byte_readers[])(const uint8_t *, size_t, pcidr_value *, size_t *) = {pcidr_network_from_bytes,
                                                                                             pcidr_host_from_bytes};
static uint32_t (*const parts[])(const pcidr_value *, pcidr_value *) = {
    pcidr_first, pcidr_last, pcidr_mask, pcidr_address, pcidr_network, pcidr_host_mask, pcidr_first_usable,
    pcidr_last_usable, pcidr_parent, pcidr_sibling, pcidr_next_network, pcidr_previous_network, pcidr_ipv6_mapped};
static uint32_t (*const steps[])(const pcidr_value *, uint64_t, uint64_t, pcidr_value *) = {
    pcidr_step_up, pcidr_step_down, pcidr_at, pcidr_nth};
static uint32_t (*const questions[])(const pcidr_value *) = {
    pcidr_is_global, pcidr_is_private, pcidr_is_loopback, pcidr_is_link_local, pcidr_is_documentation,
    pcidr_is_unspecified, pcidr_is_multicast};
static uint32_t (*const sets[])(const pcidr_value *, size_t, const pcidr_value *, size_t, pcidr_value *, size_t,
                                size_t *) = {pcidr_union, pcidr_intersection, pcidr_difference,
                                             pcidr_symmetric_difference};
static uint32_t (*const sets_in_place[])(pcidr_value *, size_t, size_t *, const pcidr_value *, size_t) = {
    pcidr_union_in_place, pcidr_intersection_in_place, pcidr_difference_in_place};

/* Null with length 0 is no string, no bytes, no room and no networks. */
static void null_arguments(void) {
    for (size_t i = 0; i < LENGTH(readers); i++) WANT(readers[i](NULL, 0, &out) == no_address(i) && is_left());
    for (size_t i = 0; i < LENGTH(byte_readers); i++)
        WANT(byte_readers[i](NULL, 0, &out, &count) == PCIDR_TRUNCATED && is_left());
    for (size_t i = 0; i < LENGTH(printers); i++) WANT(printers[i](&address, NULL, 0) >= 8);
    for (size_t i = 0; i < LENGTH(writers); i++) WANT(writers[i](&address, NULL, 0) == 5);
    WANT(pcidr_message(PCIDR_HOST_PART, NULL, 0) == 33 && pcidr_print_reverse_name(&address, NULL, 0) == 21);
    WANT(pcidr_read_masked_network(NULL, 0, &out) == PCIDR_NO_SLASH && is_left());
    WANT(pcidr_read_reverse_name(NULL, 0, &out) == PCIDR_NONE && is_left());

    WANT(pcidr_print_lines(&wide, 1, NULL, 0, &count) == PCIDR_NO_ROOM && is_left());
    for (size_t i = 0; i < LENGTH(sets); i++) {
        WANT(sets[i](NULL, 0, NULL, 0, NULL, 0, &count) == PCIDR_OK && count == 0);
        WANT(sets[i](&wide, 1, NULL, 0, &out, 1, &count) == PCIDR_OK && count == (sets[i] != pcidr_intersection));
        out = mark;
        WANT(sets[i](NULL, 0, &wide, 1, &out, 1, &count) == PCIDR_OK &&
             count == (sets[i] == pcidr_union || sets[i] == pcidr_symmetric_difference));
        out = mark;
    }
    for (size_t i = 0; i < LENGTH(sets_in_place); i++) {
        WANT(sets_in_place[i](NULL, 0, &count, NULL, 0) == PCIDR_OK && count == 0);
        count = 9; /* above the room */
        WANT(sets_in_place[i](NULL, 0, &count, NULL, 0) == PCIDR_OK && count == 0);
    }
    WANT(pcidr_union_in_place(NULL, 0, &count, &wide, 1) == PCIDR_NO_ROOM && count == 1);
    WANT(pcidr_ranges(&wide, 1, NULL, 0, &count) == PCIDR_NO_ROOM && count == 1);
    WANT(pcidr_covering(NULL, 0, &wide, NULL, 0, &count) == PCIDR_OK && count == 0);
    WANT(pcidr_covered(&wide, 1, &any, NULL, 0, &count) == PCIDR_NO_ROOM && count == 1);
    WANT(pcidr_text_fault(NULL, 0, NULL, 0) == 0 && pcidr_print_reverse_zone(&wide, 0, NULL, 0) == 15);
    WANT(pcidr_read_lines(NULL, 0, NULL, 0, &count) == PCIDR_NO_ROOM && count == 0);
    WANT(pcidr_read_lines(NULL, 0, &out, 1, &count) == PCIDR_ADDRESS && count == 0 && is_same(out, mark));
    WANT(pcidr_read_lines("::", 2, NULL, 0, &count) == PCIDR_NO_ROOM && count == 0);
    uint64_t line = 7;
    WANT(pcidr_read_list(NULL, 0, 0, NULL, 0, &count, &line, NULL, 0) == PCIDR_OK && count == 0 && line == 7);
    WANT(pcidr_read_list("::", 2, 0, NULL, 0, &count, &line, NULL, 0) == PCIDR_NO_ROOM && count == 1 && line == 7);
    WANT(pcidr_read_list("\n\xff", 2, 0, NULL, 0, &count, &line, NULL, 0) == PCIDR_NOT_UTF8 && count == 1 && line == 2);
    WANT(pcidr_print_lines(NULL, 0, NULL, 0, &count) == PCIDR_OK && count == 0);
    WANT(pcidr_cover(NULL, 0, &count) == PCIDR_OK && count == 0);
    WANT(pcidr_contains_each(NULL, 0, NULL, 0, NULL, 0) == PCIDR_OK);
    WANT(pcidr_contains_each(&wide, 1, NULL, 0, NULL, 0) == PCIDR_OK);
    WANT(pcidr_contains_each(NULL, 0, &wide, 1, bytes, 1) == PCIDR_OK && bytes[0] == 0);
    WANT(pcidr_contains_each(&wide, 1, &address, 1, NULL, 0) == PCIDR_NO_ROOM);
    WANT(pcidr_longest_match_each(NULL, 0, NULL, 0, NULL, 0) == PCIDR_OK);
    WANT(pcidr_longest_match_each(&wide, 1, NULL, 0, NULL, 0) == PCIDR_OK);
    WANT(pcidr_longest_match_each(NULL, 0, &wide, 1, &count, 1) == PCIDR_OK && count == PCIDR_NO_INDEX);
    WANT(pcidr_longest_match_each(&wide, 1, &address, 1, NULL, 0) == PCIDR_NO_ROOM);
    WANT(pcidr_nearest_each(NULL, 0, NULL, 0) == PCIDR_OK && pcidr_nearest_each(&wide, 1, NULL, 0) == PCIDR_NO_ROOM);
    WANT(pcidr_sort_order(NULL, 0, NULL, 0, &count) == PCIDR_OK && count == 0);
    WANT(pcidr_table_order(&wide, 1, NULL, 0, &count) == PCIDR_NO_ROOM && count == 1);
    count = 77;
}

/* Each list of the calls that answer, find and count, and each room, is null in turn. */
static void null_lists(void) {
    pcidr_halves number = {7, 8};
    const pcidr_row row = {wide, 1};
    uint32_t answer = 7;
    WANT(pcidr_is_subset(&wide, 1, NULL, 0, &answer) == PCIDR_OK && answer == 0);
    WANT(pcidr_is_subset(NULL, 0, &wide, 1, &answer) == PCIDR_OK && answer == 1);
    answer = 7;
    WANT(pcidr_is_disjoint(&wide, 1, NULL, 0, &answer) == PCIDR_OK && answer == 1);
    answer = 7;
    WANT(pcidr_is_disjoint(NULL, 0, &wide, 1, &answer) == PCIDR_OK && answer == 1);
    WANT(pcidr_forwards_same(&row, 1, NULL, 0, &answer) == PCIDR_OK && answer == 0);
    answer = 7;
    WANT(pcidr_forwards_same(NULL, 0, &row, 1, &answer) == PCIDR_OK && answer == 0);
    WANT(pcidr_smallest(&row, 1, NULL, 0, &count) == PCIDR_NO_ROOM && count == 1);
    WANT(pcidr_complement(NULL, 0, &wide, NULL, 0, &count) == PCIDR_NO_ROOM && count == 1);
    WANT(pcidr_summarize(&address, &address, NULL, 0, &count) == PCIDR_NO_ROOM && count == 1);
    WANT(pcidr_subnets(&wide, 9, 0, 0, NULL, 0, &count) == PCIDR_OK && count == 0);
    WANT(pcidr_count_ipv4(NULL, 0, &number) == PCIDR_OK && number.high == 0 && number.low == 0);
    WANT(pcidr_nth_ipv4(NULL, 0, 0, 0, &out) == PCIDR_NONE && pcidr_nth_ipv6(NULL, 0, 0, 0, &out) == PCIDR_NONE);
    WANT(pcidr_first_free(NULL, 0, 8, &out) == PCIDR_NONE && pcidr_best_free(NULL, 0, 8, &out) == PCIDR_NONE);
    WANT(pcidr_permits(NULL, 0, &address) == 0 && is_same(out, mark));
    count = 77;
    WANT(pcidr_permitted(NULL, 0, NULL, 0, &count) == PCIDR_OK && count == 0);
    count = 77;
    WANT(pcidr_shadowed(NULL, 0, NULL, 0, &count) == PCIDR_OK && count == 0);
    count = 77;
    WANT(pcidr_deciding(NULL, 0, &wide, NULL, 0, &count) == PCIDR_OK && count == 0);
    count = 77;
}

/* A copy of some bytes with nothing behind it, so that the sanitizer sees what is read or written there. */
static void *copy_of(const void *from, size_t size) {
    char *copy = malloc(size ? size : 1);
    if (size) memcpy(copy, from, size);
    return copy;
}

static uint32_t read_copy(uint32_t (*reader)(const char *, size_t, pcidr_value *), const char *from, size_t size) {
    char *copy = copy_of(from, size);
    uint32_t code = reader(copy, size, &out);
    free(copy);
    return code;
}

/* Strings of any bytes, and compact bytes that end too early. */
static void strings(void) {
    for (size_t i = 0; i < LENGTH(readers); i++) {
        WANT(read_copy(readers[i], "\xff\xfe", 2) == PCIDR_NOT_UTF8 && is_left());
        WANT(read_copy(readers[i], "\xe2\x82", 2) == PCIDR_NOT_UTF8 && is_left()); /* begins a character */
        WANT(read_copy(readers[i], "10.0.0.1\0/8", 11) == no_address(i) && is_left());
        WANT(read_copy(readers[i], "10.0.0.", 7) == no_address(i) && is_left());
        WANT(read_copy(readers[i], "1:2:3:4:5:6:7:", 14) == no_address(i) && is_left());
        WANT(read_copy(readers[i], "10.1.2.3", 8) == PCIDR_OK && is_same(out, address));
        out = mark;
    }
    for (size_t i = 2; i < LENGTH(readers); i++) { /* those with a prefix length */
        WANT(read_copy(readers[i], "10.0.0.0/33", 11) == PCIDR_LENGTH_TOO_LONG && is_left());
        WANT(read_copy(readers[i], "10.0.0.0/", 9) == PCIDR_LENGTH && is_left());
        WANT(read_copy(readers[i], "10.0.0.1/8", 10) == (i == 2 ? PCIDR_OK : PCIDR_HOST_PART));
        out = mark;
    }
    const char *const faulty[] = {"192.0.02.", "1::12345", "10.0.0.5/8", "\xff/", "10.0.0.0/255.", "", "/", "-", "1.2.3.4.5"};
    for (size_t i = 0; i < LENGTH(faulty); i++) {
        size_t size = strlen(faulty[i]);
        char *copy = copy_of(faulty[i], size);
        WANT(pcidr_text_fault(copy, size, text, sizeof text) <= sizeof text);
        free(copy);
    }
    const uint8_t wide_bytes[] = {8, 10, 0, 0, 0}, odd_bytes[] = {8, 10, 0, 0, 1};
    for (size_t i = 0; i < LENGTH(byte_readers); i++)
        for (size_t size = 0; size <= 5; size++) {
            uint8_t *copy = copy_of(wide_bytes, size);
            uint32_t code = byte_readers[i](copy, size, &out, &count);
            WANT(size < 5 ? code == PCIDR_TRUNCATED && is_left() : code == PCIDR_OK && is_same(out, wide) && count == 5);
            free(copy);
            out = mark, count = 77;
        }
    WANT(pcidr_network_from_bytes(odd_bytes, 5, &out, &count) == PCIDR_HOST_PART && is_left());
    WANT(pcidr_network_from_bytes((const uint8_t *)"\x21", 1, &out, &count) == PCIDR_TAG && is_left());
    WANT(pcidr_host_from_bytes((const uint8_t *)"\xff", 1, &out, &count) == PCIDR_ANY && is_left());
}

/* The two uses of a check that the header shows: one where 1 permits, and one where 0 does. */
static int is_permitted(const pcidr_value *allowed, const pcidr_value *asked) { return pcidr_contains(allowed, asked); }
static int is_not_banned(const pcidr_value *banned, const pcidr_value *asked) {
    return pcidr_check(banned) && pcidr_check(asked) && !pcidr_contains(banned, asked);
}

/* A value that is neither a host nor a network. */
static void no_value(pcidr_value bad) {
    for (size_t i = 0; i < LENGTH(printers); i++) {
        memset(text, 'x', sizeof text);
        WANT(printers[i](&bad, text, sizeof text) == 0 && text[0] == 'x');
    }
    for (size_t i = 0; i < LENGTH(writers); i++) {
        memset(bytes, 'x', sizeof bytes);
        WANT(writers[i](&bad, bytes, sizeof bytes) == 0 && bytes[0] == 'x');
    }
    for (size_t i = 0; i < LENGTH(parts); i++) WANT(parts[i](&bad, &out) == PCIDR_NO_VALUE && is_left());
    for (size_t i = 0; i < LENGTH(steps); i++) WANT(steps[i](&bad, 0, 1, &out) == PCIDR_NO_VALUE && is_left());
    WANT(pcidr_contains(&bad, &wide) == 0 && pcidr_contains(&wide, &bad) == 0 && pcidr_contains(&bad, &bad) == 0);
    WANT(pcidr_check(&bad) == 0 && !is_permitted(&any, &bad) && !is_permitted(&bad, &address));
    WANT(!is_not_banned(&address, &bad) && !is_not_banned(&bad, &address));
    WANT(pcidr_compare(&bad, &wide) == 2 && pcidr_compare(&wide, &bad) == 0 && pcidr_compare(&bad, &bad) == 1);
    WANT(pcidr_compare_hosts(&bad, &host) == 2 && pcidr_compare_hosts(&host, &bad) == 0);
    WANT(pcidr_print_lines(&bad, 1, text, sizeof text, &count) == PCIDR_NO_VALUE && is_left());

    WANT(pcidr_ipv4_mapped(&bad, &out) == PCIDR_NO_VALUE && is_left());
    WANT(pcidr_ipv4_6to4(&bad, &out) == PCIDR_NO_VALUE && pcidr_ipv4_nat64(&bad, &out) == PCIDR_NO_VALUE && is_left());
    memset(text, 'x', sizeof text);
    WANT(pcidr_print_reverse_zone(&bad, 0, text, sizeof text) == 0 && text[0] == 'x');
    WANT(pcidr_print_reverse_name(&bad, text, sizeof text) == 0 && text[0] == 'x');

    const pcidr_value both[] = {wide, bad};
    pcidr_range ranges[2];
    pcidr_halves number;
    WANT(pcidr_ranges(both, 2, ranges, 2, &count) == PCIDR_NO_VALUE && is_left());
    WANT(pcidr_count_ipv4(both, 2, &number) == PCIDR_NO_VALUE && pcidr_count_ipv6(both, 2, &number) == PCIDR_NO_VALUE);
    WANT(pcidr_nth_ipv4(both, 2, 0, 0, &out) == PCIDR_NO_VALUE);
    WANT(pcidr_nth_ipv6(both, 2, 0, 0, &out) == PCIDR_NO_VALUE && is_left());
    pcidr_value room[] = {wide, bad};
    WANT(pcidr_cover(room, 2, &count) == PCIDR_NO_VALUE && is_same(room[0], wide) && is_same(room[1], bad) && is_left());
    for (size_t i = 0; i < LENGTH(sets); i++) {
        WANT(sets[i](both, 2, &wide, 1, &out, 1, &count) == PCIDR_NO_VALUE && is_left());
        WANT(sets[i](&wide, 1, both, 2, &out, 1, &count) == PCIDR_NO_VALUE && is_left());
    }
    for (size_t i = 0; i < LENGTH(sets_in_place); i++) {
        count = 2;
        WANT(sets_in_place[i](room, 2, &count, &wide, 1) == PCIDR_NO_VALUE && is_same(room[1], bad) && count == 2);
        count = 1; /* the second one is no part of the set */
        WANT(sets_in_place[i](room, 2, &count, both, 2) == PCIDR_NO_VALUE && is_same(room[0], wide) && count == 1);
        count = 77;
    }
    WANT(pcidr_contains_each(both, 2, &address, 1, bytes, 1) == PCIDR_NO_VALUE);
    WANT(pcidr_contains_each(&wide, 1, both, 2, bytes, 2) == PCIDR_NO_VALUE);
    size_t indexes[2];
    WANT(pcidr_longest_match_each(both, 2, &address, 1, indexes, 1) == PCIDR_NO_VALUE);
    WANT(pcidr_longest_match_each(&wide, 1, both, 2, indexes, 2) == PCIDR_NO_VALUE);
    WANT(pcidr_covering(both, 2, &address, indexes, 2, &count) == PCIDR_NO_VALUE && is_left());
    WANT(pcidr_covered(&wide, 1, &bad, indexes, 2, &count) == PCIDR_NO_VALUE && is_left());
    WANT(pcidr_nearest_each(both, 2, indexes, 2) == PCIDR_NO_VALUE);
    WANT(pcidr_sort_order(both, 2, indexes, 2, &count) == PCIDR_NO_VALUE && is_left());
    WANT(pcidr_table_order(both, 2, indexes, 2, &count) == PCIDR_NO_VALUE && is_left());
}

/* The same in each place of the calls around networks, of masks and of purposes. */
static void no_value_around(pcidr_value bad) {
    pcidr_halves number = {7, 8};
    pcidr_value room[] = {mark, mark};
    pcidr_special entry;
    uint8_t len = 7;
    memset(&entry, 9, sizeof entry);
    WANT(pcidr_supernet(&bad, 0, &out) == PCIDR_NO_VALUE && pcidr_subnet(&bad, 128, 0, 0, &out) == PCIDR_NO_VALUE);
    WANT(pcidr_subnets(&bad, 128, 0, 0, room, 2, &count) == PCIDR_NO_VALUE && is_left());
    WANT(pcidr_network_halves(&bad, &room[0], &room[1]) == PCIDR_NO_VALUE && is_same(room[0], mark) && is_same(room[1], mark));
    WANT(pcidr_is_sibling_of(&bad, &wide) == 0 && pcidr_is_sibling_of(&wide, &bad) == 0);
    WANT(pcidr_position(&bad, &address, &number) == PCIDR_NO_VALUE);
    WANT(pcidr_position(&any, &address, &number) == PCIDR_NO_VALUE);
    WANT(pcidr_position(&wide, &bad, &number) == PCIDR_NO_VALUE);
    WANT(pcidr_address_count(&bad, &number) == PCIDR_NO_VALUE);
    WANT(pcidr_usable_count(&bad, &count) == PCIDR_NO_VALUE && number.high == 7 && number.low == 8 && is_left());
    WANT(pcidr_mask_length(&bad, &len) == PCIDR_NO_VALUE && pcidr_host_mask_length(&bad, &len) == PCIDR_NO_VALUE);
    WANT(pcidr_special_entry(&bad, &entry) == PCIDR_NO_VALUE && entry.len == 9 && len == 7);
    for (size_t i = 0; i < LENGTH(questions); i++) WANT(questions[i](&bad) == 0);
    WANT(pcidr_overlaps(&bad, &any) == 0 && pcidr_overlaps(&any, &bad) == 0);
    WANT(pcidr_spanning(&bad, &wide, &out) == PCIDR_NO_VALUE && pcidr_spanning(&wide, &bad, &out) == PCIDR_NO_VALUE);
    WANT(pcidr_summarize(&bad, &address, room, 2, &count) == PCIDR_NO_VALUE);
    WANT(pcidr_summarize(&address, &bad, room, 2, &count) == PCIDR_NO_VALUE && is_same(room[0], mark) && is_left());
}

/* The same in each list of further calls. */
static void no_value_among(pcidr_value bad) {
    const pcidr_value both[] = {wide, bad};
    const pcidr_rule rules[] = {{wide, 1}, {bad, 1}};
    const pcidr_row rows[] = {{wide, 1}, {bad, 1}};
    pcidr_value room[] = {mark, mark};
    pcidr_row fewer[] = {{mark, 7}, {mark, 7}};
    size_t indexes[] = {7, 7};
    uint32_t answer = 7;
    WANT(pcidr_complement(both, 2, &wide, room, 2, &count) == PCIDR_NO_VALUE);
    WANT(pcidr_complement(&wide, 1, &bad, room, 2, &count) == PCIDR_NO_VALUE && is_same(room[0], mark) && is_left());
    WANT(pcidr_is_subset(both, 2, &wide, 1, &answer) == PCIDR_NO_VALUE);
    WANT(pcidr_is_subset(&wide, 1, both, 2, &answer) == PCIDR_NO_VALUE);
    WANT(pcidr_is_disjoint(both, 2, &wide, 1, &answer) == PCIDR_NO_VALUE);
    WANT(pcidr_is_disjoint(&wide, 1, both, 2, &answer) == PCIDR_NO_VALUE);
    WANT(pcidr_first_free(both, 2, 8, &out) == PCIDR_NO_VALUE);
    WANT(pcidr_best_free(both, 2, 8, &out) == PCIDR_NO_VALUE && is_left());
    WANT(pcidr_permits(rules, 1, &address) == 1 && pcidr_permits(rules, 2, &address) == 0);
    WANT(pcidr_permits(rules, 1, &bad) == 0);
    WANT(pcidr_permitted(rules, 2, room, 2, &count) == PCIDR_NO_VALUE && is_same(room[0], mark));
    WANT(pcidr_shadowed(rules, 2, indexes, 2, &count) == PCIDR_NO_VALUE);
    WANT(pcidr_deciding(rules, 2, &wide, indexes, 2, &count) == PCIDR_NO_VALUE);
    WANT(pcidr_deciding(rules, 1, &bad, indexes, 2, &count) == PCIDR_NO_VALUE && indexes[0] == 7 && is_left());
    WANT(pcidr_smallest(rows, 2, fewer, 2, &count) == PCIDR_NO_VALUE && fewer[0].value == 7 && is_left());
    WANT(pcidr_forwards_same(rows, 2, rows, 1, &answer) == PCIDR_NO_VALUE);
    WANT(pcidr_forwards_same(rows, 1, rows, 2, &answer) == PCIDR_NO_VALUE);
    WANT(answer == 7);
}

/* Values of another kind than the call takes. */
static void other_values(void) {
    for (size_t i = 0; i < LENGTH(parts); i++) WANT(parts[i](&any, &out) == PCIDR_NO_VALUE && is_left());
    for (size_t i = 0; i < LENGTH(steps); i++) WANT(steps[i](&any, 0, 1, &out) == PCIDR_NO_VALUE && is_left());
    WANT(pcidr_print_network(&host, text, sizeof text) == 0 && pcidr_print_host(&any, text, sizeof text) == 0);
    WANT(pcidr_print_address(&wide, text, sizeof text) == 0 && pcidr_print_address(&any, text, sizeof text) == 0);
    WANT(pcidr_network_to_bytes(&host, bytes, sizeof bytes) == 0 && pcidr_host_to_bytes(&any, bytes, sizeof bytes) == 0);
    WANT(pcidr_check(&host) == 0 && pcidr_contains(&wide, &host) == 0 && pcidr_contains(&any, &host) == 0);
    WANT(!is_permitted(&wide, &host) && !is_not_banned(&address, &host));
    WANT(pcidr_compare(&host, &wide) == 2 && pcidr_compare(&wide, &host) == 0 && pcidr_order(&wide, &host) == -1);
    WANT(pcidr_compare_hosts(&any, &wide) == 2 && pcidr_compare_hosts(&wide, &any) == 0);
    WANT(pcidr_message(99, text, sizeof text) == 0 && pcidr_message(0, NULL, 0) == 0);
}

/* Rooms that are too small by one or more, each with nothing behind it. */
static void small_rooms(void) {
    for (size_t i = 0; i < LENGTH(printers); i++) {
        size_t len = printers[i](&address, NULL, 0);
        for (size_t size = 0; size <= len + 1; size++) {
            char *room = malloc(size ? size : 1);
            memset(room, 'x', size ? size : 1);
            WANT(printers[i](&address, room, size) == len);
            WANT(size <= len ? room[0] == 'x' : strlen(room) == len && memcmp(room, "10.1.2.3", 8) == 0);
            free(room);
        }
    }
    for (size_t i = 0; i < LENGTH(writers); i++)
        for (size_t size = 0; size <= 5; size++) {
            uint8_t *room = malloc(size ? size : 1);
            memset(room, 'x', size ? size : 1);
            WANT(writers[i](&address, room, size) == 5 && room[0] == (size < 5 ? 'x' : 32));
            free(room);
        }
    for (size_t size = 0; size <= 11; size++) {
        char *room = malloc(size ? size : 1);
        uint32_t code = pcidr_print_lines(&wide, 1, room, size, &count);
        WANT(size < 11 ? code == PCIDR_NO_ROOM && is_left() : code == PCIDR_OK && count == 11 && room[10] == '\n');
        count = 77;
        free(room);
    }
    char *message = malloc(33);
    memset(message, 'x', 33);
    WANT(pcidr_message(PCIDR_HOST_PART, message, 33) == 33 && message[0] == 'x');
    free(message);

    pcidr_value *two = malloc(2 * sizeof *two);
    WANT(pcidr_read_lines("10.0.0.0/8\n11.0.0.0/8\n::/0", 26, two, 2, &count) == PCIDR_NO_ROOM && count == 2);
    WANT(pcidr_read_lines("10.0.0.0/8\n11.0.0.1/8", 21, two, 2, &count) == PCIDR_HOST_PART && count == 1);
    WANT(pcidr_read_lines("10.0.0.0/8\n\xff", 12, two, 2, &count) == PCIDR_NOT_UTF8 && count == 1);
    WANT(pcidr_read_lines("10.0.0.0/8\n11.0.0.0/8\n", 22, two, 2, &count) == PCIDR_NO_ROOM && count == 2);
    pcidr_value apart;
    WANT(pcidr_read_network("::/0", 4, &apart) == PCIDR_OK);
    for (size_t i = 0; i < LENGTH(sets); i++) {
        size_t needed = sets[i] == pcidr_intersection ? 1 : sets[i] == pcidr_union ? 2 : 24;
        const pcidr_value *other = sets[i] == pcidr_union ? &apart : &address;
        WANT(sets[i](&wide, 1, other, 1, &out, needed == 1 ? 0 : 1, &count) == PCIDR_NO_ROOM && count == needed);
        WANT(is_same(out, mark));
    }
    two[0] = wide, two[1] = mark, count = 1;
    WANT(pcidr_difference_in_place(two, 2, &count, &address, 1) == PCIDR_NO_ROOM && count == 24);
    WANT(is_same(two[0], wide) && is_same(two[1], mark));
    count = 1;
    WANT(pcidr_union_in_place(two, 1, &count, &apart, 1) == PCIDR_NO_ROOM && count == 2 && is_same(two[0], wide));
    two[0] = address, two[1] = address;
    bytes[0] = 9;
    WANT(pcidr_contains_each(&wide, 1, two, 2, bytes, 1) == PCIDR_NO_ROOM && bytes[0] == 9);
    count = 77;
    WANT(pcidr_longest_match_each(&wide, 1, two, 2, &count, 1) == PCIDR_NO_ROOM && count == 77);
    pcidr_range *range = malloc(sizeof *range);
    size_t *index = malloc(sizeof *index);
    two[1] = apart, *index = 9;
    WANT(pcidr_ranges(two, 2, range, 1, &count) == PCIDR_NO_ROOM && count == 2);
    WANT(pcidr_ranges(two, 1, range, 1, &count) == PCIDR_OK && count == 1 && is_same(range->last, address));
    WANT(pcidr_covered(two, 2, &any, index, 1, &count) == PCIDR_NO_ROOM && count == 2 && *index == 9);
    WANT(pcidr_covering(two, 2, &apart, index, 1, &count) == PCIDR_OK && count == 1 && *index == 1);
    free(range), free(index);
    count = 77;
    free(two);
}

/* Every call on parts of a host may write to the host itself. */
static void same_place(void) {
    for (size_t i = 0; i < LENGTH(parts); i++) {
        pcidr_value apart, same = host;
        WANT(parts[i](&host, &apart) == PCIDR_OK && parts[i](&same, &same) == PCIDR_OK && is_same(same, apart));
    }
    for (size_t i = 0; i < LENGTH(steps); i++) {
        pcidr_value apart, same = host;
        WANT(steps[i](&host, 0, 3, &apart) == PCIDR_OK && steps[i](&same, 0, 3, &same) == PCIDR_OK);
        WANT(is_same(same, apart));
    }
}

/* Values of any fields, among them the limits of each tag and half, each beside each other. */
enum { TAGS = 10, HALVES = 4, FIELDS = TAGS * HALVES * HALVES };
static pcidr_value fields[FIELDS];

static void make_fields(void) {
    const uint8_t tags[TAGS] = {0, 8, 32, 33, 63, 64, 96, 192, 193, 255};
    const uint64_t halves[HALVES] = {0, 10 << 24, UINT32_MAX, UINT64_MAX};
    size_t count = 0;
    for (size_t tag = 0; tag < TAGS; tag++)
        for (size_t high = 0; high < HALVES; high++)
            for (size_t low = 0; low < HALVES; low++) {
                fields[count].high = halves[high], fields[count].low = halves[low], fields[count].tag = tags[tag];
                count++;
            }
}

/* The order is total whatever the fields are: turned round it is the opposite, only the same fields tie, and what is sorted
 * by `qsort` ascends from each value to each later one. What the calls take comes first. */
static void order_of(uint32_t (*compare)(const pcidr_value *, const pcidr_value *), int (*is_taken)(const pcidr_value *),
                     int (*order)(const void *, const void *)) {
    qsort(fields, FIELDS, sizeof *fields, order);
    for (size_t i = 0; i < FIELDS; i++)
        for (size_t j = 0; j < FIELDS; j++) {
            uint32_t wanted = i < j ? 0 : i == j ? 1 : 2;
            WANT(compare(&fields[i], &fields[j]) == wanted);
            WANT(i >= j || is_taken(&fields[i]) >= is_taken(&fields[j]));
        }
}

static int is_network(const pcidr_value *value) { return pcidr_check(value) == 1; }
static int is_host(const pcidr_value *value) { return pcidr_host_to_bytes(value, NULL, 0) > 0; }
static int host_order(const void *one, const void *other) { return (int)pcidr_compare_hosts(one, other) - 1; }

static void orders(void) {
    make_fields();
    order_of(pcidr_compare, is_network, pcidr_order);
    order_of(pcidr_compare_hosts, is_host, host_order);
}

/* What is right. */
static void right_arguments(void) {
    pcidr_value two[2];
    WANT(pcidr_version() == PCIDR_VERSION);
    WANT(pcidr_check(&any) == 1 && pcidr_check(&wide) == 1 && pcidr_check(&address) == 1);
    WANT(is_permitted(&wide, &address) && !is_not_banned(&wide, &address));
    WANT(!is_permitted(&address, &wide) && is_not_banned(&address, &wide));
    WANT(pcidr_message(PCIDR_NOT_ADDRESS, text, sizeof text) == 25 && strcmp(text, "invalid IP address syntax") == 0);
    WANT(pcidr_compare(&any, &wide) == 0 && pcidr_compare(&wide, &wide) == 1 && pcidr_order(&wide, &any) == 1);
    WANT(pcidr_step_up(&host, 0, 1, &out) == PCIDR_OK && out.low == host.low + 1);
    WANT(pcidr_step_down(&host, 1, 0, &out) == PCIDR_WRAPPED);
    WANT(pcidr_at(&wide, 0, (1 << 24) - 1, &out) == PCIDR_OK && pcidr_at(&wide, 0, 1 << 24, &out) == PCIDR_WRAPPED);
    WANT(pcidr_union(&wide, 1, &address, 1, two, 2, &count) == PCIDR_OK && count == 1 && is_same(two[0], wide));
    two[0] = address, count = 1;
    WANT(pcidr_union_in_place(two, 2, &count, &wide, 1) == PCIDR_OK && count == 1 && is_same(two[0], wide));
    WANT(pcidr_intersection_in_place(two, 2, &count, &address, 1) == PCIDR_OK && count == 1 && is_same(two[0], address));
    count = 9; /* above the room: all of it, here the address twice */
    two[1] = address;
    WANT(pcidr_difference_in_place(two, 2, &count, &wide, 1) == PCIDR_OK && count == 0);
    WANT(pcidr_compare_hosts(&host, &host) == 1 && pcidr_compare_hosts(&host, &address) == 0);
    WANT(pcidr_compare_hosts(&host, &wide) == 2);
    WANT(pcidr_print_host_with_length(&address, text, sizeof text) == 11 && strcmp(text, "10.1.2.3/32") == 0);
    two[0] = address, two[1] = wide;
    WANT(pcidr_longest_match_each(two, 2, &address, 1, &count, 1) == PCIDR_OK && count == 0);
    two[0] = wide;
    WANT(pcidr_longest_match_each(two, 2, &address, 1, &count, 1) == PCIDR_OK && count == 1);
    WANT(pcidr_longest_match_each(two, 2, &any, 1, &count, 1) == PCIDR_OK && count == PCIDR_NO_INDEX);
    WANT(pcidr_network_to_bytes(&wide, bytes, sizeof bytes) == 5);
    WANT(pcidr_network_from_bytes(bytes, 5, &out, &count) == PCIDR_OK && count == 5 && is_same(out, wide));
}

int main(void) {
    const pcidr_value bad[] = {{0, 0, 33}, {0, 0, 63}, {0, 0, 193}, {0, 0, 254}, {1, 0, 255},
                               {0, 1, 255}, {1, 0, 8}, {0, (uint64_t)1 << 32, 8}};
    WANT(pcidr_read_network("10.0.0.0/8", 10, &wide) == PCIDR_OK);
    WANT(pcidr_read_host("10.0.0.5/8", 10, &host) == PCIDR_OK);
    WANT(pcidr_read_network("any", 3, &any) == PCIDR_OK);
    WANT(pcidr_read_address("10.1.2.3", 8, &address) == PCIDR_OK);
    null_arguments();
    null_lists();
    strings();
    for (size_t i = 0; i < LENGTH(bad); i++) no_value(bad[i]), no_value_around(bad[i]), no_value_among(bad[i]);
    other_values();
    small_rooms();
    same_place();
    orders();
    right_arguments();
    return failures != 0;
}

/* Look-up tables in files: a file that is worked by hand, the same answers as `pcidr_longest_match_each` gives, every error,
 * files that are cut at each length and that have each byte changed, and look-ups in any bytes with any places, each with
 * nothing behind it. */
#include <pcidr.h>
#include <stdio.h>
#include <stdlib.h>
#include <string.h>

static int failures;

#define WANT(holds)                                             \
    do {                                                        \
        if (!(holds)) {                                         \
            fprintf(stderr, "line %d: %s\n", __LINE__, #holds); \
            failures++;                                         \
        }                                                       \
    } while (0)

enum { MOST = 300, AROUND = 4 * MOST + 4, ROOM = 1 << 19, SIZE = 4664 };

static pcidr_value networks[MOST], asked[AROUND];
static uint32_t offsets[MOST + 1];
static uint8_t values[8 * MOST], room[ROOM];
static pcidr_found founds[AROUND], others[AROUND];
static uint8_t held[AROUND];
static size_t matches[AROUND], count;

static uint64_t random_number(void) {
    static uint64_t state = 1;
    state = state * 6364136223846793005u + 1442695040888963407u;
    return state >> 32 ^ state << 32;
}

static pcidr_value value_of(const char *text) {
    pcidr_value value = {0, 0, 0};
    WANT(pcidr_read_network(text, strlen(text), &value) == PCIDR_OK);
    return value;
}

/* A copy of bytes with nothing behind it, which the address sanitizer sees. */
static uint8_t *copied(const uint8_t *bytes, size_t size) {
    uint8_t *copy = (uint8_t *)malloc(size > 0 ? size : 1);
    if (!copy) exit(2);
    if (size > 0) memcpy(copy, bytes, size);
    return copy;
}

/* The addresses at both ends of each network, and those beside them: how many there are. */
static size_t around(size_t rows) {
    size_t many = 0;
    asked[many++] = value_of("0.0.0.0"), asked[many++] = value_of("255.255.255.255");
    asked[many++] = value_of("::"), asked[many++] = value_of("ffff:ffff:ffff:ffff:ffff:ffff:ffff:ffff");
    for (size_t i = 0; i < rows; i++) {
        pcidr_value first, last, beside;
        WANT(pcidr_first(&networks[i], &first) == PCIDR_OK && pcidr_last(&networks[i], &last) == PCIDR_OK);
        asked[many++] = first, asked[many++] = last;
        first.tag = last.tag = first.tag < 64 ? 0 : 64;
        pcidr_step_down(&first, 0, 1, &beside), beside.tag = first.tag ? 192 : 32, asked[many++] = beside;
        pcidr_step_up(&last, 0, 1, &beside), beside.tag = first.tag ? 192 : 32, asked[many++] = beside;
    }
    return many;
}

/* 1,000 addresses: those at both ends of each of the four rows of the worked file, and 62 before and behind each of them. */
static size_t near_ends(void) {
    size_t many = 0;
    for (size_t i = 0; i < 4; i++) {
        pcidr_value ends[2], begin;
        WANT(pcidr_first(&networks[i], &ends[0]) == PCIDR_OK && pcidr_last(&networks[i], &ends[1]) == PCIDR_OK);
        for (size_t k = 0; k < 2; k++) {
            ends[k].tag = ends[k].tag < 64 ? 0 : 64;
            WANT(pcidr_step_down(&ends[k], 0, 62, &begin) == PCIDR_OK);
            for (uint64_t step = 0; step < 125; step++) {
                WANT(pcidr_step_up(&begin, 0, step, &asked[many]) == PCIDR_OK);
                asked[many++].tag = begin.tag ? 192 : 32;
            }
        }
    }
    WANT(many == 1000);
    return many;
}

/* Whether what is found is inside of bytes, whatever they are, and both calls say the same. */
static void inside(const uint8_t *bytes, size_t size, const pcidr_file *file, size_t many) {
    WANT(pcidr_file_lookup_each(bytes, size, file, asked, many, others, AROUND) == PCIDR_OK);
    WANT(pcidr_set_has_each(bytes, size, file, asked, many, held, AROUND) == PCIDR_OK);
    for (size_t i = 0; i < many; i++) {
        pcidr_found found = {9, 9, 9};
        uint32_t is_found = pcidr_file_lookup(bytes, size, file, &asked[i], &found);
        WANT(memcmp(&found, &others[i], sizeof found) == 0);
        WANT(is_found == (found.row != PCIDR_NO_ROW) && pcidr_set_has(bytes, size, file, &asked[i]) == is_found);
        WANT(held[i] == is_found);
        if (is_found) {
            WANT(found.row < (asked[i].tag < 64 ? file->ipv4.rows : file->ipv6.rows));
            WANT(found.value <= size && found.value_len <= size - found.value);
        } else {
            WANT(found.value == 0 && found.value_len == 0);
        }
    }
}

/* Four rows and their values, as they stand on paper: `SIZE` bytes. */
static void write_worked(void) {
    static const char *const texts[] = {"10.0.0.0/8", "10.1.0.0/16", "192.0.2.0/24", "2001:db8::/32"};
    static const uint32_t ends[] = {0, 5, 10, 14, 27};
    for (size_t i = 0; i < 4; i++) networks[i] = value_of(texts[i]);
    memcpy(offsets, ends, sizeof ends);
    memcpy(values, "outerinnertestdocumentation", 27);
    WANT(pcidr_file_write(networks, 4, offsets, 5, values, 27, NULL, 0, &count) == PCIDR_NO_ROOM && count == SIZE);
    memset(room, 9, sizeof room);
    WANT(pcidr_file_write(networks, 4, offsets, 5, values, 27, room, SIZE, &count) == PCIDR_OK && count == SIZE);
    WANT(room[SIZE] == 9);
}

static void worked(void) {
    static const uint8_t head[] = {0x89, 0x43, 0x49, 0x44, 5, 0, 0, 0};
    /* The node of 10.0.0.0/12, whose runs are the values 1, 2 and 1 from the parts 0, 4 and 8 on, and that of 8.0.0.0/6, which
     * has 0, the first node, 1 and 0 from the parts 0, 32, 33 and 48 on. */
    static const uint32_t nodes[] = {0, 0x88800000u, 1, 2, 1, 0xc0008000u, 0x80000000u, 0, 1u << 31, 1, 0};
    /* The list of 2001::/16: two changes, at 2001:db8:: and 2001:db9::, each by its bits 17 to 48, and the values 0, 1 and 0; and
     * the node of 2000::/10, which has 0, the list and 0 from the parts 0, 1 and 2 on. */
    static const uint32_t list[] = {2, 0x0db80000u, 0x0db90000u, 0, 1, 0, 0, 0xe0000000u, 0, (1u << 31) + 1, 0};
    static const struct {
        const char *address;
        uint32_t row;
        const char *value;
    } wanted[] = {{"10.1.2.3", 1, "inner"}, {"10.2.0.0", 0, "outer"}, {"10.255.255.255", 0, "outer"},
                  {"192.0.2.255", 2, "test"}, {"2001:db8::1", 0, "documentation"},
                  {"11.0.0.0", PCIDR_NO_ROW, ""}, {"9.255.255.255", PCIDR_NO_ROW, ""}, {"192.0.3.0", PCIDR_NO_ROW, ""},
                  {"2001:db9::", PCIDR_NO_ROW, ""}, {"::10.1.2.3", PCIDR_NO_ROW, ""}, {"10.1.2.0/24", PCIDR_NO_ROW, ""},
                  {"2001:db8::/64", PCIDR_NO_ROW, ""}, {"any", PCIDR_NO_ROW, ""}};
    write_worked();
    WANT(memcmp(room, head, sizeof head) == 0);
    WANT(memcmp(room + 320, nodes, sizeof nodes) == 0);
    WANT(memcmp(room + 4568, list, sizeof list) == 0);
    pcidr_file file;
    memset(&file, 9, sizeof file);
    WANT(pcidr_file_open(room, count, &file) == PCIDR_OK);
    WANT(pcidr_file_check(room, count) == PCIDR_OK);
    WANT(file.ipv4.first == 64 && file.ipv4.words == 320 && file.ipv4.addresses == 416);
    WANT(file.ipv4.lengths == 432 && file.ipv4.offsets == 440 && file.ipv4.values == 456 && file.ipv4.values_len == 14);
    WANT(file.ipv4.rows == 3 && file.ipv4.entries == 64 && file.ipv4.words_len == 24 && file.ipv4.steps == 5);
    WANT(file.ipv6.first == 472 && file.ipv6.words == 4568 && file.ipv6.addresses == 4616);
    WANT(file.ipv6.lengths == 4632 && file.ipv6.offsets == 4640 && file.ipv6.values == 4648 && file.ipv6.values_len == 13);
    WANT(file.ipv6.rows == 1 && file.ipv6.entries == 1024 && file.ipv6.words_len == 11 && file.ipv6.steps == 20);
    for (size_t i = 0; i < sizeof wanted / sizeof *wanted; i++) {
        pcidr_value address = value_of(wanted[i].address);
        pcidr_found found;
        uint32_t is_found = wanted[i].row != PCIDR_NO_ROW;
        WANT(pcidr_file_lookup(room, count, &file, &address, &found) == is_found && found.row == wanted[i].row);
        WANT(found.value_len == strlen(wanted[i].value));
        WANT(memcmp(room + found.value, wanted[i].value, found.value_len) == 0);
        WANT(pcidr_set_has(room, count, &file, &address) == is_found);
    }
    pcidr_found out[3] = {{7, 7, 7}, {7, 7, 7}, {7, 7, 7}};
    uint8_t bits[3] = {7, 7, 7};
    asked[0] = value_of("10.1.2.3"), asked[1] = value_of("11.0.0.0");
    WANT(pcidr_file_lookup_each(room, count, &file, asked, 2, out, 3) == PCIDR_OK);
    WANT(out[0].row == 1 && out[1].row == PCIDR_NO_ROW && out[2].row == 7 && out[2].value == 7);
    WANT(pcidr_set_has_each(room, count, &file, asked, 2, bits, 3) == PCIDR_OK && bits[0] == 1 && bits[1] == 0 && bits[2] == 7);
    WANT(pcidr_file_lookup_each(room, count, &file, asked, 2, out, 1) == PCIDR_NO_ROOM && out[0].row == 1);
    WANT(pcidr_set_has_each(room, count, &file, asked, 2, bits, 1) == PCIDR_NO_ROOM && bits[0] == 1);
}

/* The file above cut at each length and made longer, opened anew and with the places of the whole one. */
static void cut(void) {
    pcidr_file whole, file;
    write_worked();
    size_t many = near_ends();
    WANT(pcidr_file_open(room, SIZE, &whole) == PCIDR_OK);
    for (size_t size = 0; size < SIZE; size++) {
        uint8_t *bytes = copied(room, size);
        uint32_t wanted = size < 4 ? PCIDR_NO_FILE : size < 8 ? PCIDR_OTHER_VERSION : PCIDR_SHORT;
        file = whole;
        WANT(pcidr_file_open(bytes, size, &file) == wanted && memcmp(&file, &whole, sizeof file) == 0);
        WANT(pcidr_file_check(bytes, size) == wanted);
        inside(bytes, size, &whole, many);
        free(bytes);
    }
    room[SIZE] = 0;
    WANT(pcidr_file_open(room, SIZE + 1, &file) == PCIDR_LONG && pcidr_file_check(room, SIZE + 1) == PCIDR_LONG);
}

/* The same with each byte changed, in three ways: an error, or the same rows, and the same places of their values unless an
 * offset was changed. */
static void changed(void) {
    static const uint8_t changes[] = {1, 0x80, 0xff};
    pcidr_file whole;
    write_worked();
    size_t many = near_ends(), accepted = 0;
    WANT(pcidr_file_open(room, SIZE, &whole) == PCIDR_OK);
    WANT(pcidr_file_lookup_each(room, SIZE, &whole, asked, many, founds, AROUND) == PCIDR_OK);
    uint8_t *bytes = copied(room, SIZE);
    for (size_t i = 0; i < SIZE; i++)
        for (size_t k = 0; k < sizeof changes; k++) {
            pcidr_file file = whole;
            bytes[i] ^= changes[k];
            uint32_t opened = pcidr_file_open(bytes, SIZE, &file), code = pcidr_file_check(bytes, SIZE);
            WANT(opened == PCIDR_OK || code == opened);
            inside(bytes, SIZE, &whole, many);
            inside(bytes, SIZE, &file, many);
            if (code == PCIDR_OK) {
                accepted++;
                for (size_t n = 0; n < many; n++) {
                    WANT(others[n].row == founds[n].row);
                    WANT((i >= 440 && i < 456) || memcmp(&others[n], &founds[n], sizeof *founds) == 0);
                }
            }
            bytes[i] ^= changes[k];
        }
    free(bytes);
    /* In the header 16 bytes are not read, 25 are free behind parts, and 27 are of values. An offset of 5 may be 4, and one of
     * 10 may be 11. */
    WANT(accepted == 3 * (16 + 25 + 27) + 2);
    for (room[4] = 0; room[4] < 7; room[4] += room[4] == 4 ? 2 : 1)
        WANT(pcidr_file_open(room, SIZE, &whole) == PCIDR_OTHER_VERSION && pcidr_file_check(room, SIZE) == PCIDR_OTHER_VERSION);
}

/* Bytes of any numbers, and places of any numbers: none of them is believed. */
static void any_bytes(void) {
    write_worked();
    size_t many = around(4);
    for (int turn = 0; turn < 2000; turn++) {
        size_t size = random_number() % 100;
        uint8_t *bytes = copied(room, size);
        pcidr_file file;
        for (size_t i = 0; i < size; i++) bytes[i] = (uint8_t)(turn % 2 ? random_number() : random_number() % 3);
        for (size_t i = 0; i < sizeof file; i++) ((uint8_t *)&file)[i] = (uint8_t)random_number();
        if (turn % 4 < 2) {
            pcidr_file_table *tables[2] = {&file.ipv4, &file.ipv6};
            for (int k = 0; k < 2; k++) {
                size_t *places = &tables[k]->first;
                uint32_t *counts = &tables[k]->rows;
                for (int i = 0; i < 7; i++) places[i] = random_number() % 110;
                for (int i = 0; i < 4; i++) counts[i] = (uint32_t)(random_number() % 20);
            }
        }
        inside(bytes, size, &file, many);
        free(bytes);
    }
}

/* A random network of a family, most of them near others. */
static pcidr_value random_network(int family) {
    pcidr_value value = {0, 0, 0}, network;
    if (family == 4) {
        value.low = random_number() & 0x0307ffff, value.tag = (uint8_t)(random_number() % 33);
    } else {
        value.high = random_number() & 0x8000000000000307u, value.low = random_number() & 0xc000000000000007u;
        value.tag = (uint8_t)(64 + random_number() % 129);
    }
    WANT(pcidr_network(&value, &network) == PCIDR_OK);
    return network;
}

/* Files of random rows, each with its index as its value, in as many bytes as its last digit says. */
static void random_files(size_t most) {
    size_t rows = 0, ipv4 = 0, end = 0;
    for (size_t i = 0; i < most; i++) networks[i] = random_network(i % 2 ? 4 : 6);
    qsort(networks, most, sizeof *networks, pcidr_order);
    for (size_t i = 0; i < most; i++)
        if (i == 0 || pcidr_compare(&networks[i], &networks[i - 1]) != 1) networks[rows++] = networks[i];
    for (size_t i = 0; i < rows; i++) {
        offsets[i] = (uint32_t)end;
        for (size_t k = 0; k < i % 8; k++) values[end++] = (uint8_t)i;
        ipv4 += networks[i].tag < 64;
    }
    offsets[rows] = (uint32_t)end;
    WANT(pcidr_file_write(networks, rows, offsets, rows + 1, values, end, NULL, 0, &count) == PCIDR_NO_ROOM && count <= ROOM);
    WANT(pcidr_file_write(networks, rows, offsets, rows + 1, values, end, room, count - 1, &count) == PCIDR_NO_ROOM);
    WANT(pcidr_file_write(networks, rows, offsets, rows + 1, values, end, room, ROOM, &count) == PCIDR_OK);
    uint8_t *bytes = copied(room, count);
    pcidr_file file;
    WANT(pcidr_file_open(bytes, count, &file) == PCIDR_OK && pcidr_file_check(bytes, count) == PCIDR_OK);
    WANT(file.ipv4.rows == ipv4 && file.ipv6.rows == rows - ipv4);
    size_t many = around(rows);
    inside(bytes, count, &file, many);
    WANT(pcidr_longest_match_each(networks, rows, asked, many, matches, AROUND) == PCIDR_OK);
    for (size_t i = 0; i < many; i++) {
        size_t row = others[i].row == PCIDR_NO_ROW ? PCIDR_NO_INDEX : others[i].row + (asked[i].tag < 64 ? 0 : ipv4);
        WANT(row == matches[i] && others[i].value_len == (row == PCIDR_NO_INDEX ? 0 : row % 8));
        for (size_t k = 0; k < others[i].value_len; k++) WANT(bytes[others[i].value + k] == (uint8_t)row);
    }
    free(bytes);
    WANT(pcidr_set_write(networks, rows, room, ROOM, &count) == PCIDR_OK);
    WANT(pcidr_file_open(room, count, &file) == PCIDR_OK && pcidr_file_check(room, count) == PCIDR_OK);
    WANT(pcidr_set_has_each(room, count, &file, asked, many, held, AROUND) == PCIDR_OK);
    for (size_t i = 0; i < many; i++) WANT(held[i] == (matches[i] != PCIDR_NO_INDEX));
}

/* Each error of a call that writes, in its order, and calls with nothing. */
static void errors(void) {
    pcidr_value two[2] = {value_of("10.0.0.0/8"), value_of("10.0.0.0/9")};
    uint32_t ends[3] = {0, 1, 2};
    count = 77;
#define WRITE(networks_len, offsets_len, values_len) \
    pcidr_file_write(two, networks_len, ends, offsets_len, (const uint8_t *)"ab", values_len, room, 0, &count)
    WANT(WRITE(2, 2, 2) == PCIDR_VALUES && WRITE(2, 3, 1) == PCIDR_VALUES && WRITE(1, 3, 2) == PCIDR_VALUES && count == 77);
    ends[0] = 1;
    WANT(WRITE(2, 3, 2) == PCIDR_VALUES && count == 77);
    ends[0] = 0, ends[1] = 3;
    WANT(WRITE(2, 3, 2) == PCIDR_VALUES && count == 77);
    ends[1] = 1;
    WANT(WRITE(2, 3, 2) == PCIDR_NO_ROOM);
    two[1] = two[0];
    WANT(WRITE(2, 3, 2) == PCIDR_NO_VALUE && count == 1);
    two[1] = value_of("any");
    WANT(WRITE(2, 3, 2) == PCIDR_NO_VALUE && count == 1);
    two[1] = value_of("::/0"), two[1].low = 1;
    WANT(WRITE(2, 3, 2) == PCIDR_NO_VALUE && count == 1);
    two[0] = value_of("::/0"), two[1] = value_of("10.0.0.0/8");
    WANT(WRITE(2, 3, 2) == PCIDR_NO_VALUE && count == 1);
    two[0] = value_of("any");
    WANT(WRITE(2, 3, 2) == PCIDR_NO_VALUE && count == 0);
    WANT(pcidr_set_write(two, 1, room, ROOM, &count) == PCIDR_NO_VALUE && count == 0);
    ends[0] = 0;
    WANT(pcidr_file_write(NULL, 0, ends, 1, NULL, 0, NULL, 0, &count) == PCIDR_NO_ROOM && count == 4432);
    WANT(pcidr_set_write(NULL, 0, room, ROOM, &count) == PCIDR_OK && count == 4432);

    pcidr_file file, kept;
    pcidr_found found;
    pcidr_value address = value_of("10.1.2.3");
    memset(&file, 9, sizeof file), kept = file;
    WANT(pcidr_file_open(NULL, 0, &file) == PCIDR_NO_FILE && memcmp(&file, &kept, sizeof file) == 0);
    WANT(pcidr_file_check(NULL, 0) == PCIDR_NO_FILE);
    WANT(pcidr_file_lookup(NULL, 0, &file, &address, &found) == 0 && found.row == PCIDR_NO_ROW);
    WANT(pcidr_set_has(NULL, 0, &file, &address) == 0);
    WANT(pcidr_file_lookup_each(NULL, 0, &file, NULL, 0, NULL, 0) == PCIDR_OK);
    WANT(pcidr_file_lookup_each(NULL, 0, &file, &address, 1, NULL, 0) == PCIDR_NO_ROOM);
    WANT(pcidr_set_has_each(NULL, 0, &file, NULL, 0, NULL, 0) == PCIDR_OK);
}

/* Writes the worked file where a path is given. */
static void save(const char *path) {
    write_worked();
    FILE *out = fopen(path, "wb");
    WANT(out && fwrite(room, 1, SIZE, out) == SIZE && fclose(out) == 0);
}

int main(int argc, char **argv) {
    if (argc > 1) save(argv[1]);
    worked();
    cut();
    changed();
    any_bytes();
    for (size_t most = 0; most <= MOST; most += 30) random_files(most);
    errors();
    return failures != 0;
}

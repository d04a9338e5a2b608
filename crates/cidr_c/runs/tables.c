/* Look-up tables: rows that are worked by hand, the same answers as `pcidr_longest_match_each` gives, every error, and
 * look-ups in arrays of any numbers, each array with nothing behind it. */
#include <pcidr.h>
#include <stdio.h>
#include <stdlib.h>
#include <string.h>

static int failures;

#define WANT(holds)                                             \
    do {                                                        \
        if (!(holds)) {                                         \
            fprintf(stderr, "line %d: %s\n", __LINE__, #holds); \
            failures++;                                         \
        }                                                       \
    } while (0)

enum { MOST = 600, ASKED = 2000 };

static pcidr_value networks[MOST], asked[ASKED];
static pcidr_table_sizes sizes;

static uint64_t random_number(void) {
    static uint64_t state = 1;
    state = state * 6364136223846793005u + 1442695040888963407u;
    return state >> 32 ^ state << 32;
}

static pcidr_value value_of(const char *text) {
    pcidr_value value = {0, 0, 0};
    WANT(pcidr_read_network(text, strlen(text), &value) == PCIDR_OK);
    return value;
}

/* Memory of just so many words, with nothing behind it. */
static uint32_t *room_for(size_t count) {
    uint32_t *room = (uint32_t *)malloc(count > 0 ? count * sizeof *room : 1);
    if (!room) exit(2);
    return room;
}

/* A table with room for so many entries and words. */
static pcidr_table made(uint32_t family, size_t first_len, size_t words_len) {
    pcidr_table table = {0};
    table.family = family;
    table.first = room_for(first_len), table.first_len = first_len;
    table.words = room_for(words_len), table.words_len = words_len;
    return table;
}

static void drop(pcidr_table *table) {
    free(table->first);
    free(table->words);
}

/* The table of networks, in as much room as a call says that it takes. */
static pcidr_table built(uint32_t family, const pcidr_value *of, size_t count) {
    pcidr_table table = {0};
    table.family = family;
    WANT(pcidr_table_build(&table, of, count, &sizes) == PCIDR_NO_ROOM && !table.first_len && !table.words_len);
    table = made(family, sizes.first, sizes.words);
    WANT(pcidr_table_build(&table, of, count, &sizes) == PCIDR_OK);
    WANT(table.first_len == sizes.first && table.words_len == sizes.words && table.steps == sizes.steps && table.rows == count);
    return table;
}

/* The words of 10.0.0.0/8, 10.1.0.0/16, 10.1.2.0/24 and 192.0.2.0/24, as they stand on paper: of fewer than 64 networks in IPv4
 * there are 64 entries, each for the first six bits of an address, and behind them steps of six, six, six, six and two bits. A
 * node is two words of marks, a bit for each part that is another than the one before it, and the entries of these, each one more
 * than a row, 0 for none, or 2^31 and twice the place of a node. */
#define NODE (1u << 31)

static void worked(void) {
    static const char *const texts[] = {"10.0.0.0/8", "10.1.0.0/16", "10.1.2.0/24", "192.0.2.0/24"};
    static const uint32_t words[] = {
        0, 0xb0000000, 2, 3, 2,                      /* 10.1.0.0/18, by the third byte: part 2 is 10.1.2.0/24 */
        0, 0x8c800000, 1, NODE, 2, 1,                /* 10.0.0.0/12: parts 4 to 7 are 10.1.0.0/16, and the first is a node */
        0xc0008000, 0x80000000, 0, NODE + 10, 1, 0,  /* 8.0.0.0/6: parts 32 to 47 are 10.0.0.0/8, and the first is a node */
        0, 0xb0000000, 0, 4, 0,                      /* 192.0.0.0/18: part 2 is 192.0.2.0/24 */
        0, 0xc0000000, NODE + 34, 0,                 /* 192.0.0.0/12: the first part is a node */
        0, 0xc0000000, NODE + 44, 0};                /* 192.0.0.0/6, too */
    static const struct {
        const char *address;
        uint32_t row;
    } wanted[] = {{"10.1.2.3", 2}, {"10.1.3.0", 1}, {"10.1.1.255", 1}, {"10.255.255.255", 0}, {"11.0.0.0", PCIDR_NO_ROW},
                  {"9.255.255.255", PCIDR_NO_ROW}, {"192.0.2.255", 3}, {"255.255.255.255", PCIDR_NO_ROW},
                  {"0.0.0.0", PCIDR_NO_ROW}, {"::10.1.2.3", PCIDR_NO_ROW}, {"10.1.2.0/24", PCIDR_NO_ROW}};
    for (size_t i = 0; i < 4; i++) networks[i] = value_of(texts[i]);
    pcidr_table table = built(4, networks, 4);
    WANT(table.first_len == 64 && table.words_len == sizeof words / sizeof *words && table.steps == 5);
    WANT(memcmp(table.words, words, sizeof words) == 0);
    for (size_t i = 0; i < 64; i++) WANT(table.first[i] == (i == 2 ? NODE + 22 : i == 48 ? NODE + 52 : 0));
    for (size_t i = 0; i < sizeof wanted / sizeof *wanted; i++) {
        asked[i] = value_of(wanted[i].address);
        WANT(pcidr_table_lookup(&table, &asked[i]) == wanted[i].row);
    }
    uint32_t out[3] = {7, 7, 7};
    WANT(pcidr_table_lookup_each(&table, asked, 2, out, 3) == PCIDR_OK && out[0] == 2 && out[1] == 1 && out[2] == 7);
    WANT(pcidr_table_lookup_each(&table, asked, 3, out, 2) == PCIDR_NO_ROOM && out[0] == 2 && out[1] == 1);
    WANT(pcidr_table_check(&table, networks, 4) == PCIDR_OK);
    WANT(pcidr_table_check(&table, networks, 3) == PCIDR_NO_TABLE);
    for (size_t i = 0; i < table.first_len; i++) {
        table.first[i] ^= 1;
        WANT(pcidr_table_check(&table, networks, 4) == PCIDR_NO_TABLE);
        table.first[i] ^= 1;
    }
    for (size_t i = 0; i < table.words_len; i++) {
        table.words[i] ^= 1;
        WANT(pcidr_table_check(&table, networks, 4) == PCIDR_NO_TABLE);
        table.words[i] ^= 1;
    }
    table.steps--;
    WANT(pcidr_table_check(&table, networks, 4) == PCIDR_NO_TABLE);
    table.steps = UINT32_MAX;
    WANT(pcidr_table_check(&table, networks, 4) == PCIDR_NO_TABLE);
    table.steps = 5, table.words_len--;
    WANT(pcidr_table_check(&table, networks, 4) == PCIDR_NO_TABLE);
    drop(&table);
}

/* A random network or address of a family, most of them near others. */
static pcidr_value random_value(uint32_t family, int is_address) {
    pcidr_value value = {0, 0, 0}, network;
    if (family == 4) {
        value.low = random_number() & 0x0307ffff;
        value.tag = is_address ? 32 : (uint8_t)(random_number() % 33);
    } else {
        value.high = random_number() & 0x8000000000000307u, value.low = random_number() & 0xc000000000000007u;
        value.tag = (uint8_t)(64 + (is_address ? 128 : random_number() % 129));
    }
    WANT(pcidr_network(&value, &network) == PCIDR_OK);
    return network;
}

/* So many networks that ascend, none twice. */
static size_t random_networks(uint32_t family, size_t most) {
    size_t count = 0;
    for (size_t i = 0; i < most; i++) networks[i] = random_value(family, 0);
    qsort(networks, most, sizeof *networks, pcidr_order);
    for (size_t i = 0; i < most; i++)
        if (i == 0 || pcidr_compare(&networks[i], &networks[i - 1]) != 1) networks[count++] = networks[i];
    return count;
}

static void random_tables(uint32_t family, size_t most) {
    static size_t matches[ASKED];
    static uint32_t rows[ASKED];
    size_t count = random_networks(family, most);
    pcidr_table table = built(family, networks, count);
    WANT(pcidr_table_check(&table, networks, count) == PCIDR_OK);
    for (size_t i = 0; i < ASKED; i++) asked[i] = random_value(i % 8 ? family : 10 - family, 1);
    for (size_t i = 0; i < count && i < ASKED; i++) {
        pcidr_value edge = networks[i];
        WANT(i % 2 ? pcidr_first(&edge, &asked[i]) == PCIDR_OK : pcidr_last(&edge, &asked[i]) == PCIDR_OK);
    }
    WANT(pcidr_longest_match_each(networks, count, asked, ASKED, matches, ASKED) == PCIDR_OK);
    WANT(pcidr_table_lookup_each(&table, asked, ASKED, rows, ASKED) == PCIDR_OK);
    for (size_t i = 0; i < ASKED; i++) {
        WANT(rows[i] == (matches[i] == PCIDR_NO_INDEX ? PCIDR_NO_ROW : matches[i]));
        WANT(pcidr_table_lookup(&table, &asked[i]) == rows[i]);
    }
    drop(&table);
}

/* Each error, in its order. */
static void errors(void) {
    pcidr_value two[2] = {value_of("10.0.0.0/8"), value_of("10.0.0.0/9")};
    pcidr_table table = built(4, two, 2), large = made(4, table.first_len + 1, table.words_len + 2), six = made(6, 0, 0);
    const pcidr_table_sizes whole = sizes;
    WANT(whole.first == 64 && whole.words > 0 && whole.steps == 5);
    large.first[whole.first] = large.words[whole.words] = large.words[whole.words + 1] = 7;
    WANT(pcidr_table_build(&large, two, 2, &sizes) == PCIDR_OK && large.first_len == whole.first && large.words_len == whole.words);
    WANT(large.first[whole.first] == 7 && large.words[whole.words] == 7 && large.words[whole.words + 1] == 7);
    WANT(memcmp(large.first, table.first, 4 * whole.first) == 0 && memcmp(large.words, table.words, 4 * whole.words) == 0);
    for (int turn = 0; turn < 2; turn++) {
        pcidr_table small = turn ? made(4, whole.first, whole.words - 1) : made(4, whole.first - 1, whole.words);
        small.first[0] = small.words[0] = 7, small.rows = 9;
        memset(&sizes, 0, sizeof sizes);
        WANT(pcidr_table_build(&small, two, 2, &sizes) == PCIDR_NO_ROOM && small.first[0] == 7 && small.words[0] == 7 && small.rows == 9);
        WANT(sizes.first == whole.first && sizes.words == whole.words && sizes.steps == whole.steps && sizes.index == 0);
        drop(&small);
    }
    two[1] = two[0];
    sizes = whole;
    WANT(pcidr_table_build(&six, two, 2, &sizes) == PCIDR_NO_VALUE && sizes.index == 0);
    WANT(pcidr_table_build(&table, two, 2, &sizes) == PCIDR_NO_VALUE && sizes.index == 1);
    two[1] = value_of("::/0");
    WANT(pcidr_table_build(&table, two, 2, &sizes) == PCIDR_NO_VALUE && sizes.index == 1);
    WANT(pcidr_table_build(&six, two, 2, &sizes) == PCIDR_NO_VALUE && sizes.index == 0);
    two[0] = value_of("any");
    WANT(pcidr_table_build(&table, two, 2, &sizes) == PCIDR_NO_VALUE && sizes.index == 0);
    WANT(pcidr_table_build(&six, two, 2, &sizes) == PCIDR_NO_VALUE && sizes.index == 0);
    two[0].low = (uint64_t)1 << 32, two[0].tag = 0;
    WANT(pcidr_table_build(&table, two, 2, &sizes) == PCIDR_NO_VALUE && sizes.index == 0);
    two[0].low = 1, two[0].tag = 31;
    WANT(pcidr_table_build(&table, two, 2, &sizes) == PCIDR_NO_VALUE && sizes.index == 0);
    WANT(sizes.first == whole.first && sizes.words == whole.words && sizes.steps == whole.steps);
    WANT(memcmp(large.first, table.first, 4 * whole.first) == 0 && memcmp(large.words, table.words, 4 * whole.words) == 0);
    WANT(pcidr_table_check(&table, two, 2) == PCIDR_NO_VALUE);
    table.steps = 6;
    WANT(pcidr_table_check(&table, two, 2) == PCIDR_NO_TABLE);
    drop(&table), drop(&large), drop(&six);

    pcidr_value address = value_of("10.1.2.3"), wide = value_of("2001:db8::1");
    for (uint32_t family = 4; family <= 6; family += 2) {
        pcidr_table none = {0}, empty = built(family, NULL, 0);
        none.family = family;
        WANT(empty.first_len == (family == 4 ? 64 : 1024) && empty.words_len == 0);
        WANT(pcidr_table_lookup(&none, &address) == PCIDR_NO_ROW && pcidr_table_lookup(&none, &wide) == PCIDR_NO_ROW);
        WANT(pcidr_table_lookup(&empty, &address) == PCIDR_NO_ROW && pcidr_table_lookup(&empty, &wide) == PCIDR_NO_ROW);
        WANT(pcidr_table_lookup_each(&none, NULL, 0, NULL, 0) == PCIDR_OK);
        WANT(pcidr_table_lookup_each(&none, &address, 1, NULL, 0) == PCIDR_NO_ROOM);
        WANT(pcidr_table_check(&none, NULL, 0) == PCIDR_NO_TABLE && pcidr_table_check(&empty, NULL, 0) == PCIDR_OK);
        drop(&empty);
    }
}

/* Arrays of any numbers, of which none is believed. */
static void any_arrays(uint32_t family) {
    const uint32_t steps = family == 4 ? 3 : 18;
    for (int turn = 0; turn < 600; turn++) {
        pcidr_table table = made(family, (size_t)1 << random_number() % 11, random_number() % 40);
        uint64_t most = turn % 2 ? UINT32_MAX : 50;
        for (size_t i = 0; i < table.first_len; i++)
            table.first[i] = (uint32_t)(random_number() % 3 ? random_number() % most : 1u << 31 | random_number() % 50);
        for (size_t i = 0; i < table.words_len; i++)
            table.words[i] = (uint32_t)(random_number() % 3 ? random_number() % most : 1u << 31 | random_number() % 50);
        table.steps = turn % 3 ? steps + (uint32_t)(random_number() % 3) : (uint32_t)random_number();
        table.rows = (uint32_t)(random_number() % most);
        for (int i = 0; i < 100; i++) {
            pcidr_value address = random_value(family, 1);
            uint32_t row = pcidr_table_lookup(&table, &address);
            WANT(row < table.rows || row == PCIDR_NO_ROW);
        }
        drop(&table);
    }
}

int main(void) {
    worked();
    for (uint32_t family = 4; family <= 6; family += 2) {
        for (size_t most = 0; most <= MOST; most += 50) random_tables(family, most);
        any_arrays(family);
    }
    errors();
    return failures != 0;
}

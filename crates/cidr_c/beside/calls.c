/* calls ROUNDS: times calls of the library. Prints of each a line with tabs between: its name, the nanoseconds that it
 * takes, the least of five turns, and a number that hangs on all results. `calls ROUNDS plain` times in their place plain
 * loops in C that do the same, where there is one. */
#define _POSIX_C_SOURCE 199309L
#include <pcidr.h>
#include <stdio.h>
#include <stdlib.h>
#include <string.h>
#include <time.h>

enum { MANY = 1024, NETWORKS = 100000, ASKED = 1000000, TURNS = 5 };

static const uint8_t ipv4_lengths[32] = {24, 24, 24, 24, 24, 24, 24, 24, 24, 24, 24, 24, 24, 24, 24, 24,
                                         24, 24, 23, 23, 22, 22, 22, 22, 21, 20, 20, 19, 19, 18, 17, 16};
static const uint8_t ipv6_lengths[32] = {48, 48, 48, 48, 48, 48, 48, 48, 48, 48, 48, 48, 48, 48, 48, 32,
                                         32, 32, 32, 44, 44, 44, 40, 40, 40, 36, 36, 46, 47, 29, 42, 64};

static struct {
    char text[PCIDR_TEXT_ROOM];
    size_t len;
} texts[MANY];
static pcidr_value hosts[MANY], networks[MANY], around[MANY];
static pcidr_value many_networks[NETWORKS], asked[ASKED];
static uint8_t held[ASKED];
static size_t matches[ASKED];
/* The many networks, each once, in their order: those of IPv6 are behind those of IPv4. */
static pcidr_value rows[NETWORKS];
static size_t rows_len;
/* The tables of those of IPv4 and of IPv6, in arrays. */
static pcidr_table tables[2];
/* A file of them, with values of up to 7 bytes. */
static uint8_t *file_bytes;
static size_t file_len;
static pcidr_file file;

/* Number `index` of a fixed sequence in which none can be foreseen from those before it (SplitMix64). */
static uint64_t random_at(uint64_t index) {
    uint64_t state = (index + 1) * 0x9e3779b97f4a7c15u;
    state = (state ^ state >> 30) * 0xbf58476d1ce4e5b9u;
    state = (state ^ state >> 27) * 0x94d049bb133111ebu;
    return state ^ state >> 31;
}

/* The random host with this index. */
static pcidr_value host_at(uint64_t index) {
    uint64_t number = random_at(index), low = random_at(index ^ 0x40000000), place = random_at(index ^ 0x20000000) % 32;
    pcidr_value host = {0, number >> 32, ipv4_lengths[place]};
    if (random_at(index ^ 0x10000000) % 2 == 0) return host;
    host.high = number >> 3 | (uint64_t)1 << 61;
    host.tag = 64 + ipv6_lengths[place];
    switch (low % 4) {
    case 0: host.low = low; break;
    case 1: host.low = low >> 52; break;
    case 2: host.high &= UINT64_MAX << 16, host.low = 0; break;
    default: host.high &= UINT64_MAX << 32, host.low = low & 0x00ff000f0fff00ff;
    }
    return host;
}

/* Ends the program where a call returns an error. */
static void want(uint32_t code) {
    if (code == PCIDR_OK) return;
    fprintf(stderr, "calls: error %u\n", (unsigned)code);
    exit(1);
}

static pcidr_value network_at(uint64_t index) {
    pcidr_value host = host_at(index), network;
    want(pcidr_network(&host, &network));
    return network;
}

/* A network that contains the one with this index, or another one. */
static pcidr_value around_at(uint64_t index) {
    uint64_t chosen = random_at(index ^ 0x04000000);
    if (chosen % 2 == 0) return network_at(index ^ 1);
    pcidr_value host = host_at(index), network;
    uint8_t none = host.tag < 64 ? 0 : 64;
    host.tag = none + (uint8_t)((chosen >> 32) % (host.tag - none + 1u));
    want(pcidr_network(&host, &network));
    return network;
}

static void make_values(void) {
    for (size_t i = 0; i < MANY; i++) {
        hosts[i] = host_at(i), networks[i] = network_at(i), around[i] = around_at(i);
        texts[i].len = pcidr_print_network_with_length(&networks[i], texts[i].text, sizeof texts[i].text);
    }
    for (size_t i = 0; i < NETWORKS; i++) many_networks[i] = network_at(i);
    for (size_t i = 0; i < ASKED; i++) {
        uint64_t chosen = random_at(i ^ 0x08000000);
        pcidr_value host = host_at(chosen % 2 == 0 ? (chosen >> 32) % NETWORKS : i ^ 0x01000000);
        want(pcidr_address(&host, &asked[i]));
    }
}

static void make_rows(void) {
    memcpy(rows, many_networks, sizeof rows);
    qsort(rows, NETWORKS, sizeof *rows, pcidr_order);
    for (size_t i = 0; i < NETWORKS; i++)
        if (i == 0 || pcidr_compare(&rows[i], &rows[rows_len - 1]) != 1) rows[rows_len++] = rows[i];
}

/* Memory, which is there. */
static void *room_for(size_t count, size_t size) {
    void *room = calloc(count, size);
    if (!room) exit(1);
    return room;
}

static void make_tables(void) {
    size_t middle = 0;
    pcidr_table_sizes sizes;
    while (middle < rows_len && rows[middle].tag < 64) middle++;
    for (int family = 0; family < 2; family++) {
        pcidr_table *table = &tables[family];
        const pcidr_value *networks = family ? rows + middle : rows;
        size_t count = family ? rows_len - middle : middle;
        table->family = family ? 6 : 4;
        if (pcidr_table_build(table, networks, count, &sizes) != PCIDR_NO_ROOM) exit(1);
        table->first = room_for(sizes.first, sizeof *table->first), table->first_len = sizes.first;
        table->words = room_for(sizes.words, sizeof *table->words), table->words_len = sizes.words;
        want(pcidr_table_build(table, networks, count, &sizes));
    }
}

static void make_file(void) {
    static uint32_t offsets[NETWORKS + 1];
    static uint8_t values[7 * NETWORKS];
    size_t count = rows_len;
    for (size_t i = 0; i < count; i++) offsets[i + 1] = offsets[i] + (uint32_t)(i % 8);
    pcidr_file_write(rows, count, offsets, count + 1, values, offsets[count], NULL, 0, &file_len);
    file_bytes = room_for(file_len, 1);
    want(pcidr_file_write(rows, count, offsets, count + 1, values, offsets[count], file_bytes, file_len, &file_len));
    want(pcidr_file_open(file_bytes, file_len, &file));
    want(pcidr_file_check(file_bytes, file_len));
}

/* ---- one number out of results, which hangs on each bit of them */

static uint32_t mixed(uint32_t sum, uint32_t next) { return sum * 5 ^ next; }

static uint32_t folded(uint64_t half) { return (uint32_t)(half ^ half >> 32); }

static uint32_t address_number(const pcidr_value *value) { return folded(value->high ^ value->low); }

static uint32_t network_number(const pcidr_value *value) {
    uint32_t len = value->tag < 64 ? value->tag : value->tag - 64u;
    return address_number(value) ^ len << 16;
}

static uint64_t rotated(uint64_t number) { return number << 9 | number >> 55; }

/* Eight bytes at a time and then the last eight, and where there are fewer, one by one. */
static uint32_t text_number(const char *text, size_t len) {
    uint64_t sum = len, eight;
    if (len < 8) {
        for (size_t i = 0; i < len; i++) sum = rotated(sum) ^ (uint8_t)text[i];
        return folded(sum);
    }
    for (size_t i = 0; len - i >= 8; i += 8) {
        memcpy(&eight, text + i, 8); /* low byte first, as most processors have it */
        sum = rotated(sum) ^ eight;
    }
    memcpy(&eight, text + len - 8, 8);
    return folded(rotated(sum) ^ eight);
}

/* ---- the calls, each on all values of a round */

static uint32_t read_networks(uint32_t sum) {
    pcidr_value out;
    for (size_t i = 0; i < MANY; i++) {
        uint32_t code = pcidr_read_network(texts[i].text, texts[i].len, &out);
        sum = mixed(sum, code == PCIDR_OK ? network_number(&out) : 1);
    }
    return sum;
}

static uint32_t print_networks(uint32_t sum) {
    char text[PCIDR_TEXT_ROOM];
    for (size_t i = 0; i < MANY; i++) {
        size_t len = pcidr_print_network(&networks[i], text, sizeof text);
        sum = mixed(sum, text_number(text, len));
    }
    return sum;
}

static uint32_t first_addresses(uint32_t sum) {
    pcidr_value out;
    for (size_t i = 0; i < MANY; i++) {
        uint32_t code = pcidr_first(&hosts[i], &out);
        sum = mixed(sum, code == PCIDR_OK ? address_number(&out) : 1);
    }
    return sum;
}

static uint32_t last_addresses(uint32_t sum) {
    pcidr_value out;
    for (size_t i = 0; i < MANY; i++) {
        uint32_t code = pcidr_last(&hosts[i], &out);
        sum = mixed(sum, code == PCIDR_OK ? address_number(&out) : 1);
    }
    return sum;
}

static uint32_t contains(uint32_t sum) {
    for (size_t i = 0; i < MANY; i++) sum = mixed(sum, pcidr_contains(&around[i], &networks[i]));
    return sum;
}

static uint32_t compare(uint32_t sum) {
    for (size_t i = 0; i < MANY; i++) sum = mixed(sum, pcidr_compare(&around[i], &networks[i]));
    return sum;
}

static uint32_t contains_each(uint32_t sum) {
    want(pcidr_contains_each(many_networks, NETWORKS, asked, ASKED, held, ASKED));
    for (size_t i = 0; i < ASKED; i++) sum = mixed(sum, held[i]);
    return sum;
}

static uint32_t longest_match_each(uint32_t sum) {
    want(pcidr_longest_match_each(many_networks, NETWORKS, asked, ASKED, matches, ASKED));
    for (size_t i = 0; i < ASKED; i++) sum = mixed(sum, (uint32_t)matches[i]);
    return sum;
}

static uint32_t look_up_in_arrays(uint32_t sum) {
    for (size_t i = 0; i < ASKED; i++) {
        int is_ipv4 = asked[i].tag == 32; /* told once, as it is in Rattle */
        sum = mixed(sum, is_ipv4 ? pcidr_table_lookup(&tables[0], &asked[i]) : pcidr_table_lookup(&tables[1], &asked[i]));
    }
    return sum;
}

static uint32_t look_up_in_file(uint32_t sum) {
    pcidr_found found;
    for (size_t i = 0; i < ASKED; i++) {
        pcidr_file_lookup(file_bytes, file_len, &file, &asked[i], &found);
        sum = mixed(sum, found.row + found.value_len);
    }
    return sum;
}

static uint32_t has_in_file(uint32_t sum) {
    for (size_t i = 0; i < ASKED; i++) sum = mixed(sum, pcidr_set_has(file_bytes, file_len, &file, &asked[i]));
    return sum;
}

/* ---- plain loops that do the same as some of them, for values that are known to be networks and addresses */

/* Whether a network has another one, by shifts of what differs. */
static int plainly_contains(const pcidr_value *outer, const pcidr_value *inner) {
    unsigned tag = outer->tag;
    if (tag > inner->tag || (tag < 64) != (inner->tag < 64)) return 0;
    if (tag < 64) return tag == 0 || (uint32_t)(outer->low ^ inner->low) >> (32 - tag) == 0;
    if (tag == 64) return 1;
    if (tag <= 128) return (outer->high ^ inner->high) >> (128 - tag) == 0;
    return outer->high == inner->high && (outer->low ^ inner->low) >> (192 - tag) == 0;
}

static uint32_t plain_contains(uint32_t sum) {
    for (size_t i = 0; i < MANY; i++) sum = mixed(sum, (uint32_t)plainly_contains(&around[i], &networks[i]));
    return sum;
}

/* The order of first addresses, those of IPv4 before those of IPv6. */
static int plain_order(const void *one, const void *other) {
    const pcidr_value *a = one, *b = other;
    if ((a->tag < 64) != (b->tag < 64)) return a->tag < 64 ? -1 : 1;
    if (a->high != b->high) return a->high < b->high ? -1 : 1;
    if (a->low != b->low) return a->low < b->low ? -1 : 1;
    return (a->tag > b->tag) - (a->tag < b->tag);
}

/* Sorts the networks, leaves out those that lie in the one before, and searches the last one that begins at most with an
 * address by halving. */
static uint32_t plain_contains_each(uint32_t sum) {
    static pcidr_value outer[NETWORKS];
    size_t count = 0;
    memcpy(outer, many_networks, sizeof outer);
    qsort(outer, NETWORKS, sizeof *outer, plain_order);
    for (size_t i = 0; i < NETWORKS; i++)
        if (count == 0 || !plainly_contains(&outer[count - 1], &outer[i])) outer[count++] = outer[i];
    for (size_t i = 0; i < ASKED; i++) {
        size_t from = 0, to = count;
        while (from < to) {
            size_t middle = from + (to - from) / 2;
            if (plain_order(&outer[middle], &asked[i]) <= 0) from = middle + 1;
            else to = middle;
        }
        held[i] = from > 0 && plainly_contains(&outer[from - 1], &asked[i]);
    }
    for (size_t i = 0; i < ASKED; i++) sum = mixed(sum, held[i]);
    return sum;
}

static double now(void) {
    struct timespec time;
    clock_gettime(CLOCK_MONOTONIC, &time);
    return 1e9 * (double)time.tv_sec + (double)time.tv_nsec;
}

/* Times a call, which a round makes so many times, and prints its line. */
static void row(const char *name, uint32_t (*round)(uint32_t), size_t calls, unsigned long rounds) {
    double least = 1e300;
    uint32_t sum = 0;
    for (int turn = 0; turn < TURNS; turn++) {
        double start = now();
        sum = 0;
        for (unsigned long i = 0; i < rounds; i++) sum = round(sum);
        double taken = (now() - start) / (double)calls / (double)rounds;
        if (taken < least) least = taken;
    }
    printf("%s\t%.3f\t%u\n", name, least, (unsigned)sum);
}

int main(int argc, char **argv) {
    make_values();
    unsigned long rounds = argc > 1 ? strtoul(argv[1], NULL, 10) : 0, fewer = rounds / 1000;
    if (rounds == 0) rounds = 1;
    if (fewer == 0) fewer = 1;
    make_rows();
    make_tables();
    make_file();
    if (argc > 2) {
        row("contains", plain_contains, MANY, rounds);
        row("contains each", plain_contains_each, ASKED, fewer);
        return 0;
    }
    row("read a network", read_networks, MANY, rounds);
    row("print a network", print_networks, MANY, rounds);
    row("first address", first_addresses, MANY, rounds);
    row("last address", last_addresses, MANY, rounds);
    row("contains", contains, MANY, rounds);
    row("compare", compare, MANY, rounds);
    row("contains each", contains_each, ASKED, fewer);
    row("longest match each", longest_match_each, ASKED, fewer);
    row("look up in arrays", look_up_in_arrays, ASKED, fewer);
    row("look up in a file", look_up_in_file, ASKED, fewer);
    row("has in a file", has_in_file, ASKED, fewer);
    return 0;
}

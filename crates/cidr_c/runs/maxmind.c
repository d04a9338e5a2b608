/* MaxMind DB files: a file that is worked by hand, every error, files that are cut at each length and that have each byte changed to each
 * value, and calls with any numbers for the parts of a file, each with nothing behind it. */
#include <pcidr.h>
#include <stdio.h>
#include <stdlib.h>
#include <string.h>

static int failures;

#define WANT(holds)                                             \
    do {                                                        \
        if (!(holds)) {                                         \
            fprintf(stderr, "line %d: %s\n", __LINE__, #holds); \
            failures++;                                         \
        }                                                       \
    } while (0)

/* One node: its left record has the value at place 0, its right record none. Then 16 zeros, the data section, a map of one pair, and
 * behind the marker the metadata, a map of three. */
static const char worked[] =
    "\x00\x00\x11\x00\x00\x01"
    "\0\0\0\0\0\0\0\0\0\0\0\0\0\0\0\0"
    "\xe1\x47" "country" "\x42NL"
    "\xab\xcd\xefMaxMind.com\xe3"
    "\x4a" "node_count" "\xc1\x01"
    "\x4b" "record_size" "\xa1\x18"
    "\x4a" "ip_version" "\xa1\x04";
enum { SIZE = sizeof worked - 1, DATA = 22, MARKER = DATA + 12, NODE_COUNT = MARKER + 15, RECORD_SIZE = NODE_COUNT + 13, IP_VERSION = RECORD_SIZE + 14 };

static uint64_t random_number(void) {
    static uint64_t state = 1;
    state = state * 6364136223846793005u + 1442695040888963407u;
    return state >> 32 ^ state << 32;
}

static pcidr_value value_of(const char *text) {
    pcidr_value value = {0, 0, 0};
    WANT(pcidr_read_network(text, strlen(text), &value) == PCIDR_OK);
    return value;
}

static int is(const pcidr_value *value, const char *text) {
    pcidr_value other = value_of(text);
    return value->high == other.high && value->low == other.low && value->tag == other.tag;
}

/* A copy of bytes with nothing behind it, which the address sanitizer sees. */
static uint8_t *copied(const void *bytes, size_t size) {
    uint8_t *copy = (uint8_t *)malloc(size > 0 ? size : 1);
    if (!copy) exit(2);
    if (size > 0) memcpy(copy, bytes, size);
    return copy;
}

/* All calls, of a file that may be any. */
static void call_all(const uint8_t *bytes, size_t size, const pcidr_mmdb *file) {
    static const char *const asked[] = {"0.0.0.0", "10.1.2.3", "192.0.2.1", "255.255.255.255", "::", "2001:db8::1", "::ffff:10.1.2.3"};
    pcidr_mmdb_row row = {{0, 0, 255}, 0, 0, 0};
    uint8_t out[64];
    size_t count;
    for (size_t i = 0; i < sizeof asked / sizeof *asked; i++) {
        pcidr_value address = value_of(asked[i]);
        WANT(pcidr_mmdb_lookup(bytes, size, file, &address, &row) == PCIDR_OK && row.found <= PCIDR_MMDB_BROKEN);
        WANT(row.found == PCIDR_MMDB_VALUE || row.place == 0);
        pcidr_mmdb_json(bytes, size, file, row.place, sizeof out, out, sizeof out, &count);
    }
    pcidr_mmdb_metadata(bytes, size, file, sizeof out, out, sizeof out, &count);
    row.network = value_of("any");
    for (int i = 0; i < 8 && pcidr_mmdb_next(bytes, size, file, &row) == PCIDR_OK; i++) WANT(row.found <= PCIDR_MMDB_BROKEN);
}

static void worked_by_hand(void) {
    uint8_t *bytes = copied(worked, SIZE), out[64];
    pcidr_mmdb file;
    pcidr_mmdb_row row, old;
    pcidr_value address = value_of("10.1.2.3");
    size_t count = 7;
    WANT(pcidr_mmdb_open(bytes, SIZE, &file) == PCIDR_OK);
    WANT(file.node_count == 1 && file.record_size == 24 && file.width == 32 && file.data_len == 12 && file.ipv4_start == 0);
    WANT(pcidr_mmdb_lookup(bytes, SIZE, &file, &address, &row) == PCIDR_OK);
    WANT(is(&row.network, "0.0.0.0/1") && row.found == PCIDR_MMDB_VALUE && row.place == 0 && row.zero == 0);
    address = value_of("192.0.2.1");
    WANT(pcidr_mmdb_lookup(bytes, SIZE, &file, &address, &row) == PCIDR_OK);
    WANT(is(&row.network, "128.0.0.0/1") && row.found == PCIDR_MMDB_NOTHING);
    address = value_of("2001:db8::1");
    WANT(pcidr_mmdb_lookup(bytes, SIZE, &file, &address, &row) == PCIDR_OK);
    WANT(is(&row.network, "::/0") && row.found == PCIDR_MMDB_NOTHING);
    address = value_of("10.0.0.0/8"), old = row;
    WANT(pcidr_mmdb_lookup(bytes, SIZE, &file, &address, &row) == PCIDR_NO_VALUE && memcmp(&row, &old, sizeof row) == 0);

    row.network = value_of("any");
    WANT(pcidr_mmdb_next(bytes, SIZE, &file, &row) == PCIDR_OK);
    WANT(is(&row.network, "0.0.0.0/1") && row.found == PCIDR_MMDB_VALUE && row.place == 0);
    old = row;
    WANT(pcidr_mmdb_next(bytes, SIZE, &file, &row) == PCIDR_NONE && memcmp(&row, &old, sizeof row) == 0);
    row.network.low = 1;
    WANT(pcidr_mmdb_next(bytes, SIZE, &file, &row) == PCIDR_NO_VALUE && row.network.low == 1);

    memset(out, 'x', sizeof out);
    WANT(pcidr_mmdb_json(bytes, SIZE, &file, 0, 15, out, sizeof out, &count) == PCIDR_LONG_TEXT && count == 7);
    WANT(pcidr_mmdb_json(bytes, SIZE, &file, 12, 16, out, sizeof out, &count) == PCIDR_MALFORMED && count == 7);
    WANT(pcidr_mmdb_json(bytes, SIZE, &file, 0, 16, out, 15, &count) == PCIDR_NO_ROOM && count == 16 && out[0] == 'x');
    WANT(pcidr_mmdb_json(bytes, SIZE, &file, 0, 16, out, 16, &count) == PCIDR_OK && count == 16);
    WANT(memcmp(out, "{\"country\":\"NL\"}x", 17) == 0);
    WANT(pcidr_mmdb_metadata(bytes, SIZE, &file, 48, out, sizeof out, &count) == PCIDR_OK && count == 48);
    WANT(memcmp(out, "{\"node_count\":1,\"record_size\":24,\"ip_version\":4}x", 49) == 0);
    free(bytes);
}

/* The error of the worked file with one byte changed, or cut. */
static uint32_t with(size_t place, uint8_t byte, size_t size) {
    uint8_t *bytes = copied(worked, size);
    pcidr_mmdb file = {1, 2, 3, 4, 5}, old = file;
    if (place < size) bytes[place] = byte;
    uint32_t code = pcidr_mmdb_open(bytes, size, &file);
    WANT(code == PCIDR_OK || memcmp(&file, &old, sizeof file) == 0);
    if (code == PCIDR_OK) call_all(bytes, size, &file);
    free(bytes);
    return code;
}

static void errors(void) {
    WANT(with(MARKER, 0, SIZE) == PCIDR_NO_MARKER && with(0, 0, MARKER + 13) == PCIDR_NO_MARKER);
    WANT(with(NODE_COUNT + 1, 'm', SIZE) == PCIDR_NO_NODE_COUNT);
    WANT(with(RECORD_SIZE + 13, 25, SIZE) == PCIDR_NO_RECORD_SIZE);
    WANT(with(SIZE - 1, 5, SIZE) == PCIDR_NO_IP_VERSION && with(IP_VERSION + 1, 'j', SIZE) == PCIDR_NO_IP_VERSION);
    WANT(with(NODE_COUNT + 12, 4, SIZE) == PCIDR_LONG_TREE && with(NODE_COUNT + 12, 3, SIZE) == PCIDR_OK);
    for (size_t size = 0; size <= SIZE; size++) with(size, 0, size);
    for (size_t place = 0; place < SIZE; place++)
        for (unsigned byte = 0; byte < 256; byte++) with(place, (uint8_t)byte, SIZE);
}

static void any_parts(void) {
    for (int i = 0; i < 20000; i++) {
        uint8_t *bytes = copied(worked, SIZE);
        pcidr_mmdb file = {(size_t)(random_number() >> random_number() % 64), (uint32_t)(random_number() >> random_number() % 64),
                           8 + 4 * (uint32_t)(random_number() % 8), 32 << random_number() % 3, (uint32_t)(random_number() >> random_number() % 64)};
        call_all(bytes, SIZE, &file);
        free(bytes);
    }
}

int main(void) {
    worked_by_hand();
    errors();
    any_parts();
    return failures > 0;
}

/* Calls around networks, of names, faults, loose addresses, lists, masks, IPv4 inside IPv6, special purposes, ranges, sets,
 * pools and access lists, on values whose answers stand in RFCs or are counted by hand, and with arguments that are none. */
#include <pcidr.h>
#include <stddef.h>
#include <stdio.h>
#include <string.h>

static int failures;

#define WANT(holds)                                             \
    do {                                                        \
        if (!(holds)) {                                         \
            fprintf(stderr, "line %d: %s\n", __LINE__, #holds); \
            failures++;                                         \
        }                                                       \
    } while (0)

/* A mark in what is written, to see that an error leaves it. */
static const pcidr_value mark = {7, 8, 9};
/* What no call takes. */
static const pcidr_value none = {0, 0, 33};
static pcidr_value out;

/* The host that a string is; of `any` the network. */
static pcidr_value value(const char *text) {
    pcidr_value made = none;
    if (pcidr_read_host(text, strlen(text), &made) != PCIDR_OK) WANT(pcidr_read_network(text, strlen(text), &made) == PCIDR_OK);
    return made;
}

static int is_same(pcidr_value a, pcidr_value b) { return a.high == b.high && a.low == b.low && a.tag == b.tag; }

/* Whether the bytes behind the tag of a value are zeros. */
static int is_word(const pcidr_value *written) {
    static const uint8_t zeros[sizeof *written - offsetof(pcidr_value, tag) - 1];
    return memcmp(&written->tag + 1, zeros, sizeof zeros) == 0;
}

/* Sets the mark, with other bytes behind its tag. */
static void set_mark(void) {
    memset(&out, 0xaa, sizeof out);
    out.high = mark.high, out.low = mark.low, out.tag = mark.tag;
}

/* Whether `out` is the host or the network of a string, with zeros behind its tag; sets the mark again. */
static int is(const char *text) {
    int same = is_same(out, value(text)) && is_word(&out);
    set_mark();
    return same;
}

static int is_left(void) { return is_same(out, mark); }

static void around(void) {
    pcidr_value host = value("10.128.0.5/9"), all = value("::/0"), any = value("any"), four = value("192.0.2.48/28");
    pcidr_halves number = {1, 2};
    size_t count = 77;
    WANT(pcidr_supernet(&host, 6, &out) == PCIDR_OK && is("8.0.0.0/6"));
    WANT(pcidr_supernet(&host, 9, &out) == PCIDR_OK && is("10.128.0.0/9"));
    WANT(pcidr_supernet(&host, 10, &out) == PCIDR_NONE && is_left());
    WANT(pcidr_supernet(&host, 255, &out) == PCIDR_NONE && is_left());
    WANT(pcidr_supernet(&any, 0, &out) == PCIDR_NO_VALUE && is_left());
    WANT(pcidr_subnet(&four, 30, 0, 3, &out) == PCIDR_OK && is("192.0.2.60/30"));
    WANT(pcidr_subnet(&four, 30, 0, 4, &out) == PCIDR_NONE && is_left());
    WANT(pcidr_subnet(&four, 30, 1, 0, &out) == PCIDR_NONE && is_left());
    WANT(pcidr_subnet(&four, 27, 0, 0, &out) == PCIDR_NONE && is_left());
    WANT(pcidr_subnet(&four, 33, 0, 0, &out) == PCIDR_NONE && is_left());
    WANT(pcidr_subnet(&all, 128, UINT64_MAX, UINT64_MAX, &out) == PCIDR_OK &&
         is("ffff:ffff:ffff:ffff:ffff:ffff:ffff:ffff"));
    WANT(pcidr_parent(&host, &out) == PCIDR_OK && is("10.0.0.0/8"));
    WANT(pcidr_parent(&all, &out) == PCIDR_NONE && is_left());
    WANT(pcidr_parent(&any, &out) == PCIDR_NO_VALUE && is_left());
    WANT(pcidr_sibling(&host, &out) == PCIDR_OK && is("10.0.0.0/9"));
    WANT(pcidr_sibling(&all, &out) == PCIDR_NONE && is_left());
    WANT(pcidr_next_network(&four, &out) == PCIDR_OK && is("192.0.2.64/28"));
    WANT(pcidr_previous_network(&four, &out) == PCIDR_OK && is("192.0.2.32/28"));
    WANT(pcidr_next_network(&all, &out) == PCIDR_NONE && is_left());
    WANT(pcidr_previous_network(&all, &out) == PCIDR_NONE && is_left());
    WANT(pcidr_host_mask(&four, &out) == PCIDR_OK && is("0.0.0.15"));
    WANT(pcidr_host_mask(&any, &out) == PCIDR_NO_VALUE && is_left());
    WANT(pcidr_nth(&four, 0, 15, &out) == PCIDR_OK && is("192.0.2.63"));
    WANT(pcidr_nth(&four, 0, 16, &out) == PCIDR_NONE && is_left());
    WANT(pcidr_nth(&none, 0, 0, &out) == PCIDR_NO_VALUE && is_left());
    pcidr_value lower = mark, upper = mark, full = value("192.0.2.48/32");
    WANT(pcidr_network_halves(&full, &lower, &upper) == PCIDR_NONE && is_same(lower, mark) && is_same(upper, mark));
    WANT(pcidr_network_halves(&any, &lower, &upper) == PCIDR_NO_VALUE && is_same(lower, mark) && is_same(upper, mark));
    WANT(pcidr_network_halves(&four, &lower, &upper) == PCIDR_OK && is_same(lower, value("192.0.2.48/29")));
    WANT(is_same(upper, value("192.0.2.56/29")));
    WANT(pcidr_network_halves(&all, &lower, &upper) == PCIDR_OK && is_same(lower, value("::/1")) && is_same(upper, value("8000::/1")));
    WANT(pcidr_is_sibling_of(&lower, &upper) == 1 && pcidr_is_sibling_of(&upper, &lower) == 1);
    WANT(pcidr_is_sibling_of(&lower, &lower) == 0 && pcidr_is_sibling_of(&lower, &all) == 0);
    WANT(pcidr_is_sibling_of(&any, &lower) == 0 && pcidr_is_sibling_of(&lower, &any) == 0);
    pcidr_value zero = value("0.0.0.0/0"), next = value("10.0.0.3/9"), apart = value("11.0.0.0/9");
    WANT(pcidr_is_sibling_of(&zero, &all) == 0 && pcidr_is_sibling_of(&zero, &zero) == 0);
    WANT(pcidr_is_sibling_of(&host, &next) == 1 && pcidr_is_sibling_of(&host, &apart) == 0);
    pcidr_value inside = value("192.0.2.63"), outside = value("192.0.2.64");
    WANT(pcidr_position(&four, &outside, &number) == PCIDR_NONE && number.high == 1 && number.low == 2);
    WANT(pcidr_position(&four, &four, &number) == PCIDR_NO_VALUE && number.high == 1 && number.low == 2);
    WANT(pcidr_position(&four, &inside, &number) == PCIDR_OK && number.high == 0 && number.low == 15);
    pcidr_value half = value("2001:db8::/63");
    WANT(pcidr_address_count(&half, &number) == PCIDR_OK && number.high == 2 && number.low == 0);
    WANT(pcidr_address_count(&all, &number) == PCIDR_NONE && number.high == 2);
    WANT(pcidr_first_usable(&four, &out) == PCIDR_OK && is("192.0.2.49"));
    WANT(pcidr_last_usable(&four, &out) == PCIDR_OK && is("192.0.2.62"));
    pcidr_value pair = value("192.0.2.48/31"), lone = value("192.0.2.48"), link = value("2001:db8::/64");
    WANT(pcidr_first_usable(&pair, &out) == PCIDR_OK && is("192.0.2.48"));
    WANT(pcidr_last_usable(&pair, &out) == PCIDR_OK && is("192.0.2.49"));
    WANT(pcidr_last_usable(&lone, &out) == PCIDR_OK && is("192.0.2.48"));
    WANT(pcidr_first_usable(&link, &out) == PCIDR_OK && is("2001:db8::"));
    WANT(pcidr_last_usable(&any, &out) == PCIDR_NO_VALUE && is_left());
    WANT(pcidr_usable_count(&link, &count) == PCIDR_NONE && count == 77);
    WANT(pcidr_usable_count(&four, &count) == PCIDR_OK && count == 14);
    WANT(pcidr_usable_count(&pair, &count) == PCIDR_OK && count == 2);
    /* the result may take the place of the host */
    WANT(pcidr_supernet(&host, 8, &host) == PCIDR_OK && is_same(host, value("10.0.0.0/8")));
    WANT(pcidr_network_halves(&host, &host, &upper) == PCIDR_OK && is_same(host, value("10.0.0.0/9")));
    WANT(is_same(upper, value("10.128.0.0/9")) && pcidr_parent(&upper, &upper) == PCIDR_OK);
    WANT(is_same(upper, value("10.0.0.0/8")));
}

static void subnets(void) {
    pcidr_value four = value("192.0.2.48/28"), room[6];
    size_t count = 77;
    for (size_t i = 0; i < 6; i++) room[i] = mark;
    WANT(pcidr_subnets(&four, 27, 0, 0, room, 6, &count) == PCIDR_NONE && count == 77 && is_same(room[0], mark));
    WANT(pcidr_subnets(&none, 30, 0, 0, room, 6, &count) == PCIDR_NO_VALUE && count == 77 && is_same(room[0], mark));
    WANT(pcidr_subnets(&four, 30, 0, 1, room, 6, &count) == PCIDR_OK && count == 3);
    WANT(is_same(room[0], value("192.0.2.52/30")) && is_same(room[2], value("192.0.2.60/30")) && is_same(room[3], mark));
    WANT(pcidr_subnets(&four, 32, 0, 0, room, 2, &count) == PCIDR_OK && count == 2 && is_same(room[1], value("192.0.2.49")));
    WANT(pcidr_subnets(&four, 30, UINT64_MAX, UINT64_MAX, room, 6, &count) == PCIDR_OK && count == 0);
    WANT(pcidr_subnets(&four, 30, 0, 0, NULL, 0, &count) == PCIDR_OK && count == 0);
}

static void beside(void) {
    pcidr_value wide = value("192.0.0.0/16"), inner = value("192.0.2.0/24"), other = value("192.0.3.0/25");
    pcidr_value six = value("2001:db8::/32"), host = value("192.0.2.1/24");
    WANT(pcidr_overlaps(&wide, &inner) == 1 && pcidr_overlaps(&inner, &wide) == 1 && pcidr_overlaps(&inner, &other) == 0);
    WANT(pcidr_overlaps(&wide, &six) == 0 && pcidr_overlaps(&wide, &host) == 0 && pcidr_overlaps(&none, &none) == 0);
    WANT(pcidr_spanning(&inner, &other, &out) == PCIDR_OK && is("192.0.2.0/23"));
    WANT(pcidr_spanning(&inner, &six, &out) == PCIDR_OK && is("any"));
    WANT(pcidr_spanning(&inner, &host, &out) == PCIDR_NO_VALUE && is_left());
}

static uint32_t masked(const char *text) { return pcidr_read_masked_network(text, strlen(text), &out); }
static uint32_t named(const char *text) { return pcidr_read_reverse_name(text, strlen(text), &out); }

static void masks_and_names(void) {
    char text[PCIDR_MASK_ROOM];
    uint8_t len = 99;
    pcidr_value four = value("192.0.2.1/24"), six = value("2001:db8::/32"), any = value("any"), odd = value("192.0.2.0/25");
    WANT(pcidr_print_with_mask(&four, text, sizeof text) == 23 && strcmp(text, "192.0.2.0/255.255.255.0") == 0);
    WANT(pcidr_print_with_host_mask(&four, text, sizeof text) == 19 && strcmp(text, "192.0.2.0/0.0.0.255") == 0);
    WANT(pcidr_print_with_mask(&six, text, sizeof text) == 22 && strcmp(text, "2001:db8::/ffff:ffff::") == 0);
    WANT(pcidr_print_with_mask(&any, text, sizeof text) == 0 && pcidr_print_with_mask(&four, NULL, 0) == 23);
    pcidr_value six_host = value("2001:db8::5/48"), mapped = value("::ffff:192.0.2.1"), lone = value("::1");
    WANT(pcidr_print_host_with_mask(&four, text, sizeof text) == 23 && strcmp(text, "192.0.2.1/255.255.255.0") == 0);
    WANT(pcidr_print_host_with_host_mask(&four, text, sizeof text) == 19 && strcmp(text, "192.0.2.1/0.0.0.255") == 0);
    WANT(pcidr_print_host_with_mask(&six_host, text, sizeof text) == 28 && strcmp(text, "2001:db8::5/ffff:ffff:ffff::") == 0);
    WANT(pcidr_print_host_with_mask(&any, text, sizeof text) == 0 && pcidr_print_host_with_host_mask(&any, text, sizeof text) == 0);
    WANT(pcidr_print_host_with_mask(&four, NULL, 0) == 23 && pcidr_print_host_with_host_mask(&four, text, 19) == 19);
    /* as Python 3.11 writes `exploded` */
    WANT(pcidr_print_exploded_host(&four, text, sizeof text) == 12 && strcmp(text, "192.0.2.1/24") == 0);
    WANT(pcidr_print_exploded_host(&six_host, text, sizeof text) == 42 &&
         strcmp(text, "2001:0db8:0000:0000:0000:0000:0000:0005/48") == 0);
    WANT(pcidr_print_exploded_host(&lone, text, sizeof text) == 43 &&
         strcmp(text, "0000:0000:0000:0000:0000:0000:0000:0001/128") == 0);
    WANT(pcidr_print_exploded_address(&mapped, text, sizeof text) == 39 &&
         strcmp(text, "0000:0000:0000:0000:0000:ffff:c000:0201") == 0);
    WANT(pcidr_print_exploded_address(&six_host, text, sizeof text) == 0 && pcidr_print_exploded_host(&any, text, 1) == 0);
    WANT(pcidr_print_exploded_address(&lone, NULL, 0) == 39 && pcidr_print_exploded_host(&lone, text, 43) == 43);
    WANT(masked("192.0.2.0/255.255.255.0") == PCIDR_OK && is("192.0.2.0/24"));
    WANT(masked("192.0.2.0/0.0.0.255") == PCIDR_OK && is("192.0.2.0/24"));
    WANT(masked("0.0.0.0/0.0.0.0") == PCIDR_OK && is("0.0.0.0/0"));
    WANT(masked("192.0.2.0") == PCIDR_NO_SLASH && is_left());
    WANT(masked("192.0.2/255.255.255.0") == PCIDR_ADDRESS && is_left());
    WANT(masked("192.0.2.0/24") == PCIDR_MASK && is_left());
    WANT(masked("192.0.2.0/255.0.255.0") == PCIDR_SCATTERED && is_left());
    WANT(masked("192.0.2.1/255.255.255.0") == PCIDR_HOST_PART && is_left());
    WANT(masked("\xff/") == PCIDR_NOT_UTF8 && is_left());
    pcidr_value mask = value("255.255.255.240"), inverse = value("0.0.0.15"), other = value("255.0.255.0");
    WANT(pcidr_mask_length(&mask, &len) == PCIDR_OK && len == 28);
    WANT(pcidr_host_mask_length(&inverse, &len) == PCIDR_OK && len == 28);
    WANT(pcidr_mask_length(&other, &len) == PCIDR_NONE && pcidr_host_mask_length(&mask, &len) == PCIDR_NONE && len == 28);
    WANT(pcidr_mask_length(&four, &len) == PCIDR_NO_VALUE && len == 28);
    WANT(pcidr_print_reverse_name(&four, text, sizeof text) == 20 && strcmp(text, "2.0.192.in-addr.arpa") == 0);
    WANT(pcidr_print_reverse_name(&six, text, sizeof text) == 24 && strcmp(text, "8.b.d.0.1.0.0.2.ip6.arpa") == 0);
    WANT(pcidr_print_reverse_name(&odd, text, sizeof text) == 0 && pcidr_print_reverse_name(&any, text, sizeof text) == 0);
    WANT(named("2.0.192.in-addr.arpa") == PCIDR_OK && is("192.0.2.0/24"));
    WANT(named("8.B.D.0.1.0.0.2.IP6.ARPA.") == PCIDR_OK && is("2001:db8::/32"));
    WANT(named("1.2.0.192.in-addr.arpa") == PCIDR_OK && is("192.0.2.1"));
    WANT(named("02.0.192.in-addr.arpa") == PCIDR_NONE && is_left());
    WANT(named("") == PCIDR_NONE && named("\xff") == PCIDR_NOT_UTF8 && is_left());
}

/* The names of RFC 1035, 3.5, and RFC 3596, 2.5. */
static void zones(void) {
    char name[PCIDR_NAME_ROOM];
    pcidr_value pair = value("192.0.2.0/23"), six = value("2001:db8::/30"), whole = value("10.0.0.0/8"), any = value("any");
    WANT(pcidr_print_reverse_zone(&pair, 0, name, sizeof name) == 20 && strcmp(name, "2.0.192.in-addr.arpa") == 0);
    WANT(pcidr_print_reverse_zone(&pair, 1, name, sizeof name) == 20 && strcmp(name, "3.0.192.in-addr.arpa") == 0);
    WANT(pcidr_print_reverse_zone(&pair, 2, name, sizeof name) == 0 && strcmp(name, "3.0.192.in-addr.arpa") == 0);
    WANT(pcidr_print_reverse_zone(&pair, SIZE_MAX, name, sizeof name) == 0 && pcidr_print_reverse_zone(&any, 0, name, sizeof name) == 0);
    WANT(pcidr_print_reverse_zone(&six, 3, name, sizeof name) == 24 && strcmp(name, "b.b.d.0.1.0.0.2.ip6.arpa") == 0);
    WANT(pcidr_print_reverse_zone(&six, 4, name, sizeof name) == 0 && pcidr_print_reverse_zone(&pair, 0, NULL, 0) == 20);
    WANT(pcidr_print_reverse_zone(&whole, 0, name, sizeof name) == 15 && strcmp(name, "10.in-addr.arpa") == 0);
    WANT(pcidr_print_reverse_zone(&whole, 1, name, sizeof name) == 0);
    pcidr_value wide = value("0.0.0.0/1");
    WANT(pcidr_print_reverse_zone(&wide, 127, name, sizeof name) == 16 && strcmp(name, "127.in-addr.arpa") == 0);
    WANT(pcidr_print_reverse_zone(&wide, 128, name, sizeof name) == 0);
}

/* Whether this is what is wrong with a string. */
static int is_fault(const char *text, const char *wanted) {
    char fault[PCIDR_FAULT_ROOM] = "as it was";
    size_t len = pcidr_text_fault(text, strlen(text), fault, sizeof fault);
    return len == strlen(wanted) && strcmp(fault, len ? wanted : "as it was") == 0;
}

static void faults(void) {
    WANT(is_fault("192.0.02.1", "a leading zero in an octet") && is_fault("192.0.2.256", "a number above 255"));
    WANT(is_fault("10/8", "not four octets") && is_fault("2001:db8::12345", "a group of more than four digits"));
    WANT(is_fault("192.0.2.0/255.255.255.0", "a mask in place of a length"));
    WANT(is_fault("192.0.2.7/24", "host bits set; the network is 192.0.2.0/24"));
    WANT(is_fault("192.0.2.0/24", "") && is_fault("192.0.2.x", "") && is_fault("", "") && is_fault("\xff", ""));
    WANT(is_fault("1234:5678:9abc:def0:1234:5678:9abc:def1/127",
                  "host bits set; the network is 1234:5678:9abc:def0:1234:5678:9abc:def0/127"));
    WANT(pcidr_text_fault("10/8", 4, NULL, 0) == 15);
}

/* What a list says, or which line is in error and why. */
static pcidr_value said[80];
static size_t networks;
static uint64_t line;
static char told[PCIDR_LINE_ROOM];

static uint32_t read_list(const char *text, uint32_t host_bits, size_t room) {
    for (size_t i = 0; i < 80; i++) said[i] = mark;
    networks = 77, line = 66, strcpy(told, "as it was");
    return pcidr_read_list(text, strlen(text), host_bits, said, room, &networks, &line, told, sizeof told);
}

/* Whether it says these networks, up to a null pointer, and all else is as it was. */
static int says(const char *text, uint32_t host_bits, const char *const *wanted) {
    size_t count = 0;
    int same = read_list(text, host_bits, 80) == PCIDR_OK && line == 66 && strcmp(told, "as it was") == 0;
    for (; wanted[count]; count++) same = same && is_same(said[count], value(wanted[count]));
    for (size_t i = count; i < 80; i++) same = same && is_same(said[i], mark);
    return same && networks == count;
}

/* Whether this line is in error, with this message, and all else is as it was. */
static int is_bad(const char *text, uint32_t code, uint64_t number, const char *message) {
    int same = read_list(text, PCIDR_HOST_BITS_REFUSED, 80) == code && line == number && strcmp(told, message) == 0;
    for (size_t i = 0; i < 80; i++) same = same && is_same(said[i], mark);
    return same && networks == 77;
}

static void loose(void) {
    static const char *const taken[] = {"127.1", "0x7f000001", "0177.1", "+127.1", "127.+1"};
    for (size_t i = 0; i < sizeof taken / sizeof *taken; i++)
        WANT(pcidr_read_loose_address(taken[i], strlen(taken[i]), &out) == PCIDR_OK && is("127.0.0.1"));
    WANT(pcidr_read_loose_address("010.1", 5, &out) == PCIDR_OK && is("8.0.0.1"));
    WANT(pcidr_read_loose_address("+010.1", 6, &out) == PCIDR_OK && is("10.0.0.1"));
    static const char *const refused[] = {"127.1 ", "-1", "0x+1", "+0x1", "++1"};
    for (size_t i = 0; i < sizeof refused / sizeof *refused; i++)
        WANT(pcidr_read_loose_address(refused[i], strlen(refused[i]), &out) == PCIDR_NOT_ADDRESS && is_left());
}

/* The rows of a plan, and its lines in error. */
static void plans(void) {
    static const char text[] = "10.0.0.0/8 core  # all\r\n\n\t10.1.0.6 - 10.1.0.9, b c\nx y\n::1\n10.0.0.0 255.0.0.0 m\n10.0.0.1/8";
    static const struct { const char *network, *name; uint64_t line; } wanted[] = {
        {"10.0.0.0/8", "core", 1}, {"10.1.0.6/31", "b c", 3}, {"10.1.0.8/31", "b c", 3}, {"::1", "", 5}};
    static const struct { const char *text, *message; uint64_t line; uint32_t code; } bad[] = {
        {"x y", "x: couldn't parse address in network: invalid IP address syntax", 4, PCIDR_ADDRESS},
        {"10.0.0.0 255.0.0.0 m", "10.0.0.0: the first address of a range, whose last one is the next field", 6, PCIDR_NOT_ADDRESS},
        {"10.0.0.1/8", "10.0.0.1/8: host bits set; the network is 10.0.0.0/8", 7, PCIDR_HOST_PART}};
    pcidr_plan_row rows[5];
    pcidr_plan_fault faults[4];
    size_t count = 77, wrong = 77;
    char message[PCIDR_LINE_ROOM] = "as it was";
    memset(rows, 9, sizeof rows), memset(faults, 9, sizeof faults);
    WANT(pcidr_read_plan(text, strlen(text), 0, rows, 5, &count, faults, 4, &wrong) == PCIDR_OK && count == 4 && wrong == 3);
    for (size_t i = 0; i < 4; i++) {
        size_t size = strlen(wanted[i].name);
        WANT(is_same(rows[i].network, value(wanted[i].network)) && rows[i].line == wanted[i].line);
        WANT(rows[i].name_len == size && strncmp(text + rows[i].name, wanted[i].name, size) == 0);
    }
    for (size_t i = 0; i < 3; i++) {
        WANT(faults[i].line == bad[i].line && faults[i].code == bad[i].code && faults[i].text_len == strlen(bad[i].text));
        WANT(strncmp(text + faults[i].text, bad[i].text, faults[i].text_len) == 0);
        WANT(pcidr_plan_message(text + faults[i].text, faults[i].text_len, 0, message, sizeof message) == bad[i].code);
        WANT(strcmp(message, bad[i].message) == 0);
    }
    WANT(rows[4].line == 0x0909090909090909 && faults[3].line == 0x0909090909090909);
    strcpy(message, "as it was");
    WANT(pcidr_plan_message("::1 x", 5, 0, message, sizeof message) == PCIDR_OK && strcmp(message, "as it was") == 0);
    memset(rows, 9, sizeof rows), memset(faults, 9, sizeof faults);
    WANT(pcidr_read_plan(text, strlen(text), 0, rows, 2, &count, faults, 4, &wrong) == PCIDR_NO_ROOM && count == 4 && wrong == 3);
    WANT(rows[1].line == 3 && rows[2].line == 0x0909090909090909 && faults[2].line == 7);
    WANT(pcidr_read_plan(text, strlen(text), 0, rows, 4, &count, NULL, 0, &wrong) == PCIDR_NO_ROOM && count == 4 && wrong == 3);
    WANT(pcidr_read_plan("10.0.0.1/8 x", 12, PCIDR_HOST_BITS_CLEARED, rows, 1, &count, NULL, 0, &wrong) == PCIDR_OK && count == 1);
    WANT(pcidr_read_plan("10.0.0.0/255.0.0.0 x", 20, PCIDR_HOST_BITS_REFUSED_WITH_MASKS, rows, 1, &count, NULL, 0, &wrong) == PCIDR_OK);
    WANT(pcidr_read_plan(NULL, 0, 0, NULL, 0, &count, NULL, 0, &wrong) == PCIDR_OK && count == 0 && wrong == 0);
}

static void lists(void) {
    const char *const nothing[] = {NULL};
    const char *const mixed[] = {"10.0.0.0/8", "192.0.2.1", "2001:db8::/32", "::1", NULL};
    const char *const range[] = {"10.0.0.1", "10.0.0.2/31", "10.0.0.4/31", "10.0.0.6", "10.0.0.0/24", NULL};
    const char *const network[] = {"192.0.2.0/24", NULL};
    WANT(says("", 0, nothing) && says("\n", 0, nothing) && says(" \t\r\n# all\n;\n", 0, nothing));
    WANT(says("2001:db8::/32\r\n10.0.0.0/8 # ours\r\n\r\n  ::1;theirs\n192.0.2.1", 0, mixed));
    WANT(says("10.0.0.1-10.0.0.6\n10.0.0.0/24", 0, range) && says("192.0.2.0-192.0.2.255", 0, network));
    WANT(says("192.0.2.7/24#192.0.3.7/24", PCIDR_HOST_BITS_CLEARED, network));
    const char *const wrong = "192.0.2.7/24: host bits set; the network is 192.0.2.0/24";
    WANT(is_bad("10.0.0.0/8\n# two\n192.0.2.7/24\nx", PCIDR_HOST_PART, 3, wrong));
    WANT(read_list("192.0.2.7/24", 4, 80) == PCIDR_HOST_PART && read_list("192.0.2.7/24", UINT32_MAX, 80) == PCIDR_HOST_PART);
    WANT(says("192.0.2.0/255.255.255.0 # all", PCIDR_HOST_BITS_REFUSED_WITH_MASKS, network));
    WANT(says("192.0.2.0\t 0.0.0.255", PCIDR_HOST_BITS_REFUSED_WITH_MASKS, network));
    WANT(says("192.0.2.0/24", PCIDR_HOST_BITS_REFUSED_WITH_MASKS, network));
    WANT(says("192.0.2.7/255.255.255.0", PCIDR_HOST_BITS_CLEARED_WITH_MASKS, network));
    WANT(says("192.0.2.7 0.0.0.255", PCIDR_HOST_BITS_CLEARED_WITH_MASKS, network));
    WANT(says("192.0.2.7/24", PCIDR_HOST_BITS_CLEARED_WITH_MASKS, network));
    WANT(read_list("192.0.2.7/24", PCIDR_HOST_BITS_REFUSED_WITH_MASKS, 80) == PCIDR_HOST_PART && line == 1);
    WANT(read_list("192.0.2.7/255.255.255.0", PCIDR_HOST_BITS_REFUSED_WITH_MASKS, 80) == PCIDR_LENGTH && line == 1);
    WANT(strcmp(told, "192.0.2.7/255.255.255.0: host bits set; the network is 192.0.2.0/24") == 0);
    WANT(read_list("192.0.2.0 255.255.0.255", PCIDR_HOST_BITS_CLEARED_WITH_MASKS, 80) == PCIDR_ADDRESS && line == 1);
    WANT(read_list("192.0.2.0/255.255.255.0", PCIDR_HOST_BITS_CLEARED, 80) == PCIDR_LENGTH && line == 1);
    WANT(is_bad("10.0.0.0/8\r\n10.0.0.0/33", PCIDR_LENGTH_TOO_LONG, 2, "10.0.0.0/33: invalid length for network: Network length 33 is too long for Ipv4 (maximum: 32)"));
    WANT(is_bad("::1\n10.0.0.0/x", PCIDR_LENGTH, 2, "10.0.0.0/x: couldn't parse length in network: invalid length text"));
    WANT(is_bad("any", PCIDR_ADDRESS, 1, "any: couldn't parse address in network: invalid IP address syntax"));
    WANT(is_bad("\xff # not told", PCIDR_NOT_UTF8, 1, "\\xff: not UTF-8"));
    WANT(is_bad("10.0.0.1-x", PCIDR_NOT_ADDRESS, 1, "x: invalid IP address syntax"));
    WANT(says("10.0.0.1 - 10.0.0.6\n10.0.0.0/24", 0, range) && says("192.0.2.0\t-  192.0.2.255", 0, network));
    WANT(is_bad("10.0.0.1 - 10.0.0.x", PCIDR_NOT_ADDRESS, 1, "10.0.0.x: invalid IP address syntax"));
    WANT(is_bad("10.0.0.1-::1", PCIDR_TWO_FAMILIES, 1, "10.0.0.1-::1: the ends of the range are of two families"));
    WANT(is_bad("\n10.0.0.2-10.0.0.1", PCIDR_REVERSED, 2,
                "10.0.0.2-10.0.0.1: the first address of the range is above the last one"));
    static char longer[(1 << 20) + 4];
    memset(longer, ' ', sizeof longer - 1);
    longer[1] = '\n';
    WANT(is_bad(longer, PCIDR_LINE_TOO_LONG, 2, "longer than 1 MiB"));
    longer[2] = '\n';
    WANT(says(longer, 0, nothing));
    WANT(read_list("10.0.0.0/8\n::/0\n", 0, 1) == PCIDR_NO_ROOM && networks == 2 && is_same(said[0], mark) && line == 66);
    WANT(read_list("10.0.0.0/8\n::/0\nx", 0, 1) == PCIDR_ADDRESS && networks == 77 && line == 3);
    WANT(read_list("10.0.0.0/8\n::/0\n", 0, 2) == PCIDR_OK && networks == 2 && is_same(said[2], mark));
    char small[5] = "abcd";
    WANT(pcidr_read_list("x", 1, 0, NULL, 0, &networks, &line, small, 5) == PCIDR_ADDRESS && line == 1 && strcmp(small, "abcd") == 0);
}

/* The addresses of RFC 4291, 2.5.5.2, RFC 3056, 2, and RFC 6052, 2.4. */
static void inside_ipv6(void) {
    pcidr_value four = value("192.0.2.1"), net = value("192.0.2.0/24"), host = value("192.0.2.1/24"), any = value("any");
    pcidr_value mapped = value("::ffff:192.0.2.1"), wide = value("::ffff:0:0/95"), block = value("::ffff:0:0/96");
    pcidr_value site = value("2002:c000:201::1"), translated = value("64:ff9b::192.0.2.33"), other = value("::192.0.2.1");
    set_mark();
    WANT(pcidr_ipv6_mapped(&four, &out) == PCIDR_OK && is("::ffff:192.0.2.1"));
    WANT(pcidr_ipv6_mapped(&net, &out) == PCIDR_OK && is("::ffff:192.0.2.0/120"));
    WANT(pcidr_ipv6_mapped(&host, &out) == PCIDR_OK && is("::ffff:192.0.2.0/120"));
    WANT(pcidr_ipv6_mapped(&mapped, &out) == PCIDR_NONE && pcidr_ipv6_mapped(&any, &out) == PCIDR_NO_VALUE && is_left());
    WANT(pcidr_ipv4_mapped(&mapped, &out) == PCIDR_OK && is("192.0.2.1"));
    WANT(pcidr_ipv4_mapped(&block, &out) == PCIDR_OK && is("0.0.0.0/0"));
    WANT(pcidr_ipv4_mapped(&wide, &out) == PCIDR_NONE && pcidr_ipv4_mapped(&other, &out) == PCIDR_NONE && is_left());
    WANT(pcidr_ipv4_mapped(&four, &out) == PCIDR_NONE && pcidr_ipv4_mapped(&none, &out) == PCIDR_NO_VALUE && is_left());
    WANT(pcidr_ipv4_6to4(&site, &out) == PCIDR_OK && is("192.0.2.1"));
    WANT(pcidr_ipv4_6to4(&mapped, &out) == PCIDR_NONE && pcidr_ipv4_6to4(&four, &out) == PCIDR_NONE && is_left());
    WANT(pcidr_ipv4_6to4(&block, &out) == PCIDR_NO_VALUE && is_left());
    WANT(pcidr_ipv4_nat64(&translated, &out) == PCIDR_OK && is("192.0.2.33"));
    WANT(pcidr_ipv4_nat64(&site, &out) == PCIDR_NONE && pcidr_ipv4_nat64(&net, &out) == PCIDR_NO_VALUE && is_left());
    /* the result may take the place of the address */
    WANT(pcidr_ipv4_mapped(&mapped, &mapped) == PCIDR_OK && is_same(mapped, four));
}

static void purposes(void) {
    pcidr_special entry;
    pcidr_value anycast = value("192.0.0.9"), free_one = value("8.8.8.8"), local = value("fe80::1"), shared = value("100.64.0.1");
    pcidr_value unique = value("fd00::1"), loop = value("127.1.2.3"), network = value("10.0.0.0/8"), many = value("ff02::1");
    pcidr_value zero = value("::"), book = value("3fff::1");
    memset(&entry, 9, sizeof entry);
    WANT(pcidr_special_entry(&free_one, &entry) == PCIDR_NONE && entry.len == 9);
    WANT(pcidr_special_entry(&network, &entry) == PCIDR_NO_VALUE && entry.len == 9);
    WANT(pcidr_special_entry(&anycast, &entry) == PCIDR_OK && entry.purpose == PCIDR_PURPOSE_PORT_CONTROL_ANYCAST);
    WANT(entry.rfc == 7723 && entry.len == 32 && entry.high == 0 && entry.low == anycast.low && entry.globally_reachable == 1);
    WANT(pcidr_special_entry(&local, &entry) == PCIDR_OK && entry.purpose == PCIDR_PURPOSE_LINK_LOCAL && entry.len == 10);
    WANT(entry.high == (uint64_t)0xfe80 << 48 && entry.low == 0 && entry.forwardable == 0 && entry.reserved_by_protocol == 1);
    WANT(pcidr_is_global(&free_one) == 1 && pcidr_is_global(&shared) == 0 && pcidr_is_global(&network) == 0);
    WANT(pcidr_is_private(&unique) == 1 && pcidr_is_private(&shared) == 0 && pcidr_is_private(&none) == 0);
    pcidr_value part = value("10.1.0.0/16"), wider = value("10.0.0.0/7"), host = value("10.0.0.1/8"), any = value("any");
    pcidr_value groups = value("ff00::/8"), beside = value("fe00::/7"), all = value("0.0.0.0/0"), books = value("192.0.2.0/24");
    WANT(pcidr_is_private(&network) == 1 && pcidr_is_private(&part) == 1 && pcidr_is_private(&wider) == 0);
    WANT(pcidr_is_private(&host) == 0 && pcidr_is_private(&any) == 0 && pcidr_is_private(&all) == 0);
    WANT(pcidr_is_multicast(&groups) == 1 && pcidr_is_multicast(&beside) == 0 && pcidr_is_multicast(&any) == 0);
    WANT(pcidr_is_documentation(&books) == 1 && pcidr_is_unspecified(&all) == 0 && pcidr_is_loopback(&any) == 0);
    WANT(pcidr_is_loopback(&loop) == 1 && pcidr_is_loopback(&zero) == 0 && pcidr_is_loopback(&none) == 0);
    WANT(pcidr_is_link_local(&local) == 1 && pcidr_is_link_local(&loop) == 0);
    WANT(pcidr_is_documentation(&book) == 1 && pcidr_is_documentation(&loop) == 0);
    WANT(pcidr_is_unspecified(&zero) == 1 && pcidr_is_unspecified(&loop) == 0);
    WANT(pcidr_is_multicast(&many) == 1 && pcidr_is_multicast(&local) == 0);
}

static void ranges_and_pools(void) {
    pcidr_value first = value("10.0.0.1"), last = value("10.0.0.6"), pair = value("10.0.0.2/31"), room[4], pool[3];
    size_t count = 77;
    WANT(pcidr_summarize(&first, &last, room, 3, &count) == PCIDR_NO_ROOM && count == 4);
    WANT(pcidr_summarize(&first, &last, room, 4, &count) == PCIDR_OK && count == 4);
    WANT(is_same(room[0], first) && is_same(room[1], pair) && is_same(room[2], value("10.0.0.4/31")));
    WANT(pcidr_summarize(&last, &first, room, 4, &count) == PCIDR_OK && count == 0);
    WANT(pcidr_summarize(&first, &pair, room, 4, &count) == PCIDR_NO_VALUE && count == 0);
    pool[0] = value("10.0.2.0/23"), pool[1] = value("10.0.1.64/26"), pool[2] = value("10.0.0.0/24");
    set_mark();
    WANT(pcidr_first_free(pool, 3, 26, &out) == PCIDR_OK && is("10.0.0.0/26"));
    WANT(pcidr_best_free(pool, 3, 26, &out) == PCIDR_OK && is("10.0.1.64/26"));
    WANT(pcidr_best_free(pool, 3, 22, &out) == PCIDR_NONE && is_left());
    pcidr_value both[] = {value("2001:db8::/32"), value("10.0.0.0/24")};
    WANT(pcidr_best_free(both, 2, 32, &out) == PCIDR_OK && is("10.0.0.0"));
    WANT(pcidr_best_free(both, 2, 33, &out) == PCIDR_OK && is("2001:db8::/33"));
    WANT(pcidr_first_free(pool, 3, 255, &out) == PCIDR_NONE && is_left());
    WANT(pcidr_first_free(NULL, 0, 0, &out) == PCIDR_NONE && is_left());
    pool[1] = none;
    WANT(pcidr_first_free(pool, 3, 26, &out) == PCIDR_NO_VALUE && is_left());
    pool[1] = value("2001:db8::/32");
    WANT(pcidr_first_free(pool, 3, 32, &out) == PCIDR_OK && is("10.0.0.0/32"));
    WANT(pcidr_first_free(pool, 3, 64, &out) == PCIDR_OK && is("2001:db8::/64"));
}

static void sets(void) {
    pcidr_value wide = value("10.0.0.0/8"), half = value("10.0.0.0/9"), other = value("10.128.0.0/9"), room[2];
    size_t count = 77;
    uint32_t answer = 9;
    WANT(pcidr_complement(&half, 1, &wide, room, 2, &count) == PCIDR_OK && count == 1 && is_same(room[0], other));
    WANT(pcidr_complement(&wide, 1, &half, NULL, 0, &count) == PCIDR_OK && count == 0);
    WANT(pcidr_complement(NULL, 0, &wide, NULL, 0, &count) == PCIDR_NO_ROOM && count == 1);
    WANT(pcidr_complement(&half, 1, &none, room, 2, &count) == PCIDR_NO_VALUE && count == 1);
    WANT(pcidr_is_subset(&none, 1, &wide, 1, &answer) == PCIDR_NO_VALUE && answer == 9);
    WANT(pcidr_is_disjoint(&wide, 1, &none, 1, &answer) == PCIDR_NO_VALUE && answer == 9);
    WANT(pcidr_is_subset(&half, 1, &wide, 1, &answer) == PCIDR_OK && answer == 1);
    WANT(pcidr_is_subset(&wide, 1, &half, 1, &answer) == PCIDR_OK && answer == 0);
    WANT(pcidr_is_subset(NULL, 0, NULL, 0, &answer) == PCIDR_OK && answer == 1);
    WANT(pcidr_is_disjoint(&half, 1, &other, 1, &answer) == PCIDR_OK && answer == 1);
    WANT(pcidr_is_disjoint(&half, 1, &wide, 1, &answer) == PCIDR_OK && answer == 0);
}

static int is_range(pcidr_range range, const char *first, const char *last) {
    return is_same(range.first, value(first)) && is_same(range.last, value(last));
}

/* Each value of the lists that calls write has zeros behind its tag. */
static void words(void) {
    pcidr_value first = value("10.0.0.1"), last = value("10.0.0.6"), all = value("10.0.0.0/8"), room[64];
    pcidr_row rows[2] = {{value("10.0.0.0/9"), 1}, {value("2001:db8::/32"), 2}}, fewer[2];
    pcidr_range ranges[2];
    pcidr_rule rule = {value("10.0.0.0/8"), 1};
    uint64_t line;
    char message[PCIDR_MESSAGE_ROOM];
    size_t count = 0;
#define WANT_WORDS(call, most)                                                                      \
    do {                                                                                            \
        memset(room, 0xaa, sizeof room);                                                            \
        WANT((call) == PCIDR_OK && count > 0 && count <= (most));                                   \
        for (size_t i = 0; i < count; i++) WANT(is_word(&room[i]));                                 \
    } while (0)
    WANT_WORDS(pcidr_read_lines("10.0.0.0/8\n2001:db8::/32\nany", 28, room, 64, &count), 3);
    WANT_WORDS(pcidr_read_list("10.0.0.0/8\n10.0.0.1-10.0.0.9\n::", 31, 0, room, 64, &count, &line, message, sizeof message), 64);
    WANT_WORDS(pcidr_subnets(&all, 10, 0, 1, room, 64, &count), 3);
    WANT_WORDS(pcidr_summarize(&first, &last, room, 64, &count), 4);
    WANT_WORDS(pcidr_union(&first, 1, &last, 1, room, 64, &count), 2);
    WANT_WORDS(pcidr_complement(&first, 1, &all, room, 64, &count), 24);
    WANT_WORDS(pcidr_permitted(&rule, 1, room, 64, &count), 1);
    WANT_WORDS((room[0] = last, memset(&room[0].tag + 1, 0xaa, 7), count = 1, pcidr_union_in_place(room, 64, &count, &first, 1)), 2);
    WANT(pcidr_ranges(&all, 1, ranges, 2, &count) == PCIDR_OK && is_word(&ranges[0].first) && is_word(&ranges[0].last));
    memset(fewer, 0xaa, sizeof fewer);
    WANT(pcidr_smallest(rows, 2, fewer, 2, &count) == PCIDR_OK && count == 2);
    WANT(is_word(&fewer[0].network) && is_word(&fewer[1].network));
}

static void addresses_of_sets(void) {
    pcidr_value all = value("any"), six = value("::/0"), networks[4];
    pcidr_range room[3] = {{mark, mark}, {mark, mark}, {mark, mark}};
    pcidr_halves number = {7, 8};
    size_t count = 77;
    networks[0] = value("10.0.0.16/28"), networks[1] = value("10.0.0.0/28"), networks[2] = value("10.0.1.0/31");
    networks[3] = value("2001:db8::/63");
    WANT(pcidr_ranges(networks, 4, room, 2, &count) == PCIDR_NO_ROOM && count == 3 && is_same(room[0].first, mark));
    WANT(pcidr_ranges(networks, 2, room, 3, &count) == PCIDR_OK && count == 1 && is_range(room[0], "10.0.0.0", "10.0.0.31"));
    WANT(is_same(room[1].first, mark) && is_same(room[2].last, mark));
    WANT(pcidr_ranges(networks, 4, room, 3, &count) == PCIDR_OK && count == 3 && is_range(room[1], "10.0.1.0", "10.0.1.1"));
    WANT(is_range(room[2], "2001:db8::", "2001:db8:0:1:ffff:ffff:ffff:ffff"));
    WANT(pcidr_ranges(&all, 1, room, 1, &count) == PCIDR_OK && count == 1);
    WANT(is_range(room[0], "0.0.0.0", "ffff:ffff:ffff:ffff:ffff:ffff:ffff:ffff"));
    WANT(pcidr_ranges(NULL, 0, NULL, 0, &count) == PCIDR_OK && count == 0);
    WANT(pcidr_ranges(&none, 1, room, 3, &count) == PCIDR_NO_VALUE && count == 0);
    WANT(pcidr_count_ipv4(networks, 4, &number) == PCIDR_OK && number.high == 0 && number.low == 34);
    WANT(pcidr_count_ipv6(networks, 4, &number) == PCIDR_OK && number.high == 2 && number.low == 0);
    WANT(pcidr_count_ipv4(&all, 1, &number) == PCIDR_OK && number.high == 0 && number.low == (uint64_t)1 << 32);
    WANT(pcidr_count_ipv4(&six, 1, &number) == PCIDR_OK && number.low == 0);
    number.high = 7;
    WANT(pcidr_count_ipv6(&all, 1, &number) == PCIDR_NONE && pcidr_count_ipv6(&six, 1, &number) == PCIDR_NONE);
    WANT(pcidr_count_ipv6(&none, 1, &number) == PCIDR_NO_VALUE && number.high == 7 && number.low == 0);
    WANT(pcidr_count_ipv6(NULL, 0, &number) == PCIDR_OK && number.high == 0 && number.low == 0);
    set_mark();
    WANT(pcidr_nth_ipv4(networks, 4, 0, 31, &out) == PCIDR_OK && is("10.0.0.31"));
    WANT(pcidr_nth_ipv4(networks, 4, 0, 32, &out) == PCIDR_OK && is("10.0.1.0"));
    WANT(pcidr_nth_ipv4(networks, 4, 0, 34, &out) == PCIDR_NONE && pcidr_nth_ipv4(networks, 4, 1, 0, &out) == PCIDR_NONE && is_left());
    WANT(pcidr_nth_ipv6(networks, 4, 1, 5, &out) == PCIDR_OK && is("2001:db8:0:1::5"));
    WANT(pcidr_nth_ipv6(networks, 4, 2, 0, &out) == PCIDR_NONE && pcidr_nth_ipv6(&none, 1, 0, 0, &out) == PCIDR_NO_VALUE && is_left());
    WANT(pcidr_nth_ipv6(&all, 1, UINT64_MAX, UINT64_MAX, &out) == PCIDR_OK && is("ffff:ffff:ffff:ffff:ffff:ffff:ffff:ffff"));
}

static void covering(void) {
    pcidr_value networks[5], address = value("10.1.2.3"), inner = value("10.1.0.0/17"), other = value("11.0.0.1");
    size_t count = 77, indexes[4] = {9, 9, 9, 9};
    networks[0] = value("10.0.0.0/8"), networks[1] = value("10.0.0.0/9"), networks[2] = value("10.1.0.0/16");
    networks[3] = value("10.1.2.0/24"), networks[4] = value("2001:db8::/32");
    WANT(pcidr_covering(networks, 5, &address, indexes, 3, &count) == PCIDR_NO_ROOM && count == 4 && indexes[0] == 9);
    WANT(pcidr_covering(networks, 5, &address, indexes, 4, &count) == PCIDR_OK && count == 4);
    WANT(indexes[0] == 0 && indexes[1] == 1 && indexes[2] == 2 && indexes[3] == 3);
    WANT(pcidr_covering(networks, 5, &inner, indexes, 4, &count) == PCIDR_OK && count == 3 && indexes[2] == 2);
    WANT(pcidr_covering(networks, 5, &other, NULL, 0, &count) == PCIDR_OK && count == 0);
    WANT(pcidr_covered(networks, 5, &networks[1], indexes, 4, &count) == PCIDR_OK && count == 3 && indexes[0] == 1);
    WANT(indexes[2] == 3 && pcidr_covered(networks, 5, &inner, indexes, 4, &count) == PCIDR_OK && count == 1 && indexes[0] == 3);
    WANT(pcidr_covered(networks, 5, &networks[4], indexes, 4, &count) == PCIDR_OK && count == 1 && indexes[0] == 4);
    WANT(pcidr_covering(networks, 5, &none, indexes, 4, &count) == PCIDR_NO_VALUE && count == 1);
    networks[0] = none;
    WANT(pcidr_covered(networks, 5, &address, indexes, 4, &count) == PCIDR_NO_VALUE && count == 1 && indexes[0] == 4);
}

/* The order of a list that repeats a network, and of each the nearest one around it. */
static void ordering(void) {
    const size_t sorted[7] = {5, 2, 0, 3, 4, 6, 1}, once[6] = {5, 2, 3, 4, 6, 1}, around[7] = {2, 5, 5, 2, 3, SIZE_MAX, 5};
    const pcidr_value networks[7] = {value("10.1.0.0/16"), value("::/0"), value("10.0.0.0/8"), value("10.1.0.0/16"),
                                     value("10.1.2.0/24"), value("any"), value("192.0.2.1")};
    size_t count = 1, indexes[8] = {9, 9, 9, 9, 9, 9, 9, 9};
    WANT(pcidr_sort_order(networks, 7, indexes, 6, &count) == PCIDR_NO_ROOM && count == 7 && indexes[0] == 9);
    WANT(pcidr_table_order(networks, 7, indexes, 5, &count) == PCIDR_NO_ROOM && count == 6 && indexes[0] == 9);
    WANT(pcidr_nearest_each(networks, 7, indexes, 6) == PCIDR_NO_ROOM && indexes[0] == 9);
    WANT(pcidr_sort_order(networks, 7, indexes, 8, &count) == PCIDR_OK && count == 7);
    WANT(memcmp(indexes, sorted, sizeof sorted) == 0);
    WANT(pcidr_table_order(networks, 7, indexes, 8, &count) == PCIDR_OK && count == 6);
    WANT(memcmp(indexes, once, sizeof once) == 0 && indexes[6] == 1);
    WANT(pcidr_nearest_each(networks, 7, indexes, 8) == PCIDR_OK && memcmp(indexes, around, sizeof around) == 0);
    WANT(indexes[7] == 9);
}

static void rows(void) {
    pcidr_value networks[5], address = value("10.1.2.3"), inner = value("10.1.0.0/17"), other = value("11.0.0.1"), bad = none;
    size_t index = 77, to = 78;
    networks[0] = value("10.0.0.0/8"), networks[1] = value("10.0.0.0/9"), networks[2] = value("10.1.0.0/16");
    networks[3] = value("10.1.2.0/24"), networks[4] = value("2001:db8::/32");
    WANT(pcidr_rows_find(networks, 5, &networks[2], &index) == PCIDR_OK && index == 2);
    WANT(pcidr_rows_find(networks, 5, &inner, &index) == PCIDR_NONE && index == 3);
    WANT(pcidr_rows_find(networks, 4, &networks[4], &index) == PCIDR_NONE && index == 4);
    WANT(pcidr_rows_find(NULL, 0, &inner, &index) == PCIDR_NONE && index == 0);
    index = 77;
    WANT(pcidr_rows_find(networks, 5, &bad, &index) == PCIDR_NO_VALUE && index == 77);
    WANT(pcidr_rows_longest(networks, 5, NULL, 0, &other, &index) == PCIDR_NONE && index == 77);
    WANT(pcidr_rows_longest(networks, 5, NULL, 0, &bad, &index) == PCIDR_NO_VALUE && index == 77);
    WANT(pcidr_rows_longest(networks, 5, NULL, 0, &address, &index) == PCIDR_OK && index == 3);
    WANT(pcidr_rows_longest(networks, 5, NULL, 0, &inner, &index) == PCIDR_OK && index == 2);
    address = value("10.128.0.1");
    WANT(pcidr_rows_longest(networks, 5, NULL, 0, &address, &index) == PCIDR_OK && index == 0);
    uint8_t lengths[PCIDR_LENGTHS + 1] = {0}, few[10] = {0};
    lengths[PCIDR_LENGTHS] = 7, lengths[129] = 5;
    WANT(pcidr_rows_lengths(networks, 5, lengths, PCIDR_LENGTHS) == PCIDR_OK);
    for (int length = 0; length <= PCIDR_LENGTHS; length++) {
        int is_there = length == 9 || length == 10 || length == 17 || length == 25 || length == 33;
        WANT(lengths[length] == (length == PCIDR_LENGTHS ? 7 : length == 129 ? 5 : is_there));
    }
    WANT(pcidr_rows_lengths(networks, 5, few, sizeof few) == PCIDR_OK && few[9] == 1 && few[8] == 0);
    WANT(pcidr_rows_longest(networks, 5, lengths, PCIDR_LENGTHS, &address, &index) == PCIDR_OK && index == 0);
    WANT(pcidr_rows_longest(networks, 5, lengths, PCIDR_LENGTHS, &inner, &index) == PCIDR_OK && index == 2);
    WANT(pcidr_rows_longest(networks, 5, few, sizeof few, &inner, &index) == PCIDR_OK && index == 2);
    index = 77;
    WANT(pcidr_rows_longest(networks, 5, lengths, PCIDR_LENGTHS, &other, &index) == PCIDR_NONE && index == 77);
    index = 0;
    WANT(pcidr_rows_covered(networks, 5, &networks[1], &index, &to) == PCIDR_OK && index == 1 && to == 4);
    WANT(pcidr_rows_covered(networks, 5, &inner, &index, &to) == PCIDR_OK && index == 3 && to == 4);
    WANT(pcidr_rows_covered(networks, 5, &other, &index, &to) == PCIDR_OK && index == 4 && to == 4);
    index = 77;
    WANT(pcidr_rows_covered(networks, 5, &bad, &index, &to) == PCIDR_NO_VALUE && index == 77 && to == 4);
    networks[0] = networks[4], networks[2].low |= 1, networks[3] = bad; /* in no order, and no networks */
    WANT(pcidr_rows_longest(networks, 5, NULL, 0, &inner, &index) != PCIDR_NO_VALUE && index <= 77);
    WANT(pcidr_rows_covered(networks, 5, &inner, &index, &to) == PCIDR_OK && index <= to && to <= 5);
}

/* Rows are put in, in any order, asked for all around an address, and taken out. */
static void changing_rows(void) {
    const char *texts[4] = {"10.1.2.0/24", "::/0", "any", "10.0.0.0/8"};
    pcidr_value networks[4], sorted[3] = {value("any"), value("10.0.0.0/8"), value("10.1.2.0/24")};
    pcidr_value address = value("10.1.2.3"), other = value("10.1.0.0/16"), bad = none;
    size_t count = 0, index = 77, indexes[4] = {9, 9, 9, 9}, found = 7;
    uint8_t lengths[PCIDR_LENGTHS] = {0}, few[2] = {0};
    for (int i = 0; i < 4; i++) {
        pcidr_value network = value(texts[i]);
        WANT(pcidr_rows_insert(networks, 4, lengths, PCIDR_LENGTHS, &count, &network, &index) == PCIDR_OK);
        WANT(count == (size_t)i + 1 && lengths[network.tag == 255 ? 0 : network.tag < 64 ? network.tag + 1 : network.tag - 63] == 1);
        WANT(pcidr_rows_insert(networks, 4, few, 2, &count, &network, &index) == PCIDR_PRESENT && count == (size_t)i + 1);
    }
    WANT(index == 1 && memcmp(networks, sorted, sizeof sorted) == 0);
    WANT(pcidr_rows_insert(networks, 4, lengths, PCIDR_LENGTHS, &count, &other, &index) == PCIDR_NO_ROOM && count == 4 && index == 1);
    WANT(pcidr_rows_insert(networks, 4, few, 2, &count, &bad, &index) == PCIDR_NO_VALUE && index == 1);
    WANT(lengths[17] == 0 && lengths[0] == 1 && lengths[1] == 1 && lengths[9] == 1 && lengths[25] == 1 && !few[0] && !few[1]);
    WANT(pcidr_rows_covering(networks, 4, &address, indexes, 2, &found) == PCIDR_NO_ROOM && found == 3 && indexes[0] == 9);
    WANT(pcidr_rows_covering(networks, 4, &bad, indexes, 4, &found) == PCIDR_NO_VALUE && found == 3 && indexes[0] == 9);
    WANT(pcidr_rows_covering(networks, 4, &address, indexes, 4, &found) == PCIDR_OK && found == 3);
    WANT(indexes[0] == 0 && indexes[1] == 1 && indexes[2] == 2 && indexes[3] == 9);
    WANT(pcidr_rows_remove(networks, 4, &count, &other, &index) == PCIDR_NONE && count == 4 && index == 1);
    WANT(pcidr_rows_remove(networks, 4, &count, &bad, &index) == PCIDR_NO_VALUE && count == 4);
    WANT(pcidr_rows_remove(networks, 3, &count, &sorted[1], &index) == PCIDR_NO_ROOM && count == 4 && index == 1);
    WANT(pcidr_rows_remove(networks, 4, &count, &sorted[0], &index) == PCIDR_OK && count == 3 && index == 0);
    WANT(memcmp(networks, sorted + 1, 2 * sizeof *sorted) == 0);
}

/* The smallest table was made by hand. */
static void forwarding(void) {
    pcidr_row rows[5], other[5], room[5];
    pcidr_value bad = none;
    size_t count = 77;
    uint32_t answer = 9;
    rows[0].network = value("10.0.0.0/9"), rows[0].value = 3;
    rows[1].network = value("10.128.0.0/9"), rows[1].value = 3;
    rows[2].network = value("10.1.0.0/16"), rows[2].value = 3;
    rows[3].network = value("10.2.0.0/16"), rows[3].value = 4;
    rows[4].network = value("2001:db8::/32"), rows[4].value = UINT64_MAX;
    memset(room, 0, sizeof room);
    WANT(pcidr_smallest(rows, 5, room, 2, &count) == PCIDR_NO_ROOM && count == 3 && room[0].value == 0);
    WANT(pcidr_smallest(rows, 5, room, 5, &count) == PCIDR_OK && count == 3);
    WANT(is_same(room[0].network, value("10.0.0.0/8")) && room[0].value == 3);
    WANT(is_same(room[1].network, value("10.2.0.0/16")) && room[1].value == 4);
    WANT(is_same(room[2].network, value("2001:db8::/32")) && room[2].value == UINT64_MAX && room[3].value == 0);
    WANT(pcidr_forwards_same(rows, 5, room, 3, &answer) == PCIDR_OK && answer == 1);
    WANT(pcidr_forwards_same(rows, 5, room, 2, &answer) == PCIDR_OK && answer == 0);
    memcpy(other, rows, sizeof rows);
    other[2].value = 5;
    WANT(pcidr_forwards_same(rows, 5, other, 5, &answer) == PCIDR_OK && answer == 0);
    other[4] = other[2], other[4].value = 3; /* of a network that repeats the last row counts */
    WANT(pcidr_forwards_same(rows, 4, other, 5, &answer) == PCIDR_OK && answer == 1);
    WANT(pcidr_smallest(NULL, 0, NULL, 0, &count) == PCIDR_OK && count == 0);
    WANT(pcidr_forwards_same(NULL, 0, NULL, 0, &answer) == PCIDR_OK && answer == 1);
    other[1].network = bad, answer = 9;
    WANT(pcidr_forwards_same(rows, 5, other, 5, &answer) == PCIDR_NO_VALUE && answer == 9);
    WANT(pcidr_smallest(other, 5, room, 5, &count) == PCIDR_NO_VALUE && count == 0);
}

static void access_lists(void) {
    pcidr_rule rules[3] = {{{0, 0, 0}, 0}, {{0, 0, 0}, 1}, {{0, 0, 0}, 7}};
    pcidr_value room[3];
    size_t count = 77, indexes[2] = {5, 5};
    rules[0].network = value("10.0.0.0/9"), rules[1].network = value("10.0.0.0/8"), rules[2].network = value("10.1.0.0/16");
    WANT(pcidr_permitted(rules, 3, room, 3, &count) == PCIDR_OK && count == 1 && is_same(room[0], value("10.128.0.0/9")));
    WANT(pcidr_permitted(rules, 3, NULL, 0, &count) == PCIDR_NO_ROOM && count == 1);
    WANT(pcidr_permitted(NULL, 0, room, 3, &count) == PCIDR_OK && count == 0);
    WANT(pcidr_shadowed(rules, 3, NULL, 0, &count) == PCIDR_NO_ROOM && count == 1);
    WANT(pcidr_shadowed(rules, 3, indexes, 2, &count) == PCIDR_OK && count == 1 && indexes[0] == 2 && indexes[1] == 5);
    WANT(pcidr_deciding(rules, 3, &rules[1].network, indexes, 2, &count) == PCIDR_OK && count == 2 && indexes[1] == 1);
    WANT(pcidr_deciding(rules, 3, &rules[2].network, indexes, 2, &count) == PCIDR_OK && count == 1 && indexes[0] == 0);
    WANT(pcidr_deciding(rules, 3, &none, indexes, 2, &count) == PCIDR_NO_VALUE && count == 1);
    indexes[0] = 2;
    pcidr_value allowed = value("10.128.0.1"), denied = value("10.1.2.3"), other = value("11.0.0.1");
    WANT(pcidr_permits(rules, 3, &allowed) == 1 && pcidr_permits(rules, 3, &denied) == 0);
    WANT(pcidr_permits(rules, 3, &other) == 0 && pcidr_permits(rules, 3, &none) == 0 && pcidr_permits(NULL, 0, &allowed) == 0);
    rules[2].network = none, count = 77;
    WANT(pcidr_permits(rules, 3, &allowed) == 0);
    WANT(pcidr_permitted(rules, 3, room, 3, &count) == PCIDR_NO_VALUE && count == 77);
    WANT(pcidr_shadowed(rules, 3, indexes, 2, &count) == PCIDR_NO_VALUE && count == 77 && indexes[0] == 2);
}

static void routes(void) {
    /* the answers are those of the words of RFC 6811, section 2 */
    pcidr_payload payloads[4] = {{{0, 0, 0}, 64496, 24}, {{0, 0, 0}, 64497, 16}, {{0, 0, 0}, 0, 32}, {{0, 0, 0}, 64496, 48}};
    payloads[0].network = value("192.0.2.0/24"), payloads[1].network = value("10.0.0.0/8");
    payloads[2].network = value("203.0.113.0/24"), payloads[3].network = value("2001:db8::/32");
    pcidr_value exact = value("192.0.2.0/24"), longer = value("192.0.2.0/25"), inside = value("10.1.0.0/16"), shorter = value("10.0.0.0/7");
    pcidr_value of_none = value("203.0.113.0/24"), six = value("2001:db8:1::/48"), other = value("198.51.100.0/24");
    WANT(pcidr_validity(payloads, 4, &exact, 64496) == PCIDR_VALID && pcidr_validity(payloads, 4, &exact, 64497) == PCIDR_INVALID_ORIGIN);
    WANT(pcidr_validity(payloads, 4, &longer, 64496) == PCIDR_INVALID_LENGTH);
    WANT(pcidr_validity(payloads, 4, &exact, UINT64_C(1) << 32) == PCIDR_INVALID_ORIGIN);
    WANT(pcidr_validity(payloads, 4, &exact, (UINT64_C(1) << 32) + 64496) == PCIDR_INVALID_ORIGIN);
    WANT(pcidr_validity(payloads, 4, &inside, 64497) == PCIDR_VALID && pcidr_validity(payloads, 4, &shorter, 64497) == PCIDR_NOT_FOUND);
    WANT(pcidr_validity(payloads, 4, &of_none, 0) == PCIDR_INVALID_ORIGIN && pcidr_validity(payloads, 4, &other, 1) == PCIDR_NOT_FOUND);
    WANT(pcidr_validity(payloads, 4, &six, 64496) == PCIDR_VALID && pcidr_validity(NULL, 0, &six, 64496) == PCIDR_NOT_FOUND);
    WANT(pcidr_validity(payloads, 4, &none, 64496) == 0);
    pcidr_prefix_row rows[3] = {{{0, 0, 0}, 0, 24, 32}, {{0, 0, 0}, 1, 8, 24}, {{0, 0, 0}, 1, 32, 48}};
    rows[0].network = value("10.0.0.0/8"), rows[1].network = value("10.0.0.0/8"), rows[2].network = value("2001:db8::/32");
    pcidr_value whole = value("10.0.0.0/8"), last = value("10.255.255.0/24"), above = value("10.255.254.0/23"), too_long = value("2001:db8::/49");
    WANT(pcidr_list_permits(rows, 3, &whole) == 1 && pcidr_list_permits(rows, 3, &last) == 0 && pcidr_list_permits(rows, 3, &above) == 1);
    WANT(pcidr_list_permits(rows, 3, &shorter) == 0 && pcidr_list_permits(rows, 3, &six) == 1 && pcidr_list_permits(rows, 3, &too_long) == 0);
    WANT(pcidr_list_permits(NULL, 0, &whole) == 0 && pcidr_list_permits(rows, 3, &none) == 0);
    rows[1].network = none, payloads[1].network = none;
    WANT(pcidr_list_permits(rows, 3, &whole) == 0 && pcidr_validity(payloads, 4, &exact, 64496) == 0);
}

int main(void) {
    set_mark();
    around();
    subnets();
    beside();
    masks_and_names();
    zones();
    faults();
    loose();
    lists();
    plans();
    inside_ipv6();
    purposes();
    ranges_and_pools();
    sets();
    words();
    addresses_of_sets();
    covering();
    ordering();
    rows();
    changing_rows();
    forwarding();
    access_lists();
    routes();
    return failures != 0;
}

/* IPv4 and IPv6 networks: the proved library `cidr` for C and C++.
 *
 * Values go by value: a call takes and writes a `pcidr_value`, keeps no pointer and has no state, so that any number of
 * threads may call, each on memory of its own or on memory that none of them writes. No call ends the program, for
 * whatever values and strings it is given. What the caller owes:
 *
 * - A pointer to a value, a count or an index points to one that may be read, and written where it is not const.
 * - A pointer and the number behind it name so many elements in a row. Where the number is 0, the pointer may be null.
 * - Each pointer is aligned as its type asks: values, counts and indexes to 8 bytes. A value in a packed struct, or at
 *   some place of a file in memory, is copied by `memcpy` first.
 * - What a call writes overlaps nothing else that the same call gets, except in the calls on parts of a host: there `out`
 *   may be the host itself, as in `pcidr_first(&v, &v)`.
 * - A call marked "allocates" takes memory by `malloc` and gives all of it back. `malloc`, `realloc` and `free` are of
 *   one allocator, which aligns blocks as the C standard asks. Such a call goes neither into a signal handler nor, in a
 *   process with threads, into a child between `fork` and `exec`: another thread may have held a lock of `malloc`, which
 *   the child then waits for without end. The other calls may be made in both.
 *
 * A string is a pointer and a length in bytes, needs no 0 at its end, and may hold any bytes.
 */
#ifndef PCIDR_H
#define PCIDR_H

#include <stddef.h>
#include <stdint.h>

#ifdef __cplusplus
extern "C" {
#endif

/* The version of this header, as `pcidr_version` returns that of the library: 65536 * major + 256 * minor + patch. */
#define PCIDR_VERSION 0x000400u

/* An address, a host or a network.
 *
 * `tag` is the prefix length in IPv4, 0 to 32, and 64 more than it in IPv6, 64 to 192; 255 is `any`, the network of all
 * addresses. `high` and `low` are the two halves of the address as a number; in IPv4 `high` is 0, of `any` both are 0.
 * The seven bytes behind the tag are zeros in what a call writes, and may be any in what it is given.
 *
 * - A host is any address with a prefix length: 10.0.0.5/8.
 * - A network is a host with no bit set after the prefix, 10.0.0.0/8, or `any`.
 * - An address is a host of full prefix length: 32 in IPv4 and 192 in IPv6. It is the network of itself alone.
 *
 * So each address is a network, and each network but `any` is a host. Each call says which of them it takes, and returns
 * `PCIDR_NO_VALUE` for any other value; one that answers yes or no returns 0, and one that compares has a place for it.
 */
typedef struct pcidr_value {
    uint64_t high;
    uint64_t low;
    uint8_t tag;
} pcidr_value;

#if defined(__cplusplus) && __cplusplus >= 201103L
#define PCIDR_ASSERT(holds) static_assert(holds, "a struct of the library is laid out otherwise")
#elif defined(__STDC_VERSION__) && __STDC_VERSION__ >= 201112L
#define PCIDR_ASSERT(holds) _Static_assert(holds, "a struct of the library is laid out otherwise")
#else
#define PCIDR_JOINED(a, b) a##b
#define PCIDR_NAMED(line) PCIDR_JOINED(pcidr_assert_, line)
#define PCIDR_ASSERT(holds) typedef char PCIDR_NAMED(__LINE__)[(holds) ? 1 : -1]
#endif
PCIDR_ASSERT(sizeof(pcidr_value) == 24);
PCIDR_ASSERT(offsetof(pcidr_value, high) == 0);
PCIDR_ASSERT(offsetof(pcidr_value, low) == 8);
PCIDR_ASSERT(offsetof(pcidr_value, tag) == 16);
PCIDR_ASSERT(sizeof(size_t) == 8);

/* A number of up to 128 bits, 2^64 * high + low: that of an IPv6 address, an index or a count. */
typedef struct pcidr_halves {
    uint64_t high;
    uint64_t low;
} pcidr_halves;

PCIDR_ASSERT(sizeof(pcidr_halves) == 16);
PCIDR_ASSERT(offsetof(pcidr_halves, high) == 0);
PCIDR_ASSERT(offsetof(pcidr_halves, low) == 8);

/* What calls return: 0, or the first error that applies. `pcidr_message` has a string for each. */
enum {
    PCIDR_OK = 0,
    PCIDR_NOT_UTF8 = 1,        /* the string is not UTF-8 */
    PCIDR_ADDRESS = 2,         /* of a network or a host: what is before the last slash, or all, is no address */
    PCIDR_LENGTH = 3,          /* what is after the last slash is no prefix length */
    PCIDR_LENGTH_TOO_LONG = 4, /* the prefix length is above 32 or 128 */
    PCIDR_HOST_PART = 5,       /* a bit after the prefix is set */
    PCIDR_TRUNCATED = 6,       /* the compact bytes end too early */
    PCIDR_TAG = 7,             /* the first compact byte is no tag */
    PCIDR_ANY = 8,             /* the compact bytes are those of `any`, which is no host */
    PCIDR_FAMILY = 9,          /* the compact bytes are of the other family; no call returns this yet */
    PCIDR_NO_VALUE = 10,       /* a value is none that the call takes */
    PCIDR_NO_ROOM = 11,        /* there is too little room for the answer */
    PCIDR_NO_MEMORY = 12,      /* there is no memory */
    PCIDR_WRAPPED = 13,        /* the step leaves the network; its result is there all the same */
    PCIDR_NOT_ADDRESS = 14,    /* the string is no address */
    PCIDR_TOO_MANY = 15,       /* there are more than 2,147,483,647 networks, or 1,073,741,823 words of their table */
    PCIDR_NO_TABLE = 17,       /* the arrays are not those of the networks */
    PCIDR_NO_FILE = 18,        /* the bytes are no file of look-up tables */
    PCIDR_OTHER_VERSION = 19,  /* the file is of another version than 5, as of an older release: write it anew */
    PCIDR_SHORT = 20,          /* the file is shorter than its header says */
    PCIDR_LONG = 21,           /* the file is longer than its header says */
    PCIDR_VALUES = 22,         /* the values of rows don't lie one behind the other, or have 2^32 bytes or more */
    PCIDR_NONE = 23,           /* there is no such network, address or number */
    PCIDR_NO_SLASH = 24,       /* of a network with a mask: there is no slash */
    PCIDR_MASK = 25,           /* what is after the last slash is no address of the family */
    PCIDR_SCATTERED = 26,      /* it is neither a network mask nor a host mask: its set bits are not all at one end */
    PCIDR_LINE_TOO_LONG = 27,  /* a line of a list has more than 1 MiB */
    PCIDR_TWO_FAMILIES = 28,   /* the ends of a range are of two families */
    PCIDR_REVERSED = 29,       /* the first address of a range is above the last one */
    PCIDR_PRESENT = 30,        /* the network stands there already */
    PCIDR_NO_MARKER = 31,      /* of a MaxMind DB file: no marker of the metadata begins in the last 128 KiB */
    PCIDR_NO_NODE_COUNT = 32,  /* its metadata have no node_count */
    PCIDR_NO_RECORD_SIZE = 33, /* they have no record_size of 24, 28 or 32 */
    PCIDR_NO_IP_VERSION = 34,  /* they have no ip_version of 4 or 6 */
    PCIDR_LONG_TREE = 35,      /* its search tree goes on behind the metadata */
    PCIDR_MALFORMED = 36,      /* no value that can be read is at the place */
    PCIDR_LONG_TEXT = 37       /* the text is longer than the limit */
};

/* Room that is enough for any string of a value, and for any message, with the 0 behind it. */
#define PCIDR_TEXT_ROOM 44
#define PCIDR_MESSAGE_ROOM 100
/* Room for a network or a host with its mask, and for a name in reverse DNS, with the 0 behind it. */
#define PCIDR_MASK_ROOM 80
#define PCIDR_NAME_ROOM 73
/* Room for what is wrong with a string, with the 0 behind it. */
#define PCIDR_FAULT_ROOM 74
/* Room for the message of a line in error, with the 0 behind it. */
#define PCIDR_LINE_ROOM 144
/* Room for the compact bytes of any value. */
#define PCIDR_BYTES_ROOM 17

/* The version of the library. */
uint32_t pcidr_version(void);

/* ---- strings into values: PCIDR_OK and the value in `out`, or the error, and then `out` is as it was */

/* An address, as 192.0.2.1 or 2001:db8::1. Errors: NOT_UTF8, NOT_ADDRESS. */
uint32_t pcidr_read_address(const char *text, size_t text_len, pcidr_value *out);

/* The same, and also what `inet_addr` takes, as 127.1 or 0x7f000001. Other than glibc it takes a plus before a part, which
 * is decimal then, as +127.1 and +010.1, which is 10.0.0.1, and no white space behind. Errors: NOT_UTF8, NOT_ADDRESS. */
uint32_t pcidr_read_loose_address(const char *text, size_t text_len, pcidr_value *out);

/* An address with or without a prefix length, as 10.0.0.5/8. Errors: NOT_UTF8, ADDRESS, LENGTH, LENGTH_TOO_LONG. */
uint32_t pcidr_read_host(const char *text, size_t text_len, pcidr_value *out);

/* A network, as 10.0.0.0/8, an address alone, or `any`. Errors: NOT_UTF8, ADDRESS, LENGTH, LENGTH_TOO_LONG, HOST_PART. */
uint32_t pcidr_read_network(const char *text, size_t text_len, pcidr_value *out);

/* The same, but one to four octets without a slash are a network of so many octets: 10.7 is 10.7.0.0/16. */
uint32_t pcidr_read_short_network(const char *text, size_t text_len, pcidr_value *out);

/* A network with a network mask or a host mask in place of the prefix length, as 192.0.2.0/255.255.255.0 or
 * 192.0.2.0/0.0.0.255; a mask that could be either is a network mask. Errors: NOT_UTF8, NO_SLASH, ADDRESS, MASK,
 * SCATTERED, HOST_PART. */
uint32_t pcidr_read_masked_network(const char *text, size_t text_len, pcidr_value *out);

/* The network that has this name in reverse DNS, as 2.0.192.in-addr.arpa; of an address's name the address. Letters may
 * be in either case, and a dot may stand at the end. Errors: NOT_UTF8; NONE where no network has it. */
uint32_t pcidr_read_reverse_name(const char *text, size_t text_len, pcidr_value *out);

/* Reads a text of networks, one a line, as `pcidr_read_network` does, into the front of `out`. Lines are separated by
 * line feeds; the last one has none behind it, so that a text with one at its end has an empty last line, which is no
 * network. `count` becomes how many lines were read. PCIDR_NO_ROOM, where `out` is full before the text has ended; else
 * the error of line `count`, counted from 0. What `out` has behind `count` values stays. */
uint32_t pcidr_read_lines(const char *text, size_t text_len, pcidr_value *out, size_t out_len, size_t *count);

/* What is done with a set bit after the prefix of a network of a list: it is an error, or it is taken as unset. With masks a
 * network may also have a network mask or a host mask in place of the prefix length, behind a slash or white space, as
 * 192.0.2.0/255.255.255.0 and 192.0.2.0 0.0.0.255; a mask that could be either is a network mask. */
#define PCIDR_HOST_BITS_REFUSED 0
#define PCIDR_HOST_BITS_CLEARED 1
#define PCIDR_HOST_BITS_REFUSED_WITH_MASKS 2
#define PCIDR_HOST_BITS_CLEARED_WITH_MASKS 3

/* Reads a list as the program `netset` does: a network, an address or a range, as 192.0.2.0-192.0.2.9, a line, with white
 * space around it and around the hyphen, and a comment behind it from # or ; on. A line may say nothing. Lines end
 * in a line feed, or in CR and line feed, which the last one may lack. `host_bits` is one of the four above; any other
 * number is like 0.
 *
 * PCIDR_OK, and `count` networks in `out`: those of IPv4 in the order of their lines, then those of IPv6; of a range the
 * fewest that have its addresses, ascending, at most 62 in IPv4 and 254 in IPv6. What is behind them stays. `pcidr_cover`
 * makes a set of them.
 *
 * Else the first error: of the first line that has one, LINE_TOO_LONG; NOT_UTF8; without a hyphen ADDRESS, LENGTH,
 * LENGTH_TOO_LONG, HOST_PART; of a range NOT_ADDRESS, TWO_FAMILIES, REVERSED. One with a mask that is wrong, or with a bit
 * set behind it, has the error that it has where masks are not read: LENGTH behind a slash, else ADDRESS. Then `line` is
 * the number of that line, from 1 on, and `message` the string that is wrong and what is wrong with it, as in
 * `192.0.2.7/24: host bits set; the network is 192.0.2.0/24`, with a 0 behind, where `message_len` is above its length. Of a
 * list without an error NO_ROOM where `out_len` is too small, and `count` is how many networks there are. NO_MEMORY may
 * come before all of these. What an error does not set is as it was. Allocates. */
uint32_t pcidr_read_list(const char *text, size_t text_len, uint32_t host_bits, pcidr_value *out, size_t out_len,
                         size_t *count, uint64_t *line, char *message, size_t message_len);

/* A row of an address plan; of a range each network of the shortest list has one. */
typedef struct pcidr_plan_row {
    pcidr_value network;
    uint64_t line;   /* the number of its line, from 1 on */
    size_t name;     /* where its name begins in the text, in bytes */
    size_t name_len; /* how many bytes the name has */
} pcidr_plan_row;

PCIDR_ASSERT(sizeof(pcidr_plan_row) == 48);
PCIDR_ASSERT(offsetof(pcidr_plan_row, network) == 0);
PCIDR_ASSERT(offsetof(pcidr_plan_row, line) == 24);
PCIDR_ASSERT(offsetof(pcidr_plan_row, name) == 32);
PCIDR_ASSERT(offsetof(pcidr_plan_row, name_len) == 40);

/* A line of a plan that is in error. */
typedef struct pcidr_plan_fault {
    uint64_t line;   /* its number, from 1 on */
    size_t text;     /* where it begins in the text, in bytes */
    size_t text_len; /* how many bytes it has, without its line feed */
    uint32_t code;   /* its error, as of pcidr_read_list */
} pcidr_plan_fault;

PCIDR_ASSERT(sizeof(pcidr_plan_fault) == 32);
PCIDR_ASSERT(offsetof(pcidr_plan_fault, line) == 0);
PCIDR_ASSERT(offsetof(pcidr_plan_fault, text) == 8);
PCIDR_ASSERT(offsetof(pcidr_plan_fault, text_len) == 16);
PCIDR_ASSERT(offsetof(pcidr_plan_fault, code) == 24);

/* Reads an address plan: a line as of a list, with a name behind the network, address or range, as
 *
 *     10.20.0.0/20 campus core      # with a comment
 *     10.20.16.0 - 10.20.16.99 guests
 *     2001:db8:20::/48,campus
 *
 * White space or a comma parts both. The name goes on to the comment or the end of the line, without white space there, and may be
 * empty. Where the first hyphen is in the first word or next behind it, the line says a range. An address with an address behind
 * it is refused, since that may be a mask or the end of a range: NOT_ADDRESS. A mask stands behind a slash, where `host_bits`
 * reads masks.
 *
 * In `rows` are as many of its rows as there is room for, in the order of the lines, and in `faults` as many of its lines in error;
 * `count` and `wrong` are how many there are. What is behind them stays. PCIDR_OK; or NO_ROOM where one of both has more than
 * its room; or NO_MEMORY, and all is as it was. There are at most as many faults as lines, and rows, but for ranges. Allocates. */
uint32_t pcidr_read_plan(const char *text, size_t text_len, uint32_t host_bits, pcidr_plan_row *rows, size_t rows_len,
                         size_t *count, pcidr_plan_fault *faults, size_t faults_len, size_t *wrong);

/* The message of a line of a plan that is in error, as `pcidr_read_list` has it, and its error; PCIDR_OK of a line that is in none,
 * and `message` is as it was. */
uint32_t pcidr_plan_message(const char *line, size_t line_len, uint32_t host_bits, char *message, size_t message_len);

/* ---- values into strings: the length of the string, or 0 for a value that the call does not take
 *
 * Where `out_len` is above the length, the string is in `out` with a 0 behind it; else `out` is as it was. So a call with
 * room 0 asks for the length. */

/* An address. */
size_t pcidr_print_address(const pcidr_value *address, char *out, size_t out_len);

/* A host, without a full prefix length: 10.0.0.5/8, or 10.0.0.5 for 10.0.0.5/32. */
size_t pcidr_print_host(const pcidr_value *host, char *out, size_t out_len);

/* A host, always with its prefix length: 10.0.0.5/32. */
size_t pcidr_print_host_with_length(const pcidr_value *host, char *out, size_t out_len);

/* A network, without a full prefix length. */
size_t pcidr_print_network(const pcidr_value *network, char *out, size_t out_len);

/* A network, always with its prefix length: 10.0.0.5/32. */
size_t pcidr_print_network_with_length(const pcidr_value *network, char *out, size_t out_len);

/* An address, and a host with its prefix length, of which in IPv6 no digit is left out, 2001:0db8:0000:0000:0000:0000:0000:0001,
 * also of an IPv4-mapped one. */
size_t pcidr_print_exploded_address(const pcidr_value *address, char *out, size_t out_len);
size_t pcidr_print_exploded_host(const pcidr_value *host, char *out, size_t out_len);

/* The network of a host with its network mask, 192.0.2.0/255.255.255.0, or with its host mask, 192.0.2.0/0.0.0.255. */
size_t pcidr_print_with_mask(const pcidr_value *host, char *out, size_t out_len);
size_t pcidr_print_with_host_mask(const pcidr_value *host, char *out, size_t out_len);

/* The same of the host itself, 192.0.2.1/255.255.255.0 and 192.0.2.1/0.0.0.255. */
size_t pcidr_print_host_with_mask(const pcidr_value *host, char *out, size_t out_len);
size_t pcidr_print_host_with_host_mask(const pcidr_value *host, char *out, size_t out_len);

/* The name in reverse DNS of the network of a host, 2.0.192.in-addr.arpa, or of an address, whose PTR record is there.
 * 0 also where the prefix length doesn't end at a label, as it does at a multiple of 8 in IPv4 and of 4 in IPv6. */
size_t pcidr_print_reverse_name(const pcidr_value *host, char *out, size_t out_len);

/* The same of a zone that the network of a host is delegated in: that at an index, counted from 0, of the networks inside it
 * of the next prefix length that ends at a label, ascending; of a network that has a name itself only this one. 0 where
 * there are no more than that: at most 128 in IPv4, and 8 in IPv6. */
size_t pcidr_print_reverse_zone(const pcidr_value *host, size_t index, char *out, size_t out_len);

/* Prints networks, each with a line feed behind it and without a full prefix length. PCIDR_OK and `count` bytes in `out`,
 * and what `out` has behind them stays; or the error of the first value that has one: PCIDR_NO_VALUE where it is no
 * network, PCIDR_NO_ROOM where the lines up to it have more bytes than `out`. Then what `out` has is not specified and
 * `count` is as it was. 44 bytes for each network are enough. */
uint32_t pcidr_print_lines(const pcidr_value *networks, size_t networks_len, char *out, size_t out_len, size_t *count);

/* The message of an error, or 0 for a number that is none. */
size_t pcidr_message(uint32_t code, char *out, size_t out_len);

/* What is wrong with a string that is no network, no address and no range of addresses, as `a leading zero in an octet`,
 * `a number above 255` or `host bits set; the network is 192.0.2.0/24`: the first of some faults that are looked for. 0 where
 * it has none of these, or is not UTF-8. */
size_t pcidr_text_fault(const char *text, size_t text_len, char *out, size_t out_len);

/* ---- compact bytes: the tag, and the address in network byte order; 1, 5 or 17 bytes */

/* How many bytes they are, or 0 for a value that the call does not take. They are in `out` if there is room for them, else
 * it is as it was. */
size_t pcidr_network_to_bytes(const pcidr_value *network, uint8_t *out, size_t out_len);
size_t pcidr_host_to_bytes(const pcidr_value *host, uint8_t *out, size_t out_len);

/* The value whose bytes come first, and how many they are. Errors: TRUNCATED, TAG, TRUNCATED, ANY (a host), HOST_PART (a
 * network); then `out` and `used` are as they were. */
uint32_t pcidr_network_from_bytes(const uint8_t *bytes, size_t bytes_len, pcidr_value *out, size_t *used);
uint32_t pcidr_host_from_bytes(const uint8_t *bytes, size_t bytes_len, pcidr_value *out, size_t *used);

/* ---- parts of a host, or of a network but `any`: PCIDR_OK, or PCIDR_NO_VALUE, and then `out` is as it was
 *
 * The library takes the host by value, in calls whose names end in `by_value`. The functions below them pass it on, so
 * that `out` may be the host itself. */

uint32_t pcidr_first_by_value(pcidr_value host, pcidr_value *out);
uint32_t pcidr_last_by_value(pcidr_value host, pcidr_value *out);
uint32_t pcidr_mask_by_value(pcidr_value host, pcidr_value *out);
uint32_t pcidr_address_by_value(pcidr_value host, pcidr_value *out);
uint32_t pcidr_network_by_value(pcidr_value host, pcidr_value *out);
uint32_t pcidr_step_up_by_value(pcidr_value host, uint64_t high, uint64_t low, pcidr_value *out);
uint32_t pcidr_step_down_by_value(pcidr_value host, uint64_t high, uint64_t low, pcidr_value *out);
uint32_t pcidr_at_by_value(pcidr_value host, uint64_t high, uint64_t low, pcidr_value *out);
uint32_t pcidr_host_mask_by_value(pcidr_value host, pcidr_value *out);
uint32_t pcidr_first_usable_by_value(pcidr_value host, pcidr_value *out);
uint32_t pcidr_last_usable_by_value(pcidr_value host, pcidr_value *out);
uint32_t pcidr_nth_by_value(pcidr_value host, uint64_t high, uint64_t low, pcidr_value *out);
uint32_t pcidr_supernet_by_value(pcidr_value host, uint8_t len, pcidr_value *out);
uint32_t pcidr_parent_by_value(pcidr_value host, pcidr_value *out);
uint32_t pcidr_network_halves_by_value(pcidr_value host, pcidr_value *lower, pcidr_value *upper);
uint32_t pcidr_subnet_by_value(pcidr_value host, uint8_t len, uint64_t high, uint64_t low, pcidr_value *out);
uint32_t pcidr_sibling_by_value(pcidr_value host, pcidr_value *out);
uint32_t pcidr_next_network_by_value(pcidr_value host, pcidr_value *out);
uint32_t pcidr_previous_network_by_value(pcidr_value host, pcidr_value *out);
uint32_t pcidr_ipv6_mapped_by_value(pcidr_value host, pcidr_value *out);
uint32_t pcidr_ipv4_mapped_by_value(pcidr_value host, pcidr_value *out);
uint32_t pcidr_ipv4_6to4_by_value(pcidr_value address, pcidr_value *out);
uint32_t pcidr_ipv4_nat64_by_value(pcidr_value address, pcidr_value *out);

/* The first and the last address of its network, and the mask as an address. */
static inline uint32_t pcidr_first(const pcidr_value *host, pcidr_value *out) {
    return pcidr_first_by_value(*host, out);
}
static inline uint32_t pcidr_last(const pcidr_value *host, pcidr_value *out) {
    return pcidr_last_by_value(*host, out);
}
static inline uint32_t pcidr_mask(const pcidr_value *host, pcidr_value *out) {
    return pcidr_mask_by_value(*host, out);
}

/* Its address, and its network. */
static inline uint32_t pcidr_address(const pcidr_value *host, pcidr_value *out) {
    return pcidr_address_by_value(*host, out);
}
static inline uint32_t pcidr_network(const pcidr_value *host, pcidr_value *out) {
    return pcidr_network_by_value(*host, out);
}

/* The host 2^64 * high + low addresses further, or back, in its network. Where that is beyond an end, it goes on from the
 * other one, and PCIDR_WRAPPED is returned. */
static inline uint32_t pcidr_step_up(const pcidr_value *host, uint64_t high, uint64_t low, pcidr_value *out) {
    return pcidr_step_up_by_value(*host, high, low, out);
}
static inline uint32_t pcidr_step_down(const pcidr_value *host, uint64_t high, uint64_t low, pcidr_value *out) {
    return pcidr_step_down_by_value(*host, high, low, out);
}

/* The host at position 2^64 * high + low of its network, counted from 0 at the first address, so that a walk is a loop
 * over numbers up to PCIDR_WRAPPED. */
static inline uint32_t pcidr_at(const pcidr_value *host, uint64_t high, uint64_t low, pcidr_value *out) {
    return pcidr_at_by_value(*host, high, low, out);
}

/* The host mask of its network, the inverse of the mask, as an address: 0.0.0.15 of 192.0.2.48/28. */
static inline uint32_t pcidr_host_mask(const pcidr_value *host, pcidr_value *out) {
    return pcidr_host_mask_by_value(*host, out);
}

/* The first and the last address that hosts may have of its network: in IPv4 all but the first and the last, but of a
 * /31 network both (RFC 3021) and of a /32 network the one; in IPv6 all. */
static inline uint32_t pcidr_first_usable(const pcidr_value *host, pcidr_value *out) {
    return pcidr_first_usable_by_value(*host, out);
}
static inline uint32_t pcidr_last_usable(const pcidr_value *host, pcidr_value *out) {
    return pcidr_last_usable_by_value(*host, out);
}

/* How many these are. PCIDR_NONE where they are 2^64 or more. */
uint32_t pcidr_usable_count(const pcidr_value *host, size_t *count);

/* How many addresses its network has. PCIDR_NONE for ::/0, whose 2^128 the two halves have no room for. */
uint32_t pcidr_address_count(const pcidr_value *host, pcidr_halves *count);

/* Address 2^64 * high + low of its network, counted from 0. PCIDR_NONE where the network has no more than that. */
static inline uint32_t pcidr_nth(const pcidr_value *host, uint64_t high, uint64_t low, pcidr_value *out) {
    return pcidr_nth_by_value(*host, high, low, out);
}

/* The index of an address in its network, the inverse of `pcidr_nth`. PCIDR_NONE where the address is not in it. */
uint32_t pcidr_position(const pcidr_value *host, const pcidr_value *address, pcidr_halves *index);

/* ---- networks around that of a host: PCIDR_OK; PCIDR_NO_VALUE for what is no host, and then PCIDR_NONE; `out` is as
 * it was with both */

/* The network of prefix length `len` that contains it. PCIDR_NONE where `len` is above its own. */
static inline uint32_t pcidr_supernet(const pcidr_value *host, uint8_t len, pcidr_value *out) {
    return pcidr_supernet_by_value(*host, len, out);
}

/* The network that is twice as large and contains it: 10.0.0.0/8 of 10.128.0.0/9. PCIDR_NONE for 0.0.0.0/0 and ::/0. */
static inline uint32_t pcidr_parent(const pcidr_value *host, pcidr_value *out) {
    return pcidr_parent_by_value(*host, out);
}

/* Both halves of it: 10.0.0.0/9 and 10.128.0.0/9 of 10.0.0.0/8. PCIDR_NONE where it has one address alone. `lower` and
 * `upper` are two places, of which either may be the host itself; both are as they were with an error. */
static inline uint32_t pcidr_network_halves(const pcidr_value *host, pcidr_value *lower, pcidr_value *upper) {
    return pcidr_network_halves_by_value(*host, lower, upper);
}

/* Network 2^64 * high + low of prefix length `len` inside it, counted from 0. PCIDR_NONE where `len` is below its own
 * or above 32 or 128, or where there are no more than that. */
static inline uint32_t pcidr_subnet(const pcidr_value *host, uint8_t len, uint64_t high, uint64_t low,
                                    pcidr_value *out) {
    return pcidr_subnet_by_value(*host, len, high, low, out);
}

/* The same from that index on: as many as there are and `out` has places for, of which `count` becomes the number; none
 * where there are no more than that index. What is behind them in `out` stays. PCIDR_NONE only where `len` is below its
 * own or above 32 or 128; `out` and `count` are as they were after an error. */
uint32_t pcidr_subnets(const pcidr_value *host, uint8_t len, uint64_t high, uint64_t low, pcidr_value *out,
                       size_t out_len, size_t *count);

/* The other half of its parent: 10.128.0.0/9 of 10.0.0.0/9. PCIDR_NONE for 0.0.0.0/0 and for
 * ::/0. */
static inline uint32_t pcidr_sibling(const pcidr_value *host, pcidr_value *out) {
    return pcidr_sibling_by_value(*host, out);
}

/* The network of the same length behind it, or before it. PCIDR_NONE for the last one, or the first, of its length. */
static inline uint32_t pcidr_next_network(const pcidr_value *host, pcidr_value *out) {
    return pcidr_next_network_by_value(*host, out);
}
static inline uint32_t pcidr_previous_network(const pcidr_value *host, pcidr_value *out) {
    return pcidr_previous_network_by_value(*host, out);
}

/* ---- IPv4 inside IPv6: errors as above */

/* The network of the IPv4-mapped addresses of an IPv4 network, ::ffff:192.0.2.0/120 of 192.0.2.0/24, and of an address the
 * address. PCIDR_NONE for one of IPv6. */
static inline uint32_t pcidr_ipv6_mapped(const pcidr_value *host, pcidr_value *out) {
    return pcidr_ipv6_mapped_by_value(*host, out);
}

/* The inverse: 192.0.2.1 of ::ffff:192.0.2.1. PCIDR_NONE for a network that isn't inside ::ffff:0:0/96. */
static inline uint32_t pcidr_ipv4_mapped(const pcidr_value *host, pcidr_value *out) {
    return pcidr_ipv4_mapped_by_value(*host, out);
}

/* The IPv4 address of the site of a 6to4 address, the 32 bits behind 2002::/16, or that in an address of translation (NAT64),
 * behind 64:ff9b::/96. PCIDR_NO_VALUE for what is no address, and PCIDR_NONE for one outside of these. */
static inline uint32_t pcidr_ipv4_6to4(const pcidr_value *address, pcidr_value *out) {
    return pcidr_ipv4_6to4_by_value(*address, out);
}
static inline uint32_t pcidr_ipv4_nat64(const pcidr_value *address, pcidr_value *out) {
    return pcidr_ipv4_nat64_by_value(*address, out);
}

/* ---- masks and special purposes of addresses */

/* The prefix length of a network mask, 28 of 255.255.255.240, or of a host mask, 28 of 0.0.0.15. Errors: NO_VALUE for
 * what is no address; NONE for one that is no such mask. Then `len` is as it was. */
uint32_t pcidr_mask_length(const pcidr_value *address, uint8_t *len);
uint32_t pcidr_host_mask_length(const pcidr_value *address, uint8_t *len);

/* An entry of the IANA IPv4 or IPv6 Special-Purpose Address Registry (RFC 6890), as of May 2025. The columns are 0 for
 * no, 1 for yes, and 2 where they do not apply. */
typedef struct pcidr_special {
    uint64_t high;                /* the first address of the block, which is of the family of the address */
    uint64_t low;
    uint16_t rfc;                 /* the number of the RFC */
    uint8_t len;                  /* the prefix length of the block */
    uint8_t purpose;              /* one of the purposes below */
    uint8_t source;               /* may be the source of a packet */
    uint8_t destination;          /* may be the destination of a packet */
    uint8_t forwardable;          /* routers forward it */
    uint8_t globally_reachable;   /* beyond an administrative domain, too */
    uint8_t reserved_by_protocol; /* implementations treat it in a way of its own */
} pcidr_special;

PCIDR_ASSERT(sizeof(pcidr_special) == 32);
PCIDR_ASSERT(offsetof(pcidr_special, high) == 0);
PCIDR_ASSERT(offsetof(pcidr_special, low) == 8);
PCIDR_ASSERT(offsetof(pcidr_special, rfc) == 16);
PCIDR_ASSERT(offsetof(pcidr_special, len) == 18);
PCIDR_ASSERT(offsetof(pcidr_special, purpose) == 19);
PCIDR_ASSERT(offsetof(pcidr_special, source) == 20);
PCIDR_ASSERT(offsetof(pcidr_special, destination) == 21);
PCIDR_ASSERT(offsetof(pcidr_special, forwardable) == 22);
PCIDR_ASSERT(offsetof(pcidr_special, globally_reachable) == 23);
PCIDR_ASSERT(offsetof(pcidr_special, reserved_by_protocol) == 24);

/* The purposes. Two blocks of one purpose share the number, as 127.0.0.0/8 and ::1 do. */
enum {
    PCIDR_PURPOSE_THIS_NETWORK = 0,
    PCIDR_PURPOSE_UNSPECIFIED = 1,
    PCIDR_PURPOSE_PRIVATE_USE = 2,
    PCIDR_PURPOSE_UNIQUE_LOCAL = 3,
    PCIDR_PURPOSE_SHARED_ADDRESS_SPACE = 4,
    PCIDR_PURPOSE_LOOPBACK = 5,
    PCIDR_PURPOSE_LINK_LOCAL = 6,
    PCIDR_PURPOSE_PROTOCOL_ASSIGNMENTS = 7,
    PCIDR_PURPOSE_SERVICE_CONTINUITY = 8,
    PCIDR_PURPOSE_DUMMY = 9,
    PCIDR_PURPOSE_PORT_CONTROL_ANYCAST = 10,
    PCIDR_PURPOSE_TURN_ANYCAST = 11,
    PCIDR_PURPOSE_SERVICE_REGISTRATION_ANYCAST = 12,
    PCIDR_PURPOSE_NAT64_DISCOVERY = 13,
    PCIDR_PURPOSE_DOCUMENTATION = 14,
    PCIDR_PURPOSE_AS112 = 15,
    PCIDR_PURPOSE_DIRECT_AS112 = 16,
    PCIDR_PURPOSE_MULTICAST_TUNNELING = 17,
    PCIDR_PURPOSE_SIX_TO_FOUR_RELAY = 18,
    PCIDR_PURPOSE_SIX_A44_RELAY = 19,
    PCIDR_PURPOSE_SIX_TO_FOUR = 20,
    PCIDR_PURPOSE_BENCHMARKING = 21,
    PCIDR_PURPOSE_RESERVED = 22,
    PCIDR_PURPOSE_LIMITED_BROADCAST = 23,
    PCIDR_PURPOSE_IPV4_MAPPED = 24,
    PCIDR_PURPOSE_TRANSLATION = 25,
    PCIDR_PURPOSE_DISCARD_ONLY = 26,
    PCIDR_PURPOSE_TEREDO = 27,
    PCIDR_PURPOSE_DEPRECATED_ORCHID = 28,
    PCIDR_PURPOSE_ORCHID_V2 = 29,
    PCIDR_PURPOSE_DRONE_REMOTE_ID = 30,
    PCIDR_PURPOSE_SEGMENT_ROUTING = 31,
    PCIDR_PURPOSE_THIS_HOST = 32
};

/* The entry of an address: that of the longest block that contains it. Errors: NO_VALUE for what is no address; NONE
 * for one of no special purpose. Then `out` is as it was. */
uint32_t pcidr_special_entry(const pcidr_value *address, pcidr_special *out);

/* 1 for yes and 0 for no; 0 also where the value is no address, so that where 0 is what permits, check it first.
 * Globally reachable is an address without an entry, also a multicast address, or one whose entry says so. */
uint32_t pcidr_is_global(const pcidr_value *address);

/* The same of a network, as each address is one: whether it lies in such a block, and so all of its addresses. 0 also where the
 * value is no network, and of `any`. Private are 10.0.0.0/8, 172.16.0.0/12, 192.168.0.0/16 and fc00::/7; multicast addresses
 * 224.0.0.0/4 and ff00::/8. */
uint32_t pcidr_is_private(const pcidr_value *network);
uint32_t pcidr_is_loopback(const pcidr_value *network);
uint32_t pcidr_is_link_local(const pcidr_value *network);
uint32_t pcidr_is_documentation(const pcidr_value *network);
uint32_t pcidr_is_unspecified(const pcidr_value *network);
uint32_t pcidr_is_multicast(const pcidr_value *network);

/* ---- networks beside one another */

/* 1 where the value is a network, as each address is, and 0 where not. */
uint32_t pcidr_check(const pcidr_value *value);

/* 1 where the second network, or address, is in the first, and 0 where not. Where one of the values is no network, as the
 * host 10.0.0.5/8, the answer is 0 too, so that a permission is refused:
 *
 *     if (pcidr_contains(&allowed, &address)) serve();
 *
 * Where 0 is what permits, check both first:
 *
 *     if (pcidr_check(&banned) && pcidr_check(&address) && !pcidr_contains(&banned, &address)) serve();
 */
uint32_t pcidr_contains(const pcidr_value *outer, const pcidr_value *inner);

/* 1 where both values are networks that have an address in common, and 0 where not: where 0 is what permits, check both
 * first. */
uint32_t pcidr_overlaps(const pcidr_value *one, const pcidr_value *other);

/* 1 where the networks of both hosts are the two halves of one, in either order, and 0 where not, as where a value is no
 * host. No network is its own sibling. */
uint32_t pcidr_is_sibling_of(const pcidr_value *one, const pcidr_value *other);

/* The longest network that contains both, which of two families is `any`. Error: NO_VALUE, and `out` is as it was. */
uint32_t pcidr_spanning(const pcidr_value *one, const pcidr_value *other, pcidr_value *out);

/* 0, 1 or 2, where the first value comes before the second, is the same, or comes after it. Of networks `any` comes
 * first, then IPv4, then IPv6; in a family the lower first address, and then the shorter prefix. What is no network comes
 * after all networks, by `tag`, then `high`, then `low`. So it is a total order of all values, whatever they hold. */
uint32_t pcidr_compare(const pcidr_value *one, const pcidr_value *other);

/* The same of hosts: IPv4 comes before IPv6; in a family the lower address comes first, and then the shorter prefix
 * length, so that 10.0.0.1/8 comes after 10.0.0.0/32. What is no host comes after all hosts. */
uint32_t pcidr_compare_hosts(const pcidr_value *one, const pcidr_value *other);

/* `pcidr_compare` for `qsort` and `bsearch` over values, networks or not: below, at or above 0. */
static inline int pcidr_order(const void *one, const void *other) {
    return (int)pcidr_compare((const pcidr_value *)one, (const pcidr_value *)other) - 1;
}

/* ---- many networks
 *
 * A set is the shortest list of networks that has its addresses, ascending, in memory of the caller. Any list of networks
 * is taken for the set of its addresses, in any order; networks may repeat and overlap. */

/* Replaces networks by the set of their addresses: the first `count` of them; what is behind stays as it was. Errors:
 * NO_VALUE, or NO_MEMORY; then all is as it was. Allocates, and sorts the networks: O(n log n). */
uint32_t pcidr_cover(pcidr_value *networks, size_t networks_len, size_t *count);

/* The set of the addresses that one list has or the other (union), that both have (intersection), that the first has and
 * the second has not (difference), or that exactly one has (symmetric difference): the first `count` of `out`, and what
 * is behind them stays. Where `out_len` is too small, PCIDR_NO_ROOM, and `count` is how many networks the set has. Errors:
 * NO_VALUE, and then NO_ROOM; NO_MEMORY may come before either. Then `out` is as it was, and `count` too but for NO_ROOM.
 * A union needs room for at most as many networks as both lists have, an intersection for one less. Allocates, and sorts
 * both: O(n log n). */
uint32_t pcidr_union(const pcidr_value *these, size_t these_len, const pcidr_value *those, size_t those_len,
                     pcidr_value *out, size_t out_len, size_t *count);
uint32_t pcidr_intersection(const pcidr_value *these, size_t these_len, const pcidr_value *those, size_t those_len,
                            pcidr_value *out, size_t out_len, size_t *count);
uint32_t pcidr_difference(const pcidr_value *these, size_t these_len, const pcidr_value *those, size_t those_len,
                          pcidr_value *out, size_t out_len, size_t *count);
uint32_t pcidr_symmetric_difference(const pcidr_value *these, size_t these_len, const pcidr_value *those,
                                    size_t those_len, pcidr_value *out, size_t out_len, size_t *count);

/* The same in place: the first `count` networks of `networks` are replaced by the set of the addresses that they have or
 * the others have (union), that both have (intersection), or that they have and the others have not (difference), and
 * `count` becomes its number of networks. `networks_len` is the room; a `count` above it stands for all of it. What is
 * behind the set stays as it was. Errors as above; then `networks` is as it was, and after NO_ROOM `count` is how many
 * networks the set has, no longer how many there are. Allocates, and sorts both. */
uint32_t pcidr_union_in_place(pcidr_value *networks, size_t networks_len, size_t *count, const pcidr_value *others,
                              size_t others_len);
uint32_t pcidr_intersection_in_place(pcidr_value *networks, size_t networks_len, size_t *count,
                                     const pcidr_value *others, size_t others_len);
uint32_t pcidr_difference_in_place(pcidr_value *networks, size_t networks_len, size_t *count,
                                   const pcidr_value *others, size_t others_len);

/* The set of the addresses of a network that a list has not, in `out`, as of a union. Errors: NO_MEMORY, NO_VALUE,
 * NO_ROOM. Allocates. */
uint32_t pcidr_complement(const pcidr_value *networks, size_t networks_len, const pcidr_value *within,
                          pcidr_value *out, size_t out_len, size_t *count);

/* Whether the second list has all addresses of the first (subset), and whether no address is in both (disjoint): 1 or 0
 * in `answer`. Errors: NO_MEMORY, NO_VALUE; then `answer` is as it was. Allocates, and sorts both: O(n log n). */
uint32_t pcidr_is_subset(const pcidr_value *these, size_t these_len, const pcidr_value *those, size_t those_len,
                         uint32_t *answer);
uint32_t pcidr_is_disjoint(const pcidr_value *these, size_t these_len, const pcidr_value *those, size_t those_len,
                           uint32_t *answer);

/* The set of the addresses from the first to the last, both included, in `out`, as of a union: none where the last
 * comes before the first, and at most 62 networks in IPv4 and 254 in IPv6. IPv4 addresses come before those of IPv6.
 * Errors: NO_VALUE for what is no address; NO_MEMORY, NO_ROOM. Allocates. */
uint32_t pcidr_summarize(const pcidr_value *first, const pcidr_value *last, pcidr_value *out, size_t out_len,
                         size_t *count);

/* Addresses from a first to a last one, both included. */
typedef struct pcidr_range {
    pcidr_value first;
    pcidr_value last;
} pcidr_range;

PCIDR_ASSERT(sizeof(pcidr_range) == 48);
PCIDR_ASSERT(offsetof(pcidr_range, first) == 0);
PCIDR_ASSERT(offsetof(pcidr_range, last) == 24);

/* The longest ranges of the addresses of a list, ascending, in `out`, as of a union: between one and the next is an address
 * that is in no network of the list. They are at most as many as its networks. A range can go from 255.255.255.255 on to ::,
 * which comes next. Errors: NO_MEMORY, NO_VALUE, NO_ROOM. Allocates, and sorts the list. */
uint32_t pcidr_ranges(const pcidr_value *networks, size_t networks_len, pcidr_range *out, size_t out_len, size_t *count);

/* How many addresses of a family a list has; `any` has those of both. Errors: NO_MEMORY, NO_VALUE; NONE where it has all of
 * IPv6, whose 2^128 the two halves have no room for. Then `count` is as it was. Allocates, and sorts the networks. */
uint32_t pcidr_count_ipv4(const pcidr_value *networks, size_t networks_len, pcidr_halves *count);
uint32_t pcidr_count_ipv6(const pcidr_value *networks, size_t networks_len, pcidr_halves *count);

/* Address 2^64 * high + low of those of a family, counted from 0, ascending. Errors as above; NONE where there are no more
 * than that. */
uint32_t pcidr_nth_ipv4(const pcidr_value *networks, size_t networks_len, uint64_t high, uint64_t low, pcidr_value *out);
uint32_t pcidr_nth_ipv6(const pcidr_value *networks, size_t networks_len, uint64_t high, uint64_t low, pcidr_value *out);

/* The first network of prefix length `len` all of whose addresses are in a list of networks; or the first one in the network
 * of its set with room for one that has the fewest addresses, of those with as many the first, so that what is large stays
 * whole. Of two families IPv4 comes first, in both calls: pass networks of one for that one. `pcidr_difference_in_place`
 * takes it out. Errors: NO_MEMORY, NO_VALUE; NONE where none is free. Then `out` is as it was. Allocates, and sorts the
 * list. */
uint32_t pcidr_first_free(const pcidr_value *networks, size_t networks_len, uint8_t len, pcidr_value *out);
uint32_t pcidr_best_free(const pcidr_value *networks, size_t networks_len, uint8_t len, pcidr_value *out);

/* For each of the asked networks or addresses, 1 where the list has all of its addresses, and 0 where not, at the same
 * index of `out`, whose further places stay. Errors: NO_VALUE for a value of the list, and then NO_ROOM; `out` is as it was
 * with both. Then NO_VALUE for an asked value, and what `out` has at the places of answers is not specified. NO_MEMORY may
 * come before any answer, and `out` is as it was. Allocates, and sorts the list at each call: pass many at once. */
uint32_t pcidr_contains_each(const pcidr_value *networks, size_t networks_len, const pcidr_value *asked,
                             size_t asked_len, uint8_t *out, size_t out_len);

/* What stands for no index. */
#define PCIDR_NO_INDEX SIZE_MAX

/* The longest match: for each of the asked networks or addresses the index, in `networks`, of the longest network that it
 * is in, and PCIDR_NO_INDEX where it is in none, at the same index of `out`. The networks may be in any order, which is
 * fastest where they ascend; of a network that repeats the last index counts. Errors as above. Allocates, and sorts
 * the networks at each call: pass many at once. */
uint32_t pcidr_longest_match_each(const pcidr_value *networks, size_t networks_len, const pcidr_value *asked,
                                  size_t asked_len, size_t *out, size_t out_len);

/* For each network of a list the index of the smallest other one that contains it, and PCIDR_NO_INDEX where none does, at
 * the same index of `out`. Equal networks do not contain each other here; of a network that repeats the last index counts.
 * Errors as above. Allocates, and sorts the list. */
uint32_t pcidr_nearest_each(const pcidr_value *networks, size_t networks_len, size_t *out, size_t out_len);

/* The indexes of the networks of a list in ascending order, and of equal ones in that of the list (sort); or the same of
 * each network once, where it repeats of the last one (table), which is the order that `pcidr_file_write` takes: the first
 * `count` of `out`. What is behind them stays. Errors: NO_MEMORY, NO_VALUE, NO_ROOM, and with that `count` is how many they
 * are; then `out` is as it was. Allocates, and sorts the list: O(n log n). */
uint32_t pcidr_sort_order(const pcidr_value *networks, size_t networks_len, size_t *out, size_t out_len, size_t *count);
uint32_t pcidr_table_order(const pcidr_value *networks, size_t networks_len, size_t *out, size_t out_len, size_t *count);

/* Rows that change, in an array of networks that ascend, each once, as `pcidr_order` sorts them; their values stand in another
 * array, at the same indexes, and are moved as these are. A call compares as often as a few searches by halving do, and allocates
 * nothing. In networks of another order it finds some index that there is, or none; of a value that is no network the bits after its
 * prefix do not count.
 *
 * Where a network stands: 0 and its index, or NONE, and `index` is the one before which it belongs. Errors: NO_VALUE, where the
 * asked value is no network, and then `index` is as it was. */
uint32_t pcidr_rows_find(const pcidr_value *networks, size_t networks_len, const pcidr_value *asked, size_t *index);

/* Which lengths the networks may have stands in an array of bytes beside them, so that a longest match is not sought among lengths
 * that none has: at index 0 for `any`, and at one more than the prefix length for a network of either family. 0 there says that no
 * network has it. PCIDR_LENGTHS bytes reach all lengths; of one that the array does not reach it says nothing, so that of networks
 * whose lengths are not known it has none, or NULL. Put zeros there before the first network: `pcidr_rows_insert` adds its length,
 * and `pcidr_rows_lengths` those of all networks of an array. Where a network goes, its length stays: that costs time alone. */
#define PCIDR_LENGTHS 130

/* Adds the lengths of all networks: the others stay. Returns 0. */
uint32_t pcidr_rows_lengths(const pcidr_value *networks, size_t networks_len, uint8_t *lengths, size_t lengths_len);

/* The longest network that a network or an address is in, of those lengths: 0 and its index. Errors: NONE, NO_VALUE; `index` is then
 * as it was. */
uint32_t pcidr_rows_longest(const pcidr_value *networks, size_t networks_len, const uint8_t *lengths, size_t lengths_len,
                            const pcidr_value *asked, size_t *index);

/* The networks that are in a network, which may be one of them: those from index `from` on and before index `to`. Errors:
 * NO_VALUE, and both are then as they were. */
uint32_t pcidr_rows_covered(const pcidr_value *networks, size_t networks_len, const pcidr_value *outer, size_t *from, size_t *to);

/* The indexes of all networks that a network or an address is in, ascending, and so the shortest network first: the first `count`
 * of `out`. What is behind them in `out` stays. At most 130 are found, for which there is always room. Errors: NO_VALUE; NO_ROOM,
 * and then `count` is how many they are; `out` is as it was. */
uint32_t pcidr_rows_covering(const pcidr_value *networks, size_t networks_len, const pcidr_value *asked, size_t *out, size_t out_len,
                             size_t *count);

/* Puts a network, with all of its bytes, in its place among the first `count` of an array: the networks from there on move by one,
 * `count` becomes one more, `index` where it stands, and its length is added to `lengths`. Errors: PRESENT where it stands there already, and `index` is where;
 * NO_VALUE; NO_ROOM where the array has no room for one more, or not even for `count`. Then all else is as it was. */
uint32_t pcidr_rows_insert(pcidr_value *networks, size_t networks_len, uint8_t *lengths, size_t lengths_len, size_t *count,
                           const pcidr_value *network, size_t *index);

/* Takes a network out of the first `count` of an array: the networks behind it move by one, `count` becomes one less, and `index`
 * where it stood. What is behind all but one stays, the last one of them too. Errors: NONE where it isn't there, NO_VALUE, and
 * NO_ROOM where the array has no room for `count`. Then all is as it was. */
uint32_t pcidr_rows_remove(pcidr_value *networks, size_t networks_len, size_t *count, const pcidr_value *network, size_t *index);

/* The indexes of the networks of a list that contain a network or an address, or of those that lie in a network: the first
 * `count` of `out`, ascending. In a list that ascends as `pcidr_order` sorts it the networks that contain it come with the
 * shortest first, and those that lie in it are one behind the other. What is behind them in `out` stays. Errors: NO_MEMORY,
 * NO_VALUE, NO_ROOM, and with that `count` is how many they are; then `out` is as it was. Goes once through the list, in
 * any order. Allocates: 8 bytes for each that is found. */
uint32_t pcidr_covering(const pcidr_value *networks, size_t networks_len, const pcidr_value *asked, size_t *out,
                        size_t out_len, size_t *count);
uint32_t pcidr_covered(const pcidr_value *networks, size_t networks_len, const pcidr_value *asked, size_t *out,
                       size_t out_len, size_t *count);

/* ---- access lists: rules in order, of which the first whose network contains an address decides; an address in none
 * of them is denied */

/* A rule. An action of 1 permits the addresses of the network, and any other denies them. */
typedef struct pcidr_rule {
    pcidr_value network;
    uint32_t action;
} pcidr_rule;

PCIDR_ASSERT(sizeof(pcidr_rule) == 32);
PCIDR_ASSERT(offsetof(pcidr_rule, network) == 0);
PCIDR_ASSERT(offsetof(pcidr_rule, action) == 24);

/* 1 where the rules permit the address, and 0 where not, or where one of the values, of any rule, is no network, so
 * that a permission is refused. Of a larger network it tells whether the first rule that contains all of it permits
 * it. Does not allocate; O(n). */
uint32_t pcidr_permits(const pcidr_rule *rules, size_t rules_len, const pcidr_value *address);

/* The set of the addresses that are permitted, in `out`, as of a union. Errors: NO_MEMORY; NO_VALUE for a rule whose
 * value is no network; NO_ROOM. Allocates; O(n log n), and up to 128 times that where denied networks cut permitted ones. */
uint32_t pcidr_permitted(const pcidr_rule *rules, size_t rules_len, pcidr_value *out, size_t out_len, size_t *count);

/* The indexes of the rules that no address reaches, since earlier rules decide each address of their networks: the
 * first `count` of `out`, ascending. Errors as above; with NO_ROOM `count` is how many they are. Allocates;
 * O(n log n). */
uint32_t pcidr_shadowed(const pcidr_rule *rules, size_t rules_len, size_t *out, size_t out_len, size_t *count);

/* The indexes of the rules that decide the addresses of a network, each the first rule for some of them, in `out` as
 * above: of the network of a shadowed rule the earlier rules that cover it. NO_VALUE also where `network` is none. */
uint32_t pcidr_deciding(const pcidr_rule *rules, size_t rules_len, const pcidr_value *network, size_t *out,
                        size_t out_len, size_t *count);

/* ---- routes: whether the origin of a route is valid (RFC 6811), and what a prefix list permits */

/* A validated ROA payload: the AS may announce the network, and those in it up to a prefix length. One of AS 0 matches no route. */
typedef struct pcidr_payload {
    pcidr_value network;
    uint32_t origin;
    uint32_t max_length;
} pcidr_payload;

PCIDR_ASSERT(sizeof(pcidr_payload) == 32);
PCIDR_ASSERT(offsetof(pcidr_payload, network) == 0);
PCIDR_ASSERT(offsetof(pcidr_payload, origin) == 24);
PCIDR_ASSERT(offsetof(pcidr_payload, max_length) == 28);

/* What payloads say of a route: PCIDR_VALID where one matches it, PCIDR_INVALID_LENGTH where its prefix is too long for each of its
 * AS that covers it, PCIDR_INVALID_ORIGIN where those that cover it are of others alone, PCIDR_NOT_FOUND where none covers it. Both
 * in the middle are "Invalid" in RFC 6811. 0 where the route or the network of a payload is none. An `origin` of 2^32 or above stands
 * for no AS, as for a path that ends in a set of them. Does not allocate; O(n). */
#define PCIDR_VALID 1
#define PCIDR_INVALID_LENGTH 2
#define PCIDR_INVALID_ORIGIN 3
#define PCIDR_NOT_FOUND 4
uint32_t pcidr_validity(const pcidr_payload *payloads, size_t payloads_len, const pcidr_value *route, uint64_t origin);

/* A row of a prefix list: it is about the networks in its network whose prefix length is one from `low` to `high`. An action of 1
 * permits them, and any other denies them. */
typedef struct pcidr_prefix_row {
    pcidr_value network;
    uint32_t action;
    uint16_t low;
    uint16_t high;
} pcidr_prefix_row;

PCIDR_ASSERT(sizeof(pcidr_prefix_row) == 32);
PCIDR_ASSERT(offsetof(pcidr_prefix_row, network) == 0);
PCIDR_ASSERT(offsetof(pcidr_prefix_row, action) == 24);
PCIDR_ASSERT(offsetof(pcidr_prefix_row, low) == 28);
PCIDR_ASSERT(offsetof(pcidr_prefix_row, high) == 30);

/* 1 where the first row that is about the network permits it, and 0 where it denies it, where none is about it, or where one of the
 * values is no network. Does not allocate; O(n). */
uint32_t pcidr_list_permits(const pcidr_prefix_row *rows, size_t rows_len, const pcidr_value *network);

/* ---- forwarding: rows of networks with a number each; an address is forwarded to the number of the longest network that it
 * is in. Rows may be in any order; of a network that repeats the last row counts */

typedef struct pcidr_row {
    pcidr_value network;
    uint64_t value; /* any number, such as that of a next hop */
} pcidr_row;

PCIDR_ASSERT(sizeof(pcidr_row) == 32);
PCIDR_ASSERT(offsetof(pcidr_row, network) == 0);
PCIDR_ASSERT(offsetof(pcidr_row, value) == 24);

/* The smallest table with the same forwarding (FIB compression), in `out`, as of a union: each address has the same value in
 * both, or in neither one, and no table of fewer rows has that. Its rows ascend, and are at most as many. Errors: NO_MEMORY;
 * NO_VALUE for a row whose value is no network; NO_ROOM. Allocates; sorts the rows, and goes twice through them. */
uint32_t pcidr_smallest(const pcidr_row *rows, size_t rows_len, pcidr_row *out, size_t out_len, size_t *count);

/* Whether two tables forward the same: 1 or 0 in `answer`. Errors: NO_MEMORY, NO_VALUE; then `answer` is as it was.
 * Allocates, and sorts both. */
uint32_t pcidr_forwards_same(const pcidr_row *these, size_t these_len, const pcidr_row *those, size_t those_len,
                             uint32_t *answer);

/* ---- look-up tables: the longest match, with nothing built at the call
 *
 * A table is made once, of networks of one family, without `any`, that ascend as `pcidr_order` sorts them; none repeats.
 * It is numbers in memory of the caller, without a pointer among them: any number of threads may look up in it, and it may
 * lie in a file that is mapped read-only. Its rows are the indexes of the networks, which a look-up does not read.
 *
 * How much room it takes, hangs on the networks. A call that gives none tells how much is enough:
 *
 *     pcidr_table table = {0};
 *     pcidr_table_sizes sizes;
 *     table.family = 4;
 *     code = pcidr_table_build(&table, networks, rows, &sizes); // PCIDR_NO_ROOM
 *     table.first = malloc(sizes.first * sizeof *table.first), table.first_len = sizes.first;
 *     table.words = malloc(sizes.words * sizeof *table.words), table.words_len = sizes.words;
 *     code = pcidr_table_build(&table, networks, rows, &sizes);
 *     ...
 *     uint32_t row = pcidr_table_lookup(&table, &address);
 *     if (row != PCIDR_NO_ROW) use(networks[row]);
 */

/* Where a table lies. Networks have one table alone, whatever the room is that it is built into. */
typedef struct pcidr_table {
    uint32_t *first; /* an entry for each block of addresses that have the same first bits */
    size_t first_len;
    uint32_t *words; /* the nodes that entries lead to; may be null where there are none */
    size_t words_len;
    uint32_t steps; /* how many steps of six bits there are behind the first bits */
    uint32_t rows;  /* how many networks there are */
    uint32_t family; /* 6, or another number, as 4, for IPv4 */
} pcidr_table;

PCIDR_ASSERT(offsetof(pcidr_table, first) == 0);
PCIDR_ASSERT(offsetof(pcidr_table, first_len) == sizeof(void *));
PCIDR_ASSERT(offsetof(pcidr_table, words) == 2 * sizeof(void *));
PCIDR_ASSERT(offsetof(pcidr_table, words_len) == 3 * sizeof(void *));
PCIDR_ASSERT(offsetof(pcidr_table, steps) == 4 * sizeof(void *));
PCIDR_ASSERT(offsetof(pcidr_table, rows) == 4 * sizeof(void *) + 4);
PCIDR_ASSERT(offsetof(pcidr_table, family) == 4 * sizeof(void *) + 8);

/* What building a table tells besides its code. */
typedef struct pcidr_table_sizes {
    size_t first;   /* how many entries the table has, and so of NO_ROOM how many are room enough */
    size_t words;   /* how many words, likewise */
    size_t index;   /* of NO_VALUE: that of the first value that is refused */
    uint32_t steps; /* how many steps */
} pcidr_table_sizes;

PCIDR_ASSERT(offsetof(pcidr_table_sizes, first) == 0);
PCIDR_ASSERT(offsetof(pcidr_table_sizes, words) == sizeof(size_t));
PCIDR_ASSERT(offsetof(pcidr_table_sizes, index) == 2 * sizeof(size_t));
PCIDR_ASSERT(offsetof(pcidr_table_sizes, steps) == 3 * sizeof(size_t));

/* What stands for no row. */
#define PCIDR_NO_ROW UINT32_MAX

/* These take the arrays one by one, and the functions below pass those of a `pcidr_table` on. A look-up takes the steps and
 * the rows from the table, and nothing else, so that all arguments of one address are in registers. */
uint32_t pcidr_ipv4_table_build(const pcidr_value *networks, size_t networks_len, uint32_t *first, size_t first_len,
                                uint32_t *words, size_t words_len, pcidr_table_sizes *sizes);
uint32_t pcidr_ipv6_table_build(const pcidr_value *networks, size_t networks_len, uint32_t *first, size_t first_len,
                                uint32_t *words, size_t words_len, pcidr_table_sizes *sizes);
uint32_t pcidr_ipv4_table_check(const pcidr_value *networks, size_t networks_len, const uint32_t *first, size_t first_len,
                                const uint32_t *words, size_t words_len, uint32_t steps);
uint32_t pcidr_ipv6_table_check(const pcidr_value *networks, size_t networks_len, const uint32_t *first, size_t first_len,
                                const uint32_t *words, size_t words_len, uint32_t steps);
uint32_t pcidr_ipv4_table_lookup(const uint32_t *first, size_t first_len, const uint32_t *words, size_t words_len,
                                 const pcidr_table *table, const pcidr_value *address);
uint32_t pcidr_ipv6_table_lookup(const uint32_t *first, size_t first_len, const uint32_t *words, size_t words_len,
                                 const pcidr_table *table, const pcidr_value *address);
uint32_t pcidr_ipv4_table_lookup_each(const uint32_t *first, size_t first_len, const uint32_t *words, size_t words_len,
                                      const pcidr_table *table, const pcidr_value *asked, size_t asked_len, uint32_t *out,
                                      size_t out_len);
uint32_t pcidr_ipv6_table_lookup_each(const uint32_t *first, size_t first_len, const uint32_t *words, size_t words_len,
                                      const pcidr_table *table, const pcidr_value *asked, size_t asked_len, uint32_t *out,
                                      size_t out_len);

/* Builds the table of networks into the arrays. Before it `first_len` and `words_len` of the table are for how many there is
 * room, and after PCIDR_OK how many there are; what the arrays have behind these stays. Errors: TOO_MANY networks; NO_VALUE,
 * and `index` of the sizes is that of the first value that is no network of the family, or does not come after the one
 * before it; TOO_MANY words; NO_ROOM, and the sizes are those of the table; NO_MEMORY may come before each. Then `table` is
 * as it was, and so are the arrays. Takes O(n), also of NO_ROOM. Allocates: while it runs the table, and 24 bytes for each
 * network, or 64 in IPv6. */
static inline uint32_t pcidr_table_build(pcidr_table *table, const pcidr_value *networks, size_t networks_len,
                                         pcidr_table_sizes *sizes) {
    uint32_t code = table->family == 6
                        ? pcidr_ipv6_table_build(networks, networks_len, table->first, table->first_len, table->words,
                                                 table->words_len, sizes)
                        : pcidr_ipv4_table_build(networks, networks_len, table->first, table->first_len, table->words,
                                                 table->words_len, sizes);
    if (code == PCIDR_OK) {
        table->first_len = sizes->first;
        table->words_len = sizes->words;
        table->steps = sizes->steps;
        table->rows = (uint32_t)networks_len;
    }
    return code;
}

/* PCIDR_OK where the arrays, as from a file, are the table of the networks, of any number of steps: it is built anew, and
 * compared as it goes. Errors: NO_TABLE where `table->rows` is another number, and of the steps; TOO_MANY networks; NO_VALUE
 * for a network; NO_TABLE for the arrays; NO_MEMORY may come before each. Allocates: while it runs 24 bytes for each network,
 * or 64 in IPv6. */
static inline uint32_t pcidr_table_check(const pcidr_table *table, const pcidr_value *networks, size_t networks_len) {
    if (table->rows != networks_len) return PCIDR_NO_TABLE;
    return table->family == 6 ? pcidr_ipv6_table_check(networks, networks_len, table->first, table->first_len,
                                                       table->words, table->words_len, table->steps)
                              : pcidr_ipv4_table_check(networks, networks_len, table->first, table->first_len,
                                                       table->words, table->words_len, table->steps);
}

/* The longest match: the row of the longest network that an address of the table's family is in, and PCIDR_NO_ROW where it
 * is in none, or where the value is no such address. Whatever the arrays hold, nothing outside of them is read, and a row
 * is below `table->rows`. Takes some tens of nanoseconds; neither allocates nor writes. */
static inline uint32_t pcidr_table_lookup(const pcidr_table *table, const pcidr_value *address) {
    return table->family == 6
               ? pcidr_ipv6_table_lookup(table->first, table->first_len, table->words, table->words_len, table, address)
               : pcidr_ipv4_table_lookup(table->first, table->first_len, table->words, table->words_len, table, address);
}

/* The same of each of many, at the same index of `out`, whose further places stay. Error: NO_ROOM, and `out` is as it
 * was. Does not allocate. */
static inline uint32_t pcidr_table_lookup_each(const pcidr_table *table, const pcidr_value *asked, size_t asked_len,
                                               uint32_t *out, size_t out_len) {
    return table->family == 6 ? pcidr_ipv6_table_lookup_each(table->first, table->first_len, table->words,
                                                             table->words_len, table, asked, asked_len, out, out_len)
                              : pcidr_ipv4_table_lookup_each(table->first, table->first_len, table->words,
                                                             table->words_len, table, asked, asked_len, out, out_len);
}

/* ---- look-up tables in files: the longest match and its value, out of the bytes of a file that is read or mapped
 *
 * A file has a table of IPv4 networks and one of IPv6 networks, and a value of any bytes for each network; a set of
 * addresses is a file whose values are empty. The page of `cidr_files` describes it to the byte. Its bytes lie in memory of
 * the caller, at any place: any number of threads may look up in them. A copy, as examples/file.c makes it, stays as it is
 * whatever becomes of the file. Bytes that are mapped read-only are read as needed and shared by processes, but a look-up in
 * a file that is cut short meanwhile ends the process by SIGBUS, and one that is written to gives any rows: map only what is
 * never changed in its place, where a change is a new file that takes the name of the old one, as `netset compile` does it.
 *
 *     pcidr_file file;
 *     pcidr_found found;
 *     code = pcidr_file_open(bytes, length, &file);
 *     if (code == PCIDR_OK) code = pcidr_file_check(bytes, length);
 *     ...
 *     if (pcidr_file_lookup(bytes, length, &file, &address, &found))
 *         fwrite(bytes + found.value, 1, found.value_len, stdout);
 */

/* Where the parts of one of the two tables lie, in bytes from the beginning of the file, and how many elements they
 * have. */
typedef struct pcidr_file_table {
    size_t first;      /* where the entries of the blocks of addresses begin */
    size_t words;      /* where the words of the nodes begin */
    size_t addresses;  /* where the first addresses of the rows' networks begin */
    size_t lengths;    /* where their prefix lengths begin */
    size_t offsets;    /* where the offsets of the values begin: of each row's, and where the last one ends */
    size_t values;     /* where the values begin */
    size_t values_len; /* how many bytes the values have */
    uint32_t rows;      /* how many rows there are */
    uint32_t entries;   /* how many entries of blocks */
    uint32_t words_len; /* how many words of nodes */
    uint32_t steps;     /* how many steps of six bits a look-up takes at most */
} pcidr_file_table;

/* The two tables of a file. It has no pointer, and is used with the bytes that it was opened from, or the same ones
 * elsewhere. */
typedef struct pcidr_file {
    pcidr_file_table ipv4;
    pcidr_file_table ipv6;
} pcidr_file;

/* What a look-up finds: the row, counted from 0 among those of the address's family, and where its value lies among the
 * bytes of the file. Where it finds none, the row is PCIDR_NO_ROW, and the others are 0. */
typedef struct pcidr_found {
    size_t value;       /* where the value begins */
    uint32_t value_len; /* how many bytes it has */
    uint32_t row;
} pcidr_found;

PCIDR_ASSERT(sizeof(pcidr_file_table) == 72);
PCIDR_ASSERT(offsetof(pcidr_file_table, first) == 0);
PCIDR_ASSERT(offsetof(pcidr_file_table, words) == 8);
PCIDR_ASSERT(offsetof(pcidr_file_table, addresses) == 16);
PCIDR_ASSERT(offsetof(pcidr_file_table, lengths) == 24);
PCIDR_ASSERT(offsetof(pcidr_file_table, offsets) == 32);
PCIDR_ASSERT(offsetof(pcidr_file_table, values) == 40);
PCIDR_ASSERT(offsetof(pcidr_file_table, values_len) == 48);
PCIDR_ASSERT(offsetof(pcidr_file_table, rows) == 56);
PCIDR_ASSERT(offsetof(pcidr_file_table, entries) == 60);
PCIDR_ASSERT(offsetof(pcidr_file_table, words_len) == 64);
PCIDR_ASSERT(offsetof(pcidr_file_table, steps) == 68);
PCIDR_ASSERT(sizeof(pcidr_file) == 144);
PCIDR_ASSERT(offsetof(pcidr_file, ipv4) == 0);
PCIDR_ASSERT(offsetof(pcidr_file, ipv6) == 72);
PCIDR_ASSERT(sizeof(pcidr_found) == 16);
PCIDR_ASSERT(offsetof(pcidr_found, value) == 0);
PCIDR_ASSERT(offsetof(pcidr_found, value_len) == 8);
PCIDR_ASSERT(offsetof(pcidr_found, row) == 12);

/* Says where the tables of a file lie: reads its header, however long it is. It doesn't say that they are tables.
 * Errors, the first of: NO_FILE; OTHER_VERSION; SHORT or LONG. Then `file` is as it was. Does not allocate. */
uint32_t pcidr_file_open(const uint8_t *bytes, size_t bytes_len, pcidr_file *file);

/* PCIDR_OK where the bytes are a file of tables, whose look-ups are built anew and compared. Errors, the first of: NO_FILE;
 * OTHER_VERSION; SHORT or LONG; and of the IPv4 table, then of the IPv6 table: TOO_MANY or NO_VALUE of its networks; NO_TABLE
 * where the look-ups are not theirs; VALUES. NO_MEMORY may come before those of a table. Allocates: the networks of a table
 * and their ranges. */
uint32_t pcidr_file_check(const uint8_t *bytes, size_t bytes_len);

/* The longest match: 1, and `found` has the row of the longest network that the address is in, and its value; or 0,
 * where it is in none, or the value is no address, and then `found` says so. Whatever the bytes and `file` hold,
 * nothing outside of the bytes is read, a row is below the number of rows in `file`, and its value lies in the bytes.
 * In bytes that `pcidr_file_check` accepted, with `file` as `pcidr_file_open` filled it, it is the longest match.
 * Takes some tens of nanoseconds; does not allocate. */
uint32_t pcidr_file_lookup(const uint8_t *bytes, size_t bytes_len, const pcidr_file *file, const pcidr_value *address,
                           pcidr_found *found);

/* The same of each of many, at the same index of `out`, whose further places stay. Error: NO_ROOM, and `out` is as it
 * was. Does not allocate. */
uint32_t pcidr_file_lookup_each(const uint8_t *bytes, size_t bytes_len, const pcidr_file *file, const pcidr_value *asked,
                                size_t asked_len, pcidr_found *out, size_t out_len);

/* 1 where the address is in one of the networks, and 0 where not, or where the value is no address. It reads the same bytes
 * as a look-up, but no offsets and no values. */
uint32_t pcidr_set_has(const uint8_t *bytes, size_t bytes_len, const pcidr_file *file, const pcidr_value *address);

/* The same of each of many, at the same index of `out`, whose further places stay. Error: NO_ROOM, and `out` is as it
 * was. Does not allocate. */
uint32_t pcidr_set_has_each(const uint8_t *bytes, size_t bytes_len, const pcidr_file *file, const pcidr_value *asked,
                            size_t asked_len, uint8_t *out, size_t out_len);

/* Writes the bytes of a file into the front of `out`: PCIDR_OK, and `count` becomes how many they are; what is behind
 * them stays. The networks ascend as `pcidr_order` sorts them, none repeats and none is `any`; so the rows of IPv6 are
 * those behind the rows of IPv4. The value of row i is what `values` has from `offsets[i]` up to `offsets[i + 1]`, so
 * that there is one offset more than networks; the first one is 0, they ascend, and the last one is `values_len`.
 * Errors, the first of: TOO_MANY; VALUES; NO_VALUE, and `count` is the index of the first value that is no network, is
 * `any`, or does not come after the one before it; NO_ROOM, and `count` is how many bytes are room enough. NO_MEMORY
 * may come before each. Then `out` is as it was, and so is `count` but for NO_VALUE and NO_ROOM. Takes O(n) and a pass
 * over the bytes; allocates these and about as much again. */
uint32_t pcidr_file_write(const pcidr_value *networks, size_t networks_len, const uint32_t *offsets, size_t offsets_len,
                          const uint8_t *values, size_t values_len, uint8_t *out, size_t out_len, size_t *count);

/* The same with empty values: the file of a set. Errors: TOO_MANY, NO_VALUE, NO_ROOM and NO_MEMORY, as above. */
uint32_t pcidr_set_write(const pcidr_value *networks, size_t networks_len, uint8_t *out, size_t out_len, size_t *count);

/* ---- MaxMind DB files, as others write them: the network that an address is in and its value, out of the bytes of a file
 *
 * The page of `cidr_mmdb` says what is read where the format leaves something open. The bytes lie in memory of the caller, at any
 * place, as those of the files above; whatever they hold, a call reads nothing outside of them. A value is text: JSON.
 *
 *     pcidr_mmdb file;
 *     pcidr_mmdb_row row;
 *     code = pcidr_mmdb_open(bytes, length, &file);
 *     ...
 *     if (pcidr_mmdb_lookup(bytes, length, &file, &address, &row) == PCIDR_OK && row.found == PCIDR_MMDB_VALUE)
 *         code = pcidr_mmdb_json(bytes, length, &file, row.place, limit, out, sizeof out, &count);
 */

/* Where the parts of a file are. It has no pointer, and is used with the bytes that it was opened from, or the same ones
 * elsewhere. */
typedef struct pcidr_mmdb {
    size_t data_len;      /* how many bytes the data section has */
    uint32_t node_count;  /* how many nodes the search tree has */
    uint32_t record_size; /* how many bits a record has: 24, 28 or 32 */
    uint32_t width;       /* how many bits an address has in the tree: 32 or 128 */
    uint32_t ipv4_start;  /* the record at which look-ups of IPv4 addresses begin */
} pcidr_mmdb;

/* What is found for the addresses of a network: nothing; a value; or the search tree is broken there, by a node behind the last bit or
 * a record that leads nowhere. */
#define PCIDR_MMDB_NOTHING 0
#define PCIDR_MMDB_VALUE 1
#define PCIDR_MMDB_BROKEN 2

/* A network of a file. In a tree of IPv6 those below ::/96 are of IPv4. */
typedef struct pcidr_mmdb_row {
    pcidr_value network;
    size_t place;   /* where the value begins in the data section; 0 where there is none */
    uint32_t found; /* one of the numbers above */
    uint32_t zero;  /* zero in what a call writes */
} pcidr_mmdb_row;

PCIDR_ASSERT(sizeof(pcidr_mmdb) == 24);
PCIDR_ASSERT(offsetof(pcidr_mmdb, data_len) == 0);
PCIDR_ASSERT(offsetof(pcidr_mmdb, node_count) == 8);
PCIDR_ASSERT(offsetof(pcidr_mmdb, record_size) == 12);
PCIDR_ASSERT(offsetof(pcidr_mmdb, width) == 16);
PCIDR_ASSERT(offsetof(pcidr_mmdb, ipv4_start) == 20);
PCIDR_ASSERT(sizeof(pcidr_mmdb_row) == 40);
PCIDR_ASSERT(offsetof(pcidr_mmdb_row, network) == 0);
PCIDR_ASSERT(offsetof(pcidr_mmdb_row, place) == 24);
PCIDR_ASSERT(offsetof(pcidr_mmdb_row, found) == 32);
PCIDR_ASSERT(offsetof(pcidr_mmdb_row, zero) == 36);

/* Says where the parts of a file are. Errors, the first of: NO_MARKER; NO_NODE_COUNT; NO_RECORD_SIZE; NO_IP_VERSION; LONG_TREE. Then
 * `file` is as it was. Reads the last 128 KiB at most, and the first 96 nodes of a walk. Does not allocate. */
uint32_t pcidr_mmdb_open(const uint8_t *bytes, size_t bytes_len, pcidr_mmdb *file);

/* What a file has for an address: `row` becomes the network that its tree has the address in, and what is found for each address of
 * that. An IPv4 address in a tree of IPv6 is one below ::/96; in a tree of IPv4 there is nothing for IPv6. Error: NO_VALUE, where
 * the value is no address, and `row` is as it was. At most 128 steps; does not allocate. */
uint32_t pcidr_mmdb_lookup(const uint8_t *bytes, size_t bytes_len, const pcidr_mmdb *file, const pcidr_value *address,
                           pcidr_mmdb_row *row);

/* The next network for which anything is found, behind that of `row`, or the first where that is `any`; `row` becomes it. So calls
 * one after the other give each network once, in order of their addresses, IPv4 first in a tree of IPv6, those of aliases of IPv4 too.
 * A call passes at most 1,000 networks with nothing: then `row` is the one behind them, whatever it has, and the next call goes on.
 * Errors: NONE where there is none; NO_VALUE where that of `row` is no network. Then `row` is as it was. Does not allocate.
 *
 *     pcidr_mmdb_row row = {{0, 0, 255}, 0, 0, 0};
 *     while (pcidr_mmdb_next(bytes, length, &file, &row) == PCIDR_OK)
 *         if (row.found == PCIDR_MMDB_VALUE) ...
 */
uint32_t pcidr_mmdb_next(const uint8_t *bytes, size_t bytes_len, const pcidr_mmdb *file, pcidr_mmdb_row *row);

/* The value at a place of the data section, as a look-up gave it, as JSON in the front of `out`: `count` becomes how many bytes it has.
 * Errors: MALFORMED, LONG_TEXT where it has more than `limit` bytes, NO_MEMORY; NO_ROOM, and `count` is how many bytes are room
 * enough. Then `out` is as it was. Some values are small in the file and large as a text: choose a limit, such as 1 << 20.
 * Allocates: the text. */
uint32_t pcidr_mmdb_json(const uint8_t *bytes, size_t bytes_len, const pcidr_mmdb *file, size_t place, size_t limit, uint8_t *out,
                         size_t out_len, size_t *count);

/* The same of the metadata. */
uint32_t pcidr_mmdb_metadata(const uint8_t *bytes, size_t bytes_len, const pcidr_mmdb *file, size_t limit, uint8_t *out,
                             size_t out_len, size_t *count);

#ifdef __cplusplus
}
#endif

#endif

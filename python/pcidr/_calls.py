"""The numbers, structs and calls of `pcidr.h`, which `make_calls.py` writes from it."""
from __future__ import annotations

from ctypes import POINTER, Structure, c_char_p, c_size_t, c_uint8, c_uint16, c_uint32, c_uint64, c_void_p

TYPE_CHECKING = False
if TYPE_CHECKING:
    from typing import Any

VERSION = 0x000400
TEXT_ROOM = 44
MESSAGE_ROOM = 100
MASK_ROOM = 80
NAME_ROOM = 73
FAULT_ROOM = 74
LINE_ROOM = 144
BYTES_ROOM = 17
HOST_BITS_REFUSED = 0
HOST_BITS_CLEARED = 1
HOST_BITS_REFUSED_WITH_MASKS = 2
HOST_BITS_CLEARED_WITH_MASKS = 3
NO_INDEX = 0xFFFFFFFFFFFFFFFF
LENGTHS = 130
VALID = 1
INVALID_LENGTH = 2
INVALID_ORIGIN = 3
NOT_FOUND = 4
NO_ROW = 0xFFFFFFFF
MMDB_NOTHING = 0
MMDB_VALUE = 1
MMDB_BROKEN = 2


class Code:
    """What calls return: `OK`, or the error."""

    OK = 0
    NOT_UTF8 = 1
    ADDRESS = 2
    LENGTH = 3
    LENGTH_TOO_LONG = 4
    HOST_PART = 5
    TRUNCATED = 6
    TAG = 7
    ANY = 8
    FAMILY = 9
    NO_VALUE = 10
    NO_ROOM = 11
    NO_MEMORY = 12
    WRAPPED = 13
    NOT_ADDRESS = 14
    TOO_MANY = 15
    NO_TABLE = 17
    NO_FILE = 18
    OTHER_VERSION = 19
    SHORT = 20
    LONG = 21
    VALUES = 22
    NONE = 23
    NO_SLASH = 24
    MASK = 25
    SCATTERED = 26
    LINE_TOO_LONG = 27
    TWO_FAMILIES = 28
    REVERSED = 29
    PRESENT = 30
    NO_MARKER = 31
    NO_NODE_COUNT = 32
    NO_RECORD_SIZE = 33
    NO_IP_VERSION = 34
    LONG_TREE = 35
    MALFORMED = 36
    LONG_TEXT = 37


class Value(Structure):
    """`pcidr_value`."""

    high: int
    low: int
    tag: int
    _fields_ = [("high", c_uint64), ("low", c_uint64), ("tag", c_uint8)]


class Halves(Structure):
    """`pcidr_halves`."""

    high: int
    low: int
    _fields_ = [("high", c_uint64), ("low", c_uint64)]


class PlanRow(Structure):
    """`pcidr_plan_row`."""

    network: Value
    line: int
    name: int
    name_len: int
    _fields_ = [("network", Value), ("line", c_uint64), ("name", c_size_t), ("name_len", c_size_t)]


class PlanFault(Structure):
    """`pcidr_plan_fault`."""

    line: int
    text: int
    text_len: int
    code: int
    _fields_ = [("line", c_uint64), ("text", c_size_t), ("text_len", c_size_t), ("code", c_uint32)]


class Special(Structure):
    """`pcidr_special`."""

    high: int
    low: int
    rfc: int
    len: int
    purpose: int
    source: int
    destination: int
    forwardable: int
    globally_reachable: int
    reserved_by_protocol: int
    _fields_ = [("high", c_uint64), ("low", c_uint64), ("rfc", c_uint16), ("len", c_uint8), ("purpose", c_uint8), ("source", c_uint8),
        ("destination", c_uint8), ("forwardable", c_uint8), ("globally_reachable", c_uint8), ("reserved_by_protocol", c_uint8)]


class Range(Structure):
    """`pcidr_range`."""

    first: Value
    last: Value
    _fields_ = [("first", Value), ("last", Value)]


class Rule(Structure):
    """`pcidr_rule`."""

    network: Value
    action: int
    _fields_ = [("network", Value), ("action", c_uint32)]


class Payload(Structure):
    """`pcidr_payload`."""

    network: Value
    origin: int
    max_length: int
    _fields_ = [("network", Value), ("origin", c_uint32), ("max_length", c_uint32)]


class PrefixRow(Structure):
    """`pcidr_prefix_row`."""

    network: Value
    action: int
    low: int
    high: int
    _fields_ = [("network", Value), ("action", c_uint32), ("low", c_uint16), ("high", c_uint16)]


class Row(Structure):
    """`pcidr_row`."""

    network: Value
    value: int
    _fields_ = [("network", Value), ("value", c_uint64)]


class Table(Structure):
    """`pcidr_table`."""

    first: int | None
    first_len: int
    words: int | None
    words_len: int
    steps: int
    rows: int
    family: int
    _fields_ = [("first", c_void_p), ("first_len", c_size_t), ("words", c_void_p), ("words_len", c_size_t), ("steps", c_uint32), ("rows",
        c_uint32), ("family", c_uint32)]


class TableSizes(Structure):
    """`pcidr_table_sizes`."""

    first: int
    words: int
    index: int
    steps: int
    _fields_ = [("first", c_size_t), ("words", c_size_t), ("index", c_size_t), ("steps", c_uint32)]


class FileTable(Structure):
    """`pcidr_file_table`."""

    first: int
    words: int
    addresses: int
    lengths: int
    offsets: int
    values: int
    values_len: int
    rows: int
    entries: int
    words_len: int
    steps: int
    _fields_ = [("first", c_size_t), ("words", c_size_t), ("addresses", c_size_t), ("lengths", c_size_t), ("offsets", c_size_t), ("values",
        c_size_t), ("values_len", c_size_t), ("rows", c_uint32), ("entries", c_uint32), ("words_len", c_uint32), ("steps", c_uint32)]


class File(Structure):
    """`pcidr_file`."""

    ipv4: FileTable
    ipv6: FileTable
    _fields_ = [("ipv4", FileTable), ("ipv6", FileTable)]


class Found(Structure):
    """`pcidr_found`."""

    value: int
    value_len: int
    row: int
    _fields_ = [("value", c_size_t), ("value_len", c_uint32), ("row", c_uint32)]


class Mmdb(Structure):
    """`pcidr_mmdb`."""

    data_len: int
    node_count: int
    record_size: int
    width: int
    ipv4_start: int
    _fields_ = [("data_len", c_size_t), ("node_count", c_uint32), ("record_size", c_uint32), ("width", c_uint32), ("ipv4_start", c_uint32)]


class MmdbRow(Structure):
    """`pcidr_mmdb_row`."""

    network: Value
    place: int
    found: int
    zero: int
    _fields_ = [("network", Value), ("place", c_size_t), ("found", c_uint32), ("zero", c_uint32)]


SIGNATURES = """
version:a read_address:abcd read_loose_address:abcd read_host:abcd read_network:abcd read_short_network:abcd read_masked_network:abcd
read_reverse_name:abcd read_lines:abcecf read_list:abcaecfgbc read_plan:abcaecfecf plan_message:abcabc print_address:cdbc print_host:cdbc
print_host_with_length:cdbc print_network:cdbc print_network_with_length:cdbc print_exploded_address:cdbc print_exploded_host:cdbc
print_with_mask:cdbc print_with_host_mask:cdbc print_host_with_mask:cdbc print_host_with_host_mask:cdbc print_reverse_name:cdbc
print_reverse_zone:cdcbc print_lines:aecbcf message:cabc text_fault:cbcbc network_to_bytes:cdec host_to_bytes:cdec network_from_bytes:aecdf
host_from_bytes:aecdf first_by_value:ahd last_by_value:ahd mask_by_value:ahd address_by_value:ahd network_by_value:ahd
step_up_by_value:ahiid step_down_by_value:ahiid at_by_value:ahiid host_mask_by_value:ahd first_usable_by_value:ahd last_usable_by_value:ahd
nth_by_value:ahiid supernet_by_value:ahjd parent_by_value:ahd network_halves_by_value:ahdd subnet_by_value:ahjiid sibling_by_value:ahd
next_network_by_value:ahd previous_network_by_value:ahd ipv6_mapped_by_value:ahd ipv4_mapped_by_value:ahd ipv4_6to4_by_value:ahd
ipv4_nat64_by_value:ahd usable_count:adf address_count:adk position:addk subnets:adjiiecf mask_length:adl host_mask_length:adl
special_entry:adm is_global:ad is_private:ad is_loopback:ad is_link_local:ad is_documentation:ad is_unspecified:ad is_multicast:ad check:ad
contains:add overlaps:add is_sibling_of:add spanning:addd compare:add compare_hosts:add cover:aecf union:aecececf intersection:aecececf
difference:aecececf symmetric_difference:aecececf union_in_place:aecfec intersection_in_place:aecfec difference_in_place:aecfec
complement:aecdecf is_subset:aececn is_disjoint:aececn summarize:addecf ranges:aececf count_ipv4:aeck count_ipv6:aeck nth_ipv4:aeciid
nth_ipv6:aeciid first_free:aecjd best_free:aecjd contains_each:aececec longest_match_each:aececec nearest_each:aecec sort_order:aececf
table_order:aececf rows_find:aecdf rows_lengths:aecec rows_longest:aececdf rows_covered:aecdff rows_covering:aecdecf rows_insert:aececfdf
rows_remove:aecfdf covering:aecdecf covered:aecdecf permits:aecd permitted:aececf shadowed:aececf deciding:aecdecf validity:aecdi
list_permits:aecd smallest:aececf forwards_same:aececn ipv4_table_build:aecececo ipv6_table_build:aecececo ipv4_table_check:aecececa
ipv6_table_check:aecececa ipv4_table_lookup:aececpd ipv6_table_lookup:aececpd ipv4_table_lookup_each:aececpecec
ipv6_table_lookup_each:aececpecec file_open:aecq file_check:aec file_lookup:aecqdr file_lookup_each:aecqecec set_has:aecqd
set_has_each:aecqecec file_write:aececececf set_write:aececf mmdb_open:aecs mmdb_lookup:aecsdt mmdb_next:aecst mmdb_json:aecsccecf
mmdb_metadata:aecscecf
"""


def signatures() -> dict[str, list[Any]]:
    """Of each call the result and the parameters."""
    kinds = dict(zip("abcdefghijklmnopqrst", (c_uint32, c_char_p, c_size_t, POINTER(Value), c_void_p, POINTER(c_size_t), POINTER(c_uint64),
        Value, c_uint64, c_uint8, POINTER(Halves), POINTER(c_uint8), POINTER(Special), POINTER(c_uint32), POINTER(TableSizes),
        POINTER(Table), POINTER(File), POINTER(Found), POINTER(Mmdb), POINTER(MmdbRow))))
    found = (each.split(":") for each in SIGNATURES.split())
    return {name: [*map(kinds.__getitem__, letters)] for name, letters in found}

"""Enums of `pcidr.h`, which `make_calls.py` writes from it."""
from __future__ import annotations

from enum import IntEnum


class Purpose(IntEnum):
    """`PCIDR_PURPOSE_..`."""

    __module__ = "pcidr"
    THIS_NETWORK = 0
    UNSPECIFIED = 1
    PRIVATE_USE = 2
    UNIQUE_LOCAL = 3
    SHARED_ADDRESS_SPACE = 4
    LOOPBACK = 5
    LINK_LOCAL = 6
    PROTOCOL_ASSIGNMENTS = 7
    SERVICE_CONTINUITY = 8
    DUMMY = 9
    PORT_CONTROL_ANYCAST = 10
    TURN_ANYCAST = 11
    SERVICE_REGISTRATION_ANYCAST = 12
    NAT64_DISCOVERY = 13
    DOCUMENTATION = 14
    AS112 = 15
    DIRECT_AS112 = 16
    MULTICAST_TUNNELING = 17
    SIX_TO_FOUR_RELAY = 18
    SIX_A44_RELAY = 19
    SIX_TO_FOUR = 20
    BENCHMARKING = 21
    RESERVED = 22
    LIMITED_BROADCAST = 23
    IPV4_MAPPED = 24
    TRANSLATION = 25
    DISCARD_ONLY = 26
    TEREDO = 27
    DEPRECATED_ORCHID = 28
    ORCHID_V2 = 29
    DRONE_REMOTE_ID = 30
    SEGMENT_ROUTING = 31
    THIS_HOST = 32

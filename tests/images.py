"""Assemblies made for tests: a PE file of one section, which holds the CLI header and then the metadata (ECMA-335 II.24.2, II.25)."""

import struct

ADDRESS, RAW = 0x2000, 0x400  # of the section, in memory and in the file
CLI = ADDRESS + 8
METADATA = CLI + 72
PLACE_OF_HEADER, HEADER = 0x3C, 0x80


def root(named, version=b"v4.0.30319\0\0"):
    """Metadata with streams of these names."""
    head = b"BSJB" + struct.pack("<HHII", 1, 1, 0, len(version)) + version + struct.pack("<HH", 0, len(named))
    at = len(head) + sum(8 + len(padded(name)) for name, _ in named)
    places, contents = b"", b""
    for name, content in named:
        places += struct.pack("<II", at + len(contents), len(content)) + padded(name)
        contents += content
    return head + places + contents


def padded(name):
    return name + bytes(4 - len(name) % 4)


def image(metadata, magic=0x10B, directories=16, cli=CLI):
    optional = struct.pack("<H", magic) + bytes(90 if magic == 0x10B else 106) + struct.pack("<I", directories)
    table = [(0, 0)] * directories
    if directories > 14:
        table[14] = (cli, 72)
    optional += b"".join(struct.pack("<II", *entry) for entry in table)
    body = bytes(CLI - ADDRESS) + struct.pack("<IHHII", 72, 2, 5, METADATA, len(metadata)) + bytes(56) + metadata
    section = b".text\0\0\0" + struct.pack("<IIII", len(body), ADDRESS, len(body), RAW) + bytes(16)
    header = b"PE\0\0" + struct.pack("<HHIIIHH", 0x14C, 1, 0, 0, 0, len(optional), 0x2102)
    start = b"MZ" + bytes(PLACE_OF_HEADER - 2) + struct.pack("<I", HEADER)
    return (start.ljust(HEADER, b"\0") + header + optional + section).ljust(RAW, b"\0") + body

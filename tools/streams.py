"""Cuts the streams that the programs read out of a .NET assembly (ECMA-335 II.24.2, II.25)."""

import struct

MOST_BYTES = 65536  # of the program's input
CLI_DIRECTORY = 14
HEAPS = "#Strings", "#Blob"


class Unfit(Exception):
    """Why a file has no streams to list. The text is meant for the user."""


def part(data, at, size, what, whole="file"):
    if at + size > len(data):
        raise Unfit("damaged: %s lies past the end of the %s (%d bytes at %d, and the %s has %d)"
                    % (what, whole, size, at, whole, len(data)))
    return data[at:at + size]


def fields(layout, data, at, what, whole="file"):
    layout = "<" + layout
    return struct.unpack(layout, part(data, at, struct.calcsize(layout), what, whole))


class Image:
    """A PE file: its data directories, and what lies at an address (II.25.2, II.25.3)."""

    def __init__(self, data):
        if data[:2] != b"MZ":
            raise Unfit("no PE file: it does not begin with MZ")
        self.data = data
        header, = fields("I", data, 0x3C, "the place of the PE header")
        if part(data, header, 4, "the PE signature") != b"PE\0\0":
            raise Unfit("no PE file: there is no PE signature at %d" % header)
        sections, optional_size = fields("2xH12xH", data, header + 4, "the file header")
        optional = header + 24
        magic, = fields("H", data, optional, "the optional header")
        if magic not in (0x10B, 0x20B):
            raise Unfit("damaged: the optional header has the magic number 0x%X" % magic)
        self.directories = optional + (96 if magic == 0x10B else 112)
        self.directories_end = optional + optional_size
        self.directory_count, = fields("I", data, self.directories - 4, "the optional header")
        self.sections = [fields("4I", data, self.directories_end + 40 * i + 8, "the section table") for i in range(sections)]

    def directory(self, number):
        """The address and size of a data directory, which is 0, 0 where there is none."""
        at = self.directories + 8 * number
        if number >= self.directory_count or at + 8 > self.directories_end:
            return 0, 0
        return fields("II", self.data, at, "the data directories")

    def at(self, address, size, what):
        for virtual_size, start, raw_size, raw_start in self.sections:
            if start <= address < start + max(virtual_size, raw_size):
                return part(self.data, raw_start + address - start, size, what)
        raise Unfit("damaged: %s is in no section (address 0x%X)" % (what, address))


def metadata(data):
    """The metadata of a PE file, by its CLI header (II.25.3.3)."""
    image = Image(data)
    address, _ = image.directory(CLI_DIRECTORY)
    if address == 0:
        raise Unfit("no .NET assembly: the PE file has no CLI header")
    place, size = struct.unpack_from("<II", image.at(address, 72, "the CLI header"), 8)
    return image.at(place, size, "the metadata")


def directory(root):
    """The place and size of each stream by its name, the first one of a name (II.24.2.1, II.24.2.2)."""
    if root[:4] != b"BSJB":
        raise Unfit("damaged: the metadata does not begin with BSJB")
    version_size, = fields("I", root, 12, "the length of the version", "metadata")
    at = 16 + version_size
    count, = fields("2xH", root, at, "the count of streams", "metadata")
    at += 4
    found = {}
    for _ in range(count):
        place = fields("II", root, at, "the stream directory", "metadata")
        end = root.find(b"\0", at + 8, at + 8 + 32)
        if end < 0:
            raise Unfit("damaged: the name of a stream has no end (at %d in the metadata)" % (at + 8))
        found.setdefault(root[at + 8:end].decode("latin-1"), place)
        at = end + 4 - (end - at) % 4
    return found


def streams(data):
    """Tables, strings, blob. A heap that is not there is empty."""
    root = metadata(data)
    found = directory(root)
    tables = next((name for name in ("#~", "#-") if name in found), None)
    if tables is None:
        raise Unfit("no tables stream: there is neither #~ nor #-, but %s" % (", ".join(map(ascii, found)) or "no stream at all"))
    return [part(root, *found.get(name, (0, 0)), "the stream " + name, "metadata") for name in (tables, *HEAPS)]


def absent_heaps(data):
    """The names of the heaps that are not there."""
    found = directory(metadata(data))
    return [name for name in HEAPS if name not in found]


def bundle(tables, strings, blob):
    """The three streams as the programs read them."""
    lengths = "tables=%d\nstrings=%d\nblob=%d\n" % (len(tables), len(strings), len(blob))
    made = lengths.encode() + tables + strings + blob
    if len(made) > MOST_BYTES:
        raise Unfit("too large: the tables have %d bytes, the strings %d, the blobs %d, with their lengths %d; the program takes %d"
                    % (len(tables), len(strings), len(blob), len(made), MOST_BYTES))
    return made

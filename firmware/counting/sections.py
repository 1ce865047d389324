"""The sections of a 32-bit little-endian ELF file, and a reader of their bytes."""
import struct
import zlib

NO_BITS = 8
COMPRESSED = 0x800


class Bytes:
    """Bytes that are read from a place on."""

    def __init__(self, data, at=0):
        self.data, self.at = data, at

    def take(self, form):
        """A number, by its letter of the module struct."""
        value, = struct.unpack_from(f"<{form}", self.data, self.at)
        self.at += struct.calcsize(form)
        return value

    def leb(self, signed=False):
        """A LEB128 number."""
        value = shift = 0
        more = True
        while more:
            byte = self.take("B")
            value |= (byte & 127) << shift
            shift += 7
            more = byte > 127
        return value - (1 << shift) if signed and byte & 64 else value

    def text(self):
        """A text that ends in a zero byte."""
        end = self.data.index(b"\0", self.at)
        value = self.data[self.at:end].decode(errors="replace")
        self.at = end + 1
        return value


def sections_of(data):
    """The bytes of each section that has some, by name."""
    start, = struct.unpack_from("<I", data, 32)
    size, count, names = struct.unpack_from("<HHH", data, 46)
    headers = [struct.unpack_from("<10I", data, start + size * it) for it in range(count)]
    found = {}
    for name, kind, flags, _, offset, length, *_ in headers:
        if kind != NO_BITS:
            content = data[offset:offset + length]
            found[Bytes(data, headers[names][4] + name).text()] = zlib.decompress(content[12:]) if flags & COMPRESSED else content
    return found

"""Encodes histograms in the versions 0, 1 and 2 of HdrHistogram's format, and compresses them."""
import base64
import struct
import zlib

PLAIN = {0: 0x1C849308, 1: 0x1C849301, 2: 0x1C849303}
COMPRESSED = {0: 0x1C849309, 1: 0x1C849302, 2: 0x1C849304}


def varint(number):
    """The bytes of a number of 64 bits, its sign in the lowest bit; a ninth byte has eight bits."""
    number, found = (number << 1 if number >= 0 else (-number << 1) - 1), bytearray()
    while number >= 128 and len(found) < 8:
        found.append(number & 127 | 128)
        number >>= 7
    return bytes(found) + bytes([number])


def bins(model, length):
    """The counts of so many classes."""
    counts = [0] * length
    for lowest, count in model.counts.items():
        counts[model.scale.index(lowest)] = count
    return counts


def zeros(number, single):
    """Counts of 0 in a row: `single` for one of them, and otherwise the negative number of them."""
    return b"" if number == 0 else varint(single if number == 1 else -number)


def payload_of_2(model, single):
    found, next_ = bytearray(), 0
    for lowest in model.classes:
        index = model.scale.index(lowest)
        found += zeros(index - next_, single) + varint(model.counts[lowest])
        next_ = index + 1
    return bytes(found) or varint(single)


def word_size(model):
    """The bytes of a count in versions 0 and 1: one of the sizes that hold the greatest count as a signed number."""
    greatest = max(model.counts.values(), default=0)
    sizes = [size for size in (2, 4, 8) if greatest < 1 << 8 * size - 1]
    return sizes[model.total % len(sizes)]


def encode(model, version, single=0):
    """The bytes of a histogram: version 0 has the counts of all classes. In version 2 one count of 0 is `single`."""
    size = 1 if version == 2 else word_size(model)
    cookie = PLAIN[version] | size << 4
    if version == 2:
        payload = payload_of_2(model, single)
    else:
        length = model.scale.length(model.high) if version == 0 else model.last() + 1
        payload = b"".join(count.to_bytes(size, "big") for count in bins(model, length))
    if version == 0:
        return struct.pack(">IIQQQ", cookie, model.sigfig, model.low, model.high, model.total) + payload
    return struct.pack(">IIIIQQd", cookie, len(payload), 0, model.sigfig, model.low, model.high, 1.0) + payload


def compress(plain, version):
    """The same bytes as a zlib stream, after a cookie with their word size, and the stream's length."""
    stream = zlib.compress(plain)
    size = plain[3] & 0xF0
    return struct.pack(">II", COMPRESSED[version] | size, len(stream)) + stream


def decompressed(data):
    """The bytes in compressed V2 bytes, or None."""
    if data[:8] != struct.pack(">II", COMPRESSED[2] | 0x10, len(data) - 8):
        return None
    try:
        return zlib.decompress(data[8:])
    except zlib.error:
        return None


def field(model, version, is_compressed):
    """The Base64 of a line of a log."""
    plain = encode(model, version)
    return base64.b64encode(compress(plain, version) if is_compressed else plain).decode()

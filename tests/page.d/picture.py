"""A PNG with at most 256 colours of a PNG with 8 bits a channel, which is a third as long."""
import collections
import struct
import zlib


def chunks(data):
    at = 8
    while at < len(data):
        length, kind = struct.unpack('>I4s', data[at:at + 8])
        yield kind, data[at + 8:at + 8 + length]
        at += 12 + length


def paeth(a, b, c):
    p = a + b - c
    return min((abs(p - a), 0, a), (abs(p - b), 1, b), (abs(p - c), 2, c))[2]


def unfiltered(kind, row, above, n):
    """A row as it was before its filter; n bytes are a pixel."""
    out = bytearray(row)
    for i in range(len(out)):
        left = out[i - n] if i >= n else 0
        corner = above[i - n] if i >= n else 0
        out[i] = (out[i] + [0, left, above[i], (left + above[i]) // 2, paeth(left, above[i], corner)][kind]) & 255
    return out


def rows_of(data):
    """The rows of a picture, as lists of colours of five bits a channel."""
    parts = list(chunks(data))
    width, height, _, color = struct.unpack('>IIBB', parts[0][1][:10])
    n = {2: 3, 6: 4}[color]
    raw = zlib.decompress(b''.join(part for kind, part in parts if kind == b'IDAT'))
    above = bytes(n * width)
    for y in range(height):
        line = raw[y * (n * width + 1):(y + 1) * (n * width + 1)]
        above = unfiltered(line[0], line[1:], above, n)
        yield [(above[i] & 248, above[i + 1] & 248, above[i + 2] & 248) for i in range(0, n * width, n)]


def smaller(data):
    rows = list(rows_of(data))
    palette = [color for color, _ in collections.Counter(color for row in rows for color in row).most_common(256)]
    nearest = {color: k for k, color in enumerate(palette)}
    for color in {color for row in rows for color in row} - set(palette):
        nearest[color] = min(range(len(palette)), key=lambda k: sum((x - y) ** 2 for x, y in zip(palette[k], color)))
    chunk = lambda kind, part: struct.pack('>I', len(part)) + kind + part + struct.pack('>I', zlib.crc32(kind + part))
    head = struct.pack('>IIBBBBB', len(rows[0]), len(rows), 8, 3, 0, 0, 0)
    colors = b''.join(bytes(min(255, x + (x >> 5)) for x in color) for color in palette)
    body = zlib.compress(b''.join(b'\0' + bytes(nearest[color] for color in row) for row in rows), 9)
    return data[:8] + chunk(b'IHDR', head) + chunk(b'PLTE', colors) + chunk(b'IDAT', body) + chunk(b'IEND', b'')

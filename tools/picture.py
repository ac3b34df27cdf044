"""Makes a PNG small: its pixels become places in a palette of the colours that it has most."""
import collections
import struct
import zlib

MOST_COLOURS = 256


def chunks(png):
    at = 8
    while at < len(png):
        size, kind = struct.unpack(">I4s", png[at : at + 8])
        yield kind, png[at + 8 : at + 8 + size]
        at += 12 + size


def paeth(left, above, corner):
    guess = left + above - corner
    return min((abs(guess - left), 0, left), (abs(guess - above), 1, above), (abs(guess - corner), 2, corner))[2]


def unfiltered(kind, line, above, step):
    """A line of bytes as it was before its filter."""
    for at in range(len(line)):
        left = line[at - step] if at >= step else 0
        corner = above[at - step] if at >= step else 0
        add = (0, left, above[at], (left + above[at]) // 2, paeth(left, above[at], corner))[kind] if kind else 0
        line[at] = (line[at] + add) & 255
    return line


def lines_of(png):
    """The width of a picture, and its lines of pixels, each of three bytes."""
    parts = collections.defaultdict(bytes)
    for kind, data in chunks(png):
        parts[kind] += data
    wide, high, depth, colours = struct.unpack(">IIBB", parts[b"IHDR"][:10])
    assert depth == 8 and colours in (2, 6)
    step = 3 if colours == 2 else 4
    raw, above, lines = zlib.decompress(parts[b"IDAT"]), bytearray(wide * step), []
    for row in range(high):
        from_ = row * (wide * step + 1)
        above = unfiltered(raw[from_], bytearray(raw[from_ + 1 : from_ + 1 + wide * step]), above, step)
        lines.append([bytes(above[at : at + 3]) for at in range(0, len(above), step)])
    return wide, lines


def nearest(colour, palette):
    return min(range(len(palette)), key=lambda at: sum((a - b) ** 2 for a, b in zip(colour, palette[at])))


def shrunk(png):
    wide, lines = lines_of(png)
    counts = collections.Counter(colour for line in lines for colour in line)
    palette = [colour for colour, _ in counts.most_common(MOST_COLOURS)]
    places = {colour: at for at, colour in enumerate(palette)}
    for colour in counts:
        if colour not in places:
            places[colour] = nearest(colour, palette)
    raw = b"".join(b"\0" + bytes(places[colour] for colour in line) for line in lines)

    def chunk(kind, data):
        return struct.pack(">I", len(data)) + kind + data + struct.pack(">I", zlib.crc32(kind + data))

    head = struct.pack(">IIBBBBB", wide, len(lines), 8, 3, 0, 0, 0)
    parts = [(b"IHDR", head), (b"PLTE", b"".join(palette)), (b"IDAT", zlib.compress(raw, 9)), (b"IEND", b"")]
    return png[:8] + b"".join(chunk(kind, data) for kind, data in parts)

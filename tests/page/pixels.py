"""Colours of screenshots: the pixels of a PNG, contrasts by WCAG 2, and differences by CIEDE2000."""

import math
import struct
import zlib


def unfiltered(kind, line, above, size):
    """Returns a line of a PNG without its filter. A pixel has `size` bytes."""
    for i, value in enumerate(line):
        left, up, corner = line[i - size] if i >= size else 0, above[i], above[i - size] if i >= size else 0
        guess = left + up - corner
        nearest = min((left, up, corner), key=lambda x: abs(guess - x))
        line[i] = (value + (0, left, up, (left + up) // 2, nearest)[kind]) & 255
    return line


def pixels_of(data):
    """Returns the lines of a PNG with 8 bits for each channel, as bytes, and the number of bytes of a pixel."""
    at, packed = 8, b""
    while at < len(data):
        length, kind = struct.unpack(">I4s", data[at:at + 8])
        body = data[at + 8:at + 8 + length]
        if kind == b"IHDR":
            width, _, depth, colours = struct.unpack(">IIBB", body[:10])
        packed += body if kind == b"IDAT" else b""
        at += 12 + length
    if depth != 8 or colours not in (2, 6):
        raise ValueError("a PNG of another kind")
    size = 3 if colours == 2 else 4
    raw, lines, above = zlib.decompress(packed), [], bytearray(width * size)
    for start in range(0, len(raw), 1 + width * size):
        above = unfiltered(raw[start], bytearray(raw[start + 1:start + 1 + width * size]), above, size)
        lines.append(above)
    return lines, size


def colour_at(pixels, x, y):
    lines, size = pixels
    return tuple(lines[int(y)][size * int(x):size * int(x) + 3])


def linear(colour):
    return [v / 12.92 if v <= 0.04045 else ((v + 0.055) / 1.055) ** 2.4 for v in (channel / 255 for channel in colour)]


def contrast(a, b):
    low, high = sorted(sum(w * v for w, v in zip((0.2126, 0.7152, 0.0722), linear(colour))) for colour in (a, b))
    return (high + 0.05) / (low + 0.05)


def lab(colour):
    """Returns a colour in CIELAB, for the white point D65."""
    def root(t):
        return t ** (1 / 3) if t > 216 / 24389 else (24389 / 27 * t + 16) / 116

    red, green, blue = linear(colour)
    x = root((0.4124 * red + 0.3576 * green + 0.1805 * blue) / 0.9505)
    y = root(0.2126 * red + 0.7152 * green + 0.0722 * blue)
    z = root((0.0193 * red + 0.1192 * green + 0.9505 * blue) / 1.089)
    return 116 * y - 16, 500 * (x - y), 200 * (y - z)


def difference(colour, other):
    """Returns the difference of two colours by CIEDE2000."""
    (l1, a1, b1), (l2, a2, b2) = lab(colour), lab(other)
    chroma = (math.hypot(a1, b1) + math.hypot(a2, b2)) / 2
    grey = 1.5 - math.sqrt(chroma ** 7 / (chroma ** 7 + 25 ** 7)) / 2
    c1, c2 = math.hypot(grey * a1, b1), math.hypot(grey * a2, b2)
    h1, h2 = (math.degrees(math.atan2(b, grey * a)) % 360 for a, b in ((a1, b1), (a2, b2)))
    turn = 0 if c1 * c2 == 0 else (h2 - h1 + 180) % 360 - 180
    lightness, chroma = (l1 + l2) / 2, (c1 + c2) / 2
    hue = h1 + h2 if c1 * c2 == 0 else h1 + turn / 2
    hues = 2 * math.sqrt(c1 * c2) * math.sin(math.radians(turn / 2))
    wave = (1 - 0.17 * math.cos(math.radians(hue - 30)) + 0.24 * math.cos(math.radians(2 * hue))
            + 0.32 * math.cos(math.radians(3 * hue + 6)) - 0.2 * math.cos(math.radians(4 * hue - 63)))
    for_lightness = 1 + 0.015 * (lightness - 50) ** 2 / math.sqrt(20 + (lightness - 50) ** 2)
    for_chroma, for_hue = 1 + 0.045 * chroma, 1 + 0.015 * chroma * wave
    blue = 60 * math.exp(-(((hue % 360) - 275) / 25) ** 2)
    crossed = -2 * math.sqrt(chroma ** 7 / (chroma ** 7 + 25 ** 7)) * math.sin(math.radians(blue))
    lights, chromas, hues = (l2 - l1) / for_lightness, (c2 - c1) / for_chroma, hues / for_hue
    return math.sqrt(lights ** 2 + chromas ** 2 + hues ** 2 + crossed * chromas * hues)

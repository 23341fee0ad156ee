"""Pictures of narbeddo.html for the pages: light, dark, narrow and paper, as small PNG files."""
import base64
import collections
import struct
import time
import zlib

COLOURS = 160
# width, height, the colour scheme, the medium, and the tab that is open
PICTURES = {
    "light": (1180, 900, "light", "screen", "program"), "dark": (1180, 900, "dark", "screen", "scenario"),
    "narrow": (380, 1500, "light", "screen", "plate"), "paper": (720, 1000, "light", "print", "program"),
}


def pixels(png):
    """The pixels of a PNG file of 8 bits a channel, as rows of (red, green, blue)."""
    at, packed = 8, b""
    while at < len(png):
        length, kind = struct.unpack(">I4s", png[at:at + 8])
        chunk = png[at + 8:at + 8 + length]
        if kind == b"IHDR":
            wide, high, _, colour = struct.unpack(">IIBB", chunk[:10])
        packed += chunk if kind == b"IDAT" else b""
        at += 12 + length
    size, plain, above = {2: 3, 6: 4}[colour], zlib.decompress(packed), bytearray(wide * 4)
    for row in range(high):
        begin = row * (wide * size + 1)
        line = unfiltered(plain[begin], bytearray(plain[begin + 1:begin + 1 + wide * size]), above, size)
        yield [tuple(line[place:place + 3]) for place in range(0, wide * size, size)]
        above = line


def unfiltered(kind, line, above, size):
    """A row of a PNG file without its filter."""
    for place in range(len(line)):
        left, up, corner = line[place - size] if place >= size else 0, above[place], above[place - size] if place >= size else 0
        if kind == 4:
            distances = [abs(up - corner), abs(left - corner), abs(left + up - 2 * corner)]
            guess = (left, up, corner)[distances.index(min(distances))]
        else:
            guess = (0, left, up, (left + up) // 2)[kind]
        line[place] = (line[place] + guess) & 255
    return line


def chunk(kind, content):
    return struct.pack(">I", len(content)) + kind + content + struct.pack(">I", zlib.crc32(kind + content))


def small(png):
    """A PNG file with a palette of few colours: the most frequent ones, and of others the nearest."""
    rows = list(pixels(png))
    palette = [colour for colour, _ in collections.Counter(pixel for row in rows for pixel in row).most_common(COLOURS)]
    nearest = {colour: place for place, colour in enumerate(palette)}

    def place_of(pixel):
        if pixel not in nearest:
            nearest[pixel] = min(range(len(palette)), key=lambda place: sum((a - b) ** 2 for a, b in zip(pixel, palette[place])))
        return nearest[pixel]

    plain = b"".join(b"\0" + bytes(place_of(pixel) for pixel in row) for row in rows)
    head = struct.pack(">IIBBBBB", len(rows[0]), len(rows), 8, 3, 0, 0, 0)
    parts = (b"IHDR", head), (b"PLTE", b"".join(map(bytes, palette))), (b"IDAT", zlib.compress(plain, 9)), (b"IEND", b"")
    return b"\x89PNG\r\n\x1a\n" + b"".join(chunk(*part) for part in parts)


def take(page, folder):
    """Writes the pictures of the page's first example into a folder."""
    page.choose("filling")
    page.find("settling.Q")
    for name, (wide, high, scheme, medium, tab) in PICTURES.items():
        page.open(tab)
        page.driver.execute_cdp_cmd("Emulation.setEmulatedMedia", {"media": medium, "features": [{"name": "prefers-color-scheme", "value": scheme}]})
        page.driver.execute_cdp_cmd("Emulation.setDeviceMetricsOverride", {"width": wide, "height": high, "deviceScaleFactor": 1, "mobile": True})
        page.script("window.scrollTo(0, 0); document.activeElement.blur()")
        time.sleep(2)
        shot = page.driver.execute_cdp_cmd("Page.captureScreenshot", {"format": "png"})["data"]
        (folder / f"page_{name}.png").write_bytes(small(base64.b64decode(shot)))
    page.driver.execute_cdp_cmd("Emulation.clearDeviceMetricsOverride", {})

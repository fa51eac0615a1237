#!/usr/bin/env python3
"""Writes bridge.feed: two seconds of a bridge microphone, of which 0.3 seconds are lost, and a small radar picture in five parts.

The sound is a tone of 440 Hz in PCM frames of 0.1 seconds (docs/formats/pcm.md), without frames 8, 9 and 10. The picture is a PNG file, cut
into the parts of block 7 of source EI0001 (docs/formats/image.md). bridge.json configures a channel for each. See docs/formats/feed.md for
the form of a feed."""
import math
import struct
import sys
import zlib

VDRD = 4
START = 1715668200000  # 2024-05-14T06:30:00.000Z, in milliseconds since 1970
RATE, COUNT = 4000, 400  # samples a second, and in a frame
SIDE = 48  # the picture's width and height


def frame(number):
    samples = [round(8000 * math.sin(2 * math.pi * 440 * (number * COUNT + i) / RATE)) for i in range(COUNT)]
    return b"PcmFr\0" + struct.pack(f"<BIIH{COUNT}h", 1, number, RATE, COUNT, *samples)


def chunk(name, data):
    return struct.pack(">I", len(data)) + name + data + struct.pack(">I", zlib.crc32(name + data))


def picture():
    """Rings of a radar with one echo, in 16 shades of grey."""
    rows = b""
    for y in range(SIDE):
        shades = [15 if math.hypot(x - 34, y - 14) < 3 else 9 if round(math.hypot(x - 24, y - 24)) % 8 == 0 else 1 for x in range(SIDE)]
        rows += b"\0" + bytes(16 * a + b for a, b in zip(shades[::2], shades[1::2]))
    head = struct.pack(">IIBBBBB", SIDE, SIDE, 4, 0, 0, 0, 0)
    return b"\x89PNG\r\n\x1a\n" + chunk(b"IHDR", head) + chunk(b"IDAT", zlib.compress(rows, 9)) + chunk(b"IEND", b"")


def parts(data):
    size = -(-len(data) // 5)
    for number in range(5):
        head = struct.pack("<6sH6s6sIII", b"RaUdP\0", 1, b"EI0001", b"VR0001", 7, number + 1, 5)
        yield head + data[number * size:(number + 1) * size]


datagrams = [(100 * number, frame(number)) for number in range(20) if number not in (8, 9, 10)]
datagrams += [(250 + 300 * number, part) for number, part in enumerate(parts(picture()))]
feed = b"VDRFEED1"
for received, datagram in sorted(datagrams):
    feed += struct.pack("<BQqH", VDRD, received, START + received, len(datagram)) + datagram
sys.stdout.buffer.write(feed)

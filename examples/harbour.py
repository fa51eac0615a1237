#!/usr/bin/env python3
"""Writes harbour.feed: two seconds of a ship's network as she leaves harbour. See docs/formats/feed.md for the form of a feed."""
import struct
import sys

TGTD, NAVD, VDRD, TIME = 1, 3, 4, 6
START = 1715668200000  # 2024-05-14T06:30:00.000Z, in milliseconds since 1970


def checksum(text):
    total = 0
    for byte in text:
        total ^= byte
    return b"%02X" % total


def line(tags, sentence):
    """A TAG block and a sentence, each with its checksum."""
    start, content = sentence[:1], sentence[1:]
    return b"\\" + tags + b"*" + checksum(tags) + b"\\" + start + content + b"*" + checksum(content) + b"\r\n"


def sentences(*lines):
    return b"UdPbC\0" + b"".join(line(tags, sentence) for tags, sentence in lines)


def image(source, destination, block, sequence, greatest, data):
    """An image datagram of this project's profile."""
    return b"RaUdP\0" + struct.pack("<H6s6sIII", 1, source, destination, block, sequence, greatest) + data


ITEMS = [
    (0, TIME, sentences((b"s:TI0001,n:1", b"$GPZDA,063000.00,14,05,2024,00,00"))),
    (120, NAVD, sentences((b"s:HE0001,n:1", b"$HEHDT,271.4,T"), (b"s:HE0001,n:2", b"$HEROT,-3.2,A"))),
    (240, NAVD, sentences((b"s:GP0001,n:1", b"$GPGLL,5404.2210,N,01005.8840,E,063000.00,A,D"))),
    (410, TGTD, sentences((b"s:AI0001,n:1,g:1-1-7", b"!AIVDM,1,1,,B,177KQJ5000G?tO`K>RA1wUbN0TKH,0"))),
    (500, VDRD, image(b"EI0001", b"VR0001", 9, 1, 2, b"\x89PNG")),
    (620, NAVD, b"$HEHDT,271.6,T*22\r\n"),  # a sentence without a datagram token: it can't be recorded
    (750, NAVD, sentences((b"s:SD0001,n:1", b"$SDDPT,11.3,0.4,"))),
    (1000, TIME, sentences((b"s:TI0001,n:2", b"$GPZDA,063001.00,14,05,2024,00,00"))),
    (1120, NAVD, sentences((b"s:HE0001,n:3", b"$HEHDT,272.0,T"), (b"s:HE0001,n:4", b"$HEROT,-3.4,A"))),
    (1500, VDRD, image(b"EI0001", b"VR0001", 9, 2, 2, b"\r\n\x1a\n")),
    (1510, VDRD, b"RaUdP\0" + bytes(1500)),  # longer than a datagram may be: the run ends with its gap
]

feed = b"VDRFEED1"
for received, group, datagram in ITEMS:
    feed += struct.pack("<BQqH", group, received, START + received, len(datagram)) + datagram
sys.stdout.buffer.write(feed)

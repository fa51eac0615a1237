#!/usr/bin/env python3
"""Writes ais.feed: two published AIS messages of class A, a position in one sentence and a name in two. See docs/formats/feed.md for the
form of a feed."""
import struct
import sys

NAVD = 3
START = 1704067200000  # 2024-01-01T00:00:00.000Z, in milliseconds since 1970
POSITION = b"!AIVDM,1,1,,B,177KQJ5000G?tO`K>RA1wUbN0TKH,0*5C\r\n"
NAME = (
    b"!AIVDM,2,1,1,A,55?MbV02;H;s<HtKR20EHE:0@T4@Dn2222222216L961O5Gf0NSQEp6ClRp8,0*1C\r\n"
    b"!AIVDM,2,2,1,A,88888888880,2*25\r\n"
)

feed = b"VDRFEED1"
for lines in POSITION, NAME:
    datagram = b"UdPbC\0" + lines
    feed += struct.pack("<BQqH", NAVD, 0, START, len(datagram)) + datagram
sys.stdout.buffer.write(feed)

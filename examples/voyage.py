#!/usr/bin/env python3
"""Writes voyage.feed: the heading of a ship that turns, once a second for ninety seconds, and four datagrams in second 40, more than
the bench configuration admits. See docs/formats/feed.md for the form of a feed."""
import functools
import operator
import struct
import sys

NAVD = 3
START = 1715668200000  # 2024-05-14T06:30:00.000Z, in milliseconds since 1970


def checked(text):
    return text + b"*%02X" % functools.reduce(operator.xor, text)


def heading(count, degrees):
    return b"UdPbC\0\\" + checked(b"s:HE0001,n:%d" % count) + b"\\$" + checked(b"HEHDT,%.1f,T" % degrees) + b"\r\n"


times = [1000 * second for second in range(90)] + [40_100, 40_200, 40_300]
feed = b"VDRFEED1"
for count, received in enumerate(sorted(times), 1):
    datagram = heading(count, 271.4 + received / 10_000)
    feed += struct.pack("<BQqH", NAVD, received, START + received, len(datagram)) + datagram
sys.stdout.buffer.write(feed)

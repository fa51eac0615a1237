#!/usr/bin/env python3
"""Writes autopilot.feed: ten minutes of a night watch. The autopilot (AP0001) says that it is alive every half minute, loses the heading,
falls silent and starts again; the radar (RA0001) falls silent for good. See docs/formats/feed.md for the form of a feed."""
import functools
import operator
import struct
import sys

NAVD = 3
START = 1715652000000  # 2024-05-14T02:00:00.000Z, in milliseconds since 1970


def checked(text):
    return text + b"*%02X" % functools.reduce(operator.xor, text)


def line(source, content):
    return b"\\" + checked(b"s:" + source) + b"\\$" + checked(content) + b"\r\n"


def heading(second):
    return line(b"HE0001", b"HEHDT,%.1f,T" % (271.4 + second / 100))


def heartbeat(source, talker, interval, sequence):
    return line(source, talker + b"HBT,%d,A,%d" % (interval, sequence % 10))


def alarm(time, condition, acknowledged):
    return line(b"AP0001", b"AGALR,%s,301,%s,%s,HEADING CONTROL LOST" % (time, condition, acknowledged))


said = [(second, heading(second)) for second in range(5, 600, 20)]
# The autopilot is silent from 02:03:30 to 02:06:00, and counts from 0 again.
said += [(second, heartbeat(b"AP0001", b"AG", 30, second // 30)) for second in range(0, 240, 30)]
said += [(second, heartbeat(b"AP0001", b"AG", 30, (second - 360) // 30)) for second in range(360, 600, 30)]
# The radar is not heard after 02:05:00.
said += [(second, heartbeat(b"RA0001", b"RA", 60, second // 60)) for second in range(0, 301, 60)]
# The alarm is raised, said again, acknowledged, and over.
said += [
    (212, alarm(b"020332", b"A", b"V")),
    (222, alarm(b"020332", b"A", b"V")),
    (252, alarm(b"020412", b"A", b"A")),
    (362, alarm(b"020602", b"V", b"A")),
]

feed = b"VDRFEED1"
for second, sentences in sorted(said):
    datagram = b"UdPbC\0" + sentences
    feed += struct.pack("<BQqH", NAVD, 1000 * second, START + 1000 * second, len(datagram)) + datagram
sys.stdout.buffer.write(feed)

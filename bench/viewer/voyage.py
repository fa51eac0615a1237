#!/usr/bin/env python3
"""Writes a feed of a long voyage, as a page has to show it: 14 series of readings each second, two receivers, and sixty ships.

    bench/viewer/voyage.py HOURS [SEED] > FEED

It fits the rates of examples/ship.json. In the first hour, and in each twelfth one behind it, something happens: the depth is 0.2 m for one second, an
alarm is raised and acknowledged, a receiver has no fix for two minutes, the autopilot's heartbeat stops for five, and for one nothing is said at all."""
import math
import random
import struct
import sys
from pathlib import Path

sys.dont_write_bytecode = True
sys.path.insert(0, str(Path(__file__).resolve().parent.parent))
import voyages  # noqa: E402

TGTD, NAVD = 1, 3
START = 1_715_652_000_000  # 2024-05-14T02:00:00.000Z, in milliseconds since 1970
SHIPS = 60
counts = {}


def line(source, content, start=b"$"):
    counts[source] = (counts.get(source, 0) + 1) % 1000
    return b"\\" + voyages.checked(b"s:%s,n:%d" % (source, counts[source])) + b"\\" + start + voyages.checked(content) + b"\r\n"


def angle(value, width, letters):
    whole = int(abs(value))
    return b"%0*d%08.5f,%s" % (width, whole, (abs(value) - whole) * 60, letters[value < 0:][:1])


def move(place, knots, course, seconds):
    miles = knots * seconds / 3600
    north, east = miles * math.cos(math.radians(course)), miles * math.sin(math.radians(course))
    return place[0] + north / 60, place[1] + east / 60 / math.cos(math.radians(place[0]))


def message(bits):
    """The lines of an AIS message of these fields, each a value and its width."""
    payload, fill = voyages.armoured("".join(format(value & (1 << width) - 1, f"0{width}b") for value, width in bits))
    parts = [payload[i:i + 56] for i in range(0, len(payload), 56)]
    key = "1" if len(parts) > 1 else ""
    return [line(b"AI0001", f"AIVDM,{len(parts)},{k + 1},{key},A,{part},{fill if k + 1 == len(parts) else 0}".encode(), b"!") for k, part in enumerate(parts)]


def report(mmsi, place, knots, course):
    return message([(1, 6), (0, 2), (mmsi, 30), (0, 4), (128, 8), (round(knots * 10), 10), (1, 1), (round(place[1] * 600_000), 28), (round(place[0] * 600_000), 27),
                    (round(course * 10) % 3600, 12), (round(course) % 360, 9), (0, 31)])


def name(mmsi, text):
    letters = [(ord(it) & 63, 6) for it in text.ljust(20, "@")]
    return message([(5, 6), (0, 2), (mmsi, 30), (0, 74), *letters, (0, 192)])


class Ship:
    """A ship that AIS reports, on a course of its own."""

    def __init__(self, chance, number):
        self.mmsi, self.name = 244_000_000 + 1_013 * number, f"SHIP {number}"
        self.place = 53.0 + chance.uniform(-.6, .6), 4.5 + chance.uniform(-1, 1)
        self.knots, self.course = chance.choice((0, 6, 9, 12, 16)), chance.uniform(0, 360)

    def reported(self, chance, seconds):
        self.course = (self.course + chance.gauss(0, 3)) % 360
        self.place = move(self.place, self.knots, self.course, seconds)
        return report(self.mmsi, self.place, self.knots, self.course)


class Bridge:
    """Own ship and its sensors, second by second."""

    def __init__(self, chance):
        self.chance, self.place, self.heading, self.knots, self.rudder = chance, (52.9, 4.6), 46.0, 14.0, 0.0
        self.ships = [Ship(chance, k) for k in range(SHIPS)]

    def moved(self, t):
        wanted = 200 + 90 * math.sin(t / 5000)
        error = (wanted - self.heading + 180) % 360 - 180
        self.rudder = max(-15, min(15, error))
        self.heading = (self.heading + self.rudder / 20) % 360
        self.knots += (14 + 2 * math.sin(t / 900) - self.knots) / 60
        self.place = move(self.place, self.knots, self.heading, 1)

    def said(self, t, happens):
        """The datagrams of a second: the millisecond, the group, and the lines."""
        gauss, clock = self.chance.gauss, b"%02d%02d%02d.00" % ((7200 + t) // 3600 % 24, t // 60 % 60, t % 60)
        fix = not (happens and 900 <= t % 3600 < 1020)
        depth = .2 if happens and t % 3600 == 1800 else 40 + 15 * math.sin(t / 700) + gauss(0, .2)
        yield 40, NAVD, [line(b"HE0001", b"HEHDT,%.1f,T" % self.heading), line(b"HE0001", b"HEROT,%.1f,A" % (self.rudder * 3))]
        here, status, mode = self.place[0] + gauss(0, 2e-6), b"A" if fix else b"V", b"A" if fix else b"N"
        yield 110, NAVD, [line(b"GP0001", b"GPGLL,%s,%s,%s,%s,%s" % (angle(here, 2, b"NS"), angle(self.place[1], 3, b"EW"), clock, status, mode)),
                          line(b"GP0001", b"GPVTG,%.1f,T,,M,%.1f,N,%.1f,K,%s" % (self.heading, self.knots, self.knots * 1.852, mode))]
        yield 190, NAVD, [line(b"GP0002", b"GPGLL,%s,%s,%s,A,D" % (angle(self.place[0] + 3e-5, 2, b"NS"), angle(self.place[1] - 2e-5, 3, b"EW"), clock))]
        yield 230, NAVD, [line(b"SG0001", b"AGRSA,%.1f,A,%.1f,A" % (self.rudder, self.rudder + .3))]
        yield 330, NAVD, [line(b"SD0001", b"SDDPT,%.1f,0.0,100" % depth)]
        yield 400, NAVD, [line(b"WI0001", b"WIMWV,%.1f,T,%.1f,N,A" % ((232 + gauss(0, 4) - self.heading) % 360, 21 + gauss(0, 2)))]
        yield 520, NAVD, [line(b"EI0001", b"EIRPM,S,0,%d,%d,A" % (104 + self.chance.randrange(3), 62))]
        if t % 30 == 0 and not (happens and 2100 <= t % 3600 < 2400):
            yield 600, NAVD, [line(b"AP0001", b"AGHBT,30,A,%d" % (t // 30 % 10))]
        if happens and t % 3600 in (902, 915, 1022):
            state = {902: b"A,V", 915: b"A,A", 1022: b"V,A"}[t % 3600]
            yield 610, NAVD, [line(b"GP0001", b"AGALR,%s,240,%s,POSITION LOST" % (clock, state))]
        ship = self.ships[t % SHIPS]
        yield 700, TGTD, name(ship.mmsi, ship.name) if t // SHIPS % 6 == 5 and t % 2 else ship.reported(self.chance, SHIPS)


def items(hours, chance):
    """The items of the feed: group, received, stamp and bytes."""
    bridge = Bridge(chance)
    for t in range(3600 * hours):
        happens = t // 3600 % 12 == 0
        bridge.moved(t)
        if happens and 3000 <= t % 3600 < 3060:
            continue
        for ms, group, lines in bridge.said(t, happens):
            yield group, 1000 * t + ms, START + 1000 * t + ms, b"UdPbC\0" + b"".join(lines)


def main():
    hours, seed = int(sys.argv[1]), int(sys.argv[2]) if len(sys.argv) > 2 else 1
    out = sys.stdout.buffer
    out.write(b"VDRFEED1")
    for group, received, utc, body in items(hours, random.Random(seed)):
        out.write(struct.pack("<BQqH", group, received, utc, len(body)) + body)


if __name__ == "__main__":
    main()

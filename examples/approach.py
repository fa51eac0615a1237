#!/usr/bin/env python3
"""Writes approach.feed: twenty minutes on a bridge at night. A ship comes up the Marsdiep, meets a fishing vessel, turns late and touches a bank.

NAVD has the ship's own sensors, every four seconds, TGTD the AIS targets, VDRD sound of the bridge and radar pictures. The first GNSS receiver has no
fix for a minute, the second one is silent for one, the autopilot's heartbeat stops, and for twenty seconds NAVD comes faster than the rate of
approach.json. See docs/formats/feed.md for the form of a feed."""
import functools
import math
import operator
import random
import struct
import sys
import zlib

TGTD, NAVD, VDRD = 1, 3, 4
START = 1715652000000  # 2024-05-14T02:00:00.000Z, in milliseconds since 1970
SECONDS, AGROUND = 1200, 851
SIDE = 90  # the width and the height of a radar picture
RATE, COUNT = 2000, 200  # samples a second, and in a frame
chance = random.Random(7)
counts = {}
said = []


def checked(text):
    return text + b"*%02X" % functools.reduce(operator.xor, text)


def line(source, content, start=b"$"):
    counts[source] = (counts.get(source, 0) + 1) % 1000
    return b"\\" + checked(b"s:%s,n:%d" % (source, counts[source])) + b"\\" + start + checked(content) + b"\r\n"


def tell(ms, group, *lines):
    said.append((ms, group, b"UdPbC\0" + b"".join(lines)))


def angle(value, width, letters):
    whole = int(abs(value))
    return b"%0*d%08.5f,%s" % (width, whole, (abs(value) - whole) * 60, letters[value < 0:][:1])


def move(latitude, longitude, knots, course, seconds=1):
    miles = knots * seconds / 3600
    north, east = miles * math.cos(math.radians(course)), miles * math.sin(math.radians(course))
    return latitude + north / 60, longitude + east / 60 / math.cos(math.radians(latitude))


def bits(*fields):
    return "".join(format(value & (1 << width) - 1, f"0{width}b") for value, width in fields)


def letters(text, count):
    return "".join(format(ord(it) & 63, "06b") for it in text.ljust(count, "@"))


def ais(formatter, text, sequence):
    """The sentences of an AIS message of these bits."""
    fill = -len(text) % 6
    text += "0" * fill
    sixes = [int(text[i:i + 6], 2) for i in range(0, len(text), 6)]
    payload = bytes(six + 48 if six < 40 else six + 56 for six in sixes)
    parts = [payload[i:i + 56] for i in range(0, len(payload), 56)]
    key = b"%d" % (sequence % 10) if len(parts) > 1 else b""
    return [line(b"AI0001", b"AI%s,%d,%d,%s,A,%s,%d" % (formatter, len(parts), k + 1, key, part, fill if k + 1 == len(parts) else 0), b"!") for k, part in enumerate(parts)]


def position(mmsi, latitude, longitude, knots, course, heading):
    return bits((1, 6), (0, 2), (mmsi, 30), (0, 4), (128, 8), (round(knots * 10), 10), (1, 1), (round(longitude * 600000), 28), (round(latitude * 600000), 27),
                (round(course * 10) % 3600, 12), (heading, 9), (0, 31))


def voyage_data(mmsi, name):
    return bits((5, 6), (0, 2), (mmsi, 30), (0, 2), (9000000 + mmsi % 1000000, 30)) + letters("PA1234", 7) + letters(name, 20) + bits((70, 8), (0, 70)) + letters("DEN HELDER", 20) + "00"


def chunk(name, data):
    return struct.pack(">I", len(data)) + name + data + struct.pack(">I", zlib.crc32(name + data))


def radar(own, heading, echoes):
    """A PNG file of rings, the heading line and echoes, in 16 shades; its side is six miles."""
    middle = SIDE / 2
    spots = [(middle + (b - own[1]) * 10 * SIDE * math.cos(math.radians(own[0])), middle - (a - own[0]) * 10 * SIDE) for a, b in echoes]
    ahead = math.sin(math.radians(heading)), -math.cos(math.radians(heading))
    rows = b""
    for y in range(SIDE):
        shades = []
        for x in range(SIDE):
            east, south = x - middle, y - middle
            far = math.hypot(east, south)
            is_ahead = abs(east * ahead[1] - south * ahead[0]) < .6 and east * ahead[0] + south * ahead[1] > 0
            is_echo = any(math.hypot(x - a, y - b) < 1.8 for a, b in spots)
            shades.append(15 if is_echo else 0 if far > middle else 10 if is_ahead else 6 if min(far % 15, 15 - far % 15) < .5 else 2)
        rows += b"\0" + bytes(16 * a + b for a, b in zip(shades[::2], shades[1::2]))
    head = struct.pack(">IIBBBBB", SIDE, SIDE, 4, 0, 0, 0, 0)
    return b"\x89PNG\r\n\x1a\n" + chunk(b"IHDR", head) + chunk(b"IDAT", zlib.compress(rows, 9)) + chunk(b"IEND", b"")


def tell_picture(ms, block, data):
    parts = [data[i:i + 1400] for i in range(0, len(data), 1400)]
    for k, part in enumerate(parts):
        said.append((ms + 20 * k, VDRD, struct.pack("<6sH6s6sIII", b"RaUdP\0", 1, b"RA0001", b"VR0001", block, k + 1, len(parts)) + part))


def tell_sound(ms, number, second):
    """A tenth of a second of the bridge: engines, a bell behind the grounding, and the grounding."""
    hit, bell = math.exp(AGROUND - second) if second >= AGROUND else 0, second >= AGROUND + 2 and second * 10 % 8 < 5
    times = [(number * COUNT + i) / RATE for i in range(COUNT)]
    samples = [round(900 * math.sin(2 * math.pi * 52 * t) + 300 * chance.gauss(0, 1) + 9000 * hit * chance.gauss(0, 1) + 6000 * bell * math.sin(2 * math.pi * 880 * t)) for t in times]
    samples = [max(-32000, min(32000, it)) for it in samples]
    said.append((ms, VDRD, b"PcmFr\0" + struct.pack(f"<BIIH{COUNT}h", 1, number, RATE, COUNT, *samples)))


def tell_alarm(second, source, number, condition, acknowledged, text):
    clock = 7200 + second
    tell(1000 * second + 610, NAVD, line(source, b"AGALR,%02d%02d%02d,%03d,%s,%s,%s" % (clock // 3600, clock // 60 % 60, clock % 60, number, condition, acknowledged, text)))


latitude, longitude, heading, knots, turn, rudder = 52.9240, 4.6680, 46.0, 13.2, 0.0, 0.0
targets = {244660123: ["TEXELSTROOM", 52.9540, 4.7690, 9.5, 210.0], 244780456: ["TX 38 ANNA", 52.9602, 4.7910, 6.2, 253.0], 219018501: ["NORDIC HAMBURG", 52.9150, 4.6430, 12.4, 46.5],
           245330789: ["KNRM JOKE DIJKSTRA", 52.9625, 4.7800, 0.0, 0.0], 992446012: ["", 52.9660, 4.7440, 0.0, 0.0]}
plan = [(0, 46.0), (390, 58.0), (645, 92.0), (720, 70.0)]
for t in range(SECONDS):
    wanted = [course for second, course in plan if second <= t][-1]
    error = (wanted - heading + 180) % 360 - 180
    is_aground = t >= AGROUND
    order = max(-25, min(25, 1.1 * error - .35 * turn)) if not is_aground else -30 if t < AGROUND + 30 else 0
    rudder += max(-2.5, min(2.5, order - rudder))
    turn += (rudder * (.2 if is_aground else 2.6) - turn) / 12
    turn *= .2 if t == AGROUND else 1
    heading = (heading + turn / 60) % 360
    knots = max(0, knots - .55) if is_aground else knots + ((13.2 if t < 720 else 10.5) - knots) / 90 + .02 * chance.gauss(0, 1)
    depth = .3 if is_aground else max(.4, 14.5 + 3 * math.sin(t / 85) - max(0, t - 575) * .05 + .25 * chance.gauss(0, 1))
    shaft = 104 if t < 720 else 82 if t < AGROUND + 5 else -60 if AGROUND + 12 < t < AGROUND + 145 else 0
    course = heading if is_aground else heading + 1.6 * math.sin(t / 300) + .4 * chance.gauss(0, 1)
    latitude, longitude = move(latitude, longitude, knots, course)
    clock, ms = b"%02d%02d%02d.00" % ((7200 + t) // 3600, t // 60 % 60, t % 60), 1000 * t
    for k, (mmsi, target) in enumerate(targets.items()):
        target[4] += .3 if mmsi == 244780456 and 665 < t < 785 else 0
        name, north, east, speed, way = target
        target[1], target[2] = move(north, east, speed, way)
        if t % (20 if speed else 60) == k and not (mmsi == 244780456 and 410 <= t < 500):
            for part in ais(b"VDM", position(mmsi, target[1], target[2], speed, way, round(way) if speed else 511), k):
                tell(ms + 250 + 20 * k, TGTD, part)
        if t % 360 == 7 + 3 * k and name:
            tell(ms + 450, TGTD, *ais(b"VDM", voyage_data(mmsi, name), k))
    if 540 <= t < 560:
        for k in range(16):
            tell(ms + 800 + k, NAVD, line(b"VD0009", b"VDVBW,%d.%d,,A,,,V" % (knots, k % 10)))
    if t % 30 == 0 and not 600 <= t < 750:
        tell(ms + 600, NAVD, line(b"AP0001", b"AGHBT,30,A,%d" % (t // 30 % 10)))
    if t % 120 == 30:
        tell_picture(ms + 100, t // 120, radar((latitude, longitude), heading, [it[1:3] for it in targets.values()]))
    if AGROUND - 3 <= t < AGROUND + 6:
        for k in range(10):
            number = (t - AGROUND + 3) * 10 + k
            if not 20 <= number < 24:
                tell_sound(ms + 100 * k, number, t + k / 10)
    if t % 4:
        continue
    tell(ms + 40, NAVD, line(b"HE0001", b"HEHDT,%.1f,T" % heading), line(b"HE0001", b"HEROT,%.1f,A" % turn))
    mode = b"N" if 450 <= t < 510 else b"A"
    here = angle(latitude + 2e-6 * chance.gauss(0, 1), 2, b"NS"), angle(longitude + 2e-6 * chance.gauss(0, 1), 3, b"EW")
    tell(ms + 110, NAVD, line(b"GP0001", b"GPGLL,%s,%s,%s,%s,%s" % (*here, clock, b"V" if mode == b"N" else b"A", mode)),
         line(b"GP0001", b"GPVTG,%.1f,T,,M,%.1f,N,%.1f,K,%s" % (course % 360, knots, knots * 1.852, mode)))
    if not 750 <= t < 810:
        tell(ms + 190, NAVD, line(b"GP0002", b"GPGLL,%s,%s,%s,A,D" % (angle(latitude + 3e-5, 2, b"NS"), angle(longitude - 2e-5, 3, b"EW"), clock)))
    tell(ms + 230, NAVD, line(b"SG0001", b"AGRSA,%.1f,A,%.1f,A" % (rudder, rudder + .3)))
    tell(ms + 330, NAVD, line(b"SD0001", b"SDDPT,%.1f,0.0,100" % depth))
    if t % 8 == 0:
        wind, gust = 232 + 14 * math.sin(t / 45) + 4 * chance.gauss(0, 1), 21 + 3 * math.sin(t / 30) + 1.8 * chance.gauss(0, 1)
        tell(ms + 400, NAVD, line(b"WI0001", b"WIMWV,%.1f,T,%.1f,N,A" % ((wind - heading) % 360, gust)), line(b"WI0001", b"WIMWV,%.1f,R,%.1f,N,A" % ((wind - heading - 9) % 360, gust + 4)))
        tell(ms + 520, NAVD, line(b"EI0001", b"EIRPM,S,0,%d,%d,A" % (shaft + chance.randrange(-1, 2), 62 if shaft > 0 else -40 if shaft else 0)))
        tell(ms + 700, NAVD, line(b"GP0001", b"GPZDA,%s,14,05,2024,-02,00" % clock))
    if t % 20 == 8:
        tell(ms + 900, NAVD, *ais(b"VDO", position(244123450, latitude, longitude, knots, course, round(heading) % 360), 0))
    if t % 360 == 12:
        tell(ms + 910, NAVD, *ais(b"VDO", voyage_data(244123450, "BONNE JEANNE"), 0))
tell_alarm(451, b"GP0001", 240, b"A", b"V", b"POSITION LOST")
tell_alarm(458, b"GP0001", 240, b"A", b"A", b"POSITION LOST")
tell_alarm(511, b"GP0001", 240, b"V", b"A", b"POSITION LOST")
tell_alarm(693, b"RA0001", 190, b"A", b"V", b"CPA TCPA LIMIT")
tell_alarm(760, b"RA0001", 190, b"V", b"A", b"CPA TCPA LIMIT")
tell_alarm(806, b"SD0001", 380, b"A", b"V", b"DEPTH BELOW LIMIT")
tell_alarm(853, b"SD0001", 380, b"A", b"A", b"DEPTH BELOW LIMIT")
tell_alarm(857, b"EI0001", 610, b"A", b"V", b"MAIN ENGINE SLOWDOWN")
feed = b"VDRFEED1"
for received, group, datagram in sorted(said, key=lambda it: it[0]):
    feed += struct.pack("<BQqH", group, received, START + received, len(datagram)) + datagram
sys.stdout.buffer.write(feed)

"""A model of `values` and `track` (docs/formats/table.md and track.md), written apart from the program: both texts out of what `play` prints. And
random voyages as feeds, with what such texts are wrong in: edges of minutes, fields without a value, letters of each kind, stamps that jump, names that
mean something to a spreadsheet, messages in parts. It knows the formatters of these voyages alone."""
import functools, operator, re, struct
from datetime import datetime
from decimal import ROUND_HALF_UP, Decimal

HEADER = "utc,place,transmission_group,source,sentence,item,name,value,unit,valid,text\n"
NAVD, TGTD, MISC = 3, 1, 0
UNITS = {"N": "kn", "K": "km/h", "M": "m/s", "S": "mph"}
LENGTHS = {"N": "nmi", "K": "km", "S": "mi"}
DEMANDS = {"P": "%", "R": "1/min", "D": "deg"}


# ---- what `play` prints

class Line:
    """A line of a datagram that is good: its source, its address and its fields, whether they have a reading, and its record."""
    def __init__(self, record, raw, word):
        self.record, self.source = record, word[1]
        self.address, self.reads = word[3], len(word) > 4 and word[4] not in ("-",) and not re.fullmatch(r"field \d+", word[4])
        while raw.startswith(b"\\"):
            raw = raw[raw.index(b"\\", 1) + 1:]
        self.fields = raw[1:raw.rindex(b"*")].decode("latin-1").split(",")[1:]
        self.formatter = self.address[-3:]

    def field(self, number):
        return self.fields[number - 1] if number <= len(self.fields) else ""


class Record:
    """A record as `play` prints it: its payload, what `play` says below it, the bytes of its lines, and these where they are good, else None."""
    def __init__(self, head, below):
        words = head.split(" ", 6)
        self.place, self.group, self.utc, self.kind, self.said = int(words[0]), words[1], words[3], words[4], below
        self.payload, self.raws, self.lines, self.counts = b"", [], [], []
        if self.kind == "gap":
            self.counts = [int(it) for it in " ".join(words[5:]).split(" ")]
        if self.kind == "data":
            self.payload = re.sub(rb"<([0-9a-f]{2})>", lambda m: bytes([int(m[1], 16)]), words[6].encode())
        if below and below[0].split(" ", 1)[0] in ("good", "tag", "sentence"):
            self.raws = [it for it in re.split(rb"(?<=\r\n)", self.payload[6:]) if it]
            assert len(self.raws) == len(below), head
            self.lines = [Line(self, raw, word.split(" ", 4)) if word.startswith("good ") else None for raw, word in zip(self.raws, below)]


def each(lines):
    """The records of the lines of a text of `play`, one after another."""
    head, below = None, []
    for line in lines:
        if line.startswith("  "):
            below.append(line[2:])
        elif re.match(r"\d+ \S+ \S+ \S+Z (data|gap|start|stop)\b", line):
            if head:
                yield Record(head, below)
            head, below = line, []
    if head:
        yield Record(head, below)


def records(play):
    """The records of a text of `play`."""
    return list(each(play.split("\n")[:-1]))


# ---- values

def number(text):
    """A number as it is printed."""
    if not text:
        return None
    sign, rest = ("-", text[1:]) if text[0] == "-" else ("", text)
    whole, _, part = rest.partition(".")
    whole, part = whole.lstrip("0") or "0", part.rstrip("0")
    return ("" if whole == "0" and not part else sign) + whole + ("." + part if part else "")


def plain(value):
    """A number of eight places without the zeros at its end."""
    text = f"{abs(value):.8f}".rstrip("0").rstrip(".")
    return ("-" if value < 0 and text != "0" else "") + text


def degrees(text, letter):
    """Degrees of `ddmm.m`, to eight places, halves away from zero."""
    if not text or not letter:
        return None
    front, _, part = text.partition(".")
    value = (Decimal(front[:-2]) + Decimal(front[-2:] + "." + (part or "0")) / 60).quantize(Decimal("1e-8"), ROUND_HALF_UP)
    return plain(-value if letter in "SW" else value)


def status(letter):
    return {"": None, "A": "1"}.get(letter, "0")


def unless(text, no):
    return "0" if text and not text.strip(no) else "1"


def escaped(text):
    return "".join(it if " " <= it <= "~" and it != "<" else f"<{ord(it):02x}>" for it in text)


def of_line(line):
    """The values of a line: (item, name, value, unit, valid, text)."""
    f = line.field
    what = line.formatter

    def row(name, value, unit="", item="", valid=None, text=""):
        if value:
            rows.append((item, name, value, unit, valid, text))

    rows = []
    if what == "HDT":
        row("heading", number(f(1)), "deg")
    elif what == "THS":
        row("heading", number(f(1)), "deg", valid=unless(f(2), "V"))
    elif what == "ROT":
        row("rate_of_turn", number(f(1)), "deg/min", valid=status(f(2)))
    elif what in ("RSA", "ROR"):
        name = "rudder" if what == "RSA" else "rudder_order"
        row(name, number(f(1)), "deg", "starboard", status(f(2)))
        row(name, number(f(3)), "deg", "port", status(f(4)))
    elif what == "DPT":
        row("depth", number(f(1)), "m")
        row("depth_offset", number(f(2)), "m")
        row("depth_range", number(f(3)), "m")
    elif what == "MWV":
        row("wind_angle", number(f(1)), "deg", f(2), status(f(5)))
        row("wind_speed", number(f(3)), UNITS.get(f(4), ""), f(2), status(f(5)))
    elif what == "VTG":
        valid = unless(f(9), "N")
        row("course", number(f(1)), "deg", "T", valid)
        row("course", number(f(3)), "deg", "M", valid)
        row("speed", number(f(5)), "kn", valid=valid)
        row("speed", number(f(7)), "km/h", valid=valid)
    elif what in ("GLL", "RMC", "GGA", "GNS"):
        at, valid = {"GLL": (1, status(f(6))), "RMC": (3, status(f(2))), "GGA": (2, unless(f(6), "0")), "GNS": (2, unless(f(6), "N"))}[what]
        row("latitude", degrees(f(at), f(at + 1)), "deg", valid=valid)
        row("longitude", degrees(f(at + 2), f(at + 3)), "deg", valid=valid)
        if what == "RMC":
            row("course", number(f(8)), "deg", "T", valid)
            row("speed", number(f(7)), "kn", valid=valid)
            variation = number(f(10)) if f(11) else None
            row("magnetic_variation", number("-" + variation if variation and f(11) == "W" and variation[0] != "-" else variation), "deg", valid=valid)
        if what in ("GGA", "GNS"):
            separation, age = (11, 13) if what == "GGA" else (10, 11)
            for name, k, unit in ("satellites", 7, ""), ("hdop", 8, ""), ("altitude", 9, "m"), ("geoid_separation", separation, "m"), ("correction_age", age, "s"):
                row(name, number(f(k)), unit, valid=valid)
    elif what == "ZDA":
        if f(1) and f(2) and f(3) and f(4):
            time, _, part = f(1).partition(".")
            part = part.rstrip("0")
            rows.append(("", "clock", "", "", None, f"{int(f(4)):04d}-{int(f(3)):02d}-{int(f(2)):02d}T{time[:2]}:{time[2:4]}:{time[4:]}{'.' + part if part else ''}Z"))
    elif what == "RPM":
        item = f(1) + (number(f(2)) or "")
        row("revolutions", number(f(3)), "1/min", item, status(f(5)))
        row("pitch", number(f(4)), "%", item, status(f(5)))
    elif what == "HBT":
        row("heartbeat", number(f(1)), "s", number(f(3)) or "", status(f(2)))
    elif what == "ALR":
        item = number(f(2)) or ""
        row("alarm", f(3) and str(int(f(3) == "A")), "", item, text=escaped(f(5)))
        row("alarm_acknowledged", f(4) and str(int(f(4) == "A")), "", item)
    elif what == "VBW":
        for name, k, item, v in (("speed_water", 1, "ahead", 3), ("speed_water", 2, "across", 3), ("speed_ground", 4, "ahead", 6), ("speed_ground", 5, "across", 6),
                                 ("speed_water", 7, "stern", 8), ("speed_ground", 9, "stern", 10)):
            row(name, number(f(k)), "kn", item, status(f(v)))
    elif what == "TTM":
        item, valid = number(f(1)) or "", unless(f(12), "L")
        row("target_range", number(f(2)), LENGTHS.get(f(10), ""), item, valid)
        row("target_bearing", number(f(3)), "deg", item, valid, escaped(f(4)))
        row("target_speed", number(f(5)), UNITS.get(f(10), ""), item, valid)
        row("target_course", number(f(6)), "deg", item, valid, escaped(f(7)))
        row("cpa", number(f(8)), LENGTHS.get(f(10), ""), item, valid)
        row("tcpa", number(f(9)), "min", item, valid)
    elif what == "ALF":
        row("alert", f(7) and str(int(f(7) in "VSAO")), "", f"{number(f(9)) or ''}.{number(f(10)) or ''}", text=escaped(f(13)))
    return rows


class Ships:
    """The AIS messages that lines end, joined of their parts."""
    def __init__(self):
        self.parts = {}

    def message(self, line):
        f = line.field
        if not (f(1) and f(2) and f(5) and f(6)) or not re.fullmatch(r"[0-W`-w]+", f(5)):
            return None
        key = line.record.group, line.source, line.formatter, f(3), f(4)
        total, part, fill = int(f(1)), int(f(2)), int(f(6))
        bits = "".join(f"{(ord(it) - 48 if ord(it) <= 88 else ord(it) - 56) & 63:06b}" for it in f(5))
        back = self.parts.setdefault(key, [])
        back.append((total, part, bits, fill))
        del back[:-9]
        if part < 1 or part != total or len(back) < total:
            return None
        last = back[-total:]
        if any(it[:2] != (total, k + 1) for k, it in enumerate(last)) or any(it[3] for it in last[:-1]):
            return None
        whole = "".join(it[2] for it in last)
        return whole[:len(whole) - fill] if fill else whole

    def report(self, line):
        """What the message that this line ends reports: its MMSI, its position as it is sent, None where it has no field for it, and its name."""
        bits = self.message(line)
        if bits is None or len(bits) < 38:
            return 0, None, None
        kind, size = int(bits[:6], 2), len(bits)

        def unsigned(first, last):
            return int(bits[first:last + 1], 2)

        def signed(first, last):
            value = unsigned(first, last)
            return value - (1 << last - first + 1) if bits[first] == "1" else value

        place, name = None, None
        if kind in (1, 2, 3) and size >= 168:
            place = signed(89, 115), signed(61, 88), unsigned(50, 59), unsigned(116, 127), unsigned(128, 136)
        elif kind == 4 and size >= 168:
            place = signed(107, 133), signed(79, 106), None, None, None
        elif kind == 5 and size >= 232:
            name = 112
        elif kind in (18, 19) and size >= (168 if kind == 18 else 312):
            place = signed(85, 111), signed(57, 84), unsigned(46, 55), unsigned(112, 123), unsigned(124, 132)
            name = 143 if kind == 19 else None
        elif kind == 24 and size >= 160 and unsigned(38, 39) == 0:
            name = 40
        if name is not None:
            letters = [unsigned(name + 6 * k, name + 6 * k + 5) for k in range(20)]
            name = "".join(chr(it + 64 if it < 32 else it) for it in letters).split("@")[0].rstrip(" ")
        return unsigned(8, 37), place, name

    def rows(self, line):
        mmsi, place, name = self.report(line)
        rows, item = [], f"{mmsi:09d}"
        if place:
            latitude, longitude, speed, course, heading = place
            for column, value, none in ("ais_latitude", latitude, 54_600_000), ("ais_longitude", longitude, 108_600_000):
                if value != none:
                    rows.append((item, column, plain((Decimal(value) / 600_000).quantize(Decimal("1e-8"), ROUND_HALF_UP)), "deg", None, ""))
            for column, value, none, tenth, unit in ("ais_speed", speed, 1023, True, "kn"), ("ais_course", course, 3600, True, "deg"), ("ais_heading", heading, 511, False, "deg"):
                if value is not None and value != none:
                    rows.append((item, column, number(f"{value // 10}.{value % 10}") if tenth else str(value), unit, None, ""))
        if name:
            rows.append((item, "ais_name", "", "", None, name))
        return rows


def rows(recorded):
    """The rows of `values` of these records: of each its record, source, sentence, and (item, name, value, unit, valid, text)."""
    ships = Ships()
    for r in recorded:
        if r.kind in ("start", "stop"):
            yield r, "", "", ("", r.kind, "", "", None, "")
        for cause, count in zip(("full", "rate", "bad", "large"), r.counts):
            if count:
                yield r, "", "", (cause, "missed", str(count), "", None, "")
        for line in r.lines:
            if line and line.reads:
                for value in ships.rows(line) if line.formatter in ("VDM", "VDO") else of_line(line):
                    yield r, line.source, line.address, value


def quoted(text):
    return '"' + text.replace('"', '""') + '"' if text else ""


def values(recorded):
    """The text of `values` of these records."""
    text = [HEADER]
    for r, source, sentence, (item, name, value, unit, valid, words) in rows(recorded):
        group = "" if r.group == "-" else r.group
        text.append(f"{r.utc},{r.place},{group},{quoted(source)},{sentence},{item},{name},{value},{unit},{valid or ''},{quoted(words)}\n")
    return "".join(text)


# ---- track

def milliseconds(utc):
    """A stamp as milliseconds."""
    return round(datetime.fromisoformat(utc.replace("Z", "+00:00")).timestamp() * 1000)


def segments(recorded, source):
    """The segments of the track of a source: lists of (group, utc, latitude, longitude)."""
    found, is_open = [], False
    for r in recorded:
        if r.kind == "start" or r.kind == "gap" and is_open and found[-1][-1][0] == r.group:
            is_open = False
        for line in r.lines:
            if not line or line.source != source or not line.reads or line.formatter not in ("GLL", "RMC", "GGA", "GNS"):
                continue
            said = {name: (value, valid) for _, name, value, _, valid, _ in of_line(line)}
            (latitude, valid), (longitude, _) = said.get("latitude", (None, None)), said.get("longitude", (None, None))
            if latitude is None or longitude is None or valid != "1":
                is_open = False
                continue
            point = r.group, r.utc, latitude, longitude
            if is_open:
                group, utc = found[-1][-1][:2]
                is_open = group == r.group and 0 <= milliseconds(r.utc) - milliseconds(utc) <= 10_000
            if is_open:
                found[-1].append(point)
            else:
                found.append([point])
            is_open = True
    return found


def track(recorded, source):
    """The text of `track` of these records."""
    name = source.replace("&", "&amp;").replace("<", "&lt;").replace(">", "&gt;").replace('"', "&quot;")
    text = ['<?xml version="1.0" encoding="UTF-8"?>\n<gpx version="1.1" creator="vdr" xmlns="http://www.topografix.com/GPX/1/1">\n', f"<trk><name>{name}</name>\n"]
    for segment in segments(recorded, source):
        text.append("<trkseg>\n")
        text += [f'<trkpt lat="{latitude}" lon="{longitude}"><time>{utc}</time></trkpt>\n' for _, utc, latitude, longitude in segment]
        text.append("</trkseg>\n")
    return "".join(text) + "</trk>\n</gpx>\n"


# ---- voyages

def checked(text):
    return text + b"*%02X" % functools.reduce(operator.xor, text, 0)


def feed(items):
    """A feed of (group, received, utc, bytes)."""
    return b"VDRFEED1" + b"".join(struct.pack("<BQqH", group, received, utc, len(body)) + body for group, received, utc, body in items)


def armoured(bits):
    fill = -len(bits) % 6
    bits += "0" * fill
    return "".join(chr(n + 48 if n < 40 else n + 56) for n in (int(bits[i:i + 6], 2) for i in range(0, len(bits), 6))), fill


class Voyage:
    """A random voyage. Sources, among them names that are something to XML, CSV or a spreadsheet, say what they like."""
    SOURCES = ("GP0001", "GP0002", "HE0001", "A&B<C>\"D", "=1+1", "\"\"", "x'y,z;", "<![CDATA[", None, "-", "SIXTEENLESSONE1")

    def __init__(self, r):
        self.r = r

    def some(self, *choices):
        return self.r.choice(choices)

    def decimal(self, most=359, negative=False):
        r = self.r
        text = self.some("%d" % r.randint(0, most), "%d.%d" % (r.randint(0, most), r.randrange(10)), "%05.2f" % r.uniform(0, most), "%d.%06d" % (r.randint(0, most), r.randrange(10 ** 6)),
                         "0", "000.0", "", "%09d" % r.randint(0, most))
        return "-" + text if negative and text and r.random() < .4 else text

    def angle(self, width, most, places, letters):
        r = self.r
        degree = "%0*d" % (width, self.some(r.randint(0, most), r.randint(0, most), 0, most))
        minute = self.some("%02d.%0*d" % (r.randrange(60), places, r.randrange(10 ** places)), "59." + "9" * places, "00." + "0" * places, "%02d.%d" % (r.randrange(60), r.randrange(10)),
                           "%02d" % r.randrange(60), "00." + "0" * (places - 1) + "3", "30.5000")
        return self.some(*[degree + minute] * 9, ""), self.some(*letters * 6, "")

    def position(self, fine=False):
        places = 9 if fine else 6
        return ",".join((*self.angle(2, 89, places, "NS"), *self.angle(3, 179, places, "EW")))

    def time(self):
        r = self.r
        return self.some("%02d%02d%02d" % (r.randrange(24), r.randrange(60), r.randrange(60)), "%02d%02d%02d.%d0" % (r.randrange(24), r.randrange(60), r.randrange(60), r.randrange(10)), "")

    def sentence(self):
        r, d, some = self.r, self.decimal, self.some
        what = some("HDT", "THS", "ROT", "RSA", "ROR", "DPT", "MWV", "VTG", "GLL", "GLL", "GLL", "RMC", "GGA", "GNS", "ZDA", "RPM", "HBT", "ALR", "VBW", "TTM", "ALF", "VDM", "VDM", "XYZ")
        av = some("A", "A", "A", "V", "")
        body = {
            "HDT": lambda: f"{d()},T", "THS": lambda: f"{d()},{some(*'AEMSV', '')}", "ROT": lambda: f"{d(90, True)},{av}", "RSA": lambda: f"{d(35, True)},{av},{d(35, True)},{some('A', 'V', '')}",
            "ROR": lambda: f"{d(35, True)},{av},{d(35, True)},{some('A', 'V', '')},{some(*'BPSCEW', '')}", "DPT": lambda: f"{d(99)},{d(9, True)}" + some("", f",{d(200)}"),
            "MWV": lambda: f"{d()},{some('R', 'T', '')},{d(50)},{some(*'KMNS', '')},{av}", "VTG": lambda: f"{d()},T,{d()},M,{d(20)},N,{d(40)},K" + some("", f",{some(*'ADENS', '')}"),
            "GLL": lambda: f"{self.position()},{self.time()},{av}" + some("", f",{some(*'ADENS', '')}"),
            "RMC": lambda: f"{self.time()},{av},{self.position(True)},{d(20)},{d()},{some('140524', '')},{d(9)},{some('E', 'W', '')}" + some("", ",A", ",N,V"),
            "GGA": lambda: f"{self.time()},{self.position(True)},{some(*'01268', '')},{some('08', '12', '')},{d(9)},{d(99, True)},M,{d(60, True)},M,{d(9)},{some('0120', '')}",
            "GNS": lambda: f"{self.time()},{self.position(True)},{some('AA', 'AN', 'NN', 'N', 'D', '')},{some('08', '')},{d(9)},{d(99, True)},{d(60, True)},{d(9)},{some('120', '')}" + some("", ",V"),
            "ZDA": lambda: f"{self.time()},{some('14', '1', '')},{some('05', '12', '')},{some('2024', '')},{some('-02', '00', '')},00",
            "RPM": lambda: f"{some('S', 'E', '')},{some('0', '1', '07', '')},{d(120, True)},{d(100, True)},{av}", "HBT": lambda: f"{some('30', '60.0', '')},{av},{some(*'0123456789', '')}",
            "ALR": lambda: f"{self.time()},{some('240', '007', '')},{some('A', 'V', '')},{some('A', 'V', '')},{some('FIRE', 'a<b', 'say ^22no^22', chr(34) + 'x' + chr(34), '=2+2', '')}",
            "VBW": lambda: f"{d(20, True)},{d(3, True)},{av},{d(20, True)},{d(3, True)},{some('A', 'V', '')}" + some("", f",{d(3, True)},A,{d(3, True)},V"),
            "TTM": lambda: f"{some('01', '12', '')},{d(12)},{d()},{some('T', 'R', '')},{d(20)},{d()},{some('T', 'R', '')},{d(12)},{d(30, True)},{some(*'KNS', '')},{some('B4', '')},{some(*'LQT', '')},R" + some("", f",{self.time()},A"),
            "ALF": lambda: f"1,1,{some('1', '')},{self.time()},{some(*'ABC')},{some(*'EAWC')},{some(*'VSAOUN', '')},,{some('3017', '')},{some('1', '')},1,0,{some('LOST TARGET', '')}",
            "XYZ": lambda: "1,2,3",
        }.get(what)
        if what == "VDM":
            return self.ais()
        if r.random() < .03:
            return [f"{some('GP', 'II')}{what},{body()},x,y".replace(",A", ",Q", 1)]
        return [f"{some('GP', 'II', 'HE')}{what},{body()}"]

    def ais(self):
        r = self.r
        mmsi = self.some(244660123, 2442, 992446012, 636092345)

        def bits(fields):
            return "".join(format(value & (1 << width) - 1, f"0{width}b") for value, width in fields)

        latitude, longitude = self.some(54_600_000, r.randint(-54_000_000, 54_000_000), 1, -1, 0), self.some(108_600_000, r.randint(-108_000_000, 108_000_000), 3, -3)
        speed, course, heading = self.some(1023, 1022, r.randrange(1023), 0), self.some(3600, r.randrange(3600)), self.some(511, r.randrange(360))
        name = "".join(format(ord(it) & 63, "06b") for it in self.some("EVER DIADEM", 'A"B,C <&>', "", "NORDIC HAMBURG  ").ljust(20, "@"))
        kind = self.some(1, 2, 3, 4, 5, 18, 24, 24, 6)
        if kind in (1, 2, 3, 6):
            body = bits([(kind, 6), (0, 2), (mmsi, 30), (0, 12), (speed, 10), (1, 1), (longitude, 28), (latitude, 27), (course, 12), (heading, 9), (0, 31)])
        elif kind == 4:
            body = bits([(4, 6), (0, 2), (mmsi, 30), (0, 41), (longitude, 28), (latitude, 27), (0, 34)])
        elif kind == 18:
            body = bits([(18, 6), (0, 2), (mmsi, 30), (0, 8), (speed, 10), (1, 1), (longitude, 28), (latitude, 27), (course, 12), (heading, 9), (0, 35)])
        elif kind == 24:
            body = bits([(24, 6), (0, 2), (mmsi, 30), (self.some(0, 1), 2)]) + name
        else:
            body = bits([(5, 6), (0, 2), (mmsi, 30), (0, 74)]) + name + "0" * 192
        payload, fill = armoured(body)
        size = self.some(56, 28)
        pieces = [payload[i:i + size] for i in range(0, len(payload), size)][:9]
        sequence = self.some("1", "2", "") if len(pieces) > 1 else ""
        lines = [f"AIVD{self.some('M', 'O') if len(pieces) == 1 else 'M'},{len(pieces)},{k + 1},{sequence},{'A'},{piece},{fill if k + 1 == len(pieces) else 0}" for k, piece in enumerate(pieces)]
        if len(lines) > 1 and r.random() < .2:
            del lines[r.randrange(len(lines))]
        return lines

    def line(self, source, content):
        r = self.r
        start = b"!" if content[2:5] in ("VDM", "VDO") else b"$"
        text = checked(content.encode("latin-1"))
        if r.random() < .02:
            text = text[:-1] + b"Z"
        tag = b"" if source is None else b"\\" + checked(b"s:" + source.encode() + self.some(b"", b",n:%d" % r.randrange(1000))) + b"\\"
        if tag and r.random() < .02:
            tag = tag[:-2] + b"Z\\"
        return tag + start + text + b"\r\n"

    def items(self, count):
        """The items of a voyage of so many datagrams."""
        r, found, received, utc = self.r, [], 0, 1_715_652_000_000
        for _ in range(count):
            step = self.some(0, 40, 200, 1000, 1000, 1000, 2000, 10_000, 10_001, 30_000)
            received += step
            utc += self.some(*[step] * 12, step + self.some(1, 9_000, 86_400_000), -self.some(1, 1000, 3_600_000))
            utc = max(0, utc)
            group = self.some(NAVD, NAVD, NAVD, TGTD, MISC)
            if r.random() < .04:
                found += [(group, received, utc, self.some(b"nothing", b"UdPbC\0" + b"x" * 1500, b"PcmFr\0" + b"\0" * 20, b"RaUdP\0abc"))]
                continue
            lines = []
            for _ in range(self.some(1, 1, 2, 3)):
                source = self.some(*self.SOURCES[:3] * 3, *self.SOURCES)
                lines += [self.line(source, it) for it in self.sentence()]
            body = b"UdPbC\0" + b"".join(lines)
            found += [(group, received, utc, body)] * (30 if r.random() < .02 else 1)
        return found

#!/usr/bin/env python3
"""A model of a page (docs/formats/page.md), written apart from the program: out of what `play`, `evidence` and `incidents` write of the same records.

    bench/viewer/model.py PROGRAM FOLDER MEDIUM FROM TO > PAGE

What a sentence says is that of bench/voyages.py: it knows the formatters that are there alone, and alerts of one sentence."""
import base64
import hashlib
import struct
import subprocess
import sys
from decimal import Decimal
from pathlib import Path

sys.dont_write_bytecode = True
ROOT = Path(__file__).resolve().parent.parent.parent
sys.path.insert(0, str(ROOT / "bench"))
import voyages  # noqa: E402

TEMPLATE = ROOT / "crates/vdr_page/src/template.html"
STEPS = 1_500  # the buckets of a page
APART = {"v": 10_000, "p": 10_000, "ship": 180_000}  # milliseconds that two readings of a run may lie apart
MOST = {"raw": 4 << 20, "pcm": 16 << 20, "part": 8 << 20}  # bytes of payloads of a kind that a page shows
GROUPS = "MISC TGTD SATD NAVD VDRD RCOM TIME PROP USR1 USR2 USR3 USR4 USR5 USR6 USR7 USR8".split()
ESCAPES = {it: f"\\u{it:04x}" for it in range(256) if not 0x20 <= it <= 0x7E or chr(it) in '"\\<>&'}


def string(data):
    """A string that stands for these bytes, or for this text of ASCII."""
    return '"' + (data if isinstance(data, str) else data.decode("latin-1")).translate(ESCAPES) + '"'


def row(*parts):
    """A row of these values, each as it is printed."""
    return f"[{','.join(map(str, parts))}]"


# ---- runs

class Reading:
    """A reading of a series: its stamp, how many gaps of its group came before it, whether it is valid, what least and greatest are judged by, its text."""

    def __init__(self, utc, gaps, valid, measures, text):
        self.utc, self.gaps, self.valid, self.measures, self.text = utc, gaps, valid, measures, text


def kept(run):
    """The readings of a run that its row shows: the first, the last, and of each measure the first least and the first greatest."""
    which = {0, len(run) - 1}
    for measure in zip(*(it.measures for it in run)):
        which |= {measure.index(min(measure)), measure.index(max(measure))}
    return [run[k] for k in sorted(which)]


class Series:
    """The open runs, by the kind of their row and the text that it begins with."""

    def __init__(self, step):
        self.step, self.runs = step, {}

    def push(self, kind, front, reading):
        """Takes a reading. Gives the row of the run that ends before it, if one does."""
        key = ("v", "p", "ship").index(kind), front.encode()
        behind, run = self.runs.get(key, (True, []))
        if run and self.joins(kind, run[-1], reading):
            run.append(reading)
            return []
        closed = [self.told(key, behind, run)] if run else []
        self.runs[key] = (not run or run[-1].gaps != reading.gaps), [reading]
        return closed

    def joins(self, kind, old, new):
        """Tells whether a reading goes on with the run whose last one is the other."""
        return old.utc // self.step == new.utc // self.step and 0 <= new.utc - old.utc <= APART[kind] and old.valid == new.valid

    def told(self, key, behind, run):
        """The row of a run."""
        kind, front = ("v", "p", "ship")[key[0]], key[1].decode()
        points = row(*(f"{it.utc},{it.text}" for it in kept(run)))
        if kind == "ship":
            return row('"ship"', front, len(run), points)
        return row(string(kind), front, string(run[0].valid or ""), int(behind), run[-1].gaps - run[0].gaps, len(run), points)

    def close(self):
        """Gives the rows of all open runs, in order, and forgets them."""
        rows = [self.told(key, *self.runs[key]) for key in sorted(self.runs)]
        self.runs = {}
        return rows


class Missed:
    """The open rows of gaps, by group."""

    def __init__(self, step):
        self.step, self.rows = step, {}

    def push(self, r, utc):
        """Takes a Gap. Gives the row that ends before it, if one does."""
        old = self.rows.get(r.group)
        closed = []
        if old and (old[1] // self.step != utc // self.step or utc < old[2]):
            closed, old = [self.told(r.group)], None
        if old:
            old[2:] = [utc, old[3] + 1] + [a + b for a, b in zip(old[4:], r.counts)]
        else:
            self.rows[r.group] = [r.place, utc, utc, 1, *r.counts]
        return closed

    def told(self, group):
        place, first, last, *counts = self.rows[group]
        return row('"gap"', place, first, last, string(group), *counts)

    def close(self):
        rows = [self.told(group) for group in sorted(self.rows)]
        self.rows = {}
        return rows


# ---- who was heard, and what was told

class Heard:
    """Of each group and source its first and last stamp, its lines, how many are bad, and how often its line count breaks off."""

    def __init__(self):
        self.rows, self.counts = {}, {}

    def push(self, r, utc):
        for raw, said in zip(r.raws, r.said):
            source, count = "-", "-"
            if said.startswith("good "):
                source, count = said.split(" ")[1:3]
            elif said.startswith("sentence "):
                for part in raw[1:raw.rindex(b"*", 0, raw.rindex(b"\\"))].decode("latin-1").split(",") if raw.startswith(b"\\") else []:
                    source = part[2:] if part.startswith("s:") else source
                    count = part[2:] if part.startswith("n:") else count
            key = GROUPS.index(r.group), source.encode()
            old = self.rows.setdefault(key, [utc, utc, 0, 0, 0])
            old[1], old[2], old[3] = utc, old[2] + 1, old[3] + (not said.startswith("good "))
            if count != "-":
                before = self.counts.get(key)
                old[4] += before is not None and int(count) != before + 1 and not (before == 999 and int(count) == 0)
                self.counts[key] = int(count)

    def close(self):
        return [row('"source"', string(GROUPS[group]), string(source), *self.rows[group, source]) for group, source in sorted(self.rows)]


class Watch:
    """Heartbeats, alarms and alerts of one sentence: the lines of `watch`."""

    def __init__(self):
        self.beats, self.alarms, self.alerts = {}, {}, {}

    def beat(self, r, key, interval, number):
        """The lines of a heartbeat, or of the last record in place of one. How long it is since the last one is told by recording time."""
        front = f"{r.place} {r.utc}"
        before = self.beats.get(key)
        self.beats[key] = r.tick, interval, number
        if before is None:
            return []
        lines = [f"{front} silent {GROUPS[key[0]]} {key[1]} {r.tick - before[0]}"] if r.tick - before[0] > 2000 * before[1] else []
        if before[2] is not None and number is not None and number != (before[2] + 1) % 10:
            lines.append(f"{front} jump {GROUPS[key[0]]} {key[1]} {before[2]} {number}")
        return lines

    def push(self, r):
        if r.kind == "start":
            self.beats = {}
        lines = []
        for line in r.lines:
            if not line or not line.reads:
                continue
            f, key = line.field, (GROUPS.index(r.group), line.source)
            if line.formatter == "HBT" and f(1) and Decimal(f(1)) > 0:
                lines += self.beat(r, key, Decimal(f(1)), int(f(3)) if f(3) else None)
            if line.formatter == "ALR" and f(2):
                state = f(3), f(4)
                if self.alarms.get((key, int(f(2)))) != state:
                    lines.append(f"{r.place} {r.utc} alarm {r.group} {line.source} {int(f(2))} {f(3) or 'null'} {f(4) or 'null'} {voyages.escaped(f(5)) or 'null'}")
                self.alarms[key, int(f(2))] = state
            if line.formatter == "ALF" and f(1) == f(2) == "1" and f(9):
                name, state = f"{f(8)}{int(f(9))} {f(10) or 'null'}", (f(6) or "null", f(7) or "null")
                if self.alerts.get((key, name)) != state:
                    lines.append(f"{r.place} {r.utc} alert {r.group} {line.source} {name} {' '.join(state)} {voyages.escaped(f(13)) or 'null'}")
                self.alerts[key, name] = state
        return lines

    def close(self, r):
        return [line for key in sorted(self.beats) for line in self.beat(r, key, Decimal(0), None)]


# ---- what a record says

def ticks(evidence):
    """The recording time of each record of an evidence file, in milliseconds."""
    at = 8
    for _ in range(5):
        at += 4 + int.from_bytes(evidence[at:at + 4], "little")
    while size := int.from_bytes(evidence[at:at + 4], "little"):
        yield int.from_bytes(evidence[at + 32:at + 40], "little")
        at += 4 + size


def records(play, evidence):
    """The records of the lines that `play` prints and of the file that `evidence` writes of the same words, one after another."""
    for r, r.tick in zip(voyages.each(play), ticks(evidence)):
        yield r


def own(r, utc, page):
    """The row of the Datagram itself, where the page shows its kind."""
    kind = kind_of(r)
    if not page.shows[kind]:
        return []
    if kind == "pcm":
        microphone, frame, rate, _ = struct.unpack_from("<BIIH", r.payload, 6)
        return [row('"pcm"', r.place, utc, microphone, frame, rate, string(base64.b64encode(r.payload[17:])))]
    if kind == "part":
        _, source, _, block, number, greatest = struct.unpack_from("<H6s6sIII", r.payload, 6)
        return [row('"part"', r.place, utc, string(r.group), string(source), block, number, greatest, string(base64.b64encode(r.payload[32:])))]
    return [row('"raw"', r.place, utc, string(r.group), string(r.payload))]


def kind_of(r):
    """The kind of the row of a Datagram."""
    return {"image": "part", "pcm": "pcm"}.get(r.said[0].split(" ")[0], "raw")


class Page:
    """The rows of a page, record by record."""

    def __init__(self, step, shows):
        self.step, self.shows = step, shows
        self.series, self.missed, self.heard, self.watch, self.ships, self.gaps = Series(step), Missed(step), Heard(), Watch(), voyages.Ships(), {}
        self.last = None

    def record(self, r):
        """The rows of this record behind those before it."""
        utc = voyages.milliseconds(r.utc)
        self.last = r
        lines = self.watch.push(r)
        if r.kind in ("start", "stop"):
            return self.series.close() + self.missed.close() + [row(string(r.kind), r.place, utc)]
        if r.kind == "gap":
            self.gaps[r.group] = self.gaps.get(r.group, 0) + 1
            return self.missed.push(r, utc)
        self.heard.push(r, utc)
        rows = own(r, utc, self)
        for line in r.lines:
            if line and line.reads:
                rows += self.traffic(line, utc) if line.formatter in ("VDM", "VDO") else self.sentence(line, utc)
        return rows + [row('"watch"', string(it)) for it in lines]

    def sentence(self, line, utc):
        """What the readings of a sentence close: of its position, and of all other numbers."""
        group, rows, angles = line.record.group, [], {}
        front = f"{string(group)},{string(line.source)},{string(line.address)}"
        for item, name, value, unit, valid, _ in voyages.of_line(line):
            if name in ("latitude", "longitude"):
                angles[name] = value, valid
            elif value:
                key = f"{front},{string(item)},{string(name)},{string(unit)}"
                rows += self.series.push("v", key, Reading(utc, self.gaps.get(group, 0), valid, (Decimal(value),), value))
        if len(angles) == 2:
            (latitude, valid), (longitude, _) = angles["latitude"], angles["longitude"]
            reading = Reading(utc, self.gaps.get(group, 0), valid, (Decimal(latitude), Decimal(longitude)), f"{latitude},{longitude}")
            rows = self.series.push("p", front, reading) + rows
        return rows

    def traffic(self, line, utc):
        """What the message closes that this line ends, and the name that it reports."""
        mmsi, place, name = self.ships.report(line)
        rows = []
        if place:
            front = f"{string(line.record.group)},{string(line.source)},{string(line.formatter)},{mmsi}"
            text = ",".join("null" if it is None else str(it) for it in place)
            rows += self.series.push("ship", front, Reading(utc, 0, None, (), text))
        return rows + ([row('"name"', utc, string(line.formatter), mmsi, string(name))] if name else [])

    def close(self):
        """The rows behind the last record."""
        rows = self.series.close() + self.missed.close()
        rows += [row('"watch"', string(it)) for it in self.watch.close(self.last)]
        return rows + self.heard.close() + [row('"end"')]


def surveyed(records):
    """The least and the greatest stamp of Datagrams and Gaps, the number of all records, and the bytes of Datagrams by their kind."""
    low = high = None
    count, sums = 0, dict.fromkeys(MOST, 0)
    for r in records:
        count += 1
        if r.kind in ("start", "stop"):
            continue
        utc = voyages.milliseconds(r.utc)
        low, high = (utc, utc) if low is None else (min(low, utc), max(high, utc))
        if r.kind == "data":
            sums[kind_of(r)] += len(r.payload)
    return low, high, count, sums


def block(records, words, saves):
    """The lines of the data block, of records that can be gone over twice. `words` are MEDIUM, FROM and TO, `saves` the lines of `incidents`."""
    low, high, count, sums = surveyed(records())
    step = 1 if low is None else (high - low) // STEPS + 1
    shows = {kind: sums[kind] <= MOST[kind] for kind in MOST}
    bounds = ("null", "null") if low is None else (low, high)
    yield row('"page"', 1, *map(string, words), *bounds, step, *(int(shows[kind]) for kind in ("raw", "pcm", "part")), count) + ",\n"
    for save in saves:
        number, _, utc, first, last, label = save.split(" ", 5)
        yield row('"save"', number, voyages.milliseconds(utc), first, last, string(label)) + ",\n"
    page = Page(step, shows)
    for r in records():
        for it in page.record(r):
            yield it + ",\n"
    *rows, end = page.close()
    for it in rows:
        yield it + ",\n"
    yield end + "\n"


# ---- the page

class Media:
    """Recorded media, of which the program prints what a page is made of."""

    def __init__(self, vdr, folder):
        self.vdr, self.folder = vdr, folder

    def lines(self, *words):
        """The lines that the program prints, one after another."""
        with subprocess.Popen([self.vdr, self.folder, *words], stdout=subprocess.PIPE) as process:
            for line in process.stdout:
                yield line.decode("latin-1").removesuffix("\n")

    def page(self, words):
        """The page of these words, in parts."""
        head, tail = template()
        evidence = subprocess.run([self.vdr, self.folder, "evidence", words[0], "all", *words[1:]], capture_output=True, check=True).stdout
        yield head
        for line in block(lambda: records(self.lines("play", words[0], "all", *words[1:]), evidence), words, self.lines("incidents")):
            yield line.encode("latin-1")
        yield tail


def template():
    """What stands before and behind the rows: the template with the SHA-256 of its script and of its style, cut at its mark."""
    page = TEMPLATE.read_bytes()
    for mark, tag in (b"@SCRIPT@", b"script"), (b"@STYLE@", b"style"):
        body = page.split(b"<%s>" % tag)[1].split(b"</%s>" % tag)[0]
        page = page.replace(mark, base64.b64encode(hashlib.sha256(body).digest()))
    return page.split(b"@DATA@\n")


if __name__ == "__main__":
    if len(sys.argv) != 6:
        sys.exit("usage: bench/viewer/model.py PROGRAM FOLDER MEDIUM FROM TO > PAGE")
    for part in Media(*sys.argv[1:3]).page(sys.argv[3:]):
        sys.stdout.buffer.write(part)

#!/usr/bin/env python3
"""Holds `page` against a model that was written apart from it (bench/viewer/model.py), and looks at its pages in a headless Chromium:

    bench/viewer/check.py PROGRAM [--rounds N] [--seed N] [--long HOURS] [--folder FOLDER] [--model]

Random voyages, examples/approach.feed, and the same with texts that would be markup or script: each page is compared to the byte, of all records,
between stamps, of the capsule and of an incident. Chromium opens three of them and those of the approach: what they show, their keys and their console; one
that is cut off, which has to say so; and one whose escapes were undone by hand, of which the policy has to let nothing run. With --long a voyage of so many
hours on ship media (48 are those of a capsule), in FOLDER: how large its page is, how long it takes beside `play`, with how much memory, and how long
Chromium loads it and takes for a step of its slider. With --model the model's pages stand for the program's, where that has none yet.
It stops with 1 at the first page that differs, and leaves its folder. Needs the Debian package chromium."""
import argparse
import json
import os
import random
import shutil
import statistics
import struct
import subprocess
import sys
import tempfile
import time
from pathlib import Path

sys.dont_write_bytecode = True
import look  # noqa: E402
import model  # noqa: E402
import voyages  # noqa: E402
from browser import Browser  # noqa: E402

ROOT = model.ROOT
CONFIG = {"profile": "bench", "capsule_seconds": 600, "long_seconds": 100_000, "incident_seconds": 300, "incident_slots": 2, "segment": 65_536, "batch": 16_384, "queue": 64,
          "groups": [{"name": name, "datagrams": 8, "bytes": 4_000} for name in ("NAVD", "TGTD", "MISC")], "channels": []}
NAVD, TGTD, VDRD = 3, 1, 4
LARGEST, SPEED = 20_000_000, .8  # bytes of a page of 48 hours, and how fast it comes beside `play`
LABEL = "</script><script>alert(7)</script>"
HOSTILE = ((b"<b>x</b>", b"</script><script>alert(1)</script>"), (b"'\"><img", b"<img src=x onerror=alert(2)>"), (b"</script>", b"\"]]}';alert(3)//"),
           (b"HE<!--", b"<!--<script>"), (b"&lt;", b"&lt;script&gt;\xe2\x80\xa8\x00\x7f"))


def run(*words, data=None):
    done = subprocess.run(words, input=data, capture_output=True)
    if done.returncode:
        sys.exit(f"{' '.join(map(str, words))}: status {done.returncode}: {done.stdout[-300:]!r} {done.stderr.decode()}")
    return done.stdout


def made(vdr, folder, config, feed):
    """Media of this configuration that hold this feed, in files without content where nothing is written."""
    folder.mkdir()
    text = json.dumps(config).encode()
    needs = dict(line.split() for line in run(vdr, ".", "check", data=text).decode().splitlines())
    for medium in "capsule", "longterm":
        with open(folder / f"{medium}.vdr", "wb") as file:
            file.truncate(32_768 + config["segment"] * int(needs[medium]))
    run(vdr, folder, "format", data=text)
    run(vdr, folder, "replay", data=feed)
    return folder


class Pages:
    """What writes pages of media: the program, or the model in its place."""

    def __init__(self, vdr, is_model):
        self.vdr, self.is_model, self.count, self.rows = vdr, is_model, 0, 0

    def compared(self, media, *words):
        """The page of these words, which is the model's to the byte."""
        wanted = b"".join(model.Media(self.vdr, media).page(words))
        told = wanted if self.is_model else run(self.vdr, media, "page", *words)
        if told != wanted:
            pair = next(((a, b) for a, b in zip(told.splitlines(), wanted.splitlines()) if a != b), (len(told), len(wanted)))
            sys.exit(f"page {' '.join(words)}: the program has {pair[0]!r}, the model {pair[1]!r}; of {media}")
        wrong = look.wrong_in_file(told)
        if wrong:
            sys.exit(f"page {' '.join(words)}: {wrong[0]}; of {media}")
        self.count, self.rows = self.count + 1, self.rows + look.block_of(told).count(b"\n")
        return told

    def voyage(self, media):
        """Compares the pages of a random voyage, and gives that of all records."""
        stamps = sorted({r.utc for r in voyages.records(run(self.vdr, media, "play", "longterm", "all", "-", "-").decode("latin-1"))})
        page = self.compared(media, "longterm", "-", "-")
        self.compared(media, "longterm", stamps[len(stamps) // 3], stamps[2 * len(stamps) // 3])
        self.compared(media, "longterm", "9999-12-31T23:59:59.999Z", "-")
        self.compared(media, "capsule", "-", "-")
        run(self.vdr, media, "save", "trial")
        self.compared(media, "incident-1", "-", "-")
        return page


# ---- texts that would be markup or script

def items(feed):
    """The items of a feed: group, received, stamp and bytes."""
    at = 8
    while at < len(feed):
        group, received, utc, size = struct.unpack_from("<BQqH", feed, at)
        yield group, received, utc, feed[at + 19:at + 19 + size]
        at += 19 + size


def line(source, content, start=b"$"):
    return b"\\" + voyages.checked(b"s:" + source) + b"\\" + start + voyages.checked(content) + b"\r\n"


def named(mmsi, text):
    """The lines of an AIS message that names a ship."""
    bits = "".join(format(value & (1 << width) - 1, f"0{width}b") for value, width in [(5, 6), (0, 2), (mmsi, 30), (0, 74), *((ord(it) & 63, 6) for it in text.ljust(20, "@")), (0, 192)])
    payload, fill = voyages.armoured(bits)
    parts = [payload[i:i + 56] for i in range(0, len(payload), 56)]
    return b"".join(line(b"AI0001", f"AIVDM,{len(parts)},{k + 1},9,A,{part},{fill if k + 1 == len(parts) else 0}".encode(), b"!") for k, part in enumerate(parts))


def hostile(feed):
    """A feed with datagrams whose texts would be markup or script."""
    found = list(items(feed))
    begin = found[0][2] - found[0][1]
    for k, (source, text) in enumerate(HOSTILE):
        at = 100_000 + 10_000 * k
        found += [(NAVD, at + 3, begin + at + 3, b"UdPbC\0" + line(source, b"AGALR,020000,%03d,A,V,%s" % (900 + k, text))),
                  (NAVD, at + 4, begin + at + 4, b"UdPbC\0" + line(source, b"HEHDT,1.0,T") + b"</script><script>alert(4)</script>"),
                  (VDRD, at + 5, begin + at + 5, b"EvilX\0</script><svg onload=alert(5)>")]
    svg = b"<svg xmlns='http://www.w3.org/2000/svg' onload='alert(6)'/>"
    found += [(VDRD, 150_000, begin + 150_000, struct.pack("<6sH6s6sIII", b"RaUdP\0", 1, b"<b>&\"'", b"VR0001", 99, 1, 1) + svg),
              (TGTD, 5_500, begin + 5_500, b"UdPbC\0" + named(244_660_123, "<IMG SRC=X ONERROR=\"")), (NAVD, 13_500, begin + 13_500, b"UdPbC\0" + named(7, "&LT;SCRIPT&GT; '\"<!--"))]
    return voyages.feed(sorted(found, key=lambda it: it[1]))


# ---- Chromium

def seen(name, page, folder):
    """Opens a page, and stops where something is wrong with it."""
    file = folder / f"{name}.html"
    file.write_bytes(page)
    with Browser() as browser:
        load = browser.open(file)
        wrong, told = look.wrong_in_page(browser, page)
        steps = look.steps_of(browser)
        wrong += [f"it says: {it}" for it in browser.said if f"it says: {it}" not in wrong]
        heap = browser.heap()
    if wrong:
        sys.exit("\n".join([f"{file}: Chromium shows:"] + wrong))
    print(f"{name}: {len(page):,} bytes, drawn after {load:.2f} s, a step {statistics.median(steps) * 1000:.0f} ms, the longest {max(steps) * 1000:.0f} ms, {heap / 1e6:.0f} MB of heap; "
          f"{told['events']} events, {told['sources']} sources, {len(told['tiles'])} tiles")
    return load, statistics.median(steps)


def seen_cut(page, folder):
    """A page that ends within its rows says so."""
    file = folder / "cut.html"
    file.write_bytes(page[:len(page) // 2] + b"\nstatus 8 media\n")
    with Browser() as browser:
        browser.open(file)
        told = browser.value("(() => { const told = document.getElementById('broken'); return told && told.offsetHeight ? told.textContent : ''; })()")
    if "not whole" not in told:
        sys.exit(f"{file}: it does not say that it is cut off")


def seen_undone(page, folder):
    """Of a page whose escapes were undone by hand the policy lets nothing run."""
    block = look.block_of(page)
    undone = block.replace(b"\\u003c", b"<").replace(b"\\u003e", b">").replace(b"\\u0026", b"&").replace(b"\\u0022", b'"')
    file = folder / "undone.html"
    file.write_bytes(page.replace(block, undone))
    with Browser() as browser:
        browser.open(file)
        time.sleep(1)
        browser.drawn()
        ran, refused = ([it for it in browser.said if it.startswith("dialog:")], [it for it in browser.said if "Content Security Policy" in it])
    if ran or not refused:
        sys.exit(f"{file}: {ran or 'nothing was refused by its policy'}")
    print(f"escapes undone: {len(refused)} times the policy refused to run or to load, and nothing ran")


# ---- a long voyage

def timed(words, out):
    """The seconds that a command takes, and the most memory that it had, in MiB."""
    begun = time.perf_counter()
    with open(out, "wb") as file, subprocess.Popen(words, stdout=file) as process:
        _, status, use = os.wait4(process.pid, 0)
        process.returncode = os.waitstatus_to_exitcode(status)
    if process.returncode:
        sys.exit(f"{words}: status {process.returncode}")
    return time.perf_counter() - begun, use.ru_maxrss / 1024


def long_voyage(pages, hours, folder):
    """Measures the page of a long voyage, and stops where it is too large or too slow."""
    with open(folder / "long.feed", "wb") as file:
        subprocess.run([sys.executable, ROOT / "bench/viewer/voyage.py", str(hours)], stdout=file, check=True)
    media = made(pages.vdr, folder / "long", json.loads((ROOT / "examples/ship.json").read_text()), (folder / "long.feed").read_bytes())
    words, html = ("longterm", "-", "-"), folder / "long.html"
    wrong = []
    if pages.is_model:
        html.write_bytes(pages.compared(media, *words))
    else:
        turns = [(timed([pages.vdr, media, "play", "longterm", "all", "-", "-"], folder / "play"), timed([pages.vdr, media, "page", *words], html)) for _ in range(3)]
        ratio = statistics.median(play[0] / page[0] for play, page in turns)
        print(f"{hours} hours: page {statistics.median(it[1][0] for it in turns):.1f} s with {max(it[1][1] for it in turns):.0f} MiB, "
              f"play {statistics.median(it[0][0] for it in turns):.1f} s with {max(it[0][1] for it in turns):.0f} MiB; speed {ratio:.2f} of that of play")
        if ratio < SPEED:
            wrong.append(f"page has {ratio:.2f} of the speed of play")
        (folder / "play").unlink()
        pages.compared(media, *words)
    load, step = seen("long", html.read_bytes(), folder)
    if html.stat().st_size > LARGEST or load > look.LOAD or step > look.STEP:
        wrong.append("the page is too large, or Chromium too slow with it")
    if wrong:
        sys.exit("\n".join(wrong))


def main():
    asked = argparse.ArgumentParser(usage=__doc__)
    asked.add_argument("program")
    asked.add_argument("--rounds", type=int, default=20)
    asked.add_argument("--seed", type=int, default=random.randrange(10 ** 6))
    asked.add_argument("--long", type=int, default=0)
    asked.add_argument("--folder")
    asked.add_argument("--model", action="store_true")
    words = asked.parse_args()
    pages, folder = Pages(os.path.abspath(words.program), words.model), Path(tempfile.mkdtemp(prefix="viewer.", dir=words.folder))
    print(f"seed {words.seed}, in {folder}", flush=True)
    for k in range(words.rounds):
        media = made(pages.vdr, folder / f"voyage{k}", CONFIG, voyages.feed(voyages.Voyage(random.Random(f"{words.seed} {k}")).items(300)))
        page = pages.voyage(media)
        if k < 3:
            seen(f"voyage {k}", page, folder)
        shutil.rmtree(media)
    config, feed = json.loads((ROOT / "examples/approach.json").read_text()), (ROOT / "examples/approach.feed").read_bytes()
    page = pages.compared(made(pages.vdr, folder / "approach", config, feed), "longterm", "-", "-")
    seen("approach", page, folder)
    seen_cut(page, folder)
    media = made(pages.vdr, folder / "hostile", config, hostile(feed))
    run(pages.vdr, media, "save", LABEL)
    page = pages.compared(media, "longterm", "-", "-")
    seen("hostile", page, folder)
    seen_undone(page, folder)
    if words.long:
        long_voyage(pages, words.long, folder)
    print(f"{pages.count} pages of {pages.rows:,} rows, all as the model has them")
    shutil.rmtree(folder)


if __name__ == "__main__":
    main()

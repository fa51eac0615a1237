#!/usr/bin/env python3
"""Opens a page in a headless Chromium, and says what is wrong with it: its policy, its data block, what it shows, its keys, its console.

    bench/viewer/look.py PAGE [--at MOMENT] [--picture PNG [WIDTH HEIGHT]] [--dark] [--whole] [--paper PDF]

It prints what stands in the page, and how long it took: from its opening until it was drawn, and for each of forty steps of its slider over all of
its time. Its status is 1 where something is wrong. --picture writes what is seen, with --whole all of the page; --paper writes it as it is printed.
Needs the Debian package chromium. docs/page.png is the page of examples/approach.feed so, made smaller by pngquant:

    bench/viewer/look.py PAGE --at 2024-05-14T02:12:20Z --picture page.png 1300 1080 && pngquant --nofs 28 page.png"""
import argparse
import base64
import hashlib
import json
import re
import statistics
import sys
from datetime import datetime, timezone

from browser import Browser

LOAD, STEP = 5.0, 0.1  # seconds
STEPS = 40
TELLS = """(() => {
    const text = id => document.getElementById(id).textContent, rows = id => document.querySelectorAll("#" + id + " tr").length;
    return { title: document.title, now: text("now"), what: text("what"), notes: text("notes"), state: text("state"), position: text("position"),
        tiles: [...document.querySelectorAll(".tile")].map(tile => tile.textContent), targets: rows("targets"), events: rows("events"), sources: rows("sources"),
        records: document.querySelectorAll("#raw div").length, images: [...document.images].map(image => image.src.slice(0, 15)), broken: !!document.getElementById("broken"),
        strangers: document.querySelectorAll("svg, iframe, object, embed, link, base, form, video, math").length,
        scripts: document.scripts.length, styles: document.querySelectorAll("style").length };
})()"""
STEPPED = """new Promise(done => {
    const slider = document.getElementById("slider"), begun = performance.now();
    slider.value = +slider.min + (slider.max - slider.min) * %f;
    slider.dispatchEvent(new Event("input"));
    requestAnimationFrame(() => setTimeout(() => done(performance.now() - begun)));
})"""


def block_of(page):
    """The data block of a page, between its markers."""
    return page.split(b'<script type="application/json" id="data">[\n', 1)[1].split(b"]</script>\n", 1)[0]


def wrong_in_file(page):
    """What is wrong in the bytes of a page: its policy names another script or style than its own, or its data block is none."""
    wrong = []
    text = page.decode("utf-8", "replace")
    policy = re.search(r'http-equiv="Content-Security-Policy" content="([^"]*)"', text)[1]
    for tag, name in ("script", "script-src"), ("style", "style-src"):
        body = re.search(rf"<{tag}>(.*?)</{tag}>", text, re.S)[1]
        if f"{name} 'sha256-{base64.b64encode(hashlib.sha256(body.encode()).digest()).decode()}';" not in policy + ";":
            wrong.append(f"the policy's {name} is not the SHA-256 of the page's own {tag}")
    if "default-src 'none'" not in policy or "unsafe" in policy:
        wrong.append(f"the policy lets more than its own script run: {policy}")
    block = block_of(page)
    if bytes(set(block) - set(range(0x20, 0x7F)) - {10}) or set(block) & set(b"<>&"):
        wrong.append("the data block has a byte that it must not have")
    for number, line in enumerate(block.decode("latin-1").splitlines()):
        try:
            json.loads(line.rstrip(","))
        except ValueError:
            wrong.append(f"row {number} is no JSON: {line[:80]}")
    if not block.endswith(b',\n["end"]\n'):
        wrong.append("the data block does not end with its last row")
    return wrong


def shown(browser):
    """The time that a page shows, in seconds since 1970."""
    text = browser.value("document.getElementById('now').textContent")
    return datetime.strptime(text, "%Y-%m-%d %H:%M:%S UTC").replace(tzinfo=timezone.utc).timestamp()


def wrong_with_keys(browser, rows):
    """What its keys do wrong."""
    low, high = ((it or 0) // 1000 for it in rows[0][5:7])
    wrong = []

    def press(keys, wanted, shift=False):
        for key in keys:
            browser.key(key, shift)
        if shown(browser) != wanted:
            wrong.append(f"after {keys} the page shows {shown(browser) - low} s, not {wanted - low} s")

    if high - low < 120:
        return wrong
    press(["End"], high)
    press(["Home"], low)
    press(["ArrowRight"], low + 1)
    press(["ArrowRight"], low + 11, shift=True)
    press(["PageDown", "ArrowLeft"], low + 70)
    press(["PageUp"], low + 10)
    press(["Home", "n", "p"], low)
    play = [browser.value("document.getElementById('play').textContent") for _ in range(3) if browser.key(" ") is None]
    if play != ["Pause", "Play", "Pause"]:
        wrong.append(f"the space bar plays so: {play}")
    browser.key(" ")
    return wrong


def wrong_in_page(browser, page):
    """What is wrong with what a page shows of its rows, and what it shows."""
    rows = json.loads(b"[" + block_of(page) + b"]")
    kinds = [it[0] for it in rows]
    told = browser.value(TELLS)
    wrong = [f"it says: {it}" for it in browser.said]
    if told["broken"]:
        wrong.append("the page says that it is not whole")
    if told["sources"] != min(kinds.count("source"), 2001) or kinds.count("watch") and not told["events"]:
        wrong.append(f"of {kinds.count('source')} sources and {kinds.count('watch')} lines of watch it shows {told['sources']} and {told['events']}")
    if told["strangers"] or told["scripts"] != 2 or told["styles"] != 1 or any(not it.startswith("data:image/") for it in told["images"]):
        wrong.append("it has elements that are not the template's")
    if any(it[0] == "v" and it[5] == "heading" for it in rows) and not told["tiles"]:
        wrong.append("it has no tiles")
    return wrong + wrong_with_keys(browser, rows), told


def steps_of(browser):
    """The seconds that each step of the slider takes."""
    return [browser.value(STEPPED % (k * 17 % STEPS / STEPS)) / 1000 for k in range(STEPS)]


def main():
    words = argparse.ArgumentParser(usage=__doc__)
    words.add_argument("page")
    words.add_argument("--at", default="")
    words.add_argument("--picture", nargs="+")
    words.add_argument("--dark", action="store_true")
    words.add_argument("--whole", action="store_true")
    words.add_argument("--paper")
    asked = words.parse_args()
    with open(asked.page, "rb") as file:
        page = file.read()
    size = [int(it) for it in asked.picture[1:]] if asked.picture else []
    with Browser(*size, dark=asked.dark) as browser:
        moment = f"#{asked.at}" if asked.at else ""
        load = browser.open(asked.page, moment)
        if asked.picture:
            browser.picture(asked.picture[0], asked.whole)
        if asked.paper:
            browser.paper(asked.paper)
        wrong, told = wrong_in_page(browser, page)
        steps = steps_of(browser)
        heap = browser.heap()
    wrong = wrong_in_file(page) + wrong
    for name, value in told.items():
        print(f"{name}: {value}")
    print(f"{len(page):,} bytes, drawn after {load:.2f} s, a step {statistics.median(steps) * 1000:.0f} ms, the longest {max(steps) * 1000:.0f} ms, {heap / 1e6:.0f} MB of heap")
    print(*wrong, f"{len(wrong)} wrong", sep="\n")
    return 1 if wrong else 0


if __name__ == "__main__":
    sys.exit(main())

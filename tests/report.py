#!/usr/bin/env python3
"""The pages that desk.py --report writes, opened in Chromium: what is shown must be what was heard.

    python3 tests/report.py                  the repository's crates/bench/out/bench
    python3 tests/report.py --keep FOLDER    the same, and keeps the pages to look at
    python3 tests/report.py --bench 'python3 -m independent bench --answer'

It needs Chromium (Debian: apt-get install -y chromium), and is no part of the gate. The page of the
shipped capture is written by desk.py, the others from made-up frames. Each is opened without a
screen, 1,000 pixels wide, and a script looks at it as it is laid out: where each mark stands and
whether it can be pointed at, what shape and colour it has, where the floor runs, whether labels
overlap, what a click on a mark brings into sight, and that nothing comes from outside. It is put
into a copy, since the page forbids scripts. A page of 10,000 frames is timed.

A line is printed for each page, and at last `all pages as drawn`. The exit code is 0, 1 where
something differs, 2 where Chromium is missing or fails.
"""

import argparse
import json
import os
import re
import shutil
import subprocess
import sys
import tempfile
import time
from collections import Counter
from http.server import BaseHTTPRequestHandler, ThreadingHTTPServer
from itertools import combinations, pairwise
from pathlib import Path
from queue import Empty, Queue
from threading import Thread
from types import SimpleNamespace

sys.path.insert(0, str(Path(__file__).resolve().parent.parent))

from bench_pipe import BENCH_HELP, ROOT, Differs, bench_words, give_up, in_words
from capture.listener import Heard
from capture.report import Report
from capture.words import class_of, seconds
from capture.words import in_words as verdict_of
from first_capture import LABEL, STORED

PATIENCE = 120           # seconds for Chromium
USABLE = {"writing": 1.5, "loading": 10, "a jump": 2}  # seconds that 10,000 frames may take, on a
TRIES = 3                                              # machine that does nothing else
POLICY = re.compile(r'<meta http-equiv="Content-Security-Policy"[^>]*>')
SIGNS = {"opened": "●", "genuine": "▲", "altered": "◆", "forged": "✕", "nokey": "□", "refused": "○"}
TOLD = ("opened", "genuine", "altered", "forged")  # what a colour-blind reader must tell apart
SECOND = 10**9
PAN, OTHER_PAN = 0x1AAA, 0x52B1
WRENCH, DISPLAY, STRANGER = "0000000000000002", "0000000000000001", "00124b0001020304"
GENUINE, ALTERED, FORGED, NO_KEY = "8 stale genuine", "8 stale altered", "9 forged", "6 key"

# How the three kinds of colour-blindness see linear red, green and blue: Machado, Oliveira and
# Fernandes 2009, at full severity.
SIGHTS = {
    "normal sight": ((1, 0, 0), (0, 1, 0), (0, 0, 1)),
    "protanopia": ((0.152286, 1.052583, -0.204868), (0.114503, 0.786281, 0.099216),
                   (-0.003882, -0.048116, 1.051998)),
    "deuteranopia": ((0.367322, 0.860646, -0.227968), (0.280085, 0.672501, 0.047413),
                     (-0.011820, 0.042940, 0.968881)),
    "tritanopia": ((1.255528, -0.076749, -0.178779), (-0.078411, 0.930809, 0.147602),
                   (0.004733, 0.691367, 0.303900)),
}
LEAST_DISTANCE, LEAST_LIGHTNESS, LEAST_CONTRAST = 15, 8, 3
FAR = 20  # pixels between marks that tell the scale of the time axis

# What looks at the page, and sends back what it saw.
LOOK = r"""
const look = async () => {
  const page = document.documentElement;
  const height = page.scrollHeight;  // asks for the layout
  const loading = performance.now() - performance.getEntriesByType("navigation")[0].responseStart;
  const shown = () => new Promise(then => requestAnimationFrame(() => requestAnimationFrame(then)));
  const all = (within, which) => [...within.querySelectorAll(which)];
  const text = which => document.querySelector(which)?.textContent ?? "";
  const inView = box => box.top >= 0 && box.bottom <= innerHeight && box.height > 0;
  await shown();

  const outside = [];
  for (const element of all(document, "*"))
    for (const {name, value} of element.attributes)
      if (/^(xlink:)?href$|^src|^data$|action$|poster|background|ping|manifest/.test(name)
          && !value.startsWith("#")) outside.push(`${element.tagName} ${name} ${value}`);
  for (const style of all(document, "style, [style]"))
    if (/url\(|@import/.test(style.textContent + style.getAttribute("style")))
      outside.push("a style");
  const loaded = "script:not(#look), link, img, image, use, iframe, object, embed, base";
  for (const element of all(document, loaded)) outside.push(element.tagName);
  for (const {name} of performance.getEntriesByType("resource"))
    if (!name.endsWith("/favicon.ico")) outside.push(name);  // the browser's own wish

  const floorOf = (svg, home) => {
    const drawn = svg.querySelector(".floor");
    if (!drawn) return [];
    const matrix = svg.getScreenCTM(), points = [];
    let x = 0, y = 0;
    for (const [, letter, one, two] of
         drawn.getAttribute("d").matchAll(/([MHV])([-\d.]+)(?: ([-\d.]+))?/g)) {
      if (letter == "M") [x, y] = [+one, +two];
      else if (letter == "H") x = +one;
      else y = +one;
      const at = new DOMPoint(x, y).matrixTransform(matrix);
      points.push([at.x - home.left, at.y - home.top]);
    }
    return points;
  };
  const markOf = (link, home, tried) => {
    const path = link.querySelector("path"), box = path.getBoundingClientRect();
    const look = getComputedStyle(path);
    const x = box.left + box.width / 2, y = box.top + box.height / 2;
    const hit = tried ? document.elementFromPoint(x, y)?.closest("a")?.id ?? "" : null;
    return {number: +link.id.slice(1), href: link.getAttribute("href"), hit,
            name: link.parentNode.classList[0], x: x - home.left, y: y - home.top,
            size: Math.min(box.width, box.height), title: path.textContent,
            fill: look.fill, stroke: look.stroke,
            shape: path.getAttribute("d").replace(/^M[-\d.]+ [-\d.]+/, "")};
  };
  const panels = [];
  for (const figure of all(document, "figure.panel")) {
    const svg = figure.querySelector("svg"), links = all(svg, "a");
    const tried = panels.length < 8, each = Math.ceil(links.length / 150);
    if (tried) { figure.scrollIntoView({block: "center"}); await shown(); }
    const home = svg.getBoundingClientRect();
    panels.push({
      caption: figure.querySelector("figcaption").textContent, role: svg.getAttribute("role"),
      label: svg.getAttribute("aria-label"), wide: home.width, high: home.height,
      texts: all(svg, "text").map(one => {
        const box = one.getBoundingClientRect();
        return [one.textContent, box.left - home.left, box.top - home.top, box.width, box.height,
                one.getAttribute("text-anchor")];
      }),
      dashes: all(svg, ".cut").map(one => getComputedStyle(one).strokeDasharray),
      floor: floorOf(svg, home),
      marks: links.map((link, place) => markOf(link, home, tried && place % each == 0)),
    });
  }

  const rows = all(document, "tbody tr").map((row, place) => ({
    id: row.id, name: row.className, cells: [...row.cells].map(cell => cell.textContent),
    full: place >= 300 || [...row.cells].every(cell => cell.scrollWidth <= cell.clientWidth + 1),
    back: row.cells[0].querySelector("a")?.getAttribute("href") ?? null}));

  const jumps = [], links = all(document, "figure.panel a");
  const nameOf = link => link.parentNode.classList[0];
  const last = new Map(links.map(link => [nameOf(link), link]));
  const between = [0, 0.3, 0.5, 0.8].map(part => links[Math.floor(part * links.length)]);
  for (const link of new Set([...last.values(), ...between].filter(link => link))) {
    const name = nameOf(link), began = performance.now();
    link.dispatchEvent(new MouseEvent("click", {bubbles: true, cancelable: true}));
    await shown();
    const row = document.querySelector("tr:target"), box = row?.getBoundingClientRect();
    const took = performance.now() - began;
    if (!row) { jumps.push({name, href: link.getAttribute("href"), row: ""}); continue; }
    const seen = document.elementFromPoint(box.left + 60, box.top + box.height / 2);
    const colour = getComputedStyle(row).backgroundColor;
    const plain = row.parentNode.querySelector("tr.opened:not(:target), tr:not(:target)");
    row.cells[0].querySelector("a")?.click();
    await shown();
    const mark = document.querySelector("svg a:target");
    jumps.push({name, href: link.getAttribute("href"), row: row.id, took, inView: inView(box),
                uncovered: row.contains(seen), colour,
                others: plain ? getComputedStyle(plain).backgroundColor : "",
                back: mark?.id ?? "",
                backInView: mark ? inView(mark.getBoundingClientRect()) : false});
  }

  let real = height;  // where all is laid out, as far as that is quick
  if (rows.length < 2500) {
    const style = document.createElement("style");
    style.textContent = "* { content-visibility: visible !important }";
    document.head.append(style);
    real = page.scrollHeight;
  }
  return {
    language: page.lang, charset: document.characterSet, title: document.title,
    heading: text("h1"), children: document.querySelector("h1").children.length,
    whose: text(".whose"), body: document.querySelector("#picture").textContent,
    empty: text("#log"), heads: all(document, "thead th").map(cell => cell.textContent),
    counts: all(document, ".legend li[class]:not(.line)").map(
      item => [item.className, item.querySelector("b").textContent,
               item.querySelector("path")?.getBoundingClientRect().width ?? 0]),
    heard: all(document, ".heard li").map(item => item.textContent),
    wide: page.scrollWidth, room: page.clientWidth, height, real, outside, panels, rows, jumps,
    loading};
};
document.addEventListener("DOMContentLoaded", () =>
  look().catch(fault => ({fault: fault.stack})).then(
    seen => fetch("/seen", {method: "POST", body: JSON.stringify(seen)})));
"""


def check(holds, words):
    """Something that must hold, else the words say what differs."""
    if not holds:
        raise Differs(words)


def near(one, other, apart=0.4):
    """Whether two places on the screen are the same but for rounding."""
    return abs(one - other) <= apart


# ---- the browser -------------------------------------------------------------------------------

class Served(ThreadingHTTPServer):
    """Serves a page to this machine, and waits for what its script sends back."""

    def __init__(self, page):
        super().__init__(("127.0.0.1", 0), Handler)
        self.page, self.sent = page.encode("utf-8"), Queue()
        Thread(target=self.serve_forever, daemon=True).start()

    def address(self):
        """Where the page is."""
        return f"http://127.0.0.1:{self.server_port}/"

    def handle_error(self, *_):
        """A browser that has gone while it was answered is no fault."""

    def __exit__(self, *fault):
        self.shutdown()
        super().__exit__(*fault)


class Handler(BaseHTTPRequestHandler):
    """Answers what the browser asks for."""

    def do_GET(self):
        """The page; there is nothing else."""
        self.send_response(200 if self.path == "/" else 404)
        self.send_header("Content-Type", "text/html")
        self.end_headers()
        self.wfile.write(self.server.page if self.path == "/" else b"")

    def do_POST(self):
        """What the script saw."""
        self.server.sent.put(self.rfile.read(int(self.headers["Content-Length"])))
        self.send_response(204)
        self.end_headers()

    def log_message(self, *_):
        """Nothing is logged."""


def watched(chromium, page):
    """Opens a page in Chromium; what its script sends."""
    with tempfile.TemporaryDirectory(ignore_cleanup_errors=True) as profile, Served(page) as served:
        words = [chromium, "--headless=new", "--disable-gpu", "--no-sandbox", "--no-first-run",
                 "--no-proxy-server", "--window-size=1000,900", f"--user-data-dir={profile}",
                 served.address()]
        process = subprocess.Popen(words, stdout=subprocess.DEVNULL, stderr=subprocess.DEVNULL)
        try:
            return json.loads(served.sent.get(timeout=PATIENCE))
        except Empty:
            give_up(f"chromium showed nothing in {PATIENCE} s")
        finally:
            process.terminate()
            process.wait()


def looked_at(chromium, path):
    """What a script sees of a page. It takes the place of the policy, which forbids scripts."""
    page = path.read_text("utf-8")
    check(len(POLICY.findall(page)) == 1, f"{path.name} doesn't forbid outside parts and scripts")
    check("<script" not in page and not re.search(r"https?:", page),
          f"{path.name} has a script or a part from outside")
    seen = watched(chromium, POLICY.sub(lambda _: f'<script id="look">{LOOK}</script>', page))
    check("fault" not in seen, f"{path.name} can't be looked at: {seen.get('fault')}")
    return seen


# ---- what must be on every page ----------------------------------------------------------------

def drawn(heard):
    """Whether a frame has a mark."""
    return heard.counter is not None and heard.sender != "-"


def judge_page(seen, name, whose, frames):
    """The page as a whole, its legend and its counts."""
    check((seen["language"], seen["charset"]) == ("en", "UTF-8"), "language or character set")
    check(name in seen["title"] and name in seen["heading"] and not seen["children"],
          f"the name is not as given: {seen['title']!r}, {seen['heading']!r}")
    check(whose == seen["whose"], f"whose verdicts these are: {seen['whose']!r}")
    check(seen["wide"] <= seen["room"], f"the page scrolls sideways: {seen['wide']} pixels")
    check(near(seen["height"], seen["real"], seen["real"] / 10),
          f"{seen['height']} pixels high until it is laid out, and then {seen['real']}")
    check(not seen["outside"], f"parts from outside: {seen['outside'][:3]}")
    counts = Counter(map(class_of, frames))
    listed = {name: (int(count), wide) for name, count, wide in seen["counts"]}
    for name in SIGNS:
        check(name in listed and listed[name][1] > 5, f"the legend doesn't show {name}'s shape")
    for name, count in counts.items():
        check(name in listed and listed[name][0] == count, f"not {count} frames are {name}")


def judge_rows(seen, frames):
    """The log: a line for each frame, with its sign, and a link back where it has a mark."""
    check(len(seen["rows"]) == len(frames), f"{len(seen['rows'])} lines and not {len(frames)}")
    if frames:
        check(len(seen["heads"]) == 7, f"the log's heading: {seen['heads']}")
    for row, heard in zip(seen["rows"], frames):
        sign, number = row["cells"][0][0], row["cells"][0][1:]
        counter = "-" if heard.counter is None else str(heard.counter)
        asked = [str(heard.number), seconds(heard.time), heard.sender, counter, class_of(heard),
                 f"f{heard.number}", f"#m{heard.number}" if drawn(heard) else None]
        found = [number, row["cells"][1], row["cells"][3], row["cells"][4], row["name"], row["id"],
                 row["back"]]
        check(found == asked, f"the line of frame {heard.number}: {found} and not {asked}")
        check(row["full"], f"the line of frame {heard.number} is cut off")
        check(sign == SIGNS.get(row["name"], sign), f"frame {heard.number} has the sign {sign}")
        check(verdict_of(heard) in row["cells"][5], f"frame {heard.number}: {row['cells'][5]!r}")
        if not heard.command:
            check(row["cells"][6] == heard.inside, f"frame {heard.number}: {row['cells'][6]!r}")


def judge_marks(seen, frames):
    """The marks: one for each frame with a counter, of its class, that a pointer finds, linked to
    its line."""
    asked = {heard.number: heard for heard in frames if drawn(heard)}
    marks = [mark for panel in seen["panels"] for mark in panel["marks"]]
    check(sorted(asked) == sorted(mark["number"] for mark in marks),
          f"{len(marks)} marks for {len(asked)} frames with a counter")
    lines, places = {row["id"] for row in seen["rows"]}, {m["number"]: m for m in marks}
    for mark in marks:
        number, heard = mark["number"], asked[mark["number"]]
        check(mark["name"] == class_of(heard), f"frame {number} is drawn as {mark['name']}")
        check(mark["href"] == f"#f{number}" and mark["href"][1:] in lines,
              f"the mark of frame {number} is linked to {mark['href']}")
        check(mark["title"].startswith(f"frame {number}: {verdict_of(heard)}")
              and str(heard.counter) in mark["title"], f"frame {number} says {mark['title']!r}")
        check(mark["size"] >= 5, f"the mark of frame {number} is {mark['size']} pixels")
        if mark["hit"] is not None:
            over = places.get(int(mark["hit"][1:] or 0), {"x": -99, "y": -99})
            check(near(over["x"], mark["x"], 9) and near(over["y"], mark["y"], 9),
                  f"pointing at the mark of frame {number} finds {mark['hit'] or 'no mark'}")


def judge_times(seen, frames):
    """Later marks stand further right, in all panels alike and as far apart as their times are,
    but for silences that are cut out: so many are dashed lines in each panel."""
    times = {heard.number: heard.time for heard in frames}
    marks = sorted((times[mark["number"]], mark["x"], mark["number"])
                   for panel in seen["panels"] for mark in panel["marks"])
    scale, place, cuts = 0, 0, 0
    for when, x, _ in marks:  # pixels a nanosecond, told by marks that are not too near
        while place < len(marks) and marks[place][1] <= x + FAR:
            place += 1
        if place < len(marks):
            scale = max(scale, (marks[place][1] - x) / max(1, marks[place][0] - when))
    for (before, x, _), (after, y, number) in pairwise(marks):
        check(y >= x - 0.2, f"frame {number} is later than another and stands left of it")
        due = (after - before) * scale
        cuts += due - (y - x) > 1 + due / 50
        check(y - x - due <= 1 + due / 50, f"frame {number} stands too far right")
    for panel in seen["panels"]:
        check(len(panel["dashes"]) == cuts and "none" not in panel["dashes"],
              f"{len(panel['dashes'])} dashed lines for {cuts} silences in {panel['caption']}")


def judge_jumps(seen):
    """A click on a mark shows its line, marked out and not covered; the line's sign leads back."""
    for jump in seen["jumps"]:
        check(f"#{jump['row']}" == jump["href"] and jump["inView"] and jump["uncovered"],
              f"a click on a mark ({jump['name']}) doesn't show its line: {jump}")
        check(jump["colour"] != jump["others"], "the line that was asked for looks as others do")
        check(jump["back"] == f"m{jump['row'][1:]}" and jump["backInView"],
              f"the way back from line {jump['row']} leads to {jump['back']!r}")


# ---- panels ------------------------------------------------------------------------------------

def judge_texts(panel):
    """The labels of a panel: inside of it, and none over another."""
    check(panel["role"] == "img" and panel["label"], f"{panel['caption']} has no name")
    words = [text for text, *_ in panel["texts"]]
    check("counter" in words and "time in seconds" in words, f"the axes' names: {words}")
    for text, left, top, wide, high, _ in panel["texts"]:
        check(left >= -0.5 and top >= -0.5 and left + wide <= panel["wide"] + 0.5
              and top + high <= panel["high"] + 0.5, f"{text!r} is cut off in {panel['caption']}")
    for one, other in combinations(panel["texts"], 2):
        apart = any(one[side] + one[side + 2] <= other[side]
                    or other[side] + other[side + 2] <= one[side] for side in (1, 2))
        check(apart, f"{one[0]!r} and {other[0]!r} overlap in {panel['caption']}")


def rise(panel, by_number):
    """Pixels up the screen for each counter, told by the marks of opened frames; None where they
    are all of one counter."""
    opened = sorted((by_number[m["number"]].counter, m["y"]) for m in panel["marks"]
                    if by_number[m["number"]].network == "opened")
    if not opened or opened[0][0] == opened[-1][0]:
        return None
    return (opened[0][1] - opened[-1][1]) / (opened[-1][0] - opened[0][0])


def judge_counters(panel, by_number):
    """Every mark stands at its counter, or beyond all others where it says that it is too far."""
    scale = rise(panel, by_number)
    to_scale = [m for m in panel["marks"] if "than is drawn" not in m["title"]]
    check(to_scale, f"no mark of {panel['caption']} is drawn to scale")
    first = next((m for m in to_scale if by_number[m["number"]].network == "opened"), None)
    check(scale is None or scale > 0, f"higher counters don't stand higher: {panel['caption']}")
    for mark in panel["marks"]:
        check(0 < mark["y"] < panel["high"] and 0 < mark["x"] < panel["wide"],
              f"the mark of frame {mark['number']} is out of its panel")
        if "higher than" in mark["title"]:
            check(all(mark["y"] < m["y"] for m in to_scale), f"frame {mark['number']} is too low")
        elif "lower than" in mark["title"]:
            check(all(mark["y"] > m["y"] for m in to_scale), f"frame {mark['number']} is too high")
        elif scale:
            ahead = by_number[mark["number"]].counter - by_number[first["number"]].counter
            check(near(mark["y"], first["y"] - ahead * scale),
                  f"frame {mark['number']} does not stand at its counter")


def judge_ticks(panel, by_number, marks):
    """The labels of the axes stand where marks of such counters and times do."""
    scale = rise(panel, by_number)
    first = next((m for m in panel["marks"] if by_number[m["number"]].network == "opened"), None)
    for text, left, top, wide, high, anchor in panel["texts"]:
        if not re.fullmatch(r"-?[\d,.]+", text):
            continue
        if anchor == "end" and scale:
            ahead = int(text.replace(",", "")) - by_number[first["number"]].counter
            check(near(top + high / 2, first["y"] - ahead * scale, 3),
                  f"the counter {text} stands elsewhere in {panel['caption']}")
        elif anchor == "middle":
            when = float(text) * SECOND
            before = max((mark for mark in marks if mark[0] <= when), default=(0, 0))
            after = min((mark for mark in marks if mark[0] >= when), default=(0, panel["wide"]))
            check(before[1] - 5 <= left + wide / 2 <= after[1] + 5,
                  f"the time {text} stands elsewhere in {panel['caption']}")


def judge_floor(panel, frames):
    """The floor: a step at each opened frame, to one above its counter, and on to the right end;
    what is stale stands below it."""
    places, floor = {m["number"]: m for m in panel["marks"]}, panel["floor"]
    opened = [heard for heard in frames if heard.network == "opened"]
    scale, reached = rise(panel, {heard.number: heard for heard in frames}), 0
    check(len(floor) == 2 * len(opened), f"the floor has {len(floor)} corners for {len(opened)} "
                                         f"opened frames in {panel['caption']}")
    for heard, (x, y) in zip(opened, floor[::2]):
        mark = places[heard.number]
        reached = max(reached, mark["x"])
        check(near(x, reached), f"frame {heard.number} doesn't raise the floor where it stands")
        check(near(y, mark["y"] - scale) if scale else y < mark["y"],
              f"the floor behind frame {heard.number} is not one above its counter")
    if opened:
        check(floor[-1][0] >= max(m["x"] for m in panel["marks"]), "the floor ends too early")
    for heard in frames:
        if heard.network.startswith("8"):
            mark = places[heard.number]
            before = [y for x, y in floor if x <= mark["x"] + 0.2]
            check(before and before[-1] < mark["y"] + 0.3,
                  f"frame {heard.number} is stale and does not stand below the floor")


def judge_panels(seen, frames):
    """Every panel, with the frames of its sender."""
    by_number = {heard.number: heard for heard in frames}
    senders = {(heard.pan, heard.sender) for heard in frames if drawn(heard)}
    check(len(seen["panels"]) == len(senders),
          f"{len(seen['panels'])} panels for {len(senders)} senders")
    marks = {(by_number[mark["number"]].time, mark["x"])
             for panel in seen["panels"][:8] for mark in panel["marks"]}
    for panel in seen["panels"]:
        own = sorted(mark["number"] for mark in panel["marks"])
        sender = by_number[own[0]].sender
        check(sender in panel["caption"]
              and all(by_number[number].sender == sender for number in own),
              f"the panel {panel['caption']!r} has marks of others")
        judge_texts(panel)
        judge_counters(panel, by_number)
        judge_ticks(panel, by_number, marks)
        judge_floor(panel, [by_number[number] for number in own])


# ---- colours and shapes ------------------------------------------------------------------------

def linear(colour):
    """The linear red, green and blue of a computed colour."""
    parts = [int(part) / 255 for part in re.findall(r"\d+", colour)[:3]]
    check(len(parts) == 3, f"{colour} is no colour")
    return [part / 12.92 if part <= 0.04045 else ((part + 0.055) / 1.055) ** 2.4 for part in parts]


def lab(colour):
    """Linear red, green and blue in CIE Lab."""
    red, green, blue = (min(1, max(0, part)) for part in colour)
    white = (0.4124 * red + 0.3576 * green + 0.1805 * blue) / 0.95047
    light = 0.2126 * red + 0.7152 * green + 0.0722 * blue
    short = (0.0193 * red + 0.1192 * green + 0.9505 * blue) / 1.08883
    x, y, z = (part ** (1 / 3) if part > 0.008856 else 7.787 * part + 16 / 116
               for part in (white, light, short))
    return 116 * y - 16, 500 * (x - y), 200 * (y - z)


def contrast(colour):
    """How strong a colour stands out on white, from 1 to 21."""
    light = sum(share * part for share, part in zip((0.2126, 0.7152, 0.0722), linear(colour)))
    return 1.05 / (light + 0.05)


def judge_looks(seen):
    """The shapes of the classes, and their colours as each kind of eye sees them; the least
    distance."""
    looks = {mark["name"]: mark for panel in seen["panels"] for mark in panel["marks"]}
    check(set(TOLD) <= set(looks), f"not all classes are shown: {sorted(looks)}")
    check(len({look["shape"] for look in looks.values()}) == len(looks), "two shapes are the same")
    for name in TOLD:
        colours = [colour for colour in (looks[name]["fill"], looks[name]["stroke"])
                   if colour.startswith("rgb")]
        check(max(map(contrast, colours)) >= LEAST_CONTRAST, f"{name} is too pale on white")
    apart = {}
    for sight, rows in SIGHTS.items():
        seen_as = {name: lab([sum(share * part for share, part in zip(row, linear(
            looks[name]["fill"]))) for row in rows]) for name in TOLD}
        for one, other in combinations(TOLD, 2):
            apart[sight, one, other] = sum(
                (a - b) ** 2 for a, b in zip(seen_as[one], seen_as[other])) ** 0.5
            check(sight != "normal sight"
                  or abs(seen_as[one][0] - seen_as[other][0]) >= LEAST_LIGHTNESS,
                  f"{one} and {other} are as light as each other")
    worst = min(apart, key=apart.get)
    check(apart[worst] >= LEAST_DISTANCE, f"too much alike: {worst}, {apart[worst]:.1f}")
    return f"colours {apart[worst]:.0f} or more apart in Lab for every kind of sight"


# ---- made-up captures --------------------------------------------------------------------------

class Frames(list):
    """Frames as a listener would tell of them, numbered as they come."""

    def add(self, when, counter, network="opened", sender=WRENCH, pan=PAN, **others):
        """A network frame, its time in seconds."""
        repeats = (1, 0) if network == GENUINE else None
        inside = others.pop("inside", "0014" if network == "opened" else "-")
        self.append(Heard(len(self) + 1, round(when * SECOND), pan, "7a11", "0bee", sender, counter,
                          network, inside=inside, repeats=repeats, **others))

    def ack(self, when):
        """A frame without a counter."""
        self.append(Heard(len(self) + 1, round(when * SECOND), inside="ack"))


def written(folder, title, frames, name="made-up.pcapng", whose="These verdicts are made up."):
    """Writes the page of frames; its path, its name, whose verdicts it says, and the seconds that
    it took."""
    path, counts = folder / f"{title.replace(' ', '-')}.html", Counter(map(class_of, frames))
    began = time.process_time()
    report = Report(str(path), name, whose)
    for heard in frames:
        report.frame(heard)
    report.write(counts, SimpleNamespace(pans={}))
    return path, name, whose, time.process_time() - began


def many_frames():
    """10,000 frames of six senders, with two long silences, an attacker, and a stranger's PAN."""
    frames, counters = Frames(), [7, 1200, 50, 90_000, 3]
    for step in range(10_000):
        when = step / 40 + (7200 if step > 4000 else 0) + (86400 if step > 8500 else 0)
        device = step % 7 % 5
        sender, counter = f"00124b00000000{device:02x}", counters[device]
        if step % 4 == 3:
            frames.ack(when)
        elif step % 97 == 50:
            frames.add(when, counter - 1 - step * 37 % counter % 2000, GENUINE, sender)
        elif step % 211 == 100:
            frames.add(when, counter - 1 - step % 7 % counter, ALTERED, sender)
        elif step % 307 == 200:
            frames.add(when, counter + step % 900, FORGED, sender)
        elif step % 41 == 8:
            frames.add(when, step, NO_KEY, STRANGER, OTHER_PAN)
        else:
            frames.add(when, counter, sender=sender, aps=FORGED if step % 1999 == 1 else "-",
                       inside=f"{step:04x}" * (1 + step % 11 * (step % 13 == 0)))
            counters[device] += 1 + step % 3
    return frames


def absurd_frames():
    """Counters that would squash all others, counters at the top, and equal ones."""
    frames = Frames()
    for step in range(20):
        frames.add(step / 10, 100 + step)
        frames.add(step / 10 + 0.01, 4294967270 + step, sender=DISPLAY)
        frames.add(step / 10 + 0.02, 5, NO_KEY, STRANGER, OTHER_PAN)
    for counter in (4_000_000_000, 4294967295, 0):
        frames.add(2.5, counter, FORGED)
        frames.add(2.6, counter, FORGED, DISPLAY)
    frames.add(2.8, 110, ALTERED)
    frames.add(2.9, 2, ALTERED)
    frames.add(3, 4294967295, "7 top", DISPLAY)
    for counter in (7, 8, 9, 4_000_000_000):
        frames.add(3 + counter / 10**10, counter, NO_KEY, "00124b0001020305", OTHER_PAN)
    return frames


def unordered_frames():
    """Frames of two files put together, so that times go back; and a sender under two keys."""
    frames = Frames()
    for step in range(12):
        frames.add(step / 2 - 400 * (step % 3 == 2), 10 + step)
        frames.add(step / 2, (step % 6) * 3, sender=DISPLAY)
    frames.add(7, 15, GENUINE)
    return frames


def replayed_frames():
    """A storm of replays, of which each line has several rows; and long texts inside."""
    frames = Frames()
    for step in range(900):
        frames.add(step / 20, step, inside="00" * (step % 9 * 8))
    for step in range(900):
        frames.add(50 + step / 20, step, GENUINE if step % 9 else ALTERED)
    return frames


def one_frame():
    """One frame only."""
    frames = Frames()
    frames.add(0, 0)
    return frames


def senders(count):
    """Some frames of each of many senders."""
    frames = Frames()
    for step in range(3 * count):
        frames.add(step / 10, step // count, sender=f"00124b000000{step % count:04x}")
    return frames


def odd_names():
    """Characters that HTML has a use for."""
    frames = Frames()
    frames.add(0, 1, inside='<b>&"</b>', notes=["<script>alert(1)</script>"])
    frames.add(1, 2, inside="&amp;&lt;'" + "f" * 400)
    frames.append(Heard(3, SECOND, source="<i>", destination="</td>", inside="<!--"))
    return frames


# ---- the pages ---------------------------------------------------------------------------------

def judge(seen, name, whose, frames):
    """All that must hold of every page."""
    judge_page(seen, name, whose, frames)
    judge_rows(seen, frames)
    judge_marks(seen, frames)
    judge_times(seen, frames)
    judge_panels(seen, frames)
    judge_jumps(seen)


def told(frames):
    """The frames of the lines that desk.py --tsv prints."""
    for line in frames.splitlines():
        number, when, network, sender, counter, aps, inside = line.split("\t")
        whole, part = when.split(".")
        yield Heard(int(number), int(whole) * SECOND + int(part) * 1000, sender=sender,
                    counter=None if counter == "-" else int(counter), network=network, aps=aps,
                    inside=inside)


def first_capture(chromium, folder, bench):
    """The page of the shipped capture, with a replay that comes an hour later."""
    path = folder / "first-capture.html"
    words = [sys.executable, str(ROOT / "desk.py"), str(STORED), "--label", LABEL, "--tsv",
             "--report", str(path), *(["--bench", bench] if bench else [])]
    ran = subprocess.run(words, capture_output=True, text=True, check=False)
    check(ran.returncode == 0, f"desk.py exits with {ran.returncode}: {ran.stderr}")
    seen, frames = looked_at(chromium, path), list(told(ran.stdout))
    whose = ran.stderr.splitlines()[0]
    for heard in frames:  # what these lines don't tell is read from the page
        row = seen["rows"][heard.number - 1]
        heard.command = ("down", "") if row["cells"][6] != heard.inside else ()
        again = re.search(r"frame (\d+) heard again", row["cells"][5])
        if again:
            heard.repeats = int(again[1]), frames[int(again[1]) - 1].time
    judge(seen, STORED.name, whose, frames)
    for panel in seen["panels"]:
        check("3600 s" in [text for text, *_ in panel["texts"]],
              f"no silence of an hour in {panel['caption']}")
    for sender in {heard.sender for heard in frames if heard.network == "opened"}:
        up_to = max(h.counter for h in frames if h.sender == sender and h.network == "opened")
        check(any(f"{sender} heard up to counter {up_to}" in item for item in seen["heard"]),
              f"{sender} was heard up to {up_to}, and the page doesn't say so")
    looks = judge_looks(seen)
    print(f"first capture: {marks_and_lines(seen)}; {looks}", flush=True)


def marks_and_lines(seen):
    """The marks and lines of a page, in words."""
    counts = (sum(len(panel["marks"]) for panel in seen["panels"]), len(seen["panels"]),
              len(seen["rows"]))
    marks, panels, lines = (f"{count} {word}{'s' * (count != 1)}"
                            for count, word in zip(counts, ("mark", "panel", "line")))
    return f"{marks} in {panels}, each linked to its line; {lines}"


def made_up(chromium, folder, title, frames, **others):
    """Writes and judges the page of made-up frames; what was seen, and the seconds to write it."""
    path, name, whose, took = written(folder, title, frames, **others)
    seen = looked_at(chromium, path)
    judge(seen, name, whose, frames)
    return seen, took, path


def ten_thousand(chromium, folder):
    """The page of 10,000 frames, timed; a machine that is busy is given more time and tries."""
    for tries_left in reversed(range(TRIES)):
        seen, took, path = made_up(chromium, folder, "10,000 frames", many_frames())
        took = {"writing": took, "loading": seen["loading"] / 1000,
                "a jump": max(jump["took"] for jump in seen["jumps"]) / 1000}
        busy = max(1, os.getloadavg()[0] / os.cpu_count())
        slow = [f"{what} takes {took[what]:.1f} s, more than {most * busy:.1f}"
                for what, most in USABLE.items() if took[what] > most * busy]
        if not slow:
            break
        check(tries_left, "; ".join(slow))
    times = ", ".join(f"{what} {took[what]:.2f} s" for what in took)
    print(f"10,000 frames: {marks_and_lines(seen)}; {path.stat().st_size / 10**6:.1f} MB, {times}",
          flush=True)


def absurd(chromium, folder):
    """Absurd counters leave the others their room."""
    seen, _, _ = made_up(chromium, folder, "absurd counters", absurd_frames())
    for panel in seen["panels"]:
        heights = [mark["y"] for mark in panel["marks"] if mark["name"] == "opened"]
        check(not heights or max(heights) - min(heights) > 60,
              f"the opened frames are squashed in {panel['caption']}")
    labels = {text for panel in seen["panels"] for text, *_ in panel["texts"]}
    check("4,294,967,280" in labels and {"higher", "lower"} <= labels, f"the labels: {labels}")
    print(f"absurd counters: {marks_and_lines(seen)}; the others keep their room", flush=True)


def nothing_to_draw(chromium, folder):
    """Pages without a picture say so."""
    acks = Frames()
    acks.ack(0)
    for title, frames in (("no frames", Frames()), ("no counters", acks)):
        seen, _, _ = made_up(chromium, folder, title, frames)
        check("There is no picture" in seen["body"], f"{title}: {seen['body']!r}")
        check(frames or "no frame" in seen["empty"], f"{title}: {seen['empty']!r}")
        print(f"{title}: the page says so", flush=True)


def plain(chromium, folder):
    """Pages of which nothing more is asked than of every page."""
    for title, frames, others in (
            ("one frame", one_frame(), {}),
            ("a storm of replays", replayed_frames(), {}),
            ("times that go back", unordered_frames(), {}),
            ("500 senders", senders(500), {}),
            ("odd names", odd_names(), {"name": '<b>&".pcapng', "whose": "<i>Mine & yours</i>"})):
        seen, _, _ = made_up(chromium, folder, title, frames, **others)
        print(f"{title}: {marks_and_lines(seen)}", flush=True)


def main():
    """Looks at every page; the exit code."""
    parser = argparse.ArgumentParser(description=__doc__,
                                     formatter_class=argparse.RawDescriptionHelpFormatter)
    parser.add_argument("--bench", metavar="COMMAND", help=BENCH_HELP)
    parser.add_argument("--keep", metavar="FOLDER", type=Path, help="keep the pages here")
    given = parser.parse_args()
    bench_words(given.bench)  # a bench that is missing is said first
    chromium = shutil.which("chromium")
    if chromium is None:
        give_up("chromium is missing: install it (Debian: apt-get install -y chromium)")
    with tempfile.TemporaryDirectory() as passing:
        folder = given.keep or Path(passing)
        folder.mkdir(parents=True, exist_ok=True)
        first_capture(chromium, folder, given.bench)
        ten_thousand(chromium, folder)
        absurd(chromium, folder)
        plain(chromium, folder)
        nothing_to_draw(chromium, folder)
    print("all pages as drawn")
    return 0


if __name__ == "__main__":
    sys.exit(in_words(main))

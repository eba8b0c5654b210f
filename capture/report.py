"""The report of a capture: one page with a picture of the counters and the log below it.

The page has no outside parts and no script. A mark of the picture is a link to its frame's line in
the log, and the line's number a link back.
"""

from html import escape
from os.path import basename

from .log import address, heard_of
from .picture import SHAPES, Picture
from .words import CLASSES, class_of, in_words, inside, seconds

# A sign for each class, which the lines of the log start with; where there is a mark, of its shape.
SIGNS = {"opened": "●", "unsecured": "–", "genuine": "▲", "altered": "◆", "forged": "✕",
         "nokey": "□", "refused": "○", "passed": "·", "spoilt": "~"}
COLUMNS = ("frame", "time in s", "from → to", "sender", "counter", "verdict", "inside")
CHUNK = 25  # lines of the log that are laid out together
# Pixels around a line; of a row of text, and its letters, in the columns where text can be long, on
# a page of 1,000 pixels: time, from and to, verdict, inside.
AROUND, ROWS = 8, ((18, 15), (18, 17), (20, 24), (18, 24))

# The four colours that matter are of Okabe and Ito's palette, and differ in lightness too.
STYLE = """
:root { color-scheme: light; --ink: #1c1c1c; --soft: #595959; --rule: #d4d4d4;
  --opened: #0072b2; --genuine: #e69f00; --altered: #cc79a7; --forged: #000000 }
* { box-sizing: border-box }
body { margin: 0 auto; padding: 1rem 1.25rem 3rem; max-width: 1120px; background: #fff;
  color: var(--ink); font: 15px/1.45 system-ui, "Segoe UI", "DejaVu Sans", sans-serif;
  overflow-wrap: anywhere }
h1 { font-size: 1.6rem; line-height: 1.2; margin: .4rem 0 .2rem }
h2 { font-size: 1.2rem; margin: 1.6rem 0 .4rem }
h3 { font-size: 1rem; margin: 0; display: inline }
p { margin: .3rem 0; max-width: 46rem }
a { color: #00507d }
code, td, .heard li { font-family: "DejaVu Sans Mono", Consolas, Menlo, monospace }
code { font-size: .92em }
.whose { font-weight: 600 }
.two { display: grid; grid-template-columns: 22.5rem minmax(0, 1fr); gap: 0 1.5rem }
@media (max-width: 760px) { .two { grid-template-columns: minmax(0, 1fr) } }
.legend { list-style: none; margin: 0; padding: 0 }
.legend li { display: grid; grid-template-columns: 2rem 3.4rem 1fr; align-items: center }
.legend li.line { grid-template-columns: 2rem 1fr; margin-top: .25rem }
.legend svg { width: 1.5rem; height: 1.5rem }
.legend b { text-align: right; padding-right: .7rem }
.legend .sign { padding-left: .5rem }
.heard { list-style: none; margin: 0; padding: .4rem .7rem; max-height: 15.5rem;
  overflow: auto; border: 1px solid var(--rule); border-radius: 6px }
.heard li { font-size: .78rem; padding: .12rem 0 .12rem 1.2em; text-indent: -1.2em }
.panel { margin: .9rem 0 0; padding: .6rem .7rem .2rem; border: 1px solid var(--rule);
  border-radius: 6px; content-visibility: auto }
.panel span { color: var(--soft); margin-left: .6rem; font-size: .9rem }
.box { overflow-x: auto; overflow-y: hidden }
.box svg { display: block; width: 100%; min-width: 680px; margin-top: .3rem }
svg text { font: 12px system-ui, "Segoe UI", "DejaVu Sans", sans-serif; fill: var(--ink) }
svg .name { font-weight: 600 }
svg .far { text-anchor: end; font-style: italic }
.axis { stroke: #444; fill: none }
.grid { stroke: #e4e4e4 }
.band { fill: #ececec }
.cut { stroke: #444; stroke-dasharray: 4 3 }
.floor { stroke: #1c1c1c; stroke-width: 1.5; fill: none }
.under { fill: #7a5c00; fill-opacity: .09 }
svg g path { stroke-linejoin: round }
svg .opened path { fill: var(--opened) }
svg .genuine path { fill: var(--genuine); stroke: #1c1c1c }
svg .altered path { fill: var(--altered); stroke: #1c1c1c }
svg .forged path { fill: var(--forged); stroke: #fff; stroke-width: .6 }
svg .nokey path, svg .refused path { fill: #fff; stroke: var(--soft); stroke-width: 1.6 }
svg .small path { stroke-width: .5 }
svg .small.genuine path { stroke: #805800 }
svg .small.altered path { stroke: #703a58 }
svg .small.nokey path, svg .small.refused path { stroke-width: 1 }
svg a:hover path, svg a:focus path { stroke: #1c1c1c; stroke-width: 3; paint-order: stroke }
svg a:target path { stroke: #1c1c1c; stroke-width: 7; paint-order: stroke }
svg a { outline-offset: 3px; scroll-margin: 40vh 0 }
table, thead, tbody { display: block }
tbody { content-visibility: auto }
tr { display: grid; align-items: baseline; border-bottom: 1px solid #e4e4e4;
  border-left: 5px solid transparent; scroll-margin: 40vh 0; grid-template-columns:
  5rem 7.5rem 8.4rem 8.4rem 5.8rem minmax(0, 1fr) minmax(0, 1fr) }
thead { position: sticky; top: 0; z-index: 1 }
thead tr { background: #ececec }
th, td { padding: .22rem .4rem; font-size: .78rem; text-align: left }
th:nth-child(2), td:nth-child(2), th:nth-child(5), td:nth-child(5) { text-align: right }
td:nth-child(6) { font-family: inherit; font-size: .87rem }
td a { color: inherit; text-decoration: underline dotted; text-underline-offset: .2em }
td b { display: inline-block; width: 1.25em; text-align: center; font-size: 1rem;
  line-height: 1 }
tr.opened b { color: var(--opened) }
tr.genuine b { color: var(--genuine); -webkit-text-stroke: .8px #1c1c1c }
tr.altered b { color: var(--altered); -webkit-text-stroke: .8px #1c1c1c }
tr.genuine { border-left-color: var(--genuine); background: #fdf4df }
tr.altered { border-left-color: var(--altered); background: #faeff5 }
tr.forged { border-left-color: var(--forged); background: #efefef }
tr.passed, tr.spoilt { color: var(--soft) }
tr:target { background: #ffe97a; box-shadow: inset 0 0 0 2px #1c1c1c }
@media (max-width: 760px) { .log { overflow-x: auto } table { min-width: 720px } }
"""

WHAT_IT_SHOWS = """<p>Each secured frame has a counter, and its sender counts on from frame to
frame. The <b>floor</b> is the least counter of a sender that is still accepted: an opened frame
raises it to one more than its own. What comes below is stale, whether it was sent again or altered.
The panels have the same time axis; a dashed line stands for a silence that is cut out. Click a mark
to see its line in the log, and a line's number to see its mark.</p>
"""
SIGN = '<svg viewBox="0 0 24 24" aria-hidden="true">'
LINES = f"""<li class="line">{SIGN}<path class="under" d="M1 11h22v9h-22z"/>
<path class="floor" d="M1 11h22"/></svg>floor: the least counter still accepted</li>
<li class="line">{SIGN}<path class="cut" d="M12 2v20"/></svg>a silence that is cut out</li>
"""
NO_PICTURE = "<p>There is no picture: no frame of this capture has a sender and a counter.</p>\n"
NO_LOG = "<p>The capture has no frame.</p>\n"


class Report:
    """The page of a capture, written when all frames are there."""

    def __init__(self, path, name, whose):
        self.path, self.name, self.whose = path, basename(name), whose
        self.picture, self.lines = Picture(), []

    def frame(self, heard):
        """A frame: its line, and its mark where it has a counter."""
        name = class_of(heard)
        self.lines.append(line(heard, name, self.picture.add(heard, name)))

    def write(self, counts, listener):
        """Writes the page."""
        with open(self.path, "w", encoding="utf-8", errors="replace", newline="\n") as file:
            file.writelines(self.parts(counts, listener))

    def parts(self, counts, listener):
        """The page from its head to its end."""
        yield head(self.name, self.whose)
        yield '<div class="two"><section><h2>What was found</h2>\n'
        yield from legend(counts)
        yield "</section><section><h2>Who was heard up to which counter</h2>\n"
        yield from heard_up_to(listener)
        yield '</section></div>\n<section id="picture"><h2>Counters over time</h2>\n'
        yield WHAT_IT_SHOWS if self.picture.senders else NO_PICTURE
        yield from self.picture.panels()
        yield '</section>\n<section id="log"><h2>Log</h2>\n'
        yield from table(self.lines) if self.lines else (NO_LOG,)
        yield "</section>\n</body>\n</html>\n"


# ---- parts of the page -------------------------------------------------------------------------

def head(name, whose):
    """The page's head, and what stands first. Its policy forbids outside parts and scripts."""
    name = escape(name)
    return (f'<!DOCTYPE html>\n<html lang="en">\n<head>\n<meta charset="utf-8">\n'
            '<meta http-equiv="Content-Security-Policy" content="default-src \'none\'; '
            'style-src \'unsafe-inline\'">\n'
            '<meta name="viewport" content="width=device-width">\n'
            f'<title>Report on {name}</title>\n<style>{STYLE}</style>\n</head>\n'
            f'<body>\n<h1>Report on {name}</h1>\n<p class="whose">{escape(whose)}</p>\n'
            '<p><a href="#picture">Counters over time</a> · <a href="#log">Log</a></p>\n')


def legend(counts):
    """The classes, each with its shape and how many frames are of it; then what the lines mean."""
    yield '<ul class="legend">\n'
    for name, words in CLASSES.items():
        if name in SHAPES:
            sign = f'{SIGN}<g class="{name}"><path d="M12 12{SHAPES[name]}"/></g></svg>'
        elif counts[name]:
            sign = f'<span class="sign">{SIGNS[name]}</span>'
        else:
            continue
        yield f'<li class="{name}">{sign}<b>{counts[name]}</b>{words}</li>\n'
    yield f"{LINES}</ul>\n"


def heard_up_to(listener):
    """The floors of the listening boards, in the log's words."""
    items = [f"<li>{escape(words)}</li>\n" for words in heard_of(listener)]
    yield f'<ul class="heard">\n{"".join(items)}</ul>\n' if items else "<p>Nobody yet.</p>\n"


# ---- the log -----------------------------------------------------------------------------------

def line(heard, name, marked):
    """The line of a frame, and about how many pixels high it is. Its number is a link where the
    frame has a mark."""
    frame = f"<b>{SIGNS[name]}</b>{heard.number}"
    texts = (seconds(heard.time), f"{address(heard.source)} → {address(heard.destination)}",
             "; ".join([in_words(heard), *heard.notes]), inside(heard))
    when, ends, said, within = map(escape, texts)
    cells = (f'<a href="#m{heard.number}">{frame}</a>' if marked else frame, when, ends,
             escape(heard.sender or "-"), "-" if heard.counter is None else heard.counter, said,
             within)
    rows = max(high * (1 + len(text) // letters) for text, (high, letters) in zip(texts, ROWS))
    return (f'<tr id="f{heard.number}" class="{name}">'
            + "".join([f"<td>{cell}</td>" for cell in cells]) + "</tr>\n"), AROUND + rows


def table(lines):
    """The log, in bodies of some lines each, of which a browser lays out only those in sight; it is
    told how high the others are, so that a line that is asked for stays where it was found."""
    heading = "".join(f'<th scope="col">{words}</th>' for words in COLUMNS)
    yield f'<div class="log"><table><thead><tr>{heading}</tr></thead>\n'
    for start in range(0, len(lines), CHUNK):
        chunk = lines[start:start + CHUNK]
        height = sum(height for _, height in chunk)
        yield f'<tbody style="contain-intrinsic-size: auto {height}px">\n'
        yield from (text for text, _ in chunk)
        yield "</tbody>\n"
    yield "</table></div>\n"

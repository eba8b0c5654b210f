#!/usr/bin/env python3
"""Wrong edits, one in each function of a library, which the prover must refuse for a fact.

    python3 tests/wrong_edits.py [CRATE ...]     try the edits of these crates (none named: of all libraries)
        --list          print the functions that have no edit yet, and try nothing
        --places        only see that every edit still finds its text
        --only NAME     the edits of the functions of that name alone; may be given again
        --logs DIR      keep the prover's whole log of each round in DIR

A function is proved against the promises of those it calls, never against their code. So a copy of a
crate with a wrong edit in each of many functions is refused function by function in one check, and the
log names the facts that fail in each. An edit that is refused only because the text of the proof no
longer fits the code shows nothing of the contract; it is counted apart.

The edits of a crate stand in tests/wrong/CRATE.txt:

    function: src/lent.rt lent_of
    wrong: the greater of the two
    old: .min(
    new: .max(

`old` must be in that function's body exactly once, where any white space counts as one space; further pairs of
`old` and `new` belong to the same edit. The first edit of every function makes the first round, the second
of every function the second, and so on; a line `round: 3` puts one off to a later round. (A function without a
proof of ours is not tried by the kit while one that it calls is not proved: it takes a round of its own.) An edit
with `same:` for `wrong:` changes nothing that can be observed: these make a round of their own, the control,
in which every edited function must still be proved. A line that starts with `#` is a comment.

Each round is one `rt check` of the crate in a copy outside the repository. It begins with what checks
on this machine kept of the same crates: run `rt all check` first, or each copy proves the lower crates
anew. The last line has the totals. The exit code is 0; 1 where a wrong edit has no failing fact of
its own, or a control is refused; 2 where nothing could be tried. The gate asks for --places alone.
"""

import argparse
import os
import re
import shutil
import signal
import subprocess
import sys
import tempfile
import time
from pathlib import Path

ROOT = Path(__file__).resolve().parent.parent
EDITS = ROOT / "tests" / "wrong"
LIBRARIES = ["octets", "answers", "cipher", "frames", "board", "seals", "network", "aps", "tlvs",
             "commands", "router", "text", "lines", "labels"]
FACT, SHAPE, NONE = "refused for a fact", "refused for shape alone", "NOT REFUSED"

# What the prover says of a fact that it does not find, with the goal that is left.
FACTS = re.compile(
    r"no proof of|does not follow|does not close|the (two|whole) types? (first )?differ|differ only where|"
    r"expected type|but this has type|what it leaves must be|had joined|does not join|no equation of the list|"
    r"does not hold|did not prove|it is not proved that|give a proof of that")
# What it says where the proof's text does not fit the code, whatever holds of it.
SHAPES = re.compile(
    r"has no (`|field|member|name)|not in scope|unknown|no such|is not defined|missing (field|clause|case)|"
    r"not covered|too (many|few) arguments|is not a (record|function)|"
    r"^`((Inv|μ)-|[\w-]+-spec`)")
# What follows from another refusal.
ECHO = re.compile(r"was not admitted \(it has holes or undetermined implicits, or was rejected\)|"
                  r"^(a|\d+) declarations? that depends? on .* rejected, (was|were) not checked")


class Bad(Exception):
    """Something that the reader of a message can mend."""


# ---- the edits -----------------------------------------------------------------------------------

class Edit:
    def __init__(self, crate, file, name, place):
        self.crate, self.file, self.name, self.place = crate, file, name, place
        self.what, self.control, self.round, self.pairs, self.cuts = None, False, None, [], []

    @property
    def function(self):
        module = self.file[len("src/"):-len(".rt")]
        return self.name if module == "lib" else module.replace("/", "::") + "::" + self.name


# The head of an `impl` block, or of a function or a method; a trait's method that has no body is none.
HEAD = re.compile(r"^(?:impl(?:<[^{]*?>)? (?:([\w:]+)(?:<([^{]*?)>)? for )?(\w+).*{$|"
                  r"( *)(?:pub(?:\(crate\))? )?(?:final )?fn (\w+))", re.M)


def functions_of(crate):
    """Every function of a library, as (file, name, where its body stands), in the order of its files.

    A method is named as in `Reader::turn`, that of a trait as in `ReaderDisplay::fmt` or `U8FromRefusal::from`."""
    found = []
    for path in sorted((ROOT / "crates" / crate / "src").rglob("*.rt")):
        # A file's tests stand behind its functions.
        text = path.read_text(encoding="utf-8").partition("#[cfg(test)]\n")[0]
        file = path.relative_to(ROOT / "crates" / crate).as_posix()
        owner = ""
        for start in HEAD.finditer(text):
            trait, arguments, kind, indent, name = start.groups()
            if kind:
                words = [kind, (trait or "").rpartition("::")[2], *re.findall(r"\w+", arguments or "")]
                owner = "".join(word[:1].upper() + word[1:] for word in words)
                continue
            opens = re.compile(rf"^{indent}{{$|[^}}\n] {{$|;$", re.M).search(text, start.start())
            if opens and opens[0] == ";":
                continue
            body = opens and re.compile(rf"{{\n.*?^{indent}}}$", re.M | re.S).search(text, opens.end() - 1)
            if not body:
                raise Bad(f"crates/{crate}/{file}: no body of `fn {name}` is found: run `rt fmt`")
            found.append((file, f"{owner}::{name}" if indent else name, body.span()))
    return found


def read_edits(crate):
    path = EDITS / (crate + ".txt")
    if not path.is_file():
        return []
    edits, old = [], None
    for number, line in enumerate(path.read_text(encoding="utf-8").splitlines(), 1):
        place = f"tests/wrong/{crate}.txt, line {number}"
        if not line.strip() or line.startswith("#"):
            continue
        word, colon, value = line.partition(":")
        value = value.strip()
        if not colon or not value:
            raise Bad(f"{place}: expected `WORD: TEXT`")
        if word == "function":
            if old is not None:
                raise Bad(f"{place}: an `old` before it has no `new`")
            parts = value.split()
            if len(parts) != 2 or not re.fullmatch(r"src/[\w/]+\.rt", parts[0]):
                raise Bad(f"{place}: expected `function: src/FILE.rt NAME`")
            edits.append(Edit(crate, parts[0], parts[1], place))
            continue
        if not edits:
            raise Bad(f"{place}: the first line of an edit is `function: src/FILE.rt NAME`")
        edit = edits[-1]
        if word in ("wrong", "same"):
            if edit.what is not None:
                raise Bad(f"{place}: a second `wrong` or `same` for one edit")
            edit.what, edit.control = value, word == "same"
        elif word == "round":
            if not value.isdigit() or value == "0":
                raise Bad(f"{place}: a round is a number, 1 or more")
            edit.round = int(value)
        elif word == "old" and old is None:
            old = value
        elif word == "new" and old is not None:
            edit.pairs.append((old, value))
            old = None
        else:
            raise Bad(f"{place}: `{word}` is not expected here")
    if old is not None:
        raise Bad(f"tests/wrong/{crate}.txt: the last `old` has no `new`")
    for edit in edits:
        if edit.what is None or not edit.pairs:
            raise Bad(f"{edit.place}: an edit has a line `wrong:` (or `same:`), an `old:` and a `new:`")
    return edits


def cuts_of(edit, text, span):
    """What the edit puts where in the text of its file, as (start, end, new)."""
    cuts = []
    for old, new in edit.pairs:
        pattern = r"\s+".join(re.escape(word) for word in old.split())
        places = [m.span() for m in re.compile(pattern).finditer(text, *span)]
        if len(places) != 1:
            many = "not" if not places else f"{len(places)} times"
            raise Bad(f"{edit.place}: this text is {many} in `{edit.name}` of {edit.file}: {old}")
        cuts.append((*places[0], new))
    cuts.sort()
    for before, after in zip(cuts, cuts[1:]):
        if after[0] < before[1]:
            raise Bad(f"{edit.place}: two `old` texts overlap")
    return cuts


def rounds_of(crate, edits):
    """The rounds as a dictionary: a number, or "control", and its edits."""
    known = {(file, name): span for file, name, span in functions_of(crate)}
    rounds, turns = {}, {}
    for edit in edits:
        key = (edit.file, edit.name)
        if key not in known:
            raise Bad(f"{edit.place}: {edit.file} of {crate} has no function `{edit.name}`")
        text = (ROOT / "crates" / crate / edit.file).read_text(encoding="utf-8")
        edit.cuts = cuts_of(edit, text, known[key])
        if edit.control:
            turn = "control"
        else:
            turn = turns[key] = edit.round or turns.get(key, 0) + 1
        held = rounds.setdefault(turn, {})
        if key in held:
            raise Bad(f"{edit.place}: `{edit.name}` has another edit in round {turn}")
        held[key] = edit
    return {turn: list(rounds[turn].values()) for turn in sorted(rounds, key=str)}


# ---- the copy ------------------------------------------------------------------------------------

def below(crate):
    """The crates of the repository that a crate stands on, itself left out."""
    stands = {}
    for line in (ROOT / "crates.txt").read_text(encoding="utf-8").splitlines():
        name, colon, deps = line.partition("#")[0].partition(":")
        if colon:
            stands[name.strip()] = deps.split()
    if crate not in stands:
        raise Bad(f"crates.txt lists no crate {crate}")
    found, todo = [], list(stands[crate])
    while todo:
        name = todo.pop()
        if name in stands and name not in found:
            found.append(name)
            todo += stands[name]
    return found


def make_copy(folder, crate):
    """A repository of the crate and those below it."""
    names = [crate, *below(crate)]
    lines = (ROOT / "crates.txt").read_text(encoding="utf-8").splitlines()
    kept = [line for line in lines if line.partition(":")[0].strip() in names]
    (folder / "crates.txt").write_text("\n".join(kept) + "\n", encoding="utf-8")
    for name in names:
        shutil.copytree(ROOT / "crates" / name, folder / "crates" / name,
                        ignore=shutil.ignore_patterns("out"))


def apply(folder, crate, edits):
    """The crate's sources with the edits of a round, and no other."""
    source = folder / "crates" / crate / "src"
    shutil.rmtree(source)
    shutil.copytree(ROOT / "crates" / crate / "src", source)
    for file in {edit.file for edit in edits}:
        path = folder / "crates" / crate / file
        text = path.read_text(encoding="utf-8")
        for start, end, new in sorted((c for e in edits if e.file == file for c in e.cuts), reverse=True):
            text = text[:start] + new + text[end:]
        path.write_text(text, encoding="utf-8")


# ---- what the prover says ------------------------------------------------------------------------

MESSAGE = re.compile(r"^(\S*?\.(?:rt|antt)):(\d+):(\d+): (error|note)(?:\[[\w-]+\])?: (.*)$")
VERDICT = re.compile(r"^fn (\S+): (proved|not proved|no proof)(.*)$")
OTHER = re.compile(r"^(note: |(fn|enum|struct|logic|library|rt:|rattle) ?)")


def messages_of(log):
    """The errors of a log, each as (file, its text)."""
    found, current = [], None
    for line in log.splitlines():
        head = MESSAGE.match(line)
        if head:
            current = [head[1], head[5]] if head[4] == "error" else None
            if current:
                found.append(current)
        elif OTHER.match(line):
            current = None
        elif current:
            current[1] += "\n" + line
    return found


def short(text, width=150):
    """The start of a message, without the folders of names."""
    text = re.sub(r"(?:[\w·'-]+\.)+(?=[\w·'-])", "", " ".join(text.split()))
    text = text.replace("list the missing equation with its arguments, or rewrite by `rw` or `simp` ", "")
    text = re.sub(r"give a proof of that .*?two ends are equal, and", "`simp` leaves", text)
    text = re.sub(r"as printed, the two types .*?computed as far as they go, (?=the two types)", "", text)
    text = re.sub(r"( \.before)+(?= \.before)", " ..", text)
    return text if len(text) <= width else text[:width] + " .."


def judge(edit, log, messages):
    """What became of an edited function: FACT, SHAPE or NONE, and the words for it."""
    path = "proofs/" + edit.function.replace("::", "/") + "/"
    own = [text for file, text in messages
           if "/" + path in file and not ECHO.search(text)]
    verdict = next((v for v in map(VERDICT.match, log.splitlines())
                    if v and v[1] == edit.crate + "::" + edit.function), None)
    if verdict is None:
        return NONE, "the prover says nothing of it"
    if verdict[2] == "no proof" and not verdict[3].partition("; ")[2].startswith("it calls"):
        own.append(verdict[3].partition("; ")[2])  # the kit makes it, and says here what it could not close
    facts = [text for text in own if FACTS.search(text) and not SHAPES.search(text.splitlines()[0])]
    # What it answers or leaves tells more than what it asks of those that it calls; and where the proof's
    # text does not fit, nothing but that is counted.
    ends = [text for text in facts if re.match("`(returns|loop|search)", text)]
    if ends or (facts and len(facts) == len(own)):
        return FACT, short((ends or facts)[0])
    if own:
        return SHAPE, short(own[0])
    if verdict[2] == "proved":
        return NONE, "still proved"
    return NONE, "no failing fact of its own; " + verdict[3].partition("; ")[2]


# ---- a round -------------------------------------------------------------------------------------

def check(folder, crate):
    """What the prover says of the crate."""
    run = subprocess.Popen(["rt", "check"], cwd=folder / "crates" / crate,
                           stdout=subprocess.PIPE, stderr=subprocess.STDOUT, start_new_session=True)
    try:
        return run.communicate()[0].decode(encoding="utf-8", errors="replace")
    except BaseException:
        os.killpg(run.pid, signal.SIGTERM)
        raise


def try_round(folder, crate, turn, edits, counts, words):
    began = time.time()
    apply(folder, crate, edits)
    log = check(folder, crate)
    if words.logs:
        (words.logs / f"{crate}-{turn}.log").write_text(log, encoding="utf-8")
    title = "the control round" if turn == "control" else f"round {turn}"
    print(f"{crate}, {title}: {len(edits)} edits, {time.time() - began:.0f} s", flush=True)
    messages = messages_of(log)
    compiler = [(file, text) for file, text in messages if file.endswith(".rt")]
    if not any(map(VERDICT.match, log.splitlines())):
        causes = [f"{file.split('/crates/')[-1]}: {short(text)}" for file, text in compiler]
        raise Bad(f"{crate}, {title}: it did not reach the prover: "
                  + ("; ".join(causes) or log.strip()[-300:]))
    failed = False
    for edit in edits:
        result, cause = judge(edit, log, messages)
        if edit.control:
            good = result == NONE and cause == "still proved"
            counts["controls"] += good
            title = "still proved, as it must be" if good else "CONTROL REFUSED"
            failed |= not good
        else:
            counts[result] += 1
            title = result
            failed |= result != FACT
        print(f"  {title}: {edit.function}: {edit.what}\n      {cause}", flush=True)
    return failed


def try_crate(crate, rounds, counts, words):
    failed = False
    if rounds:
        folder = Path(tempfile.mkdtemp(prefix="wrong-"))
        try:
            make_copy(folder, crate)
            for turn, edits in rounds.items():
                failed |= try_round(folder, crate, turn, edits, counts, words)
        finally:
            shutil.rmtree(folder, ignore_errors=True)
    return failed


def list_bare(crates):
    bare = 0
    for crate in crates:
        held = {(edit.file, edit.name) for edit in read_edits(crate) if not edit.control}
        for file, name, _ in functions_of(crate):
            if (file, name) not in held:
                print(f"{crate}: {file} {name}")
                bare += 1
    print(f"{bare} functions have no edit")


def main():
    asked = argparse.ArgumentParser(description=__doc__.splitlines()[0])
    asked.add_argument("crates", nargs="*", metavar="CRATE")
    asked.add_argument("--list", action="store_true", help="the functions that have no edit yet")
    asked.add_argument("--places", action="store_true", help="only see that each edit finds its text")
    asked.add_argument("--only", action="append", metavar="FUNCTION", help="the edits of these alone")
    asked.add_argument("--logs", type=Path, metavar="DIR", help="keep the log of each round there")
    words = asked.parse_args()
    crates = words.crates or LIBRARIES
    for crate in crates:
        if crate not in LIBRARIES:
            raise Bad(f"{crate} is no library of this repository; they are: {', '.join(LIBRARIES)}")
    if words.list:
        list_bare(crates)
        return 0
    tried = {crate: rounds_of(crate, [edit for edit in read_edits(crate)
                                      if not words.only or edit.name in words.only]) for crate in crates}
    if words.places:
        print(f"{sum(len(e) for r in tried.values() for e in r.values())} edits find their text")
        return 0
    if shutil.which("rt") is None:
        raise Bad("rt is not found: put the Rattle kit on the path")
    if words.logs:
        words.logs.mkdir(parents=True, exist_ok=True)
    counts = {FACT: 0, SHAPE: 0, NONE: 0, "controls": 0}
    failed = False
    signal.signal(signal.SIGTERM, signal.default_int_handler)
    for crate, rounds in tried.items():
        failed |= try_crate(crate, rounds, counts, words)
    wrong = counts[FACT] + counts[SHAPE] + counts[NONE]
    print(f"{wrong} tried, {counts[FACT]} refused for a fact, {counts[SHAPE]} refused for shape alone, "
          f"{counts[NONE]} not refused; {counts['controls']} controls still proved")
    return 1 if failed else 0


if __name__ == "__main__":
    try:
        sys.exit(main())
    except Bad as why:
        sys.exit(print(f"wrong_edits: {why}", file=sys.stderr) or 2)
    except OSError as why:
        sys.exit(print(f"wrong_edits: {why.filename}: {why.strerror}", file=sys.stderr) or 2)
    except UnicodeError:
        sys.exit(print("wrong_edits: a file of edits or of a crate is not in UTF-8", file=sys.stderr) or 2)
    except KeyboardInterrupt:
        sys.exit(print("wrong_edits: stopped", file=sys.stderr) or 2)

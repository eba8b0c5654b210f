"""Puts the script of `margins` together, and checks that it shows what it must.

Every line has the answer that its author expects. Where a part of the script says DECISIONS, the
name of an entry in docs/DECISIONS.md follows.
"""

from ..bench.labels import CODES
from ..bench.tools import TOP
from ..lines import lines_of, ok, sure
from .commands import COMMANDS, FRONT, INNER_PARTS, PARTS, add_parts, add_values, add_writing
from .desk import Desk
from .halls import LENGTHS, REFUSED_LISTS, add_halls
from .hashes import add_hashes
from .labels import add_labels
from .marks import add_marks
from .opening import (add_open, add_open_aps, add_open_aps_forged, add_open_aps_refusals,
                      add_open_forged, add_open_refusals)
from .others import add_bad, add_chance, add_fine, add_hall_chance
from .sealing import add_seal, add_seal_aps
from .tools import (LEAST, LEAST_LINES, MARK, MOST_LINES, OUTGOING, REFUSALS, ROOMS, Margins,
                    stays)

OPENING = ("open", "hall", "openaps")  # three fields before the output
SEALING = {"sealat": "seal", "sealapsat": "sealaps"}  # with counter and mark told, and without


def make_script():
    """The whole script."""
    script = Margins()
    for add in (add_open, add_open_refusals, add_open_forged, add_halls, add_open_aps,
                add_open_aps_refusals, add_open_aps_forged, add_seal, add_seal_aps, add_writing,
                add_parts, add_values, add_hashes, add_chance, add_hall_chance, add_bad, add_labels,
                add_marks, add_fine):
        add(script)
    answered = {n for n, line in enumerate(script.lines, 1) if line and not line.startswith(b"#")}
    sure(set(script.expected) == answered, "lines without an expected answer",
         sorted(set(script.expected) ^ answered))
    sure(LEAST_LINES <= len(script.lines) <= MOST_LINES, "lines of the script", len(script.lines))
    return script


def pairs(files):
    """The fields of each line that has an answer, with those of the answer."""
    asked = lines_of(files["stdin"])
    for answer in lines_of(files["stdout"]):
        number, *fields = answer.decode("ascii").split("\t")
        yield asked[int(number) - 1].decode("utf-8").split("\t"), fields


def check_outcomes(given):
    """Every outcome that the papers allow on this board is met, and none that they don't."""
    found = {(fields[0], answer[0], *(answer[1:2] if answer[0] == "refused" else ()))
             for fields, answer in given if fields[0] in REFUSALS}
    wanted = {(word, kind) for word in REFUSALS for kind in ("ok", "bad")}
    wanted |= {(word, "refused", str(number))
               for word, numbers in REFUSALS.items() for number in numbers}
    sure(found == wanted, "outcomes missed, or met and not allowed",
         sorted(map(str, found ^ wanted)))


def check_outputs(given):
    """A refusal leaves an output of EE and all else as it was; a success, EE behind the frame.
    Every number that a word can give is met with every output that allows it; 1 with every output
    by `hall`, whose lists may be the cause."""
    met = set()
    for (word, *fields), (kind, *answer) in given:
        if word not in LEAST or kind == "bad":
            continue
        room = int(fields[0])
        output = answer[{"refused": 2, "ok": 3 if word in OPENING else 1}[kind]]
        if kind == "refused":
            sure(answer[2:] == ["ee" * room, *map(str, stays(word, fields[1:]))],
                 "a refusal changes something", word, fields)
        else:
            behind = output[2 * int(answer[0]):]
            sure(len(output) == 2 * room and behind == "ee" * (len(behind) // 2),
                 "the output behind the frame is not as it was", word, fields)
        met.add((word, room, int(answer[0]) if kind == "refused" else 0))
    wanted = {(word, room, number) for word in LEAST for room in ROOMS
              for number in ({1} if room < LEAST[word] else REFUSALS[word] - {1} | {0})}
    wanted |= {("hall", room, 1) for room in ROOMS}
    sure(met == wanted, "outcomes missed, or met and not allowed", sorted(met ^ wanted))


def check_halls(given):
    """Lists of every length that halls.py names: 1 where they are not allowed, whatever the output;
    else frames open in both halves, and 8, 9 and 10 are met. Lists of 64 rows answer as `open`."""
    met, alike = {}, 0
    opened = {tuple(fields[1:]): answer for fields, answer in given if fields[0] == "open"}
    for (word, *fields), answer in given:
        if word != "hall" or answer[0] == "bad":
            continue
        room, *rows, frame = fields
        verdicts = met.setdefault(tuple(map(int, rows)), set())
        if int(room) >= LEAST[word]:
            verdicts.add(int(answer[1]) if answer[0] == "refused" else 0)
        if rows == ["64", "64"] and (room, frame) in opened:
            sure(opened[room, frame] == answer, "`open` answers otherwise", fields)
            alike += 1
    sure(alike >= 40, "lines that `open` answers too are too few", alike)
    for rows in REFUSED_LISTS:
        sure(met.get(rows) == {1}, "lists that are not allowed", rows, met.get(rows))
    for rows in LENGTHS:
        found = met.get((rows, rows), set())
        sure(1 not in found and {0, 8, 9, 10} <= found, "lists that are allowed", rows, found)


def check_marks(given):
    """With counter and mark told: a frame is sealed just where the counter is below the mark, which
    no counter at the top is, and the counter is raised by 1. With those of the board the answer is
    that of the same line without them."""
    plain = {tuple(fields): answer for fields, answer in given if fields[0] in SEALING.values()}
    alike = set()
    for (word, *fields), answer in given:
        if word not in SEALING or answer[0] == "bad":
            continue
        room, counter, mark, *rest = fields
        counter, mark = int(counter), int(mark)
        if answer[0] == "ok":
            sure(counter < mark and answer[-1] == str(counter + 1), "a counter is spent", fields)
        elif answer[1] == "17":
            sure(mark <= counter < TOP, "17 below the mark or at the top", fields)
        elif answer[1] == "7":
            sure(counter == TOP, "7 below the top", fields)
        other = plain.get((SEALING[word], room, *rest))
        if (counter, mark) == (OUTGOING, MARK) and other is not None:
            sure(answer == other, "the board's own counter and mark answer otherwise", fields)
            alike.add((word, room))
    missed = {(word, str(room)) for word in SEALING for room in ROOMS} - alike
    sure(not missed, "no line with the board's own counter and mark", missed)


def check_parts(given):
    """Every part of every command is handed back, and empty under every other protection; each
    command is asked for parts that it lacks; refused hashes are zeros."""
    met = {(fields[0], fields[1], fields[2], answer[1]) for fields, answer in given
           if fields[0] in PARTS and answer[0] == "ok"}
    for protections, body, parts in COMMANDS.values():
        good = [str(under) for under in protections]
        frame = (FRONT + body).hex()
        for part, octets in parts.items():
            for under in ("none", "0", "2", "3"):
                wanted = part, under, frame, octets.hex() if under in good else ""
                sure(wanted in met, "a part is not asked for", wanted)
        sure(any((part, good[0], frame, "") in met for part in PARTS if part not in parts),
             "no part that it lacks is asked of", frame)
        sure(all(part in parts or (part, good[-1], frame, "") in met for part in INNER_PARTS),
             "a part of an inner frame is not asked of", frame)
    for word, lengths in (("hash", {0, 13, 14, 17, 32, 255, 256, 257, 300, 512}),
                          ("keyedhash", {0, 239, 240, 241, 256, 257, 512})):
        answers = [(len(fields[1]) // 2, answer) for fields, answer in given
                   if fields[0] == word and answer[0] != "bad"]
        sure(lengths <= {length for length, _ in answers}, "lengths are missing", word)
        sure(all(answer[3:] == ["00" * 16] for _, answer in answers if answer[0] == "refused"),
             "a refused hash is not zeros", word)


def check_prints(given):
    """A refusal leaves an output of EE, and a label EE behind it; read back, it gives the code.
    Every length of code is met with an output just too short, just long enough and longer."""
    desk, met = Desk(), set()
    for (word, *fields), (kind, *answer) in given:
        if word != "print" or kind == "bad":
            continue
        room, code = int(fields[0]), fields[1].lower()
        length = len(code) // 2
        if kind == "refused":
            sure(answer[2:] == ["ee" * room], "a refusal changes the output", fields)
        else:
            text, behind = answer[1][:2 * int(answer[0])], answer[1][2 * int(answer[0]):]
            sure(len(answer[1]) == 2 * room and behind == "ee" * (len(behind) // 2),
                 "the output behind the label is not as it was", fields)
            read = desk.answer(b"label\t" + text.encode("ascii")).split("\t")
            sure(read[:3] == ["ok", str(length), code.ljust(32, "0")],
                 "a printed label is read back otherwise", fields, read)
        met.add((length, room - 3 * length - 5, answer[0] if kind == "refused" else "ok"))
    wanted = {(length, over, "ok" if over >= 0 else "1") for length in CODES
              for over in (-2, -1, 0, 1, 2)}
    sure(wanted <= met, "prints are not shown", wanted - met)
    sure({length for length, _, number in met if number == "15"}.isdisjoint(CODES),
         "15 for a code that can be printed")


def check_labels(given):
    """Beside a refusal code and key are zeros; otherwise the code stands at the front of 16 octets,
    and the key is the hash of code and CRC, as the text spells them."""
    desk = Desk()
    for (word, *fields), (kind, *answer) in given:
        if word != "label" or kind == "bad":
            continue
        if kind == "refused":
            sure(answer[2:] == ["00" * 16] * 2, "a refused label is not zeros", fields)
            continue
        spelled = bytes.fromhex(fields[0]).decode("ascii").replace("-", "").replace(" ", "").lower()
        sure(answer[:2] == [str(len(spelled) // 2 - 2), spelled[:-4].ljust(32, "0")],
             "another code", fields)
        hashed = desk.answer(b"hash\t" + spelled.encode("ascii"))
        sure(hashed == ok(answer[2]), "another key", fields)


def check(files):
    """What the answers must show."""
    given = list(pairs(files))
    check_outcomes(given)
    check_outputs(given)
    check_halls(given)
    check_marks(given)
    check_parts(given)
    check_prints(given)
    check_labels(given)

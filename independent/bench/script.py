"""Puts the script of `bench` together, and checks that it shows what it must.

Document 01, the table of refusals and their orders: which line can be refused with which number;
document 02 (i) and the bench language for `route`, 02 (iii) and that language for `heard`; document
02 (iv) for TLVs and 02 (v) for labels, which are walked here in another way than the model's, and
02 (vi) for the mark, which is counted along here.
"""

from ..lines import ok, refused, sure
from ..model.commands import KINDS
from .aps import add_aps
from .commands import add_commands
from .desk import LENT, Desk
from .halls import LENGTHS, REFUSED, add_halls
from .joiner import add_joiner
from .keys import add_keys
from .labels import add_labels
from .line_forms import add_bad_lines, add_desk, add_fine, add_last, add_without_board
from .marks import add_marks
from .network import add_network
from .play import add_play
from .printing import add_printing
from .tlvs import RELAYS, add_length_octets
from .tools import TOP, Bench
from .tunnels import add_tunnels

REFUSALS = {  # every number that a line can be refused with
    "board": {14},
    "lend": set(),
    "network": {1, 14},
    "switch": {13},
    "link": {10, 14},
    "unlink": {13},
    "forget": {1, 13, 14},
    "open": {1, 2, 3, 4, 5, 6, 7, 8, 9, 10},
    "openaps": {1, 2, 3, 4, 5, 6, 7, 8, 9},
    "seal": {1, 2, 3, 4, 6, 7, 17},
    "sealaps": {1, 2, 3, 4, 6, 7, 14, 17},
    "read": {2, 3, 4, 11, 12, 14},
    "tlv": set(),
    "route": {2, 3, 4, 11, 12, 14},
    "write": {1, 2, 11},
    "hash": set(),       # 257 octets are bad before they are too long
    "keyedhash": {2},
    "state": set(),
    "heard": {1},
    "links": set(),
    "label": {15, 16},
    "print": {1, 15},
    "mark": set(),
    "marked": {14},
}
JUDGING = ("network", "forget", "open", "heard")  # the lines that judge the lists
NOT_JUDGING = ("switch", "link", "unlink", "openaps", "seal", "sealaps", "write", "state", "links",
               "label", "print", "mark", "marked")
TLVS_FROM = {  # identifier, and type where it has one; the place of TLVs in a frame
    "transport4": (b"\x05\x04", 36), "transport2": (b"\x05\x02", 29),
    "transport3": (b"\x05\x03", 29), "update": (b"\x06", 14), "down": (b"\x11", 3),
    "up": (b"\x12", 3)}
SEALS = ("seal", "sealaps")
GIVEN_KEYS = ("board", "lend", "network", "switch", "link", "unlink")  # what sealing goes by
LEAST_LINES, MOST_LINES = 10000, 16000


def outcomes(bench):
    """Every word with every answer it got, a refusal told by its number and what follows it."""
    found = set()
    for line, answer in bench.given:
        word = line.split(b"\t")[0].decode("latin-1")
        kind, *rest = answer.split("\t")
        found.add((word, kind, *((int(rest[0]), *rest[2:]) if kind == "refused" else ())))
    return found


def wanted():
    """The outcomes that the script must show, and no others of a good word."""
    for word, numbers in REFUSALS.items():
        yield word, "ok"
        yield word, "bad"
        for number in numbers - {8}:
            yield word, "refused", number
    for word in ("open", "openaps"):
        yield word, "refused", 8, "genuine"
        yield word, "refused", 8, "altered"


def check_outcomes(bench):
    """Every outcome that the papers allow is met, and none that they don't."""
    found = {outcome for outcome in outcomes(bench) if outcome[0] in REFUSALS}
    sure(found == set(wanted()), "outcomes missed, or met and not allowed",
         sorted(map(str, found ^ set(wanted()))))


def check_halls(bench):
    """With every length of lists that halls.py names, and enough output: the lines that judge lists
    answer 1 where the lists are not allowed, and only there; the others don't."""
    lent, met = LENT, set()
    for line, answer in bench.given:
        word, *fields = line.split(b"\t")
        if word == b"lend" and answer == "ok":
            lent = tuple(int(field) for field in fields)
        elif lent[0] >= LENT[0] and answer != "bad":
            met.add((word.decode("latin-1"), lent[1:], answer == refused(1)))
    lists = {(rows, rows): False for rows in LENGTHS} | dict.fromkeys(REFUSED, True)
    wanted_verdicts = {(word, rows, no) for word in JUDGING for rows, no in lists.items()}
    wanted_verdicts |= {(word, rows, False) for word in NOT_JUDGING for rows in REFUSED}
    missed = wanted_verdicts - met
    sure(not missed, "a line is not shown with lists of some length", sorted(missed))
    wrong = {(word, rows, not no) for word, rows, no in wanted_verdicts} & met
    sure(not wrong, "lists are judged otherwise", sorted(wrong))


def check_commands(bench):
    """Every command is read, refused with 11 and with 12, and written."""
    given = [(line.split(b"\t"), answer.split("\t")) for line, answer in bench.given]
    reads = [(fields[2][4:], answer) for fields, answer in given
             if fields[0] == b"read" and answer[0] != "bad"]
    writes = [(fields[2], answer) for fields, answer in given
              if fields[0] == b"write" and answer[0] != "bad"]
    for kind in KINDS:
        start, word = kind.start.hex().encode("ascii"), kind.word.encode("ascii")
        found = [answer[:2] for octets, answer in reads if octets.startswith(start)]
        for wanted_answer in (["ok", kind.word], ["refused", "11"], ["refused", "12"]):
            sure(wanted_answer in found, "an answer is not shown", kind.word, wanted_answer)
        sure(any(written == word and answer[0] == "ok" for written, answer in writes),
             "a command is not written", kind.word)


def check_routing(bench):
    """Where the reader refuses, the router gives the same answer; of what is read, it hands on
    tunnels, and refuses every other command with 11."""
    given = dict(bench.given)
    shown = set()
    for line, answer in given.items():
        reading = given.get(line.replace(b"route", b"read", 1))
        if not line.startswith(b"route\t") or reading is None:
            continue
        verdict, *fields = reading.split("\t")
        if verdict == "ok":
            shown.add((fields[0], "ok" if answer.startswith("ok\t") else answer))
        else:
            sure(answer == reading, "the router gives another answer than the reader", line)
    wanted_answers = {(kind.word, "ok" if kind.word == "tunnel" else refused(11)) for kind in KINDS}
    sure(shown == wanted_answers, "commands routed otherwise", sorted(shown ^ wanted_answers))


# ---- TLVs --------------------------------------------------------------------------------------

def walked(octets):
    """The TLVs that fill the octets, as pairs of tag and value, or None. From the end back it is
    found of every place whether the octets from there on are filled, and by which TLVs."""
    found = {len(octets): ()}
    for place in reversed(range(len(octets) - 2)):
        end = place + 2 + octets[place + 1] + 1
        if end in found:
            found[place] = ((octets[place], octets[place + 2:end]), *found[end])
    return found.get(0)


def carried(bench):
    """Of every line that reads or writes a command with TLVs, and comes to judge them: its word,
    the command's, their octets, and whether the answer is 11. To ask for a value is to read."""
    desk = Desk()
    for line, answer in bench.given:
        word, *fields = line.split(b"\t")
        if word == b"tlv" and answer != "bad":
            word, fields = b"read", [fields[0], fields[2]]
            answer = desk.answer(b"\t".join([word, *fields]))
        eleven = answer == refused(11)
        if word == b"read" and (eleven or answer == refused(12) or answer.startswith("ok\t")):
            frame = bytes.fromhex(fields[1].decode("ascii"))
            for command, (start, place) in TLVS_FROM.items():
                if frame[2:].startswith(start) and len(frame) >= place:
                    yield "read", command, frame[place:], eleven
        elif word == b"write" and answer not in ("bad", refused(1)):
            command = fields[1].decode("ascii")
            if command in TLVS_FROM and (command[:9] != "transport" or len(fields[2]) == 32):
                yield "write", command, bytes.fromhex(fields[-1].decode("ascii")), eleven


def check_carried(bench):
    """TLVs are 11 exactly where they don't fill their place or fail Relay's rule; each command is
    read and written with good ones, with a value of one octet, without any, and with bad ones."""
    met = set()
    for word, command, octets, eleven in carried(bench):
        tlvs = walked(octets)
        fits = tlvs is not None and (command not in RELAYS or
                                     any(tag == 0 and len(value) >= 8 for tag, value in tlvs))
        sure(eleven != fits, "TLVs are judged otherwise", word, command, octets.hex())
        met.add((word, command, "good" if fits else "filled" if tlvs is not None else "bad"))
        if any(len(value) == 1 for _, value in tlvs or ()):
            met.add((word, command, "one octet"))
        met.add((word, command, "none" if not octets else "some"))
    kinds = {"good", "bad", "one octet", "none", "some"}
    wanted_kinds = {(word, command, kind) for word in ("read", "write") for command in TLVS_FROM
                    for kind in (kinds | {"filled"} if command in RELAYS else kinds)}
    sure(met == wanted_kinds, "TLVs are not shown", sorted(met ^ wanted_kinds))


def check_values(bench):
    """A value that is asked for belongs to the first TLV of its tag that is there; it is empty
    where the frame is refused or none has the tag, and only there. All of it is shown."""
    desk, met = Desk(), set()
    for line, answer in bench.given:
        word, *fields = line.split(b"\t")
        if word != b"tlv" or answer == "bad":
            continue
        under, tag, frame = fields
        verdict, *told = desk.answer(b"\t".join([b"read", under, frame])).split("\t")
        tlvs = walked(bytes.fromhex(told[-1])) if verdict == "ok" and told[0] in TLVS_FROM else ()
        values = [value for other, value in tlvs if other == int(tag)]
        sure(answer == ok(*values[:1] or [b""]), "another value of a TLV", line)
        sure((answer == ok(b"")) == (not values), "an empty value", line)
        met.add(verdict if verdict != "ok" else min(len(values), 2))
    sure(met == {"refused", 0, 1, 2}, "values are not asked for", met)


# ---- labels ------------------------------------------------------------------------------------

DIVISOR = 0x11021  # x^16 + x^12 + x^5 + 1
OF_LABELS = (8, 10, 14, 18)


def walked_label(text):
    """The octets that a text spells, or None. It is walked character by character, with the digit
    that waits for a second one, and whether a separator may come."""
    octets, waiting, gap = [], None, False
    for character in text:
        digit = b"00112233445566778899aAbBcCdDeEfF".find(character) // 2
        if character in b" -" and gap:
            gap = False
        elif digit < 0:
            return None
        elif waiting is None:
            waiting, gap = digit, False
        else:
            octets.append(16 * waiting + digit)
            waiting, gap = None, True
    return bytes(octets) if waiting is None and (gap or not text) else None


def divides(octets):
    """Whether the last two octets are the CRC of the others: as one number, each octet's lowest bit
    first, with the first 16 bits and the last 16 turned over, they are a multiple."""
    bits = 8 * len(octets)
    number = int("".join(f"{octet:08b}"[::-1] for octet in octets), 2)
    number ^= 0xFFFF << bits - 16 ^ 0xFFFF
    for place in reversed(range(16, bits)):
        if number >> place & 1:
            number ^= DIVISOR << place - 16
    return number == 0


def label_verdict(desk, octets):
    """The answer to a text that spells these octets, or none; the desk hashes them."""
    if octets is None or len(octets) not in OF_LABELS:
        return refused(15)
    if not divides(octets):
        return refused(16)
    return ok(octets[:-2], desk.answer(b"hash\t" + octets.hex().encode("ascii")).split("\t")[1])


def check_labels(bench):
    """Every label is answered as the other walk and the division have it. Texts that spell nothing
    are shown, and every count of octets from 0 to 20, good and with a wrong CRC where it can be."""
    desk, met = Desk(), set()
    for line, answer in bench.given:
        word, *fields = line.split(b"\t")
        if word == b"label" and answer != "bad":
            octets = walked_label(fields[0])
            verdict = label_verdict(desk, octets)
            sure(answer == verdict, "a label is read otherwise", line, verdict)
            kind, number, *_ = answer.split("\t")
            met.add((None if octets is None else len(octets), "ok" if kind == "ok" else number))
    wanted_labels = {(count, kind) for count in range(21)
                     for kind in (("ok", "16") if count in OF_LABELS else ("15",))}
    missed = (wanted_labels | {(None, "15")}) - met
    sure(not missed, "labels are not shown", missed)


def check_prints(bench):
    """A code is printed exactly where its length and the lent output allow it, 15 before 1, and
    what is printed spells the code and its CRC, in capitals with one space in every gap."""
    room, met = LENT[0], set()
    for line, answer in bench.given:
        word, *fields = line.split(b"\t")
        if word == b"lend" and answer == "ok":
            room = int(fields[0])
        if word != b"print" or answer == "bad":
            continue
        code = bytes.fromhex(fields[0].decode("ascii"))
        fits = len(code) + 2 in OF_LABELS
        if not fits or room < 3 * len(code) + 5:
            sure(answer == refused(1 if fits else 15), "a code is refused otherwise", line, room)
        else:
            text = answer.split("\t")[1]
            octets = walked_label(text.encode("ascii"))
            sure(octets is not None and octets[:-2] == code and divides(octets),
                 "a printed label is read back otherwise", line, text)
            sure(text == octets.hex(" ").upper(), "a label is printed otherwise", line, text)
        met.add((len(code), room - 3 * len(code) - 5 if fits else None))
    wanted_prints = {(count - 2, over) for count in OF_LABELS for over in (-2, -1, 0, 1)}
    wanted_prints |= {(count, None) for count in range(21) if count + 2 not in OF_LABELS}
    sure(wanted_prints <= met, "prints are not shown", wanted_prints - met)


# ---- the mark ----------------------------------------------------------------------------------

def counted(bench):
    """The lines that have to do with the mark, by word, fields and answer, with own address,
    counter and mark before them: these are counted along, from what was answered `ok`."""
    own = counter = mark = 0
    for line, answer in bench.given:
        word, *fields = line.decode("latin-1").split("\t")
        if word not in ("board", "mark", "marked", "state", *SEALS) or answer == "bad":
            continue
        yield word, fields, answer, (own, counter, mark)
        if not answer.startswith("ok"):
            continue
        if word == "board":
            own, counter = int(fields[0], 16), int(fields[1]) if fields[1:] else 0
        mark = counter if word == "board" else int(fields[0]) if word == "marked" else mark
        counter += word in SEALS


def check_sealed(kind, told, own, counter, mark):
    """A seal spends the counter that is next, below the mark; 7 at the top, 17 at the mark."""
    if kind == "ok":
        spent = counter.to_bytes(4, "little") + own.to_bytes(8, "little")
        sure(counter < mark and spent in bytes.fromhex(told[0]), "a seal spends", counter, mark)
    else:
        sure((told[0] == "7") <= (counter == TOP), "7 below the top", counter)
        sure((told[0] == "17") <= (mark <= counter < TOP), "17 below the mark", counter, mark)


def check_marks(bench):
    """Every step, state and seal is as counter and mark have it that are counted along. Each number
    that a seal can be refused with is met with a counter that is not below the mark."""
    met = set()
    for word, fields, answer, (own, counter, mark) in counted(bench):
        kind, *told = answer.split("\t")
        after = mark + min(1024, TOP - mark)
        if word == "mark":
            sure(answer == ok(after), "another next mark", mark, answer)
        elif word == "marked":
            sure((kind == "ok") == (int(fields[0]) == after), "another step", mark, fields)
        elif word == "state":
            sure(told[0::3] == [str(counter), str(mark)], "another state", counter, mark, answer)
        elif word in SEALS:
            check_sealed(kind, told, own, counter, mark)
            if counter >= mark:
                met.add((word, int(told[0])))
    wanted_numbers = {(word, number) for word in SEALS for number in REFUSALS[word]}
    sure(met == wanted_numbers, "refusals with the mark not moved", met ^ wanted_numbers)


def check_only_mark(bench):
    """What is refused with 17 is sealed by a board with the same keys and its mark at the top."""
    desk = Desk()
    for line, answer in bench.given:
        word = line.decode("latin-1").split("\t")[0]
        if word in GIVEN_KEYS:
            desk.answer(line)
            if desk.board is not None:
                desk.board.outgoing, desk.board.mark = 0, TOP
        elif answer == refused(17):
            sure(desk.answer(line).startswith("ok\t"), "17 before another cause", line)


# ---- the whole ---------------------------------------------------------------------------------

def check_shares(bench):
    """At least a third of the frames open, also without those that are not secured."""
    opens = [answer for line, answer in bench.given
             if line.startswith((b"open\t", b"openaps\t")) and answer != "bad"]
    accepted = [answer for answer in opens if answer.startswith("ok")]
    secured = [answer for answer in accepted if answer.split("\t")[2] != "none"]
    sure(3 * len(secured) >= len(opens) - (len(accepted) - len(secured)),
         "secured frames that open are too few", len(secured))
    sure(3 * len(accepted) >= len(opens), "frames that open are too few", len(accepted))
    sure(LEAST_LINES <= len(bench.lines) <= MOST_LINES, "lines of the script", len(bench.lines))


def make_script():
    """The whole script."""
    bench = Bench()
    for add in (add_without_board, add_desk, add_bad_lines, add_fine, add_keys, add_halls,
                add_network, add_aps, add_commands, add_length_octets, add_joiner, add_tunnels,
                add_play, add_labels, add_printing, add_marks, add_last):
        add(bench)
    for check in (check_outcomes, check_halls, check_commands, check_routing, check_carried,
                  check_values, check_labels, check_prints, check_marks, check_only_mark,
                  check_shares):
        check(bench)
    return bench

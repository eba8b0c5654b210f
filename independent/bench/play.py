"""The script of `bench`: a joining out of source document 001, and play by chance.

Source document 001 (12.8, TP/R21/BV-08) gives addresses and keys. In the play every genuine frame
and every replay has the answer that its maker expects, but where lists of another length are lent
for a while and a new frame may find no room; what altered, cut and odd frames get is the model's
answer.
"""

from itertools import cycle

from ..lines import Chance, address, flip, ok, run_of, sure
from ..model import mmo, opening
from .tools import (DATA_HEADER, GENUINE, OWN, WELL_KNOWN, Station, aps_frame, key, no, opened,
                    unsecured)
from .tunnels import handed_on

CENTRE, ROUTER, END = 0xAAAAAAAAAAAAAAAA, 0x0000000100000000, 0x0000000000000001
NETWORK_KEY = bytes.fromhex("abcdef01234567890000000000000000")
TO_CENTRE = bytes.fromhex("48000000083c1e11")
TO_ROUTER = bytes.fromhex("4800083c00001e22")
HALLS = (66, 4, 1022, 24, 128, 2, 64, 16, 1024, 62)  # lengths that the play lends in turn


# ---- a joining ---------------------------------------------------------------------------------

def wire(number):
    """An address as it is sent."""
    return number.to_bytes(8, "little")


def octets_of(answer):
    """The octets of an answer with one field."""
    word, octets = answer.split("\t")
    sure(word == "ok", "a frame of the joining is not sealed or written", word)
    return bytes.fromhex(octets)


def hand_out(bench, station, identifier, ack, *command):
    """A command written and sealed for a station, whose board opens it."""
    plain = octets_of(bench.add("write", ack, *command))
    frame = octets_of(bench.seal_aps(station.own, identifier, plain))
    sure(opening.open_aps(station.board, 116, 0, frame) == (CENTRE, identifier, plain),
         "a frame of the joining does not open", frame.hex())
    return frame


def take_in(bench, station, protection, plain, answer=None):
    """A station's APS frame through both layers: opened, opened, and read if it is a command."""
    inside = plain if protection == "none" else station.seal_aps(CENTRE, protection, plain)
    frame = station.seal(TO_CENTRE + inside)
    bench.open(frame, opened(station.own, 1, TO_CENTRE + inside))
    bench.open_aps(station.own, inside, unsecured(plain) if protection == "none"
                   else opened(station.own, protection, plain))
    if answer is not None:
        bench.add("read", protection, plain, expect=answer)
    bench.open(frame, GENUINE)


def add_device(bench, station, unique, ack, router=None):
    """One device's joining, through a router or not."""
    own = station.own
    bench.group(f"device {address(own)}: network key, Request-Key, new link key, Verify, Confirm")
    bench.link(own, WELL_KNOWN)
    station.link(CENTRE, WELL_KNOWN).install(0, 0, NETWORK_KEY)
    if router is not None:
        take_in(bench, router, 0, b"\x41\x03\x06" + wire(own) + b"\xee\x0b\x01",
                ok("update", address(own), 0x0BEE, 1, b""))
    frame = hand_out(bench, station, 2, ack, "transport1", NETWORK_KEY, 0, address(own),
                     address(CENTRE))
    if router is not None:
        tunnel = octets_of(bench.add("write", "ack", "tunnel", address(own), frame))
        sure(tunnel[2:] == b"\x0e" + wire(own) + frame, "the tunnel has other octets", tunnel.hex())
        bench.seal(TO_ROUTER + tunnel)
        bench.add("read", "none", tunnel, expect=ok("tunnel", address(own), frame))
        bench.add("route", "none", tunnel, expect=handed_on(frame, own))
    take_in(bench, station, 0, b"\x41\x01\x08\x04", ok("request4"))
    hand_out(bench, station, 3, "ack", "transport4", unique, address(own), address(CENTRE), b"")
    bench.link(own, unique)
    station.link(CENTRE, unique)
    proof = mmo.keyed(unique, b"\x03")
    take_in(bench, station, "none", b"\x41\x02\x0f\x04" + wire(own) + proof,
            ok("verify", 4, address(own), proof))
    bench.add("keyedhash", unique, "03", expect=ok(proof))
    frame = hand_out(bench, station, 0, "ack", "confirm", 0, 4, address(own))
    bench.seal(TO_ROUTER + frame)
    take_in(bench, station, 0, DATA_HEADER + run_of(12))


def add_joining(bench):
    """A router joins the centre, and an end device joins through it."""
    bench.group("source document 001, 12.8: the trust centre's side of two joinings")
    bench.board(CENTRE)
    bench.step()
    bench.network(0, 0, NETWORK_KEY)
    bench.add("switch", 0, expect="ok")
    router, end = Station(ROUTER), Station(END)
    add_device(bench, router, key(21), "ack")
    add_device(bench, end, key(22), "noack", router)
    bench.state(9, 7, 0)
    floors = [station.board.outgoing for station in (router, end)]
    bench.heard(0, (0, ROUTER, floors[0]), (1, END, floors[1]))
    bench.links((0, ROUTER, floors[0] - 1), (1, END, floors[1] - 1))


# ---- play --------------------------------------------------------------------------------------

class Play:
    """A board on the desk among stations, all with the same network keys."""

    def __init__(self, bench, seed, stations, rows, halls):
        self.bench, self.chance, self.rows, self.halls = bench, Chance(seed), rows, halls
        self.keys, self.numbers, self.active = [None, None], [0, 0], 0
        self.serial = 30
        self.past = []  # lines that opened: word and fields, while their keys stay
        bench.hall(rows)
        bench.board(OWN, self.chance.below(2**32 - 10**6))
        bench.step()
        self.stations = [Station(0x00124B0000001000 + 16 * i, self.chance.below(2**31))
                         for i in range(stations)]
        for station in self.stations[:8]:
            self.new_link(station)
        for slot in (1, 0):
            self.new_network(slot)

    def octets(self, most):
        """Octets by chance, mostly few."""
        length = self.chance.below(most + 1 if self.chance.below(8) == 0 else 25)
        return run_of(min(length, most), self.chance.below(256))

    def new_key(self):
        """A key not used before."""
        self.serial += 1
        return key(self.serial)

    def new_network(self, slot):
        """A new network key for everybody, made active."""
        number = self.chance.pick([n for n in range(256) if n != self.numbers[1 - slot]])
        self.keys[slot], self.numbers[slot], self.active = self.new_key(), number, slot
        self.bench.network(slot, number, self.keys[slot])
        self.bench.add("switch", number, expect="ok")
        for station in self.stations:
            station.install(slot, number, self.keys[slot])
        self.past = [line for line in self.past if line[0] != "open"]

    def new_link(self, station):
        """A new link key between the desk and a station."""
        octets = self.new_key()
        self.bench.link(station.own, octets)
        station.link(OWN, octets)
        self.past = [line for line in self.past if line[0] != "openaps"]

    # ---- lines ----

    def network_plain(self):
        """A plain network frame with some header."""
        bits = self.chance.below(16) if self.chance.below(4) == 0 else 0
        control = 8 | self.chance.below(2) | self.chance.below(2) << 6 | bits << 10
        header = control.to_bytes(2, "little") + run_of(6, self.chance.below(256))
        header += run_of(8) * (bits >> 1 & 1) + run_of(8, 9) * (bits >> 2 & 1)
        if bits & 1:
            count = self.chance.below(6)
            header += bytes([count, self.chance.below(256)]) + run_of(2 * count)
        return header + self.octets(98 - len(header))

    def aps_parts(self):
        """Header and payload of a plain APS frame of some form."""
        control, length = self.chance.pick(((0x01, 2), (0x41, 2), (0x09, 2), (0x00, 8), (0x48, 8),
                                            (0x0C, 9), (0x02, 8), (0x12, 2)))
        header = bytes([control]) + run_of(length - 1, self.chance.below(256))
        return header, self.octets(91 - length)

    def aps_plain(self):
        """A plain APS frame of some form."""
        header, payload = self.aps_parts()
        return header + payload

    def genuine_network(self):
        """A station's frame."""
        station, plain = self.chance.pick(self.stations), self.network_plain()
        frame = station.seal(plain)
        self.bench.open(frame, opened(station.own, 1, plain))
        self.past.append(("open", frame))

    def genuine_aps(self):
        """A partner's frame, in the 13-octet form or the 5-octet one."""
        station, (header, payload) = self.chance.pick(self.stations[:8]), self.aps_parts()
        identifier = self.chance.pick((0, 2, 3))
        caller = self.chance.pick((0, station.own, OWN))
        frame = station.seal_aps(OWN, identifier, header + payload)
        if self.chance.below(4) == 0:
            caller = station.own
            frame = aps_frame(station.board.links[0].key, identifier, station.own,
                              station.board.outgoing - 1, payload, header=header, carried=False)
        self.bench.open_aps(caller, frame, opened(station.own, identifier, header + payload))
        self.past.append(("openaps", address(caller), frame))

    def replay(self):
        """A frame that opened before."""
        if self.past:
            self.bench.add(*self.chance.pick(self.past), expect=GENUINE)

    def altered(self):
        """A new frame with one bit changed, an old one so, or a part of one."""
        station = self.chance.pick(self.stations[:8])
        if self.past and self.chance.below(3) == 0:
            word, *fields, frame = self.chance.pick(self.past)
        elif self.chance.below(2):
            word, fields, frame = "open", [], station.seal(self.network_plain())
        else:
            word, fields = "openaps", [address(station.own)]
            frame = station.seal_aps(OWN, self.chance.pick((0, 2, 3)), self.aps_plain())
        if self.chance.below(3):
            self.bench.add(word, *fields, flip(frame, self.chance.below(8 * len(frame))))
        else:
            self.bench.add(word, *fields, frame[:self.chance.below(len(frame))])

    def odd(self):
        """A frame that hardly anybody made, a plain one, or one for the other layer."""
        choice = self.chance.below(4)
        if choice == 0:
            octets = bytes(self.chance.below(256) for _ in range(self.chance.below(60)))
            self.bench.open(octets)
            self.bench.open_aps(self.stations[0].own, octets)
        elif choice == 1:
            plain = self.network_plain()
            self.bench.open(plain, unsecured(plain))
        elif choice == 2:
            plain = self.aps_plain()
            self.bench.open_aps(0, plain, unsecured(plain))
        else:
            station = self.chance.pick(self.stations[:8])
            self.bench.open(station.seal_aps(OWN, 0, b"\x01\x02"), no(4))

    def sealing(self):
        """The desk seals, and a station's board opens it."""
        station = self.chance.pick(self.stations[:8])
        if self.chance.below(2):
            plain = self.network_plain()
            frame = octets_of(self.bench.seal(plain))
            given = opening.open_network(station.board, *station.lists, 116, frame)
            sure(given == (OWN, 1, plain), "a frame of the play opens to another", plain.hex())
        else:
            plain, identifier = self.aps_plain(), self.chance.pick((0, 2, 3))
            frame = octets_of(self.bench.seal_aps(station.own, identifier, plain))
            given = opening.open_aps(station.board, 116, 0, frame)
            sure(given == (OWN, identifier, plain), "a frame of the play opens to another",
                 plain.hex())

    def tunnelling(self):
        """The desk seals and wraps, routes, and a station's board opens what was handed on; or the
        tunnel is routed with one bit changed."""
        station, identifier = self.chance.pick(self.stations[:8]), self.chance.pick((0, 2, 3))
        plain = (bytes([self.chance.pick((0x01, 0x09)), self.chance.below(256)])
                 + run_of(1 + self.chance.below(78), self.chance.below(256)))
        inner = octets_of(self.bench.seal_aps(station.own, identifier, plain))
        tunnel = octets_of(self.bench.add("write", self.chance.pick(("ack", "noack")), "tunnel",
                                          address(station.own), inner))
        if self.chance.below(2):
            changed = flip(tunnel, self.chance.below(8 * 16))
            self.bench.add("route", self.chance.pick(("none", "none", 0)), changed)
        self.bench.add("route", "none", tunnel, expect=handed_on(inner, station.own))
        given = opening.open_aps(station.board, 116, 0, inner)
        sure(given == (OWN, identifier, plain), "a tunnelled frame opens to another", plain.hex())

    def keys_change(self):
        """Keys sent again, replaced or removed; senders forgotten."""
        choice, station = self.chance.below(7), self.chance.pick(self.stations[:8])
        slot = self.chance.below(2)
        if choice == 0:
            self.new_network(slot)
        elif choice == 1:
            self.bench.network(slot, self.numbers[slot], self.keys[slot])
        elif choice == 2:
            self.bench.network(slot, self.numbers[1 - slot], self.keys[slot], no(14))
        elif choice == 3:
            self.new_link(station)
        elif choice == 4:
            self.bench.link(station.own, station.board.links[0].key)
        elif choice == 5:
            self.bench.add("unlink", address(station.own), expect="ok")
            self.new_link(station)
        else:
            self.bench.add("forget", slot, address(station.own))
            self.past = [line for line in self.past if line[0] != "open"]

    def looks(self):
        """What the desk tells of itself."""
        for fields in (("state",), ("heard", 0), ("heard", 1), ("links",)):
            if self.chance.below(2):
                self.bench.add(*fields)

    def short_lend(self):
        """A lend under which nothing opens, and back."""
        station = self.chance.pick(self.stations)
        lent = self.chance.pick(((115, 64, 64), (116, 63, 64), (256, 64, 65)))
        self.bench.lend(*lent)
        self.bench.open(station.seal(self.network_plain()), no(1))
        self.bench.add("heard", self.chance.below(2), expect=no(1) if lent[1] != lent[2] else None)
        self.bench.hall(self.rows)

    def other_hall(self):
        """Lists of another length, where a station's new frame opens or finds no room; then new
        keys, which free all the rows that are lent from then on."""
        rows = next(self.halls)
        self.bench.hall(rows)
        for _ in range(3):
            station, plain = self.chance.pick(self.stations), self.network_plain()
            answer = self.bench.open(station.seal(plain))
            sure(answer in (opened(station.own, 1, plain), no(10)),
                 "a new frame neither opens nor finds the slot full", plain.hex(), answer)
        self.bench.add("heard", self.chance.below(2))
        if rows // 2 >= len(self.stations):
            self.rows = rows
        self.bench.hall(self.rows)
        for slot in (1, 0):
            self.new_network(slot)

    def go(self, rounds):
        """So many rounds, most of them genuine frames."""
        actions = ([self.genuine_network] * 20 + [self.genuine_aps] * 18 + [self.replay] * 8
                   + [self.altered] * 10 + [self.odd] * 4 + [self.sealing] * 8
                   + [self.tunnelling] * 2 + [self.keys_change] * 4 + [self.looks] * 2
                   + [self.short_lend] * 2 + [self.other_hall])
        for _ in range(rounds):
            self.chance.pick(actions)()
        self.bench.add("state")


def add_play(bench):
    """All of this file."""
    add_joining(bench)
    halls = cycle(HALLS)
    for seed, stations, rows, rounds in ((3001, 8, 64, 400), (3002, 30, 62, 400),
                                         (3003, 12, 1024, 400)):
        bench.group(f"play by chance, {stations} stations, lists of {rows} rows at first, "
                    f"{rounds} rounds, seed {seed}")
        Play(bench, seed, stations, rows, halls).go(rounds)
    bench.lend()

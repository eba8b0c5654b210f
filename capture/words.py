"""What the log says of a frame: its class, the verdict in words, and what is inside."""

# The classes of the log, in its order: a word for the report's marks, and what the count says.
CLASSES = {
    "opened": "opened",
    "unsecured": "unsecured",
    "genuine": "stale and genuine: heard again",
    "altered": "stale and altered",
    "forged": "forged",
    "nokey": "no key yet",
    "refused": "refused for another cause",
    "passed": "passed over: no network frame",
    "spoilt": "cut, or with a wrong checksum",
}
REFUSALS = {
    "2": "2 long: no frame of this layer has so many octets",
    "3": "3 short: ends before what its header announces",
    "4": "4 form: not of the forms that 01 lists",
    "5": "5 security: identifier, nonce bit or sender not allowed",
    "6": "6 no key yet",
    "7": "7 top: its counter is the last there is",
    "9": "9 forged",
    "10": "10 full: genuine, but no row is free for its sender",
}
BY_NUMBER = {"6": "nokey", "9": "forged"}
SPOILT = ("cut", "wrong checksum")
COMMANDS = {
    "transport1": "Transport-Key: network key {}, number {}, for {} from {}",
    "transport2": "Transport-Key: application master key {}, partner {}, initiator {}",
    "transport3": "Transport-Key: application link key {}, partner {}, initiator {}",
    "transport4": "Transport-Key: link key {} for {} from {}",
    "update": "Update-Device: {}, short address {}, status {}",
    "remove": "Remove-Device: {}",
    "request2": "Request-Key: application link key, partner {}",
    "request4": "Request-Key: link key",
    "switchkey": "Switch-Key: to network key {}",
    "tunnel": "Tunnel: to {}: {}",
    "verify": "Verify-Key: type {}, of {}, hash {}",
    "confirm": "Confirm-Key: status {}, type {}, for {}",
    "down": "Relay down",
    "up": "Relay up",
}
WITH_TLVS = ("transport2", "transport3", "transport4", "update", "down", "up")


def seconds(time):
    """A time in seconds with six decimals."""
    microseconds = (abs(time) + 500) // 1000
    sign = "-" if time < 0 and microseconds else ""
    return f"{sign}{microseconds // 10**6}.{microseconds % 10**6:06d}"


def decisive(heard):
    """The verdict that a frame is counted by: a refusal if there is one, then the layer that was
    opened."""
    if heard.aps in ("-", "unsecured"):
        return heard.network
    return heard.aps


def class_of(heard):
    """The class of a frame."""
    if heard.network == "-":
        return "spoilt" if heard.inside.startswith(SPOILT) else "passed"
    verdict = decisive(heard)
    if verdict in ("opened", "unsecured"):
        return verdict
    if heard.foreign and heard.network == "9 forged":
        return "nokey"
    number, *_, last = verdict.split(" ")
    return last if number == "8" else BY_NUMBER.get(number, "refused")


def refusal(verdict, repeats, time):
    """A refusal in words."""
    if verdict == "8 stale altered":
        return "8 stale and altered: a low counter, and a tag that doesn't fit"
    if verdict != "8 stale genuine":
        return REFUSALS.get(verdict.split(" ")[0], verdict)
    if repeats is None:
        return "8 stale and genuine: older than what was opened, and not heard before"
    number, before = repeats
    return (f"8 stale and genuine: frame {number} heard again, {seconds(time - before)} s later")


def in_words(heard):
    """The verdict of a frame in words, with 01's number."""
    if heard.network == "-":
        return "not asked about" if class_of(heard) == "spoilt" else "passed over"
    if heard.foreign and heard.network == "9 forged":
        return "9 forged, or another network's: no key has opened a frame of this PAN yet"
    if heard.network not in ("opened", "unsecured"):
        return refusal(heard.network, heard.repeats, heard.time)
    if heard.aps in ("-", "unsecured") or heard.network == heard.aps:
        return heard.network
    if heard.aps == "opened":
        return "opened (APS layer)"
    return f"{heard.network}; APS layer: {refusal(heard.aps, heard.repeats, heard.time)}"


def inside(heard):
    """What is inside of a frame, in words."""
    if heard.command:
        word, *fields = heard.command
        tlvs = fields.pop() if word in WITH_TLVS else ""
        return COMMANDS[word].format(*fields) + (f", TLVs {tlvs}" if tlvs else "")
    return heard.inside


def tsv(heard):
    """The seven fields of a frame for a machine."""
    counter = "-" if heard.counter is None else str(heard.counter)
    return "\t".join((str(heard.number), seconds(heard.time), heard.network, heard.sender, counter,
                      heard.aps, heard.inside))


def advice(counts, listener):
    """What can be done where the capture did not open."""
    asked = sum(counts[name] for name in CLASSES if name not in ("passed", "spoilt"))
    if not sum(counts.values()):
        yield "The capture has no frame."
    elif not asked and counts["spoilt"]:
        yield ("No frame could be asked about. Where they are cut, let the sniffer store whole "
               "frames. Where all checksums are wrong, its chip may have written signal strength "
               "in their place: try --chip-checksum.")
    elif not asked or asked == counts["refused"]:
        yield "No Zigbee network frame is in this capture."
    elif counts["nokey"] and listener.known[0] and not listener.has_network_key():
        yield "No network key that was given fits a frame of this capture."
    elif counts["nokey"] and not listener.has_network_key():
        yield ("No network key is known. A Transport-Key that a label opens brings it: start the "
               "sniffer first, then let the device join (again), with the label of that device. A "
               "key that is known already is given by --network-key NUMBER:HEX.")

"""Opening and sealing at both layers, and the look that tells a stale frame from a forged one.

Document 01, "The auxiliary header and the nonce" and "Opening and sealing"; the bench language,
"Stale or forged"; DECISIONS, room-for-aps, lists-before-frame, bits-6-and-7, unsecured-header,
callers-sender, five-octet-form, own-address, heard-top, seal-for-nobody and look-one-key; document
02 (vi) for refusal 17. The output is told by its length alone.
"""

from . import ccm, headers, mmo, tables
from ..lines import refuse_if

ROOM = 116
OPEN_MOST = {headers.NETWORK: 116, headers.APS: 108}
SEAL_MOST = {headers.NETWORK: 98, headers.APS: 91}
TOP = tables.TOP
NETWORK_IDENTIFIER = 1
HASHED_OVER = {2: b"\x00", 3: b"\x02"}  # identifiers whose key is a keyed hash of the link key


def link_key(key, identifier):
    """The key that an identifier makes of a link key."""
    return mmo.keyed(key, HASHED_OVER[identifier]) if identifier in HASHED_OVER else key


def authenticated(frame, secured):
    """The authenticated octets of a secured frame."""
    return headers.authenticated(bytes(secured.start), frame, secured.header, secured.start)


def deciphered(key, frame, secured):
    """The payload, or None where the tag is wrong."""
    nonce = headers.nonce(secured.sender, secured.counter, secured.control)
    return ccm.open(headers.TAG, key, nonce, authenticated(frame, secured), frame[secured.start:])


def plain_frame(layer, frame, secured, payload):
    """The frame as opening writes it."""
    return headers.plain_header(bytes(secured.header), layer, frame, secured.header) + payload


def judge_counter(counter, floor):
    """7 and 8."""
    refuse_if(counter == TOP, 7)
    refuse_if(counter < floor, 8)


# ---- opening -----------------------------------------------------------------------------------

def network_key(board, secured):
    """The slot with the announced sequence number and its key, or 6."""
    slot = tables.slot_numbered(board, secured.sequence)
    refuse_if(slot is None, 6)
    return slot, board.slots[slot].key


def open_network(board, addresses, floors, room, frame):
    """Opens a network frame: sender, protection and plain frame."""
    refuse_if(room < ROOM, 1)
    tables.judge_lists(addresses, floors)
    refuse_if(len(frame) > OPEN_MOST[headers.NETWORK], 2)
    found = headers.read_network(frame)
    if isinstance(found, int):
        return 0, None, frame
    slot, key = network_key(board, found)
    row = tables.row_of(addresses, slot, found.sender)
    judge_counter(found.counter, 0 if row is None else floors[row])
    payload = deciphered(key, frame, found)
    refuse_if(payload is None, 9)
    if row is None:
        row = tables.row_of(addresses, slot, 0)
        refuse_if(row is None, 10)
    addresses[row], floors[row] = found.sender, found.counter + 1
    return found.sender, found.identifier, plain_frame(headers.NETWORK, frame, found, payload)


def aps_entry(board, secured):
    """The sender's link entry and the key that the identifier makes of it, or 6."""
    entry = tables.entry_of(board, secured.sender)
    refuse_if(entry is None, 6)
    link = board.links[entry]
    return link, link_key(link.key, secured.identifier)


def open_aps(board, room, caller, frame):
    """Opens an APS frame: sender, protection and plain frame."""
    refuse_if(room < ROOM, 1)
    refuse_if(len(frame) > OPEN_MOST[headers.APS], 2)
    found = headers.read_aps(frame, caller)
    if isinstance(found, int):
        return 0, None, frame
    link, key = aps_entry(board, found)
    judge_counter(found.counter, link.floor)
    payload = deciphered(key, frame, found)
    refuse_if(payload is None, 9)
    link.floor = found.counter + 1
    return found.sender, found.identifier, plain_frame(headers.APS, frame, found, payload)


# ---- the look ----------------------------------------------------------------------------------

def genuine_network(board, frame):
    """Whether a stale network frame's tag fits the key found for it."""
    found = headers.read_network(frame)
    return deciphered(network_key(board, found)[1], frame, found) is not None


def genuine_aps(board, caller, frame):
    """Whether a stale APS frame's tag fits the key found for it."""
    found = headers.read_aps(frame, caller)
    return deciphered(aps_entry(board, found)[1], frame, found) is not None


# ---- sealing -----------------------------------------------------------------------------------

def sealed_frame(board, layer, key, header, auxiliary, frame):
    """The secured frame; raises the outgoing counter."""
    front = headers.secured_header(bytes(header), layer, frame, header) + auxiliary
    control = front[header]
    nonce = headers.nonce(board.own, board.outgoing, control)
    worked_with = headers.authenticated(bytes(len(front)), front, header, len(front))
    board.outgoing += 1
    return front + ccm.seal(headers.TAG, key, nonce, worked_with, frame[header:])


def judge_outgoing(board):
    """7 and 17: the counter that a seal would spend."""
    refuse_if(board.outgoing == TOP, 7)
    refuse_if(board.outgoing >= board.mark, 17)


def active_slot(board):
    """The slot that is active and present, or 6."""
    refuse_if(board.active is None or board.active >= tables.SLOTS, 6)
    slot = board.slots[board.active]
    refuse_if(not slot.present, 6)
    return slot


def seal_network(board, room, frame):
    """Seals a network frame under the active key."""
    refuse_if(room < ROOM, 1)
    refuse_if(len(frame) > SEAL_MOST[headers.NETWORK], 2)
    header = headers.read_network_plain(frame)
    slot = active_slot(board)
    judge_outgoing(board)
    auxiliary = headers.auxiliary_header(NETWORK_IDENTIFIER, board.outgoing, board.own,
                                         slot.number)
    return sealed_frame(board, headers.NETWORK, slot.key, header, auxiliary, frame)


def seal_aps(board, room, partner, identifier, frame):
    """Seals an APS frame for a partner under key identifier 0, 2 or 3."""
    refuse_if(room < ROOM, 1)
    refuse_if(len(frame) > SEAL_MOST[headers.APS], 2)
    header = headers.read_aps_plain(frame)
    refuse_if(identifier not in (0, 2, 3), 14)
    entry = tables.entry_of(board, partner)
    refuse_if(entry is None, 6)
    judge_outgoing(board)
    key = link_key(board.links[entry].key, identifier)
    auxiliary = headers.auxiliary_header(identifier, board.outgoing, board.own, 0)
    return sealed_frame(board, headers.APS, key, header, auxiliary, frame)

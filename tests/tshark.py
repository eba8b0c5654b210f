"""Wireshark's command `tshark`, asked what it deciphers and reads of frames: for wireshark.py."""

import os
import re
import struct
import subprocess

from bench_pipe import give_up, least


def number(shown):
    """A number as tshark prints it."""
    return {"True": 1, "False": 0}[shown] if shown in ("True", "False") else int(shown, 0)


def digits(shown):
    """Octets or an address as tshark prints them, without colons."""
    return shown.replace(":", "")


TROUBLE = ("zbee_sec.encrypted_payload", "zbee_sec.encrypted_payload_sliced",
           "zbee_sec.extended_source_unknown")
FIELDS = dict.fromkeys(TROUBLE, str)
FIELDS.update({f"zbee.sec.{name}": number for name in ("field", "key_id", "counter", "key_seqno")})
FIELDS.update({f"zbee.sec.{name}": digits for name in ("src64", "mic", "key")})
FIELDS.update({f"zbee_nwk.{name}": number for name in (
    "dst", "src", "radius", "seqno", "relay.count", "relay.index", "relay")})
FIELDS.update({f"zbee_nwk.{name}": digits for name in ("dst64", "src64")})
FIELDS.update({f"zbee_aps.cmd.{name}": number for name in (
    "id", "key_type", "seqno", "init_flag", "addr", "update_status", "status")})
FIELDS.update({f"zbee_aps.cmd.{name}": digits for name in (
    "key", "dst", "src", "partner", "device", "key_hash")})
NEWER = (4, 4)  # from here on Relay and TLVs are compared, and tags of empty payloads
MALFORMED = "_ws.malformed"
NOT_READ = ["[Malformed Packet: ZigBee APS]", MALFORMED]
TLV_FIELDS = {MALFORMED: str}
TLV_FIELDS.update({f"zbee_tlv.{name}": number for name in (
    "type_global", "type", "length", "manufacturer_specific", "supported_key_negotiation_methods",
    "supported_secrets", "node_id", "frag_opt", "max_buf_size", "relay.type", "relay.length")})
TLV_FIELDS.update({f"zbee_tlv.{name}": digits for name in (
    "value", "device_eui64", "relay.joiner_ieee")})


def write_capture(path, frames):
    """A capture of the frames, each in a MAC data frame with short addresses and no checksum."""
    with open(path, "wb") as capture:
        capture.write(struct.pack("<IHHiIII", 0xA1B2C3D4, 2, 4, 0, 0, 65535, 230))
        for second, frame in enumerate(frames):
            mac = (least(0x8841, 2) + bytes([second & 255]) + least(0x1AAA, 2) + least(0x0000, 2)
                   + least(0x1234, 2) + frame)
            capture.write(struct.pack("<IIII", second, 0, len(mac), len(mac)) + mac)


def version():
    """The first line that tshark says of itself, and the numbers of its version."""
    said = subprocess.run(["tshark", "--version"], capture_output=True, text=True, check=False)
    first = said.stdout.split("\n")[0]
    numbers = re.search(r"(\d+)\.(\d+)", first)
    if numbers is None:
        give_up(f"tshark doesn't say its version: {first or said.stderr.strip()}")
    return first, tuple(map(int, numbers.groups()))


class Tshark:
    """tshark with keys, and with nobody's own preferences: a folder has none."""

    def __init__(self, folder, keys, newer):
        self.folder, self.keys, self.newer = folder, keys, newer
        self.asked = {**FIELDS, **(TLV_FIELDS if newer else {})}

    def says(self, capture, *words):
        """What tshark prints of a capture."""
        command = ["tshark", "-n", "-r", str(capture), "-o",
                   "zbee_nwk.seclevel:AES-128 Encryption, 32-bit Integrity Protection"]
        for place, key in enumerate(self.keys):
            command += ["-o", f'uat:zigbee_pc_keys:"{key.hex()}","Normal","key {place}"']
        ran = subprocess.run([*command, *words], capture_output=True, text=True, check=False,
                             env={**os.environ, "WIRESHARK_CONFIG_DIR": str(self.folder)})
        if ran.returncode:
            give_up(f"tshark failed: {ran.stderr.strip()}")
        return ran.stdout

    def deciphered(self, capture):
        """For each frame of a capture the payloads that tshark deciphered, from the outside."""
        frames = []
        for packet in self.says(capture, "-x").rstrip("\n").split("\n\n"):
            sources, name = [], ""
            for line in packet.lstrip("\n").split("\n"):
                title = re.fullmatch(r"(.+) \(\d+ bytes?\):", line)
                if title:
                    name = title[1].lower()
                    sources += [b""] if name == "decrypted zigbee payload" else []
                elif name == "decrypted zigbee payload":
                    sources[-1] += bytes.fromhex(line[6:54])
            frames.append(sources)
        return frames

    def opened(self, capture):
        """For each frame of a capture the layers that tshark opened: by their keys, or, where it
        has none for an empty payload, by what it deciphered."""
        if self.newer:
            return [read["zbee.sec.key"] for read in self.fields(capture)]
        return self.deciphered(capture)

    def fields(self, capture):
        """For each frame of a capture what tshark reads of it, as lists by the field's name."""
        words = [word for name in self.asked for word in ("-e", name)]
        said = self.says(capture, "-T", "fields", "-E", "occurrence=a", *words)
        frames = []
        for line in said.splitlines():
            found = zip(self.asked.items(), line.split("\t"))
            frames.append({name: [read(one) for one in shown.split(",") if one]
                           for (name, read), shown in found})
        return frames

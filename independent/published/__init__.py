"""The published vectors that the model is held to: FIPS 197, RFC 3610, Annex C.3 to C.6 and
install codes."""

from pathlib import Path

HERE = Path(__file__).resolve().parent


def table(name):
    """The rows of a file of this folder, comment lines left out."""
    text = (HERE / name).read_text(encoding="ascii")
    return [line.split("\t") for line in text.splitlines() if line and not line.startswith("#")]


def fips197():
    """Rows of appendix, key, block, enciphered."""
    return [(name, *map(bytes.fromhex, rest)) for name, *rest in table("fips197.tsv")]


def rfc3610():
    """Rows of number, M, key, nonce, a, m, sealed."""
    return [(name, int(M), *map(bytes.fromhex, rest)) for name, M, *rest in table("rfc3610.tsv")]


def annexc():
    """Rows of clause, word, the word's fields as text, the published octets."""
    return [(clause, word, fields, bytes.fromhex(result))
            for clause, word, *fields, result in table("annexc.tsv")]


def installcodes():
    """Rows of length, code, CRC as printed, link key, which may be empty."""
    return [(int(length), *map(bytes.fromhex, rest))
            for length, *rest in table("installcodes.tsv")]

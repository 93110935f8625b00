"""Makes what a client sends, for measuring: a startup packet and then messages up to a size.

Usage: inputs.py KIND BYTES, where KIND is `small` (CopyData of 100 bytes), `large` (CopyData of 8 KiB) or
`mixed` (queries, pieces of a copy, its end and its failure). Writes to standard output.
"""

import struct
import sys

STARTUP = bytes.fromhex(
    "00000024 00030000 7573657200 7265706c00 7265706c69636174696f6e00 7472756500 00"
)


def message(kind: bytes, body: bytes) -> bytes:
    return kind + struct.pack(">I", len(body) + 4) + body


def block(kind: str) -> bytes:
    """Some messages, about 64 KiB of them."""
    if kind == "small":
        return message(b"d", b"x" * 100) * 624
    if kind == "large":
        return message(b"d", b"x" * 8192) * 8
    mixed = (
        message(b"Q", b"IDENTIFY_SYSTEM\0")
        + message(b"d", b"x" * 34)
        + message(b"d", b"x" * 1500)
        + message(b"c", b"")
        + message(b"f", b"no more\0")
    )
    return mixed * 40


def main() -> None:
    kind, size = sys.argv[1], int(sys.argv[2])
    out = sys.stdout.buffer
    out.write(STARTUP)
    messages = block(kind)
    for _ in range(size // len(messages)):
        out.write(messages)


if __name__ == "__main__":
    main()

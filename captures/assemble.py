#!/usr/bin/env python3
"""Turn a readable capture into its bytes: assemble.py NAME.records > bytes

One record a line; '#' begins a comment; blank lines are ignored.  README.md
gives the form in full.
"""

import sys

# Kinds that are filled with zero bytes up to their size, kind byte included.
FILLED = {
    "P": 99,  # kind 1, stream 1, length 1, block 96
    "C": 99,  # as P
    "M": 67,  # kind 1, stream 1, length 1, data 64
    "f": 87,  # kind 1, PPA 4, address length 1, called 8, calling 8, data length 1, data 64
}

# Size of the other kinds, kind byte included.  A line of another size is
# assembled as it stands, with a warning unless it says that it is cut.
SIZE = {"G": 11, "O": 1, "X": 2, "I": 19, "A": 9, "D": 6, "W": 10, "R": 6, "S": 2}


class Fault(Exception):
    pass


def hex_bytes(words):
    out = bytearray()
    for word in words:
        if any(c not in "0123456789abcdefABCDEF" for c in word):
            raise Fault("not hex digits: " + word)
        if len(word) % 2:
            raise Fault("odd count of hex digits: " + word)
        out += bytes.fromhex(word)
    return bytes(out)


def assemble_line(text, warn):
    """The bytes of one line; none for a blank line or a comment."""
    words = text.split("#", 1)[0].split()
    if not words:
        return b""
    kind, rest = words[0], words[1:]
    if kind == "hex":
        if not rest:
            raise Fault("hex without bytes")
        return hex_bytes(rest)
    if len(kind) != 1 or not 0x21 <= ord(kind) <= 0x7E:
        raise Fault("the kind is not one character: " + kind)
    cut = bool(rest) and rest[-1] == "cut"
    if cut:
        rest = rest[:-1]
    record = kind.encode("ascii") + hex_bytes(rest)
    if kind in FILLED:
        full = FILLED[kind]
        if len(record) > full:
            raise Fault("record of %d bytes, over %d" % (len(record), full))
        return record if cut else record.ljust(full, b"\0")
    if not cut and len(record) != SIZE.get(kind, len(record)):
        warn("kind %s of %d bytes, not %d" % (kind, len(record), SIZE[kind]))
    return record


def main(argv):
    if len(argv) != 2:
        sys.stderr.write("usage: assemble.py NAME.records > bytes\n")
        return 1
    name = argv[1]
    try:
        with open(name, "rb") as file:
            lines = file.read().split(b"\n")
    except OSError as error:
        sys.stderr.write("%s: %s\n" % (name, error.strerror))
        return 1
    out = bytearray()
    faults = 0
    for number, line in enumerate(lines, 1):
        def say(text):
            sys.stderr.write("%s:%d: %s\n" % (name, number, text))
        try:
            out += assemble_line(line.decode("utf-8"), lambda t: say("warning: " + t))
        except UnicodeDecodeError:
            say("not UTF-8")
            faults += 1
        except Fault as fault:
            say(str(fault))
            faults += 1
    if faults:
        return 1
    sys.stdout.buffer.write(bytes(out))
    sys.stdout.buffer.flush()
    return 0


if __name__ == "__main__":
    sys.exit(main(sys.argv))

#!/usr/bin/env python3
"""Writes the edges of load with what is expected of each: crates/table_cases/stdin and stdout.

    python3 tools/table_cases.py

Every expectation stands here in so many words, from docs/code-table.md; none is taken from the program.
"""
import re
import struct
import sys
from pathlib import Path

CASES = []
LOADED = "loaded"
NAMES = {"code": "instructions", "shapes": "shapes", "nodes": "nodes", "constants": "constants", "rows": "rows"}


def size(found):
    return f"1: refused 1: the table has {found} bytes; expected 48 to 65536"


def begins(part, found, earliest):
    return f"2: refused 2: the {NAMES[part]} begin at byte {found}; expected byte {earliest} or later"


def ends(part, found, table_size):
    return f"2: refused 2: the {NAMES[part]} end at byte {found}; expected {table_size} at most, where the table ends"


def number(field, found, expected):
    return f"3: refused 3: the {field} is {found}; expected {expected}"


def records(part, found, expected):
    return f"3: refused 3: the {NAMES[part]} take {found} bytes; expected {expected}"


def uneven(part, found, expected):
    return f"3: refused 3: the {NAMES[part]} take {found} bytes; expected {expected}, 4 for each instruction"


def unknown(at, opcode):
    return f"4 at {at}: refused 4 at instruction {at}: there is no opcode {opcode}"


def operands(at, name, x, y, expected):
    return f"4 at {at}: refused 4 at instruction {at} ({name}): x is {x} and y is {y}; expected {expected}"


def table(code=None, maximum=4, locals_=2, zero=0, pairs=5, shapes=None, nodes=8, constants=8, rows=None, start=48, moved={}):
    """A table of these parts (lengths in bytes where a number is given), one after another; moved gives single pairs as they are."""
    code = [(1, 0, 0), (6, 0, 0), (38, 0, 1)] if code is None else code
    parts = {"code": b"".join(struct.pack("<BBH", *word) for word in code) if isinstance(code, list) else bytes(code)}
    n = len(parts["code"])
    for name, part in (("shapes", n if shapes is None else shapes), ("nodes", nodes), ("constants", constants), ("rows", n if rows is None else rows)):
        parts[name] = bytes(part)
    head, body, at = struct.pack("<HHHH", maximum, locals_, zero, pairs), bytes(start - 48), start
    for name, part in parts.items():
        head += struct.pack("<II", *moved.get(name, (at, len(part))))
        body += part
        at += len(part)
    return head + body


def words(data):
    """The bytes as words of hexadecimal digits; many zero bytes in a row are 0*COUNT."""
    pieces = re.split(b"(\0{32,})", data)
    return [f"0*{len(piece)}" if i % 2 else piece.hex() for i, piece in enumerate(pieces) if piece]


def case(name, data, expected, zeros=0):
    CASES.append((" ".join([name] + words(data + bytes(zeros))), f"{name}: {expected}"))


def places():
    """Where the parts of table() lie: 12 bytes of code, shapes and rows, 8 of nodes and constants."""
    return {"code": (48, 12), "shapes": (60, 12), "nodes": (72, 8), "constants": (80, 8), "rows": (88, 12)}


def sizes():
    whole = table()
    case("no-bytes", b"", size(0))
    case("47-bytes", b"", size(47), 47)
    case("48-bytes", b"", begins("code", 0, 48), 48)  # every part is empty, and begins at byte 0
    case("65536-bytes", whole, LOADED, 65536 - len(whole))
    case("65537-bytes", whole, size(65537), 65537 - len(whole))
    case("65537-bytes-and-all-else-wrong", b"", size(65537), 65537)


def part_places():
    """The table has 100 bytes."""
    case("plain", table(), LOADED)
    case("gap-after-the-header", table(start=57), LOADED)
    case("bytes-after-the-last-part", table() + b"\1\2\3", LOADED)
    case("first-part-at-47", table(moved={"code": (47, 12)}), begins("code", 47, 48))
    earliest = 48
    for name, (offset, length) in places().items():
        def moved(pair):
            return table(moved={name: pair})
        case(f"{name}-one-byte-early", moved((offset - 1, length)), begins(name, offset - 1, earliest))
        case(f"{name}-ends-one-past", moved((offset, 100 - offset + 1)), ends(name, 101, 100))
        case(f"{name}-at-the-last-offset", moved((2**32 - 1, length)), ends(name, 2**32 - 1 + length, 100))
        case(f"{name}-of-the-last-length", moved((offset, 2**32 - 1)), ends(name, offset + 2**32 - 1, 100))
        case(f"{name}-whose-end-is-2-to-the-32", moved((2**32 - length, length)), ends(name, 2**32, 100))
        case(f"{name}-whose-end-would-wrap", moved((offset, 2**32 - offset + 4)), ends(name, 2**32 + 4, 100))
        earliest = offset + length
    case("table-cut-by-one-byte", table()[:-1], ends("rows", 100, 99))
    case("empty-nodes-at-their-forerunners-end", table(nodes=0), LOADED)
    case("empty-nodes-at-byte-0", table(nodes=0, moved={"nodes": (0, 0)}), begins("nodes", 0, 72))
    case("empty-nodes-one-byte-early", table(nodes=0, moved={"nodes": (71, 0)}), begins("nodes", 71, 72))
    case("no-constants", table(code=[(6, 0, 0)], constants=0), LOADED)
    case("empty-rows-where-the-table-ends", table(moved={"rows": (100, 0)}), uneven("rows", 0, 12))
    case("empty-rows-past-the-end", table(moved={"rows": (101, 0)}), ends("rows", 101, 100))


def numbers():
    for name, field, least, most, expected in (
            ("maximum", "maximum depth", 1, 256, "1 to 256"), ("locals_", "number of locals", 0, 64, "0 to 64"),
            ("zero", "third header number", 0, 0, "0"), ("pairs", "pair count", 5, 5, "5")):
        label = name.strip("_")
        case(f"{label}-at-least", table(code=[(6, 0, 0)], **{name: least}), LOADED)
        case(f"{label}-at-most", table(**{name: most}), LOADED)
        case(f"{label}-one-above", table(**{name: most + 1}), number(field, most + 1, expected))
        case(f"{label}-largest", table(**{name: 65535}), number(field, 65535, expected))
        if least:
            case(f"{label}-one-below", table(**{name: least - 1}), number(field, least - 1, expected))


def lengths():
    pop, code, nodes, constants = (6, 0, 0), "1 to 4096 records of 4", "0 to 1024 records of 8", "0 to 1024 records of 4"
    case("no-instructions", table(code=[]), records("code", 0, code))
    case("one-instruction", table(code=[pop]), LOADED)
    case("4096-instructions", table(code=[pop] * 4096), LOADED)
    case("4097-instructions", table(code=[pop] * 4097), records("code", 16388, code))
    case("instructions-one-byte-long", table(code=1), records("code", 1, code))
    case("instructions-of-15-bytes", table(code=15), records("code", 15, code))
    case("shapes-one-byte-short", table(shapes=11), uneven("shapes", 11, 12))
    case("shapes-one-record-short", table(shapes=8), uneven("shapes", 8, 12))
    case("shapes-one-record-long", table(shapes=16), uneven("shapes", 16, 12))
    case("rows-one-record-short", table(rows=8), uneven("rows", 8, 12))
    case("rows-one-record-long", table(rows=16), uneven("rows", 16, 12))
    case("rows-one-byte-long", table(rows=13), uneven("rows", 13, 12))
    case("no-nodes", table(nodes=0), LOADED)
    case("1024-nodes", table(nodes=8 * 1024), LOADED)
    case("1025-nodes", table(nodes=8 * 1025), records("nodes", 8200, nodes))
    case("nodes-of-7-bytes", table(nodes=7), records("nodes", 7, nodes))
    case("nodes-of-12-bytes", table(nodes=12), records("nodes", 12, nodes))
    case("1024-constants", table(constants=4 * 1024), LOADED)
    case("1025-constants", table(constants=4 * 1025), records("constants", 4100, constants))
    case("constants-of-6-bytes", table(constants=6), records("constants", 6, constants))


# for each opcode: its name, the largest x, the largest y and the words for both, in a table of
# 3 instructions, 2 constants and 2 locals
BARE, CONSTANT = (0, 0, "x 0 and y 0"), (0, 1, "x 0 and a y below 2, the number of constants")
LOCAL, COUNT = (0, 1, "x 0 and a y below 2, the number of locals"), (0, 255, "x 0 and a y of at most 255")
TARGET, FLAG = (0, 2, "x 0 and a y below 3, the number of instructions"), (1, 0, "an x of 0 or 1 and y 0")
OPCODES = {
    1: ("LoadConst", CONSTANT), 2: ("LoadFast", LOCAL), 3: ("StoreFast", LOCAL), 6: ("Pop", BARE), 11: ("Reverse", COUNT),
    14: ("CallFunctionPositional", COUNT), 15: ("GetIter", BARE), 16: ("ForIter", TARGET), 17: ("Jump", TARGET),
    18: ("JumpIfTrue", TARGET), 19: ("JumpIfFalse", TARGET), 24: ("SetupLoop", BARE), 25: ("SetupExcept", TARGET),
    26: ("SetupFinally", TARGET), 27: ("EnterFinally", FLAG), 28: ("EndFinally", BARE), 29: ("SetupWith", TARGET),
    30: ("WithCleanupStart", BARE), 31: ("WithCleanupFinish", BARE), 32: ("PopBlock", BARE), 33: ("PopException", BARE),
    34: ("Raise", FLAG), 35: ("Break", TARGET), 36: ("Continue", TARGET), 37: ("ReturnValue", BARE),
    38: ("ReturnConst", CONSTANT), 39: ("YieldValue", BARE), 40: ("YieldFrom", BARE),
}


def opcodes():
    def middle(label, word, expected):
        case(label, table(code=[(6, 0, 0), word, (6, 0, 0)]), expected)
    for opcode in range(256):
        middle(f"opcode-{opcode}", (opcode, 0, 0), LOADED if opcode in OPCODES else unknown(1, opcode))
    for opcode, (name, (most_x, most_y, expected)) in OPCODES.items():
        middle(f"opcode-{opcode}-largest-x", (opcode, most_x, 0), LOADED)
        middle(f"opcode-{opcode}-largest-y", (opcode, 0, most_y), LOADED)
        for x, y in ((most_x + 1, 0), (255, 0), (0, most_y + 1), (0, 65535)):
            middle(f"opcode-{opcode}-x-{x}-y-{y}", (opcode, x, y), operands(1, name, x, y, expected))
    none = "x 0 and a y below 0, the number of "
    case("constant-with-no-constants", table(code=[(1, 0, 0)], constants=0), operands(0, "LoadConst", 0, 0, none + "constants"))
    case("local-with-no-locals", table(code=[(2, 0, 0)], locals_=0), operands(0, "LoadFast", 0, 0, none + "locals"))


def order():
    pop, bad = (6, 0, 0), (0, 0, 0)
    case("first-instruction-wrong", table(code=[bad, pop, pop]), unknown(0, 0))
    case("last-instruction-wrong", table(code=[pop, pop, bad]), unknown(2, 0))
    case("two-wrong-the-first-counts", table(code=[pop, bad, bad]), unknown(1, 0))
    case("last-of-4096-wrong", table(code=[pop] * 4095 + [bad]), unknown(4095, 0))
    case("place-before-pair-count", table(pairs=4, moved={"rows": (88, 13)}), ends("rows", 101, 100))
    case("place-before-number", table(maximum=0, moved={"code": (47, 12)}), begins("code", 47, 48))
    case("first-part-before-second", table(moved={"code": (48, 53), "shapes": (0, 12)}), ends("code", 101, 100))
    case("begin-before-end", table(moved={"shapes": (59, 99)}), begins("shapes", 59, 60))
    case("maximum-before-locals", table(maximum=0, locals_=65), number("maximum depth", 0, "1 to 256"))
    case("number-before-length", table(pairs=6, rows=0), number("pair count", 6, "5"))
    case("number-before-instruction", table(code=[bad], zero=1), number("third header number", 1, "0"))
    case("length-before-instruction", table(code=[bad], rows=0), uneven("rows", 0, 4))
    case("size-before-place", b"\1", size(47), 46)


for part in (sizes, part_places, numbers, lengths, opcodes, order):
    part()
folder = Path(sys.argv[0]).resolve().parent.parent / "crates" / "table_cases"
(folder / "stdin").write_text("".join(line + "\n" for line, _ in CASES))
(folder / "stdout").write_text("".join(line + "\n" for _, line in CASES))
print(len(CASES), "cases")

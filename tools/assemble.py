#!/usr/bin/env python3
"""Writes a code table from a text of instructions.

    python3 tools/assemble.py jobs/opt-out.job jobs/opt-out.table
    python3 tools/assemble.py --rust jobs/opt-out.job crates/playout/src/job.rt

A line holds one of

    locals N            the number of local variables
    constant NAME H     a constant: the handle H, called NAME below
    row R               the row of the instructions that follow
    NAME:               a label: the number of the next instruction
    OPCODE [OPERAND]    an instruction; an operand is a number, a label or a constant's name

and # begins a comment. Shapes, nodes and the maximum depth are found by following the code from
instruction 0; docs/code-table.md has the format that is written. The script trusts nobody's reading of
the rules, its own included: what it writes is loaded and checked like any other table.
"""
import struct
import sys

CONSTANT, LOCAL, COUNT, TARGET, FLAG, NOTHING = "constant", "local", "count", "target", "flag", "nothing"
OPCODES = {
    "LoadConst": (1, CONSTANT), "LoadFast": (2, LOCAL), "StoreFast": (3, LOCAL), "Pop": (6, NOTHING),
    "Reverse": (11, COUNT), "CallFunctionPositional": (14, COUNT), "GetIter": (15, NOTHING), "ForIter": (16, TARGET),
    "Jump": (17, TARGET), "JumpIfTrue": (18, TARGET), "JumpIfFalse": (19, TARGET), "SetupLoop": (24, NOTHING),
    "SetupExcept": (25, TARGET), "SetupFinally": (26, TARGET), "EnterFinally": (27, FLAG), "EndFinally": (28, NOTHING),
    "SetupWith": (29, TARGET), "WithCleanupStart": (30, NOTHING), "WithCleanupFinish": (31, NOTHING),
    "PopBlock": (32, NOTHING), "PopException": (33, NOTHING), "Raise": (34, FLAG), "Break": (35, TARGET),
    "Continue": (36, TARGET), "ReturnValue": (37, NOTHING), "ReturnConst": (38, CONSTANT), "YieldValue": (39, NOTHING),
    "YieldFrom": (40, NOTHING),
}
EFFECTS = {"LoadConst": 1, "LoadFast": 1, "StoreFast": -1, "Pop": -1, "Reverse": 0, "GetIter": 0, "WithCleanupStart": 0,
           "JumpIfTrue": -1, "JumpIfFalse": -1, "YieldValue": 0, "YieldFrom": -1}
LOOP, TRY_EXCEPT, FINALLY, FINALLY_HANDLER, EXCEPT_HANDLER = 1, 2, 3, 4, 5


def read(path):
    """The text as (locals, constants, [(name, operand word, row)], labels)."""
    local_count, constants, code, labels, row = 0, {}, [], {}, 0
    for number, line in enumerate(open(path), 1):
        words = line.split("#")[0].split()
        if not words:
            continue
        if words[0] == "locals":
            local_count = int(words[1])
        elif words[0] == "constant":
            constants[words[1]] = int(words[2])
        elif words[0] == "row":
            row = int(words[1])
        elif words[0].endswith(":"):
            labels[words[0][:-1]] = len(code)
        elif words[0] in OPCODES:
            code.append((words[0], words[1] if len(words) > 1 else "0", row))
        else:
            sys.exit(f"{path}:{number}: there is no opcode {words[0]}")
    return local_count, constants, code, labels


def operand(kind, word, constants, labels):
    """x and y of an instruction."""
    names = list(constants)
    if kind == CONSTANT:
        return 0, names.index(word) if word in names else int(word)
    if kind == TARGET:
        return 0, labels[word] if word in labels else int(word)
    return (int(word), 0) if kind == FLAG else (0, int(word))


class Shapes:
    """What stands before each instruction, found by following the code."""

    def __init__(self, code):
        self.code, self.nodes, self.at = code, [], {}

    def node(self, kind, end, parent, level, handler):
        """The number of such a node, a new one if there is none yet."""
        record = (kind, end, parent, level, handler)
        if record not in self.nodes:
            self.nodes.append(record)
        return self.nodes.index(record) + 1

    def follow(self):
        todo = [(0, 0, 0)]
        while todo:
            i, depth, node = todo.pop()
            if i in self.at:
                if self.at[i] != (depth, node):
                    sys.exit(f"instruction {i} is reached with {self.at[i]} and with {(depth, node)}")
                continue
            if i >= len(self.code):
                sys.exit(f"instruction {i} is reached and is not there")
            self.at[i] = (depth, node)
            todo += reversed(self.leads(i, depth, node))
        return [self.at.get(i, (0, 0)) for i in range(len(self.code))]

    def leads(self, i, d, k):
        """Where an instruction leads: (instruction, depth, node) each."""
        name, x, y = self.code[i]
        kind, end, parent, level, _ = self.nodes[k - 1] if k else (0, 0, 0, 0, 0)
        if name in EFFECTS:
            ways = [(i + 1, d + EFFECTS[name], k)]
            return ways + [(y, d - 1, k)] if name.startswith("JumpIf") else ways
        if name == "CallFunctionPositional":
            return [(i + 1, d - y, k)]
        if name == "ForIter":
            return [(i + 1, d + 1, k), (y, d - 1, k)]
        if name == "Jump":
            return [(y, d, k)]
        if name == "SetupLoop":
            return [(i + 1, d, self.node(LOOP, 0, k, d, 0))]
        if name == "SetupExcept":
            ways = [(i + 1, d, self.node(TRY_EXCEPT, 0, k, d, y))]
            return ways + [(y, d + 1, self.node(EXCEPT_HANDLER, 0, k, d, 0))]
        if name == "SetupFinally":
            ways = [(i + 1, d, self.node(FINALLY, 0, k, d, y))]
            return ways + [(y, d, self.node(FINALLY_HANDLER, 0, k, d, 0))]
        if name == "SetupWith":
            ways = [(i + 1, d + 1, self.node(FINALLY, 1, k, d, y))]
            return ways + [(y, d, self.node(FINALLY_HANDLER, 1, k, d, 0))]
        if name == "EnterFinally":
            return [(i + 1, d, self.node(FINALLY_HANDLER, x, k, d, 0))]
        if name in ("EndFinally", "PopBlock", "PopException"):
            return [(i + 1, level, parent)]
        if name == "WithCleanupFinish":
            return [(i + 1, level - 1, parent)]
        if name in ("Break", "Continue"):
            reached = d
            while k and self.nodes[k - 1][0] != LOOP:
                kind, end, parent, level, _ = self.nodes[k - 1]
                reached, k = level - (end if kind == FINALLY else 0), parent
            if not k:
                sys.exit(f"instruction {i}: {name} stands in no loop")
            _, _, parent, level, _ = self.nodes[k - 1]
            return [(y, level, parent)] if name == "Break" else [(y, reached, k)]
        return []  # Raise, ReturnValue, ReturnConst


def table(path):
    local_count, constants, text, labels = read(path)
    code = [(name, *operand(OPCODES[name][1], word, constants, labels)) for name, word, _ in text]
    found = Shapes(code)
    shapes = found.follow()
    maximum = max(max(depth for depth, _ in shapes), 1)
    parts = [
        b"".join(struct.pack("<BBH", OPCODES[name][0], x, y) for name, x, y in code),
        b"".join(struct.pack("<HH", depth, node) for depth, node in shapes),
        b"".join(struct.pack("<BBHHH", *node) for node in found.nodes),
        b"".join(struct.pack("<I", handle) for handle in constants.values()),
        b"".join(struct.pack("<I", row) for _, _, row in text),
    ]
    head, at = struct.pack("<HHHH", maximum, local_count, 0, 5), 48
    for part in parts:
        head += struct.pack("<II", at, len(part))
        at += len(part)
    return head + b"".join(parts)


def main(words):
    rust = "--rust" in words
    source, target = [w for w in words if w != "--rust"]
    data = table(source)
    if not rust:
        open(target, "wb").write(data)
        return
    lines = [f"// The bytes of {source}, written by tools/assemble.py.", f"pub static JOB: [u8; {len(data)}] = ["]
    for i in range(0, len(data), 16):
        lines.append("    " + ", ".join(str(b) for b in data[i:i + 16]) + ",")
    open(target, "w").write("\n".join(lines) + "\n];\n")


if __name__ == "__main__":
    main(sys.argv[1:])

#!/usr/bin/env python3
"""Writes the check's cases with what is expected of each: crates/check_cases/stdin and stdout.

    python3 tools/check_cases.py

A case is a table that breaks one rule, at the first place that can break it and at the last, with the words of its
refusal. The rules stand here a second time, written from docs/check.md: `broken` finds all that is broken in a table,
and a case is written only if that is just what the case says. A case marked `also` breaks a second rule that follows
from the first, as a handler that begins above the maximum does; it is refused by the first.
"""
import struct
from pathlib import Path

OPS = {"LoadConst": 1, "LoadFast": 2, "StoreFast": 3, "Pop": 6, "Reverse": 11, "Call": 14, "GetIter": 15, "ForIter": 16,
       "Jump": 17, "JumpIfTrue": 18, "JumpIfFalse": 19, "SetupLoop": 24, "SetupExcept": 25, "SetupFinally": 26,
       "EnterFinally": 27, "EndFinally": 28, "SetupWith": 29, "WithCleanupStart": 30, "WithCleanupFinish": 31,
       "PopBlock": 32, "PopException": 33, "Raise": 34, "Break": 35, "Continue": 36, "ReturnValue": 37, "ReturnConst": 38,
       "YieldValue": 39, "YieldFrom": 40}
TARGETS = {"ForIter", "Jump", "JumpIfTrue", "JumpIfFalse", "SetupExcept", "SetupFinally", "SetupWith", "Break", "Continue"}
LOOP, TRY, FINALLY, FHANDLER, EHANDLER = 1, 2, 3, 4, 5
KINDS = {1: "a Loop", 2: "a TryExcept", 3: "a Finally", 4: "a FinallyHandler", 5: "an ExceptHandler"}
NO_NODE = (0, 0, 0, 0, 0)


def full(op):
    """The instruction's name; Call is short for CallFunctionPositional here."""
    return "CallFunctionPositional" if op == "Call" else op


def name_of(kind):
    return KINDS.get(kind, "no known block")


class Table:
    """code: (name, operand, depth, node); nodes: (kind, end, parent, level, handler), the first one is node 1."""

    def __init__(self, code, nodes, maximum):
        self.code, self.nodes, self.maximum = code, nodes, maximum

    def node(self, k):
        return self.nodes[k - 1] if 1 <= k <= len(self.nodes) else NO_NODE

    def shape(self, i):
        return self.code[i][2:] if i < len(self.code) else (0, 0)

    def bytes(self):
        n = len(self.code)
        words = b"".join(struct.pack("<BBH", OPS[op], *((y, 0) if op in ("EnterFinally", "Raise") else (0, y))) for op, y, _, _ in self.code)
        parts = [words, b"".join(struct.pack("<HH", d, k) for _, _, d, k in self.code),
                 b"".join(struct.pack("<BBHHH", *node) for node in self.nodes), struct.pack("<I", 7), bytes(4 * n)]
        head, at = struct.pack("<HHHH", self.maximum, 1, 0, 5), 48
        for part in parts:
            head += struct.pack("<II", at, len(part))
            at += len(part)
        return head + b"".join(parts)


def takes(op, y):
    return {"StoreFast": 1, "Pop": 1, "Call": y + 1, "GetIter": 1, "JumpIfTrue": 1, "JumpIfFalse": 1, "SetupWith": 1, "Raise": y,
            "ReturnValue": 1, "YieldValue": 1, "YieldFrom": 1}.get(op, 0)


def gives(op):
    return {"LoadConst": 1, "LoadFast": 1, "Call": 1, "GetIter": 1, "ForIter": 1, "SetupWith": 2, "YieldValue": 1}.get(op, 0)


def node_broken(t, k):
    """What node k breaks, in words."""
    kind, end, parent, level, handler = t.node(k)
    n = len(t.code)
    if not 1 <= kind <= 5:
        yield f"its kind is {kind}; expected 1 to 5"
    most = 1 if kind in (FINALLY, FHANDLER) else 0
    if end > most:
        yield f"its end is {end}; expected at most {most}"
    if parent >= k:
        yield f"its parent is {parent}; expected less than {k}, its own number"
    if level < t.node(parent)[3]:
        yield f"its level is {level}; expected at least {t.node(parent)[3]}, its parent's level"
    if level > t.maximum:
        yield f"its level is {level}; expected at most {t.maximum}, the maximum depth"
    at = k
    for _ in range(32):
        at = t.node(at)[2]
    if at != 0:
        yield "its way to the bottom is longer than 32 nodes; expected at most 32"
    if handler >= n:
        yield f"its handler is {handler}; expected less than {n}, the number of instructions"
    if kind not in (TRY, FINALLY) and handler != 0:
        yield f"its handler is {handler}; expected 0, since its kind has none"
    if kind in (TRY, FINALLY) and handler < n:
        wanted, deep = (EHANDLER, level + 1) if kind == TRY else (FHANDLER, level)
        depth, number = t.shape(handler)
        there = t.node(number)
        if kind == TRY and deep > t.maximum:
            yield f"its handler begins with depth {deep}; expected at most {t.maximum}, the maximum depth"
        if depth != deep:
            yield f"its handler begins with depth {depth}; expected {deep}"
        if there[0] != wanted:
            yield f"the node at its handler is {name_of(there[0])}; expected {name_of(wanted)}"
        if there[2] != parent:
            yield f"the node at its handler has parent {there[2]}; expected {parent}"
        if there[3] != level:
            yield f"the node at its handler has level {there[3]}; expected {level}"
        if kind == FINALLY and there[1] != end:
            yield f"the node at its handler has end {there[1]}; expected {end}"


def arrives(t, way, to, depth, node):
    if to >= len(t.code):
        yield f"{way} would be instruction {to}; expected one below {len(t.code)}"
        return
    d, k = t.shape(to)
    if d != depth:
        yield f"{way} has depth {d}; expected {depth}"
    if node is not None and k != node:
        yield f"{way} has node {k}; expected {node}"


def instruction_broken(t, i):
    """What instruction i breaks, in words."""
    op, y, d, k = t.code[i]
    kind, end, parent, level, _ = t.node(k)
    nxt, after = "the next instruction", d - takes(op, y) + gives(op)
    if i == 0:
        yield from arrives(t, "it begins the table and", 0, 0, 0)
    if k > len(t.nodes):
        yield f"its node is {k}; expected at most {len(t.nodes)}, the number of nodes"
    if d < level:
        yield f"its depth is {d}; expected at least {level}, its node's level"
    if d > t.maximum:
        yield f"its depth is {d}; expected at most {t.maximum}, the maximum depth"
    taken = 1 if op == "ForIter" else takes(op, y)
    if taken and d < level + taken:
        yield f"its depth is {d}; expected at least {taken} above level {level}"
    needed = {"Reverse": y, "WithCleanupStart": 1, "YieldFrom": 2}.get(op, 0)
    if d < needed:
        yield f"its depth is {d}; expected at least {needed}, the values that it needs"
    if op in ("EndFinally", "WithCleanupStart", "WithCleanupFinish", "PopException"):
        wanted = EHANDLER if op == "PopException" else FHANDLER
        if kind != wanted:
            yield f"its node is {name_of(kind)}; expected {name_of(wanted)}"
    if op in ("EndFinally", "WithCleanupFinish"):
        wanted = 0 if op == "EndFinally" else 1
        if end != wanted:
            yield f"its node has end {end}; expected {wanted}"
    if op == "PopBlock" and kind not in (LOOP, TRY, FINALLY):
        yield f"its node is {name_of(kind)}; expected a Loop, a TryExcept or a Finally"
    if op in ("LoadConst", "LoadFast", "StoreFast", "Pop", "Reverse", "Call", "GetIter", "ForIter", "JumpIfTrue", "JumpIfFalse",
              "WithCleanupStart", "YieldValue", "YieldFrom"):
        yield from arrives(t, nxt, i + 1, after, k)
    if op in ("Jump", "JumpIfTrue", "JumpIfFalse"):
        yield from arrives(t, "the target", y, after, k)
    if op == "ForIter":
        yield from arrives(t, "the target", y, d - 1, k)
    if op in ("EndFinally", "PopBlock", "PopException"):
        yield from arrives(t, nxt, i + 1, level, parent)
    if op == "WithCleanupFinish":
        if level <= t.node(parent)[3]:
            yield f"its node has level {level}; expected more than {t.node(parent)[3]}, the parent's level"
        yield from arrives(t, nxt, i + 1, level - 1, parent)
    if op in ("SetupLoop", "SetupExcept", "SetupFinally", "EnterFinally", "SetupWith"):
        yield from arrives(t, nxt, i + 1, after, None)
        if i + 1 < len(t.code):
            child = t.node(t.shape(i + 1)[1])
            wanted = {"SetupLoop": LOOP, "SetupExcept": TRY, "EnterFinally": FHANDLER}.get(op, FINALLY)
            if child[0] != wanted:
                yield f"{nxt}'s node is {name_of(child[0])}; expected {name_of(wanted)}"
            if child[2] != k:
                yield f"{nxt}'s node has parent {child[2]}; expected {k}"
            if child[3] != d:
                yield f"{nxt}'s node has level {child[3]}; expected {d}"
            end_wanted = {"SetupFinally": 0, "SetupWith": 1, "EnterFinally": y}.get(op)
            if end_wanted is not None and child[1] != end_wanted:
                yield f"{nxt}'s node has end {child[1]}; expected {end_wanted}"
            if op in TARGETS and child[4] != y:
                yield f"{nxt}'s node has handler {child[4]}; expected {y}"
    if op in ("Break", "Continue"):
        at, deep = k, d
        while at != 0 and t.node(at)[0] != LOOP:
            deep = t.node(at)[3] - (t.node(at)[1] if t.node(at)[0] == FINALLY else 0)
            at = t.node(at)[2]
        if at == 0:
            yield "the Loop around it is missing; expected one"
        elif op == "Break":
            yield from arrives(t, "the target", y, t.node(at)[3], t.node(at)[2])
        else:
            yield from arrives(t, "the target", y, deep, at)


def broken(t):
    """All that is broken: nodes ascending, then instructions ascending."""
    return [f"10 at {k}: refused 10 at node {k}: {words}" for k in range(1, len(t.nodes) + 1) for words in node_broken(t, k)] + \
           [f"11 at {i}: refused 11 at instruction {i} ({full(t.code[i][0])}): {words}" for i in range(len(t.code)) for words in instruction_broken(t, i)]


CASES = []
PAD = ("Reverse", 0, 0, 0)
END = ("ReturnConst", 0, 0, 0)
SPARE = (LOOP, 0, 0, 0, 0)


def placed(code, nodes, maximum, pre, post, spare_before, spare_after):
    """The fragment behind `pre` instructions and `spare_before` nodes: its targets and node numbers move along."""
    code = [(op, y + pre if op in TARGETS else y, d, k + spare_before if k else 0) for op, y, d, k in code]
    nodes = [(kind, end, parent + spare_before if parent else 0, level, handler + pre if kind in (TRY, FINALLY) or handler else 0)
             for kind, end, parent, level, handler in nodes]
    return Table([PAD] * pre + code + [END] * post, [SPARE] * spare_before + nodes + [SPARE] * spare_after, maximum)


def put(name, t, expected, also=False):
    assert all(y < len(t.code) for op, y, _, _ in t.code if op in TARGETS), f"{name}: a target does not exist"
    found = broken(t)
    wanted = [] if expected == "passed" else [expected]
    assert found[:1] == wanted and (also or found == wanted), f"{name}: expected {wanted}, but {found}"
    CASES.append((f"{name} {t.bytes().hex()}", f"{name}: {expected}"))


def passes(name, code, nodes=(), maximum=4):
    put(name, placed(code, list(nodes), maximum, 0, 0, 0, 0), "passed")
    put(f"{name}-moved", placed(code, list(nodes), maximum, 3, 2, 2, 1), "passed")


def refuses(name, kind, place, words, code, nodes=(), maximum=4, also=False, post=2, moved=True):
    """The rule broken at the fragment's place (a node's number, or an instruction's), first as it stands, then behind others and last.
    In the words, {i} and {k} are how far instructions and node numbers moved, {n} and {m} how many there are."""
    for label, pre, after, before, spare in (("first", 0, post, 0, 1), ("last", 3, 0, 2, 0)):
        if label == "last" and not moved:
            continue
        t = placed(code, list(nodes), maximum, pre, after, before, spare)
        text = eval("f'''" + words + "'''", {"i": pre, "k": before, "n": len(t.code), "m": len(t.nodes)})
        at = place + (before if kind == 10 else pre)
        where = f"node {at}" if kind == 10 else f"instruction {at} ({full(t.code[at][0])})"
        put(f"{name}-{label}", t, f"{kind} at {at}: refused {kind} at {where}: {text}", also)


def ret(depth=0, node=0):
    return ("ReturnConst", 0, depth, node)


def node_rules():
    def node(name, place, words, nodes, code=(ret(),), **more):
        refuses(name, 10, place, words, list(code), nodes, **more)

    node("kind-0", 1, "its kind is 0; expected 1 to 5", [(0, 0, 0, 0, 0)])
    node("kind-6", 1, "its kind is 6; expected 1 to 5", [(6, 0, 0, 0, 0)])
    node("loop-with-end", 1, "its end is 1; expected at most 0", [(LOOP, 1, 0, 0, 0)])
    node("try-with-end", 1, "its end is 1; expected at most 0", [(TRY, 1, 0, 0, 1), (EHANDLER, 0, 0, 0, 0)], (ret(), ret(1, 2)))
    node("except-handler-with-end", 1, "its end is 1; expected at most 0", [(EHANDLER, 1, 0, 0, 0)])
    node("finally-handler-with-end-2", 1, "its end is 2; expected at most 1", [(FHANDLER, 2, 0, 0, 0)])
    node("parent-above", 1, "its parent is {2 + k}; expected less than {1 + k}, its own number", [(LOOP, 0, 2, 0, 0)])
    node("parent-itself", 1, "its parent is {1 + k}; expected less than {1 + k}, its own number", [(LOOP, 0, 1, 0, 0)], also=True)
    node("level-below-parent", 2, "its level is 0; expected at least 1, its parent's level", [(LOOP, 0, 0, 1, 0), (LOOP, 0, 1, 0, 0)])
    node("level-above-maximum", 1, "its level is 5; expected at most 4, the maximum depth", [(LOOP, 0, 0, 5, 0)])
    chain = [(LOOP, 0, j, 0, 0) for j in range(33)]
    node("33-nodes-to-the-bottom", 33, "its way to the bottom is longer than 32 nodes; expected at most 32", chain)
    passes("32-nodes-to-the-bottom", [ret()], chain[:32])
    past = "its handler is {1 + i + (2 if i == 0 else 0)}; expected less than {n}, the number of instructions"
    node("try-handler-past-the-end", 1, past, [(TRY, 0, 0, 0, 3)], post=2, moved=False)
    node("finally-handler-past-the-end", 1, past, [(FINALLY, 0, 0, 0, 3)], post=2, moved=False)
    node("try-handler-past-the-end-last", 1, "its handler is {1 + i}; expected less than {n}, the number of instructions", [(TRY, 0, 0, 0, 1)], post=0)
    for label, kind in (("loop", LOOP), ("finally-handler", FHANDLER), ("except-handler", EHANDLER)):
        node(f"{label}-with-handler", 1, "its handler is {1 + i}; expected 0, since its kind has none", [(kind, 0, 0, 0, 1)], (ret(), ret()))

    tried, handler = (TRY, 0, 0, 0, 1), (EHANDLER, 0, 0, 0, 0)
    passes("try-and-handler", [ret(), ret(1, 2)], [tried, handler])
    node("except-depth-level", 1, "its handler begins with depth 0; expected 1", [tried, handler], (ret(), ret(0, 2)))
    node("except-depth-two-more", 1, "its handler begins with depth 2; expected 1", [tried, handler], (ret(), ret(2, 2)))
    node("except-depth-above-maximum", 1, "its handler begins with depth 5; expected at most 4, the maximum depth",
         [(TRY, 0, 0, 4, 1), (EHANDLER, 0, 0, 4, 0)], (ret(), ret(5, 2)), also=True)
    node("except-handler-is-loop", 1, "the node at its handler is a Loop; expected an ExceptHandler", [tried, (LOOP, 0, 0, 0, 0)], (ret(), ret(1, 2)))
    node("except-handler-is-finally-handler", 1, "the node at its handler is a FinallyHandler; expected an ExceptHandler", [tried, (FHANDLER, 0, 0, 0, 0)], (ret(), ret(1, 2)))
    node("except-handler-without-block", 1, "the node at its handler is no known block; expected an ExceptHandler", [tried], (ret(), ret(1, 0)))
    node("except-handler-of-missing-node", 1, "the node at its handler is no known block; expected an ExceptHandler", [tried], (ret(), ret(1, 9)), also=True)
    node("except-handler-of-other-parent", 2, "the node at its handler has parent 0; expected {1 + k}", [SPARE, (TRY, 0, 1, 0, 1), handler], (ret(), ret(1, 3)))
    node("except-handler-of-other-level", 1, "the node at its handler has level 1; expected 0", [tried, (EHANDLER, 0, 0, 1, 0)], (ret(), ret(1, 2)))

    final, cleanup = (FINALLY, 0, 0, 0, 1), (FHANDLER, 0, 0, 0, 0)
    passes("finally-and-handler", [ret(), ret(0, 2)], [final, cleanup])
    passes("finally-and-handler-of-end-1", [ret(), ret(0, 2)], [(FINALLY, 1, 0, 0, 1), (FHANDLER, 1, 0, 0, 0)])
    node("finally-depth-one-more", 1, "its handler begins with depth 1; expected 0", [final, cleanup], (ret(), ret(1, 2)))
    node("finally-handler-is-except-handler", 1, "the node at its handler is an ExceptHandler; expected a FinallyHandler", [final, handler], (ret(), ret(0, 2)))
    node("finally-handler-of-other-parent", 2, "the node at its handler has parent 0; expected {1 + k}", [SPARE, (FINALLY, 0, 1, 0, 1), cleanup], (ret(), ret(0, 3)))
    node("finally-handler-of-other-level", 1, "the node at its handler has level 0; expected 1", [(FINALLY, 0, 0, 1, 1), cleanup], (ret(), ret(1, 2)))
    node("finally-handler-of-other-end", 1, "the node at its handler has end 0; expected 1", [(FINALLY, 1, 0, 0, 1), cleanup], (ret(), ret(0, 2)))
    node("finally-of-end-0-handler-of-end-1", 1, "the node at its handler has end 1; expected 0", [final, (FHANDLER, 1, 0, 0, 0)], (ret(), ret(0, 2)))


def own_shapes():
    def at(name, place, words, code, nodes=(), **more):
        refuses(name, 11, place, words, code, nodes, **more)

    at("start-with-depth-1", 0, "it begins the table and has depth 1; expected 0", [ret(1)], moved=False)
    at("start-in-a-block", 0, "it begins the table and has node 1; expected 0", [ret(0, 1)], [SPARE], moved=False)
    at("node-that-does-not-exist", 1, "its node is {9 + k}; expected at most {m}, the number of nodes", [ret(), ret(0, 9)])
    at("depth-below-level", 1, "its depth is 0; expected at least 1, its node's level", [ret(), ret(0, 1)], [(LOOP, 0, 0, 1, 0)])
    at("depth-above-maximum", 1, "its depth is 5; expected at most 4, the maximum depth", [ret(), ret(5)])
    below = "its depth is {0}; expected at least {1} above level {2}"
    at("return-value-from-nothing", 0, below.format(0, 1, 0), [("ReturnValue", 0, 0, 0)])
    at("return-value-from-the-level", 1, below.format(1, 1, 1), [ret(), ("ReturnValue", 0, 1, 1)], [(LOOP, 0, 0, 1, 0)])
    at("raise-from-nothing", 0, below.format(0, 1, 0), [("Raise", 1, 0, 0)])
    passes("reraise-from-nothing", [("Raise", 0, 0, 0)])
    for op, y, d in (("GetIter", 0, 0), ("YieldValue", 0, 0), ("Call", 0, 0), ("Call", 1, 1)):
        at(f"{op.lower()}-{y}-from-too-few", 1, below.format(d, takes(op, y), 0), [("Jump", 1, 0, 0) if d == 0 else ret(), (op, y, d, 0), ret(d - takes(op, y) + 1)])
    for op in ("StoreFast", "Pop", "JumpIfTrue", "JumpIfFalse", "YieldFrom"):
        at(f"{op.lower()}-from-the-level", 1, below.format(2, 1, 2), [ret(), (op, 3 if op in TARGETS else 0, 2, 1), ret(1, 1), ret(1, 1)], [(LOOP, 0, 0, 2, 0)], also=True)
    at("setup-with-from-nothing", 0, below.format(0, 1, 0), [("SetupWith", 2, 0, 0), ret(1, 1), ret(0, 2)], [(FINALLY, 1, 0, 0, 2), (FHANDLER, 1, 0, 0, 0)])
    at("for-iter-from-the-level", 1, below.format(1, 1, 1), [ret(), ("ForIter", 3, 1, 1), ret(2, 1), ret(0, 1)], [(LOOP, 0, 0, 1, 0)], also=True)
    need = "its depth is {0}; expected at least {1}, the values that it needs"
    at("reverse-more-than-stand", 0, need.format(0, 1), [("Reverse", 1, 0, 0), ret()])
    at("yield-from-one-value", 1, need.format(1, 2), [("LoadConst", 0, 0, 0), ("YieldFrom", 0, 1, 0), ret()])
    at("cleanup-start-with-no-value", 1, need.format(0, 1), [ret(), ("WithCleanupStart", 0, 0, 1), ret(0, 1)], [(FHANDLER, 1, 0, 0, 0)])


def next_shapes():
    for op, y, d in (("LoadConst", 0, 0), ("LoadFast", 0, 0), ("StoreFast", 0, 1), ("Pop", 0, 1), ("Reverse", 1, 1), ("Call", 2, 3), ("GetIter", 0, 1),
                     ("YieldValue", 0, 1), ("YieldFrom", 0, 2)):
        load = [("LoadConst", 0, j, 0) for j in range(d)]
        after, name = d - takes(op, y) + gives(op), op.lower()
        passes(f"{name}-and-next", load + [(op, y, d, 0), ret(after)])
        refuses(f"{name}-without-next", 11, d, "the next instruction would be instruction {" + str(d + 1) + " + i}; expected one below {n}", load + [(op, y, d, 0)], post=0)
        refuses(f"{name}-next-depth", 11, d, f"the next instruction has depth {after + 1}; expected {after}", load + [(op, y, d, 0), ret(after + 1)])
        refuses(f"{name}-next-node", 11, d, "the next instruction has node {1 + k}; expected 0", load + [(op, y, d, 0), ret(after, 1)], [SPARE])
    for op in ("JumpIfTrue", "JumpIfFalse"):
        name, load = op.lower(), ("LoadConst", 0, 0, 0)
        passes(f"{name}-and-both-ways", [load, (op, 3, 1, 0), ret(), ret()])
        refuses(f"{name}-next-depth", 11, 1, "the next instruction has depth 1; expected 0", [load, (op, 3, 1, 0), ret(1), ret()])
        refuses(f"{name}-next-node", 11, 1, "the next instruction has node {1 + k}; expected 0", [load, (op, 3, 1, 0), ret(0, 1), ret()], [SPARE])
        refuses(f"{name}-without-next", 11, 2, "the next instruction would be instruction {3 + i}; expected one below {n}", [("LoadConst", 0, 0, 0), ("Jump", 2, 1, 0), (op, 0, 1, 0)], post=0)
        refuses(f"{name}-target-depth", 11, 1, "the target has depth 1; expected 0", [load, (op, 3, 1, 0), ret(), ret(1)])
        refuses(f"{name}-target-node", 11, 1, "the target has node {1 + k}; expected 0", [load, (op, 3, 1, 0), ret(), ret(0, 1)], [SPARE])
    passes("jump-and-target", [("Jump", 2, 0, 0), ret(3), ret()])
    passes("jump-back-in-last-place", [("Jump", 1, 0, 0), ("Jump", 0, 0, 0)])
    for where, code in (("forward", [("Jump", 1, 0, 0), None]), ("back", [ret(), None, ("Jump", 1, 0, 0)])):
        place = 0 if where == "forward" else 2
        refuses(f"jump-{where}-target-depth", 11, place, "the target has depth 1; expected 0", [line or ret(1) for line in code], post=0)
        refuses(f"jump-{where}-target-node", 11, place, "the target has node {1 + k}; expected 0", [line or ret(0, 1) for line in code], [SPARE], post=0)
    it = [("LoadConst", 0, 0, 0), ("ForIter", 3, 1, 0)]
    passes("for-iter-and-both-ways", it + [ret(2), ret()])
    refuses("for-iter-next-depth", 11, 1, "the next instruction has depth 1; expected 2", it + [ret(1), ret()])
    refuses("for-iter-next-node", 11, 1, "the next instruction has node {1 + k}; expected 0", it + [ret(2, 1), ret()], [SPARE])
    refuses("for-iter-target-depth", 11, 1, "the target has depth 1; expected 0", it + [ret(2), ret(1)])
    refuses("for-iter-target-node", 11, 1, "the target has node {1 + k}; expected 0", it + [ret(2), ret(0, 1)], [SPARE])
    refuses("for-iter-without-next", 11, 2, "the next instruction would be instruction {3 + i}; expected one below {n}", [("LoadConst", 0, 0, 0), ("Jump", 2, 1, 0), ("ForIter", 0, 1, 0)], post=0)
    for op, y in (("Raise", 0), ("ReturnConst", 0)):
        passes(f"{op.lower()}-in-last-place", [ret(), (op, y, 0, 0)])
    passes("return-value-in-last-place", [("LoadConst", 0, 0, 0), ("ReturnValue", 0, 1, 0)])


def setups():
    """Each puts up a child node: handlers stand at instruction 2, the child is node 1 and its handler's node is node 2."""
    for op, y, child, handler, hdepth in (("SetupLoop", 0, LOOP, None, 0), ("SetupExcept", 2, TRY, EHANDLER, 1), ("SetupFinally", 2, FINALLY, FHANDLER, 0),
                                          ("EnterFinally", 0, FHANDLER, None, 0), ("EnterFinally", 1, FHANDLER, None, 0), ("SetupWith", 2, FINALLY, FHANDLER, 0)):
        end = 1 if op == "SetupWith" or (op == "EnterFinally" and y == 1) else 0
        d = 1 if op == "SetupWith" else 0
        after = d + 1 if op == "SetupWith" else d
        name = f"{op.lower()}-{y}" if op == "EnterFinally" else op.lower()
        load = [("LoadConst", 0, 0, 0)] * d
        y = y + d if op in TARGETS else y
        nxt = "the next instruction"

        def made(parent=0, level=d, kind=child, ends=end, depth=after, number=1, operand=y, mine=True):
            at = 2 + d if handler else 0
            nodes = [(kind, ends, parent, level, at if kind in (TRY, FINALLY) else 0)]
            code = load + [(op, operand, d, 0), ret(depth, number)]
            if handler:
                hkind = {TRY: EHANDLER, FINALLY: FHANDLER}.get(kind, handler)
                nodes.append((hkind, ends if hkind == FHANDLER else 0, parent, level, 0))
                code.append(ret(level + (1 if hkind == EHANDLER else 0), 2))
            return code, nodes

        passes(f"{name}-and-child", *made())
        refuses(f"{name}-next-depth", 11, d, f"{nxt} has depth {after + 1}; expected {after}", *made(depth=after + 1))
        others = {LOOP: EHANDLER, TRY: LOOP, FINALLY: TRY, FHANDLER: EHANDLER}[child]
        code, nodes = made(kind=others, ends=0) if child in (LOOP, FHANDLER) else made(kind=others, ends=0)
        refuses(f"{name}-child-of-other-kind", 11, d, f"{nxt}'s node is {name_of(others)}; expected {name_of(child)}", code, nodes, also=True)
        code, nodes = made(parent=1)
        shifted = [(SPARE)] + [(k0, e0, p0, l0, h0) for k0, e0, p0, l0, h0 in nodes]
        code = [(o, yy, dd, kk + 1 if kk else 0) for o, yy, dd, kk in code]
        refuses(f"{name}-child-of-other-parent", 11, d, nxt + "'s node has parent {1 + k}; expected 0", code, shifted)
        # one value more before it: its level is then one too low
        code = [("LoadConst", 0, j, 0) for j in range(d + 1)]
        low, lnodes = made()
        more = [(o, yy + 1 if o in TARGETS else yy, dd, kk) for o, yy, dd, kk in low[d:]]
        more[0] = (more[0][0], more[0][1], d + 1, 0)
        more[1] = (more[1][0], more[1][1], after + 1, 1)
        lnodes = [(k0, e0, p0, l0, h0 + 1 if k0 in (TRY, FINALLY) else 0) for k0, e0, p0, l0, h0 in lnodes]
        refuses(f"{name}-child-of-lower-level", 11, d + 1, f"{nxt}'s node has level {d}; expected {d + 1}", code + more, lnodes)
        if op in ("SetupFinally", "SetupWith", "EnterFinally"):
            refuses(f"{name}-child-of-other-end", 11, d, f"{nxt}'s node has end {1 - end}; expected {end}", *made(ends=1 - end))
        if handler:
            refuses(f"{name}-child-of-other-handler", 11, d, nxt + "'s node has handler {" + str(2 + d) + " + i}; expected {" + str(1 + d) + " + i}", *made(operand=1 + d))
        refuses(f"{name}-without-next", 11, d, nxt + " would be instruction {" + str(d + 1) + " + i}; expected one below {n}",
                load + [(op, 0 if op in TARGETS else y, d, 0)], post=0)


def ends_of_blocks():
    """Unreached code in a block's node: instruction 1 ends the block."""
    def block(name, op, nodes, own, level, parent, lower=0):
        code = [ret(), (op, 0, level + (1 if op == "WithCleanupStart" else 0), own), None]
        depth = level - lower
        after = (depth + 1, own) if op == "WithCleanupStart" else (depth, parent)
        passes(f"{name}", code[:2] + [ret(*after)], nodes)
        refuses(f"{name}-without-next", 11, 1, "the next instruction would be instruction {2 + i}; expected one below {n}", code[:2], nodes, post=0)
        refuses(f"{name}-next-depth", 11, 1, f"the next instruction has depth {after[0] + 1}; expected {after[0]}", code[:2] + [ret(after[0] + 1, after[1])], nodes)
        other = 3
        refuses(f"{name}-next-node", 11, 1, "the next instruction has node {3 + k}; expected " + ("{%d + k}" % after[1] if after[1] else "0"),
                code[:2] + [ret(after[0], other)], list(nodes) + [SPARE] * (3 - len(nodes)))

    loop = (LOOP, 0, 0, 1, 0)
    block("end-finally", "EndFinally", [loop, (FHANDLER, 0, 1, 2, 0)], 2, 2, 1)
    block("cleanup-start", "WithCleanupStart", [loop, (FHANDLER, 1, 1, 2, 0)], 2, 2, 1)
    block("cleanup-start-of-end-0", "WithCleanupStart", [loop, (FHANDLER, 0, 1, 2, 0)], 2, 2, 1)
    block("cleanup-finish", "WithCleanupFinish", [loop, (FHANDLER, 1, 1, 2, 0)], 2, 2, 1, 1)
    block("pop-loop", "PopBlock", [loop, (LOOP, 0, 1, 2, 0)], 2, 2, 1)
    block("pop-exception", "PopException", [loop, (EHANDLER, 0, 1, 2, 0)], 2, 2, 1)
    tries = [ret(), ("PopBlock", 0, 2, 1), ret(2, 0), ret(3, 2)]
    passes("pop-try", tries, [(TRY, 0, 0, 2, 3), (EHANDLER, 0, 0, 2, 0)])
    passes("pop-finally", tries[:3] + [ret(2, 2)], [(FINALLY, 0, 0, 2, 3), (FHANDLER, 0, 0, 2, 0)])
    for name, op, wanted in (("end-finally", "EndFinally", FHANDLER), ("cleanup-start", "WithCleanupStart", FHANDLER),
                             ("cleanup-finish", "WithCleanupFinish", FHANDLER), ("pop-exception", "PopException", EHANDLER)):
        end = 1 if op == "WithCleanupFinish" else 0
        other = EHANDLER if wanted == FHANDLER else FHANDLER
        depth, after = (2, (2, 1)) if op == "WithCleanupStart" else (2, (2 - end, 0))
        code = [ret(), (op, 0, depth, 1), ret(*after)]
        refuses(f"{name}-in-a-loop", 11, 1, f"its node is a Loop; expected {name_of(wanted)}", code, [(LOOP, 0, 0, 2, 0)], also=bool(end))
        refuses(f"{name}-in-the-other-handler", 11, 1, f"its node is {name_of(other)}; expected {name_of(wanted)}", code, [(other, 0, 0, 2, 0)], also=bool(end))
    refuses("end-finally-without-block", 11, 0, "its node is no known block; expected a FinallyHandler", [("EndFinally", 0, 0, 0), ret()])
    refuses("pop-exception-without-block", 11, 0, "its node is no known block; expected an ExceptHandler", [("PopException", 0, 0, 0), ret()])
    refuses("end-finally-of-end-1", 11, 1, "its node has end 1; expected 0", [ret(), ("EndFinally", 0, 2, 1), ret(2)], [(FHANDLER, 1, 0, 2, 0)])
    refuses("cleanup-finish-of-end-0", 11, 1, "its node has end 0; expected 1", [ret(), ("WithCleanupFinish", 0, 2, 1), ret(1)], [(FHANDLER, 0, 0, 2, 0)])
    refuses("cleanup-finish-at-the-parents-level", 11, 1, "its node has level 1; expected more than 1, the parent's level",
            [ret(), ("WithCleanupFinish", 0, 1, 2), ret(0, 1)], [(LOOP, 0, 0, 1, 0), (FHANDLER, 1, 1, 1, 0)], also=True)
    refuses("cleanup-finish-at-level-0", 11, 1, "its node has level 0; expected more than 0, the parent's level",
            [ret(), ("WithCleanupFinish", 0, 0, 1), ret()], [(FHANDLER, 1, 0, 0, 0)], also=True)
    for kind in (FHANDLER, EHANDLER):
        refuses(f"pop-block-{kind}", 11, 1, f"its node is {name_of(kind)}; expected a Loop, a TryExcept or a Finally", [ret(), ("PopBlock", 0, 2, 1), ret(2)], [(kind, 0, 0, 2, 0)])
    refuses("pop-block-without-block", 11, 0, "its node is no known block; expected a Loop, a TryExcept or a Finally", [("PopBlock", 0, 0, 0), ret()])


def loops():
    """The Loop is node 1, of level 1; what stands on it is node 2."""
    loop = (LOOP, 0, 0, 1, 0)
    missing = "the Loop around it is missing; expected one"
    for op in ("Break", "Continue"):
        refuses(f"{op.lower()}-without-loop", 11, 0, missing, [(op, 0, 0, 0)])
        refuses(f"{op.lower()}-in-a-handler-without-loop", 11, 1, missing, [ret(), (op, 0, 2, 1)], [(EHANDLER, 0, 0, 2, 0)])

    def leaves(name, nodes, own, depth, arrives, more=()):
        """A Break and a Continue out of a node, with the depth at which the Loop is reached; instructions 2 and 3 are their targets."""
        code = [ret(), None, ret(1, 0), ret(arrives, 1)] + list(more)
        breaks, continues = ("Break", 2, depth, own), ("Continue", 3, depth, own)

        def with_(op, first=ret(1, 0), second=ret(arrives, 1)):
            return [code[0], op, first, second] + code[4:]

        passes(f"break-{name}", with_(breaks), nodes)
        passes(f"continue-{name}", with_(continues), nodes)
        refuses(f"break-{name}-depth", 11, 1, "the target has depth 2; expected 1", with_(breaks, first=ret(2, 0)), nodes)
        refuses(f"break-{name}-node", 11, 1, "the target has node {1 + k}; expected 0", with_(breaks, first=ret(1, 1)), nodes)
        refuses(f"continue-{name}-depth", 11, 1, f"the target has depth {arrives + 1}; expected {arrives}", with_(continues, second=ret(arrives + 1, 1)), nodes)
        refuses(f"continue-{name}-node", 11, 1, "the target has node 0; expected {1 + k}", with_(continues, second=ret(arrives, 0)), nodes)

    leaves("in-the-loop", [loop], 1, 3, 3)
    leaves("out-of-a-try", [loop, (TRY, 0, 1, 2, 4), (EHANDLER, 0, 1, 2, 0)], 2, 3, 2, [ret(3, 3)])
    leaves("out-of-an-except-handler", [loop, (EHANDLER, 0, 1, 2, 0)], 2, 3, 2)
    leaves("out-of-a-finally", [loop, (FINALLY, 0, 1, 2, 4), (FHANDLER, 0, 1, 2, 0)], 2, 3, 2, [ret(2, 3)])
    leaves("out-of-a-with", [loop, (FINALLY, 1, 1, 2, 4), (FHANDLER, 1, 1, 2, 0)], 2, 3, 1, [ret(2, 3)])
    leaves("out-of-a-with-handler", [loop, (FHANDLER, 1, 1, 2, 0)], 2, 3, 2)
    leaves("out-of-a-with-in-a-try", [loop, (TRY, 0, 1, 2, 4), (EHANDLER, 0, 1, 2, 0), (FINALLY, 1, 2, 3, 5), (FHANDLER, 1, 2, 3, 0)], 4, 3, 2, [ret(3, 3), ret(3, 5)])
    leaves("out-of-a-try-in-a-with", [loop, (FINALLY, 1, 1, 2, 4), (FHANDLER, 1, 1, 2, 0), (TRY, 0, 2, 3, 5), (EHANDLER, 0, 2, 3, 0)], 4, 3, 1, [ret(2, 3), ret(4, 5)])
    leaves("in-the-inner-loop-of-two", [(LOOP, 0, 0, 1, 0), (LOOP, 0, 0, 0, 0)], 1, 2, 2)
    # a with block at level 0: less its end is -1, which no shape has
    refuses("continue-out-of-a-with-at-level-0", 11, 1, "the target has depth 0; expected -1", [ret(), ("Continue", 3, 0, 2), ret(), ret(0, 1), ret(0, 3)],
            [(LOOP, 0, 0, 0, 0), (FINALLY, 1, 1, 0, 4), (FHANDLER, 1, 1, 0, 0)])
    # the last place: Break and Continue in the table's last instruction
    for op, target in (("Break", ret(2, 0)), ("Continue", ret(3, 1))):
        good = ret(1, 0) if op == "Break" else ret(2, 1)
        passes(f"{op.lower()}-in-last-place", [ret(), good, (op, 1, 2, 1)], [loop])
        refuses(f"{op.lower()}-in-last-place-depth", 11, 2, f"the target has depth {target[2]}; expected {good[2]}", [ret(), target, (op, 1, 2, 1)], [loop], post=0)


def orders():
    """Nodes before instructions, lower places before higher ones, and the examples of docs/check.md."""
    def first(name, code, nodes, expected, maximum=4):
        put(name, Table(code, nodes, maximum), expected, also=True)

    first("node-before-instruction", [ret(1)], [(6, 0, 0, 0, 0)], "10 at 1: refused 10 at node 1: its kind is 6; expected 1 to 5")
    first("lower-node-first", [ret()], [SPARE, (7, 0, 0, 0, 0), (6, 0, 0, 0, 0)], "10 at 2: refused 10 at node 2: its kind is 7; expected 1 to 5")
    first("lower-instruction-first", [ret(), ret(6), ret(5)], [], "11 at 1: refused 11 at instruction 1 (ReturnConst): its depth is 6; expected at most 4, the maximum depth")
    code = [("LoadConst", 0, 0, 0), ("SetupExcept", 3, 1, 0), ret(1, 1), ret(2, 2)]
    nodes = [(TRY, 0, 0, 1, 3), (EHANDLER, 0, 0, 1, 0)]
    first("try-at-maximum-1", code, nodes, "10 at 1: refused 10 at node 1: its handler begins with depth 2; expected at most 1, the maximum depth", 1)
    first("try-at-maximum-2", code, nodes, "passed", 2)
    first("break-alone", [("Break", 0, 0, 0)], [], "11 at 0: refused 11 at instruction 0 (Break): the Loop around it is missing; expected one", 1)
    first("return-alone", [ret()], [], "passed", 1)
    first("finally-entered", [("SetupFinally", 2, 0, 0), ret(0, 1), ("EndFinally", 0, 0, 2), ret()], [(FINALLY, 0, 0, 0, 2), (FHANDLER, 0, 0, 0, 0)], "passed", 1)
    first("continue-for-ever", [("SetupLoop", 0, 0, 0), ("Continue", 1, 0, 1)], [SPARE], "passed", 1)
    with_ = [("LoadConst", 0, 0, 0), ("SetupWith", 5, 1, 0), ("Pop", 0, 2, 1), ("PopBlock", 0, 1, 1), ("EnterFinally", 1, 1, 0), ("WithCleanupStart", 0, 1, 2),
             ("WithCleanupFinish", 0, 1, 2), ret()]
    first("with-statement", with_, [(FINALLY, 1, 0, 1, 5), (FHANDLER, 1, 0, 1, 0)], "passed", 2)


def most():
    """As many instructions and nodes as a table may have."""
    big = [("SetupLoop", 0, 0, 0)] + [("Continue", 1, 0, 1)] * 4095
    nodes = [(LOOP, 0, 0, 0, 0)] + [(EHANDLER, 0, j % 31 and j or 0, 0, 0) for j in range(1, 1024)]
    put("largest-table", Table(big, nodes, 256), "passed")
    put("largest-table-last-instruction", Table(big[:-1] + [("Continue", 0, 0, 1)], nodes, 256),
        "11 at 4095: refused 11 at instruction 4095 (Continue): the target has node 0; expected 1")
    put("largest-table-last-node", Table(big, nodes[:-1] + [(LOOP, 1, 0, 0, 0)], 256), "10 at 1024: refused 10 at node 1024: its end is 1; expected at most 0")


def main():
    for group in (node_rules, own_shapes, next_shapes, setups, ends_of_blocks, loops, orders, most):
        group()
    folder = Path(__file__).resolve().parent.parent / "crates" / "check_cases"
    (folder / "stdin").write_text("".join(line + "\n" for line, _ in CASES))
    (folder / "stdout").write_text("".join(line + "\n" for _, line in CASES))
    print(f"{len(CASES)} cases")


if __name__ == "__main__":
    main()

#!/usr/bin/env python3
"""The six conditions of a repair bench: composes their net, checks and lists its image, and makes calls on it.

The argument names the board's shared object. Returns 1 where something is not as expected.
"""

import ctypes
import os
import sys

# The numbers of include/board.h.
EXCLUDES, CAUSES, IMPLIES, REQUIRES, SUGGESTS = 1, 2, 3, 4, 5
ACTIVATE, DEACTIVATE, UNDO, SETTLE = 0, 1, 2, 3
WRONG_RECORDS, TOKENS_LEFT, NOTHING_OPEN, ALREADY_OFF = 9, 12, 13, 14
ANSWER_SIZE = 5
SHORTEST_IMAGE, LONGEST_IMAGE, LONGEST_LIST, LONGEST_STATE = 107, 9752, 338, 60

NAMES = ["DUMPED", "RESET", "POWERED", "SOAK", "BATTERYOUT", "LOGGING"]
DUMPED, RESET, POWERED, SOAK, BATTERYOUT, LOGGING = range(6)
KINDS = {EXCLUDES: "excludes", CAUSES: "causes", IMPLIES: "implies", REQUIRES: "requires", SUGGESTS: "suggests"}
VERBS = {ACTIVATE: "activate", DEACTIVATE: "deactivate", UNDO: "undo", SETTLE: "settle"}

CAPACITIES = [1, 255, 255, 255, 255, 255]
RELATIONS = [
    (REQUIRES, RESET, DUMPED),
    (IMPLIES, SOAK, POWERED),
    (EXCLUDES, POWERED, BATTERYOUT),
    (REQUIRES, BATTERYOUT, DUMPED),
    (CAUSES, SOAK, LOGGING),
]
CALLS = [
    (ACTIVATE, DUMPED),
    (ACTIVATE, BATTERYOUT),
    (ACTIVATE, SOAK),
    (DEACTIVATE, DUMPED),
    (UNDO, 0),
    (UNDO, 0),
    (SETTLE, 0),
    (UNDO, 0),
    (DEACTIVATE, LOGGING),
]
# What the calls are to give: 0 or the refusal, the firings, the forced ones, and the counts after the call.
EXPECTED = [
    (0, 1, 0, [1, 0, 0, 0, 0, 0]),
    (0, 1, 0, [1, 0, 0, 0, 1, 0]),
    (TOKENS_LEFT, 2, 0, [1, 0, 0, 0, 1, 0]),
    (0, 2, 1, [0, 0, 0, 0, 0, 0]),
    (0, 0, 0, [1, 0, 0, 0, 1, 0]),
    (0, 0, 0, [1, 0, 0, 0, 0, 0]),
    (0, 0, 0, [1, 0, 0, 0, 0, 0]),
    (NOTHING_OPEN, 0, 0, [1, 0, 0, 0, 0, 0]),
    (ALREADY_OFF, 0, 0, [1, 0, 0, 0, 0, 0]),
]
TOTALS = [3, 3, 2]


class Refused(Exception):
    """A net or an image that the board refuses; the argument is the refusal."""


class Board:
    """The board's functions over bytes."""

    def __init__(self, path):
        self.c = ctypes.CDLL(path)
        array = [ctypes.c_char_p, ctypes.c_size_t]
        self.declare("board_compose", 3 * array, ctypes.c_uint64)
        self.declare("board_check", array, ctypes.c_uint32)
        self.declare("board_list", 2 * array, ctypes.c_uint64)
        self.declare("board_run", 3 * array, ctypes.c_uint64)

    def declare(self, name, arguments, value):
        function = getattr(self.c, name)
        function.argtypes = arguments
        function.restype = value

    def compose(self, capacities, relations):
        """The image of a net."""
        given = bytes(capacities)
        triples = b"".join(bytes(relation) for relation in relations)
        out = ctypes.create_string_buffer(LONGEST_IMAGE)
        length = self.c.board_compose(given, len(given), triples, len(triples), out, len(out))
        if length < SHORTEST_IMAGE:
            raise Refused(length)
        return out.raw[:length]

    def check(self, image):
        """0, or the refusal."""
        return self.c.board_check(image, len(image))

    def listed(self, image):
        """The capacities and the relations that an image stands for."""
        refusal = self.check(image)
        if refusal != 0:
            raise Refused(refusal)
        out = ctypes.create_string_buffer(LONGEST_LIST)
        written = self.c.board_list(image, len(image), out, len(out))
        found = out.raw[:written]
        n, r = found[0], found[1]
        return list(found[2 : 2 + n]), [tuple(found[2 + n + 3 * i :][:3]) for i in range(r)]

    def run(self, image, calls):
        """The answers to a list of calls, the counts after it, and the totals."""
        given = b"".join(bytes([call]) + context.to_bytes(2, "little") for call, context in calls)
        answered = ANSWER_SIZE * len(calls)
        out = ctypes.create_string_buffer(answered + LONGEST_STATE)
        written = self.c.board_run(image, len(image), given, len(given), out, len(out))
        if written == 0:
            raise ValueError("not a list of calls")
        report = out.raw[:written]
        starts = range(0, answered, ANSWER_SIZE)
        answers = [(report[i], number(report[i + 1 : i + 3]), number(report[i + 3 : i + 5])) for i in starts]
        totals = [number(report[i : i + 4]) for i in range(written - 12, written, 4)]
        return answers, list(report[answered : written - 12]), totals


def number(low_first):
    return int.from_bytes(low_first, "little")


def expect(what, value, expected):
    if value != expected:
        sys.exit(f"unexpected: {what}, {value}")


def print_call(call, context, refusal, firings, forced, counts):
    asked = VERBS[call]
    if call in (ACTIVATE, DEACTIVATE):
        asked += f" {NAMES[context]}"
    verdict = f"refused {refusal}" if refusal else "granted"
    active = ", ".join(f"{NAMES[c]} {count}" for c, count in enumerate(counts) if count > 0)
    print(f"  {asked}: {verdict}, firings {firings}, forced {forced}; {active or 'none active'}")


def main():
    if len(sys.argv) != 2:
        sys.exit("usage: six.py libboard.so")
    board = Board(os.path.abspath(sys.argv[1]))

    image = board.compose(CAPACITIES, RELATIONS)
    expect("the image's length", len(image), 813)
    expect("the image is refused", board.check(image), 0)
    print(f"image: {len(image)} bytes, accepted")

    capacities, relations = board.listed(image)
    expect("the list's capacities", capacities, CAPACITIES)
    expect("the list's relations", relations, RELATIONS)
    print(f"contexts: {len(capacities)}")
    for c, capacity in enumerate(capacities):
        print(f"  {c} {NAMES[c]}, capacity {capacity}")
    print(f"relations: {len(relations)}")
    for kind, a, b in relations:
        print(f"  {NAMES[a]} {KINDS[kind]} {NAMES[b]}")

    # The counts follow the last answer. To see them after each call, the list is run up to that call.
    print(f"calls: {len(CALLS)}")
    totals = []
    for done in range(1, len(CALLS) + 1):
        answers, counts, totals = board.run(image, CALLS[:done])
        expect("the answers", answers, [expected[:3] for expected in EXPECTED[:done]])
        expect("the counts", counts, EXPECTED[done - 1][-1])
        print_call(*CALLS[done - 1], *answers[-1], counts)
    expect("the totals", totals, TOTALS)
    print("totals: granted {}, refused {}, undone {}".format(*totals))

    # The byte behind the relations is the first record's priority.
    damaged = bytearray(image)
    damaged[len(CAPACITIES) + 3 * len(RELATIONS)] ^= 1
    refusal = board.check(bytes(damaged))
    expect("the damaged image's refusal", refusal, WRONG_RECORDS)
    print(f"damaged image: refused {refusal}")


if __name__ == "__main__":
    main()

#!/usr/bin/env python3
"""Measures a marking program against a native peer, and prints a table in Markdown.

    python3 bench/run.py                     crates/markings/out/markings against bench/published.rs
    python3 bench/run.py --ours PROGRAM      another program against it
    python3 bench/run.py --quick             small inputs, few runs

Both programs read lines `table HEX` or `grammar HEX` and print listings (tools/marking_cases.py says how). They must
print the same for each input; a difference is an error. The inputs are drawn with fixed seeds, so they are always the
same. The time is that of one line, from its digits to its listing: the line is repeated until a run takes long
enough, the time of a run without lines is taken off, and the best of some runs counts. It is processor time of the
program and of the system for it, since others may be at work on the machine.

The nodes n of an input are its width + 4 + the lengths of all pushed words.
"""

import argparse
import collections
import os
import pathlib
import subprocess
import sys
import tempfile
import time
import zlib

HERE = pathlib.Path(__file__).resolve().parent
sys.path.insert(0, str(HERE.parent / "tools"))

from random_machines import (Dice, Grammar, Shape, Table, Walk, chain_rows, changed_row, ladder_rows,  # noqa: E402
                             line_table)

PEER_FLAGS = ["--edition", "2021", "-O", "-C", "target-cpu=native"]
LONG_ENOUGH = 0.2
MOST_BYTES = 32_000_000
PATIENCE = 10.0

Input = collections.namedtuple("Input", "name made")


# ---- random tables ---------------------------------------------------------------------------------------------

POPPED = [0, 0, 0, 1, 1, 1, 1, 1, 2, 3]
PUSHED = [0, 0, 1, 1, 1, 2, 2, 3]


def table_shape(rows, states, symbols):
    return Shape(states, symbols, rows, POPPED, PUSHED)


def rows_drawn(count, draw, known=()):
    """As many different rows, the known ones among them; each is drawn with a look at those before it."""
    rows = list(known)
    while len(rows) < count:
        row = draw(rows)
        if row not in rows:
            rows.append(row)
    return rows


def walked(dice, shape, count):
    """Different rows that lie on walks from the first state."""
    walk = Walk(dice, shape, shape.states[0])

    def draw(known):
        if dice.chance(5):
            walk.state, walk.stack = shape.states[0], ()
        walk.step()
        return walk.rows[-1]

    return rows_drawn(count, draw)


def some_targets(dice, rows):
    return dice.some(sorted({row.target for row in rows}), 2)


def reached_table(dice, rows, states):
    """Most rows lie on walks from the start; the others are made of these by a small change."""
    shape = table_shape(rows, range(states), range(1, 4 + rows // 20))
    core = walked(dice, shape, rows * 2 // 3)
    every = rows_drawn(rows, lambda known: changed_row(dice, shape, known), core)
    return Table([0], some_targets(dice, core), every)


def sparse_table(dice, rows, states):
    """A fifth of the rows lie on walks. The others leave other states, or pop what no walk pushes."""
    low, high = range(1, 4 + rows // 40), range(100, 104 + rows // 20)
    narrow = table_shape(rows, range((states + 1) // 2), low)
    wide = table_shape(rows, range(states), [*low, *high])
    core = walked(dice, narrow, rows // 5)

    def draw(known):
        row = wide.blind_row(dice)
        if row.source in narrow.states:
            row = row._replace(popped=(dice.pick(high), *row.popped[1:]))
        return row

    return Table([0], some_targets(dice, core), rows_drawn(rows, draw, core))


def random_inputs(sizes):
    families = [
        ("reached, few states", reached_table, lambda rows: 3 + rows // 30),
        ("reached, many states", reached_table, lambda rows: min(rows // 2, 250)),
        ("sparse, few states", sparse_table, lambda rows: 3 + rows // 30),
        ("sparse, many states", sparse_table, lambda rows: min(rows // 2, 250)),
    ]
    for name, make, states in families:
        for rows in sizes:
            yield drawn(f"{name}, {rows}", lambda dice: make(dice, rows, states(rows)))


# ---- grammars --------------------------------------------------------------------------------------------------

class Language:
    """Layers of nonterminals, as a programming language has: each refers to the next ones, and now and then, between
    brackets, back to an early one."""

    def __init__(self, dice, rules):
        self.dice = dice
        self.layers = list(range(1, rules // 3 + 1))
        self.terminals = list(range(151, 151 + min(20 + rules // 8, 90)))
        self.undefined = [250, 251]
        self.rules = {}

    def lower(self, layer):
        """A nonterminal a few layers below, or a terminal under the last layer."""
        below = self.layers[layer + 1:layer + 6]
        if not below:
            return self.dice.pick(self.terminals)
        return self.dice.pick(self.undefined if self.dice.chance(1) else below)

    def right_side(self, layer):
        dice, terminal = self.dice, lambda: self.dice.pick(self.terminals)
        left, early = self.layers[layer], self.dice.pick(self.layers[:layer // 2 + 1])
        ways = [
            lambda: (left, terminal(), self.lower(layer)),
            lambda: (self.lower(layer), terminal(), left),
            lambda: (terminal(), self.lower(layer), terminal(), self.lower(layer)),
            lambda: (terminal(), early, terminal()),
            lambda: (left, self.lower(layer)),
            lambda: (terminal(), self.lower(layer)),
            lambda: (terminal(),),
            lambda: (),
        ]
        return dice.pick(ways)()

    def fill(self, count):
        for layer, left in enumerate(self.layers):
            self.rules[left, (self.lower(layer),)] = None
        while len(self.rules) < count:
            layer = self.dice.below(len(self.layers))
            self.rules[self.layers[layer], self.right_side(layer)] = None

    def grammar(self):
        return Grammar(self.layers[:1], self.terminals, list(self.rules))


def language_grammar(dice, rules):
    language = Language(dice, rules)
    language.fill(rules)
    return language.grammar()


def grammar_inputs(sizes):
    for rules in sizes:
        yield drawn(f"grammar, {rules} rules", lambda dice: language_grammar(dice, rules))


# ---- chains ----------------------------------------------------------------------------------------------------

def chain_inputs(sizes):
    for name, make in (("chain", chain_rows), ("ladder", ladder_rows)):
        for states in sizes:
            up = list(range(states))
            rows = make(states)
            yield Input(f"{name} of {states}, ascending", line_table(rows, up))
            yield Input(f"{name} of {states}, descending", line_table(rows, up[::-1]))
            yield drawn(f"{name} of {states}, shuffled", lambda dice: line_table(rows, dice.some(up, states)))


# ---- inputs ----------------------------------------------------------------------------------------------------

def drawn(name, make):
    """The name is the seed, so an input stays the same whatever others there are."""
    return Input(name, make(Dice(zlib.crc32(name.encode()))))


def inputs(quick):
    yield from random_inputs([20, 100] if quick else [20, 50, 100, 200, 400, 600])
    yield from grammar_inputs([50, 100] if quick else [50, 100, 200, 400])
    yield from chain_inputs([50] if quick else [50, 100, 250])


def nodes(machine):
    ends = [state for row in machine.rows for state in (row.source, row.target)]
    width = max([*machine.starts, *machine.accepts, *ends], default=-1) + 1
    return width + 4 + sum(len(row.pushed) for row in machine.rows)


# ---- measuring -------------------------------------------------------------------------------------------------

def built_peer(folder):
    program = folder / "published"
    subprocess.run(["rustc", *PEER_FLAGS, "-o", program, HERE / "published.rs"], check=True)
    return program


def answer(program, line):
    return subprocess.run([program], input=line, capture_output=True, check=True).stdout


def run_time(program, file):
    with open(file, "rb") as lines:
        process = subprocess.Popen([program], stdin=lines, stdout=subprocess.DEVNULL)
        _, status, usage = os.wait4(process.pid, 0)
    process.returncode = os.waitstatus_to_exitcode(status)
    if process.returncode != 0:
        raise SystemExit(f"{program} ended with {process.returncode}")
    return usage.ru_utime + usage.ru_stime


def best_time(program, file, runs):
    """The shortest of the runs; a program that takes very long is not run so often."""
    begun = time.perf_counter()
    best = run_time(program, file)
    for _ in range(runs - 1):
        if time.perf_counter() - begun > PATIENCE:
            break
        best = min(best, run_time(program, file))
    return best


def repeats(program, line, file, enough):
    """How often the line must stand for a run to take long enough; the file then holds as many."""
    most = max(1, MOST_BYTES // len(line))
    count = 1
    while True:
        file.write_bytes(line * count)
        taken = run_time(program, file)
        if taken >= enough or count == most:
            return count
        # a short run says little, so the count grows by steps
        count = min(most, count * max(2, min(16, int(1.3 * enough / taken))))


def line_time(program, line, folder, runs, enough):
    file, empty = folder / "lines", folder / "empty"
    empty.write_bytes(b"")
    count = repeats(program, line, file, enough)
    return max(0.0, best_time(program, file, runs) - best_time(program, empty, runs)) / count


def milliseconds(seconds):
    return f"{seconds * 1000:.4f}"


def measured(one, ours, peer, folder, arguments):
    """The line of the table for an input; None, and a message, where the two answers differ."""
    line = f"{one.made.kind} {one.made.bytes().hex()}\n".encode()
    listing = answer(peer, line)
    if answer(ours, line) != listing:
        print(f"the answers differ: {one.name}\n{line.decode()}", file=sys.stderr)
        return None
    runs, enough = (2, LONG_ENOUGH / 4) if arguments.quick else (5, LONG_ENOUGH)
    ours_time, peer_time = (line_time(program, line, folder, runs, enough) for program in (ours, peer))
    _, useful, _, reachable, _, rows = listing.decode().splitlines()[-1].split()
    ratio = f"{peer_time / ours_time:.2f}" if ours_time else "-"
    cells = [one.name, rows, useful, reachable, nodes(one.made.machine), milliseconds(ours_time),
             milliseconds(peer_time), ratio]
    return "| " + " | ".join(str(cell) for cell in cells) + " |"


def print_table(ours, folder, arguments):
    """Whether the two programs gave the same answers everywhere."""
    peer = built_peer(folder)
    print(f"The peer is built by `rustc {' '.join(PEER_FLAGS)}`. Times are milliseconds for one machine.\n")
    print("| input | rows | useful | reachable | nodes | ours | peer | peer/ours |")
    print("|---|---|---|---|---|---|---|---|")
    same = True
    for one in inputs(arguments.quick):
        line = measured(one, ours or peer, peer, folder, arguments)
        same &= line is not None
        if line is not None:
            print(line, flush=True)
    return same


def parsed_arguments():
    parser = argparse.ArgumentParser(description=__doc__, formatter_class=argparse.RawDescriptionHelpFormatter)
    parser.add_argument("--ours", default="crates/markings/out/markings", help="the program to be measured")
    parser.add_argument("--peer-twice", action="store_true", help="measure the peer against itself")
    parser.add_argument("--quick", action="store_true", help="small inputs, few runs")
    return parser.parse_args()


def main():
    arguments = parsed_arguments()
    ours = None if arguments.peer_twice else str(pathlib.Path(arguments.ours).resolve())
    with tempfile.TemporaryDirectory() as folder:
        same = print_table(ours, pathlib.Path(folder), arguments)
    sys.exit(0 if same else 1)


if __name__ == "__main__":
    main()

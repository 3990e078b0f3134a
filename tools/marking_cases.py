#!/usr/bin/env python3
"""Makes cases for a program that marks the rows of machines, and the answers that it must give.

    python3 tools/marking_cases.py INPUT ANSWERS                 write the fixed cases and their answers
    python3 tools/marking_cases.py --self-check 5000             compare the reference with a plain search
    python3 tools/marking_cases.py --peer COMMAND --count 5000   compare a program with the reference

A case is a line: `table` or `grammar`, a space, and the bytes in hexadecimal. Its answer is the listing: for each
row a line with its place and its mark, and last `useful U reachable R of N`. Marks are 2 (some accepting run takes
the row), 1 (only some run does) and 0; U counts the marks 2 and R those above 0. For bytes that are no table or no
grammar the answer is the one line `refused NUMBER SECTION PLACE`.

The fixed cases are always the same. `--seed` draws other ones for the two comparisons.
"""

import argparse
import collections
import pathlib
import shlex
import subprocess
import sys

import marking_reference as reference
from marking_reference import Row
from random_machines import (Dice, Grammar, Table, chain_rows, ladder_rows, large_shape, line_table, long_shape,
                             random_grammar, random_table, row_bytes, rule_bytes, section, single_bytes, small_shape,
                             three_sections, tiny_shape)

Case = collections.namedtuple("Case", "line answer")


# ---- answers ---------------------------------------------------------------------------------------------------

def listing(marks):
    lines = [f"{place} {mark}" for place, mark in enumerate(marks)]
    useful, reachable = marks.count(2), len(marks) - marks.count(0)
    return lines + [f"useful {useful} reachable {reachable} of {len(marks)}"]


def line_of(made):
    return f"{made.kind} {made.bytes().hex()}"


def marked_case(made, expected=None):
    """The case of a table or a grammar; the marks it was made for, where they are given, must be those found."""
    marks = reference.marks_of(made.machine)
    if expected is not None and marks != expected:
        raise SystemExit(f"made for {expected}, found {marks}: {line_of(made)}")
    return Case(line_of(made), listing(marks))


# ---- cases made by hand ----------------------------------------------------------------------------------------

BRACKETS = [
    Row(0, 0, 1, (), ()),
    Row(0, 40, 0, (), (1,)),
    Row(0, 41, 0, (1,), ()),
    Row(1, 0, 1, (2,), ()),
    Row(1, 0, 2, (1, 1), ()),
    Row(3, 0, 1, (), ()),
]


def push(source, target, *word):
    return Row(source, 0, target, (), word)


def pop(source, target, *word):
    return Row(source, 0, target, word, ())


def hand_made():
    """Tables and grammars with the marks that they were made for."""
    return [
        (Table([0], [1], BRACKETS), [2, 2, 2, 0, 1, 0]),
        # the top symbol comes first in a word
        (Table([0], [3], [push(0, 1, 1), push(1, 2, 2), pop(2, 3, 1, 2), pop(2, 3, 2, 1)]), [2, 2, 0, 2]),
        # the same states, but the stack keeps one of the two from going on
        (Table([0], [2], [push(0, 1, 1), push(0, 1, 2), pop(1, 2, 1)]), [2, 1, 2]),
        (Grammar([1], [10], [(1, ()), (1, (3,)), (1, (10, 1)), (2, (10,))]), [2, 2, 1, 2, 0, 2, 2]),
        # the stack need not be empty at the end
        (Table([0], [1], BRACKETS[:2] + BRACKETS[3:]), [2, 2, 0, 1, 0]),
        (Table([5], [5], []), []),
        (Table([], [], []), []),
        (Grammar([], [], []), [0]),
        # half of a popped word is there, and no run takes the row nor ends in its middle
        (Table([0], [1], [push(0, 0, 1), pop(0, 1, 1, 2)]), [1, 0]),
        # the row undoes itself, and its target is its source
        (Table([0], [0], [Row(0, 0, 0, (1,), (1,)), push(0, 0, 1)]), [2, 2]),
        # three symbols popped across three pushed words
        (Table([0], [9], [push(0, 1, 3), push(1, 2, 2), push(2, 3, 1), pop(3, 9, 1, 2, 3), pop(3, 9, 1, 2, 3, 4)]),
         [2, 2, 2, 2, 0]),
        # a start that is no accepting state's, and an accepting state that nothing reaches
        (Table([0, 4], [2, 7], [pop(0, 2, 1), push(4, 4, 1), Row(4, 1, 5, (), ())]), [0, 1, 1]),
    ]


def damaged():
    """Bytes that are no table or no grammar, with the fault: its number, section and place."""
    brackets = Table([0], [1], BRACKETS).bytes()
    swapped = [row_bytes(row) for row in (BRACKETS[0], BRACKETS[2], BRACKETS[1])]
    too_long = bytes([0, 0, 0, 11, 0]) + bytes([1] * 10) + bytes(10)
    grammar = Grammar([1], [10], [(1, ()), (1, (10, 1))]).bytes()
    nothing = section([])
    return [
        ("table", brackets[:-1], (1, 3, 5)),
        ("table", brackets[:7], (1, 3, 0)),
        ("table", brackets + b"\0", (4, 3, 6)),
        ("table", bytes(7), (4, 3, 0)),
        ("table", three_sections([0], [1], swapped), (2, 3, 2)),
        ("table", section(single_bytes([3]) * 2) + nothing + nothing, (2, 1, 1)),
        ("table", three_sections([0], [1], [too_long]), (3, 3, 0)),
        ("table", b"\1\1", (5, 1, 0)),
        ("grammar", grammar[:-1], (1, 3, 1)),
        ("grammar", grammar + b"\0", (4, 3, 2)),
        ("grammar", three_sections([1, 10], [10], []), (6, 1, 1)),
        ("grammar", three_sections([1], [10], [rule_bytes((1, ())), rule_bytes((10, (1,)))]), (6, 3, 1)),
        ("grammar", three_sections([255], [], []), (3, 1, 0)),
    ]


def damaged_case(kind, data, fault):
    number, part, place = fault
    return Case(f"{kind} {data.hex()}", [f"refused {number} {part} {place}"])


# ---- random cases ----------------------------------------------------------------------------------------------

def is_telling(dice, marks):
    """Keeps every machine that has all three marks, and few of those that have but one."""
    return dice.chance({3: 100, 2: 15, 1: 2, 0: 2}[len(set(marks))])


def random_made(dice, make):
    while True:
        made = make()
        if is_telling(dice, reference.marks_of(made.machine)):
            return made


def makers(dice):
    return {
        "tiny": lambda: random_table(dice, tiny_shape(dice)),
        "small": lambda: random_table(dice, small_shape(dice)),
        "long": lambda: random_table(dice, long_shape(dice)),
        "large": lambda: random_table(dice, large_shape(dice)),
        "grammar": lambda: random_grammar(dice),
    }


def lines_of_states(dice):
    """Chains and ladders, all useful, their rows in orders in which a sweep finds much or little at a time."""
    for make, states in ((chain_rows, 9), (chain_rows, 40), (ladder_rows, 9), (ladder_rows, 16)):
        rows = make(states)
        names = list(range(states))
        for order in (names, names[::-1], dice.some(names, states)):
            yield line_table(rows, order), [2] * len(rows)


def fixed_cases():
    dice = Dice(7)
    make = makers(dice)
    cases = [marked_case(made, expected) for made, expected in [*hand_made(), *lines_of_states(dice)]]
    cases += [damaged_case(*one) for one in damaged()]
    for name, count in (("small", 380), ("long", 20), ("large", 20), ("grammar", 160)):
        cases += [marked_case(random_made(dice, make[name])) for _ in range(count)]
    return cases


def write_cases(cases, input_file, answer_file):
    input_file.write_text("".join(case.line + "\n" for case in cases))
    answer_file.write_text("".join(line + "\n" for case in cases for line in case.answer))
    marks = collections.Counter(line.split()[1] for case in cases for line in case.answer[:-1])
    told = ", ".join(f"{count} rows marked {mark}" for mark, count in sorted(marks.items(), reverse=True))
    print(f"{len(cases)} cases: {told}")


# ---- comparing with a search -----------------------------------------------------------------------------------

def agrees(machine, heights, most):
    """Whether a search finds what the reference does; None where the bounds end before it is known."""
    findings = reference.Reference(machine).findings()
    for height in heights:
        search = reference.Search(machine, height, most)
        found = search.findings()
        if found == findings:
            return True
        if search.whole or not reference.within(found, findings):
            return False
    return None


def self_check(seed, count):
    dice = Dice(seed)
    kinds = [
        ("tiny", lambda: random_table(dice, tiny_shape(dice)), (4, 8, 12, 16, 24), 30000),
        ("small", lambda: random_table(dice, small_shape(dice)), (5, 8, 11), 4000),
        ("grammar", lambda: random_grammar(dice), (5, 8, 11), 4000),
    ]
    failed = False
    for name, make, heights, most in kinds:
        tally = collections.Counter()
        for _ in range(count):
            made = make()
            outcome = agrees(made.machine, heights, most)
            tally[outcome] += 1
            # tiny machines must be decided by the search
            if outcome is False or (outcome is None and name == "tiny"):
                failed = True
                print(f"differs: {line_of(made)}")
        print(f"{name}: {tally[True]} equal, {tally[None]} beyond the bounds of the search, {tally[False]} contradict")
    return failed


# ---- comparing with a program ----------------------------------------------------------------------------------

def split_answers(text):
    """The answers in a program's output: each ends with a line of counts or of refusal."""
    answers, lines = [], []
    for line in text.splitlines():
        lines.append(line)
        if line.startswith(("useful", "refused")):
            answers.append(lines)
            lines = []
    return answers + ([lines] if lines else [])


def answers_of(command, cases):
    text = "".join(case.line + "\n" for case in cases)
    outcome = subprocess.run(command, input=text, capture_output=True, text=True, check=False)
    if outcome.returncode != 0:
        print(f"the program ended with {outcome.returncode}: {outcome.stderr.strip()}")
    return split_answers(outcome.stdout)


def drawn_cases(dice, count):
    """Random cases, sifted or not, mostly small."""
    make = makers(dice)
    for _ in range(count):
        name = dice.pick(["tiny"] * 2 + ["small"] * 11 + ["grammar"] * 7 + ["long", "large"])
        yield marked_case(random_made(dice, make[name]) if dice.chance(50) else make[name]())


def compare(command, cases):
    """The number of cases that the program answers otherwise; the first few are printed."""
    answers = answers_of(command, cases)
    answers += [["nothing"]] * (len(cases) - len(answers))
    differences = [(case, answer) for case, answer in zip(cases, answers) if case.answer != answer]
    for case, answer in differences[:3]:
        print(f"{case.line}\n  expected {' | '.join(case.answer)}\n  answered {' | '.join(answer)}")
    return len(differences) + max(0, len(answers) - len(cases))


def peer_check(command, seed, count):
    dice = Dice(seed)
    differences = compare(command, fixed_cases())
    waiting = count
    while waiting:
        share = min(waiting, 1000)
        differences += compare(command, list(drawn_cases(dice, share)))
        waiting -= share
    print(f"{count} random cases and the fixed ones: {differences} differences")
    return differences > 0


# ---- the command line ------------------------------------------------------------------------------------------

def parsed_arguments():
    parser = argparse.ArgumentParser(description=__doc__, formatter_class=argparse.RawDescriptionHelpFormatter)
    parser.add_argument("files", nargs="*", type=pathlib.Path, metavar="INPUT ANSWERS")
    parser.add_argument("--self-check", type=int, metavar="COUNT", help="machines of each size to search")
    parser.add_argument("--peer", metavar="COMMAND", help="a program that reads cases and prints answers")
    parser.add_argument("--count", type=int, default=2000, help="random cases for the program")
    parser.add_argument("--seed", type=int, default=1)
    arguments = parser.parse_args()
    if arguments.self_check is None and arguments.peer is None and len(arguments.files) != 2:
        parser.error("two files are wanted")
    return arguments


def main():
    arguments = parsed_arguments()
    failed = False
    if len(arguments.files) == 2:
        write_cases(fixed_cases(), *arguments.files)
    if arguments.self_check is not None:
        failed |= self_check(arguments.seed, arguments.self_check)
    if arguments.peer is not None:
        failed |= peer_check(shlex.split(arguments.peer), arguments.seed, arguments.count)
    sys.exit(1 if failed else 0)


if __name__ == "__main__":
    main()

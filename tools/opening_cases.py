#!/usr/bin/env python3
"""Writes what the program `openings` is run on, and what it must answer.

    python3 tools/opening_cases.py

It writes crates/openings/stdin (one case a line: bytes in hexadecimal) and crates/openings/stdout (one answer a
line), and prints how many cases there are. It always writes the same. The answers come from the opening below,
which was written from the format alone; a case made by hand also says the answer that it was made for, and the
script stops where the two differ.

The format. A table is three sections, one after the other: starts, accepting states, rows. A section begins with
the number of its entries in two bytes, the high one first; then come the entries, each above the one before it.
There are at most 256 starts, 256 accepting states and 1,024 rows.

A start or an accepting state is one byte, and every byte is a state. A row is 25 bytes: the state that it goes
from, the letter, the state that it goes to, the length of the popped word, the length of the pushed word, ten
bytes for the popped word, ten bytes for the pushed word. A length is at most 10. The bytes of a word below its
length are symbols, so none of them is 0; the bytes from its length on are all 0. Of two entries that is above
whose byte is larger where they first differ.

The check goes through the bytes once, and the first fault that it meets is the answer: its number, its section
(counted from 1) and its place (counted from 0).

    1  the two bytes of a count are not there (place 0), or the bytes end within an entry
    5  a count is above the limit of its section (place 0)
    3  a row has a length above 10, a zero among its symbols, or another byte than 0 past them
    2  an entry is not above the one before it
    4  bytes remain after the rows: section 3, and the number of rows is the place

A count is asked for 1, then for 5. An entry is asked for 1, then for 3, then for 2.

The width of a table is one more than the largest state that it names, as a start, as an accepting state or at
either end of a row, and 0 where it names none.
"""

import collections
import pathlib

from random_machines import Dice

WORD = 10
ROW = 5 + 2 * WORD
MOST = (256, 256, 1024)


# ---- the opening -----------------------------------------------------------------------------------------------

class Refused(Exception):
    def __init__(self, number, section, place):
        super().__init__(f"refused {number} {section} {place}")


def word_is_lawful(length, word):
    symbols, padding = word[:length], word[length:]
    return length <= WORD and 0 not in symbols and not any(padding)


def row_is_lawful(row):
    popped, pushed = row[5:5 + WORD], row[5 + WORD:]
    return word_is_lawful(row[3], popped) and word_is_lawful(row[4], pushed)


def take_section(data, at, section):
    """The entries of the section that begins at a place of the bytes, and the place where it ends."""
    if len(data) - at < 2:
        raise Refused(1, section, 0)
    count = int.from_bytes(data[at:at + 2], "big")
    if count > MOST[section - 1]:
        raise Refused(5, section, 0)
    at += 2
    size = ROW if section == 3 else 1
    entries = []
    for place in range(count):
        entry = data[at:at + size]
        if len(entry) < size:
            raise Refused(1, section, place)
        if section == 3 and not row_is_lawful(entry):
            raise Refused(3, section, place)
        if entries and not entries[-1] < entry:
            raise Refused(2, section, place)
        entries.append(entry)
        at += size
    return entries, at


def opened(data):
    """The starts, the accepting states and the rows, each entry as bytes; or Refused."""
    starts, at = take_section(data, 0, 1)
    accepts, at = take_section(data, at, 2)
    rows, at = take_section(data, at, 3)
    if at < len(data):
        raise Refused(4, 3, len(rows))
    return starts, accepts, rows


def width(starts, accepts, rows):
    named = [entry[0] for entry in starts + accepts + rows] + [entry[2] for entry in rows]
    return max(named) + 1 if named else 0


def answer(line):
    if len(line) % 2 == 1 or not all(digit in "0123456789abcdef" for digit in line):
        return "not hexadecimal"
    try:
        starts, accepts, rows = opened(bytes.fromhex(line))
    except Refused as refused:
        return str(refused)
    return f"opens {len(starts)} {len(accepts)} {len(rows)} {width(starts, accepts, rows)}"


# ---- making tables ---------------------------------------------------------------------------------------------

def row(origin, letter, target, popped=(), pushed=(), popped_length=None, pushed_length=None):
    """The bytes of a row; a length that is given stands in place of the word's own."""
    lengths = [len(popped) if popped_length is None else popped_length,
               len(pushed) if pushed_length is None else pushed_length]
    words = bytes(popped).ljust(WORD, b"\0") + bytes(pushed).ljust(WORD, b"\0")
    return bytes([origin, letter, target, *lengths]) + words


def section(entries, count=None):
    """The bytes of a section; a count that is given stands in place of the number of entries."""
    number = len(entries) if count is None else count
    return number.to_bytes(2, "big") + b"".join(entries)


def states(*numbers):
    return [bytes([number]) for number in numbers]


def table(starts=(), accepts=(), rows=()):
    return section(starts) + section(accepts) + section(rows)


def with_byte(data, at, value):
    return data[:at] + bytes([value]) + data[at + 1:]


NONE = section([])
SAMPLE_ROWS = [
    row(0, 0, 1),
    row(0, 0x28, 0, pushed=[1]),
    row(0, 0x29, 0, popped=[1]),
    row(1, 0, 1, popped=[2]),
    row(1, 0, 2, popped=[1, 1]),
    row(3, 0, 1),
]
SAMPLE = table(states(0), states(1), SAMPLE_ROWS)


class Cases:
    """The lines of the input, each once, with their answers."""

    def __init__(self):
        self.answers = {}

    def add_line(self, line, expected=None):
        given = answer(line)
        if expected is not None and given != expected:
            raise SystemExit(f"made for '{expected}', found '{given}': {line}")
        self.answers[line] = given

    def add(self, data, expected=None):
        self.add_line(data.hex(), expected)

    def add_lawful(self, data):
        if not answer(data.hex()).startswith("opens"):
            raise SystemExit(f"a lawful table was refused: {data.hex()}")
        self.add(data)

    def add_rows(self, rows, expected):
        self.add(table(rows=rows), expected)


# ---- the cases -------------------------------------------------------------------------------------------------

def text_cases(cases):
    for line in ["0", "00000", "0g", "0A00", "00 00", " 0", "0x", "000000000000f", "-1", "0/", "0:", "0`", "0@"]:
        cases.add_line(line, "not hexadecimal")


def sample_cases(cases):
    cases.add(bytes(6), "opens 0 0 0 0")
    cases.add(SAMPLE, "opens 1 1 6 4")
    for length in range(len(SAMPLE)):
        cases.add(SAMPLE[:length])
    for value in (0, 1, 2, 0x7F, 0x80, 0xFF):
        cases.add(SAMPLE + bytes([value]), "refused 4 3 6")
        cases.add(bytes(6) + bytes([value]), "refused 4 3 0")
    cases.add(SAMPLE + row(4, 0, 0), "refused 4 3 6")
    cases.add(SAMPLE + SAMPLE, "refused 4 3 6")
    for length in range(6):
        cases.add(bytes(length), f"refused 1 {length // 2 + 1} 0")


def length_cases(cases):
    full = list(range(1, WORD + 1))
    for length in range(WORD + 1):
        cases.add_rows([row(0, 0, 0, popped=full[:length])], "opens 0 0 1 1")
        cases.add_rows([row(0, 0, 0, pushed=full[:length])], "opens 0 0 1 1")
    cases.add_rows([row(0, 0, 0, popped=full, pushed=full)], "opens 0 0 1 1")
    cases.add_rows([row(7, 255, 9, popped=[255] * WORD, pushed=[255] * WORD)], "opens 0 0 1 10")
    for length in (11, 12, 20, 21, 127, 128, 254, 255):
        for other in ([], full):
            cases.add_rows([row(0, 0, 0, full, other, popped_length=length)], "refused 3 3 0")
            cases.add_rows([row(0, 0, 0, other, full, pushed_length=length)], "refused 3 3 0")
        cases.add_rows([row(0, 0, 0, popped_length=length)], "refused 3 3 0")
        cases.add_rows([row(0, 0, 0, pushed_length=length)], "refused 3 3 0")
        cases.add_rows([row(0, 0, 0, full, full, length, length)], "refused 3 3 0")


def zero_cases(cases):
    for place in range(WORD):
        holed = [5] * WORD
        holed[place] = 0
        cases.add_rows([row(0, 0, 0, popped=holed)], "refused 3 3 0")
        cases.add_rows([row(0, 0, 0, pushed=holed)], "refused 3 3 0")
        # a length of one more than there are symbols
        cases.add_rows([row(0, 0, 0, popped=[5] * place, popped_length=place + 1)], "refused 3 3 0")
        cases.add_rows([row(0, 0, 0, pushed=[5] * place, pushed_length=place + 1)], "refused 3 3 0")
    cases.add_rows([row(0, 0, 0, popped=[1, 0, 2])], "refused 3 3 0")
    cases.add_rows([row(0, 0, 0, pushed=[0, 1])], "refused 3 3 0")


def stray_cases(cases):
    for place in range(WORD):
        for value in (1, 255):
            stray = [0] * place + [value]
            cases.add_rows([row(0, 0, 0, popped=stray, popped_length=0)], "refused 3 3 0")
            cases.add_rows([row(0, 0, 0, pushed=stray, pushed_length=0)], "refused 3 3 0")
        # a length of one less than there are symbols
        cases.add_rows([row(0, 0, 0, popped=[3] * (place + 1), popped_length=place)], "refused 3 3 0")
        cases.add_rows([row(0, 0, 0, pushed=[3] * (place + 1), pushed_length=place)], "refused 3 3 0")
    first_row = len(SAMPLE) - ROW * len(SAMPLE_ROWS)
    for place in range(len(SAMPLE_ROWS)):
        last_byte = first_row + ROW * (place + 1) - 1
        cases.add(with_byte(SAMPLE, last_byte, 1), f"refused 3 3 {place}")


def count_cases(cases):
    every = states(*range(256))
    cases.add(table(starts=every), "opens 256 0 0 256")
    cases.add(table(accepts=every), "opens 0 256 0 256")
    cases.add(table(starts=every[:255], accepts=every[1:]), "opens 255 255 0 256")
    cases.add(section(every)[:-1], "refused 1 1 255")
    cases.add(NONE + section(every)[:-1], "refused 1 2 255")
    for count in (257, 258, 512, 1024, 1025, 0x7FFF, 0x8000, 0xFF00, 0xFFFF):
        cases.add(section([], count), "refused 5 1 0")
        cases.add(NONE + section([], count), "refused 5 2 0")
    cases.add(section(every, 257), "refused 5 1 0")
    cases.add(NONE + section(every, 257), "refused 5 2 0")
    for count in (1, 2, 255, 256):
        cases.add(section([], count), "refused 1 1 0")
        cases.add(NONE + section([], count), "refused 1 2 0")


def row_count_cases(cases):
    for count in range(6):
        cases.add(NONE + NONE + section(SAMPLE_ROWS, count), f"refused 4 3 {count}")
    for count in (7, 255, 256, 257, 512, 1023, 1024):
        cases.add(NONE + NONE + section([], count), "refused 1 3 0")
        cases.add(NONE + NONE + section(SAMPLE_ROWS, count), "refused 1 3 6")
    for count in (1025, 1026, 1280, 2048, 0x7FFF, 0x8000, 0xFF00, 0xFFFF):
        cases.add(NONE + NONE + section([], count), "refused 5 3 0")
        cases.add(NONE + NONE + section(SAMPLE_ROWS, count), "refused 5 3 0")
    rows = [row(number // 256, number % 256, 0) for number in range(1024)]
    cases.add_rows(rows, "opens 0 0 1024 4")


def around(entries, place):
    """The entries with an equal pair, and with a swapped one, at a place and the one before it."""
    head, before, after, rest = entries[:place - 1], entries[place - 1], entries[place], entries[place + 1:]
    return [[*head, before, before, *rest], [*head, after, before, *rest]]


def order_cases(cases):
    for numbers in ([3, 4], [0, 1, 7, 128, 255], range(256)):
        entries = states(*numbers)
        for place in sorted({1, len(entries) // 2, len(entries) - 1}):
            for wrong in around(entries, place):
                cases.add(table(starts=wrong), f"refused 2 1 {place}")
                cases.add(table(accepts=wrong), f"refused 2 2 {place}")
                cases.add(table(entries, wrong, SAMPLE_ROWS), f"refused 2 2 {place}")
    for place in range(1, len(SAMPLE_ROWS)):
        for wrong in around(SAMPLE_ROWS, place):
            cases.add(table(states(0), states(1), wrong), f"refused 2 3 {place}")
            cases.add_rows(wrong[:place + 1], f"refused 2 3 {place}")


def first_difference_cases(cases):
    """Two rows that first differ at one of the 25 bytes, the later bytes the other way round."""
    for at in range(ROW):
        for low, high in ((1, 2), (0x7F, 0x80), (1, 0xFF)):
            if at in (3, 4):
                low, high = (9, 10)
            lower = [4, 4, 4, 10, 10] + [4] * (2 * WORD)
            upper = list(lower)
            lower[at], upper[at] = low, high
            for later in range(at + 1, ROW):
                lower[later], upper[later] = (10, 9) if later in (3, 4) else (200, 100)
            rows = [with_zeros(lower), with_zeros(upper)]
            largest = 1 + max(rows[0][0], rows[0][2], rows[1][0], rows[1][2])
            cases.add_rows(rows, f"opens 0 0 2 {largest}")
            cases.add_rows(rows[::-1], "refused 2 3 1")


def with_zeros(numbers):
    """The row of these numbers, with zeros from the lengths of its words on."""
    head, popped, pushed = numbers[:5], numbers[5:5 + WORD], numbers[5 + WORD:]
    return row(*head[:3], popped[:head[3]], pushed[:head[4]])


def last_byte_cases(cases):
    """Rows that differ in their last byte alone."""
    rows = [row(0, 0, 0, pushed=[1] * 9 + [last]) for last in (1, 2, 127, 128, 255)]
    cases.add_rows(rows, "opens 0 0 5 1")
    for place in range(1, len(rows)):
        for wrong in around(rows, place):
            cases.add_rows(wrong, f"refused 2 3 {place}")


def precedence_cases(cases):
    """Several faults at once: the one that the check meets first is told."""
    high, low = row(9, 0, 0), row(1, 0, 0)
    broken = row(0, 0, 0, popped=[1, 0])
    # in one entry: not whole, then its limits, then its order
    cases.add_rows([high, broken], "refused 3 3 1")
    for cut in range(1, ROW + 1):
        cases.add(table(rows=[high, broken])[:-cut], "refused 1 3 1")
        cases.add(table(rows=[high, low])[:-cut], "refused 1 3 1")
        cases.add(table(rows=[broken])[:-cut], "refused 1 3 0")
    # the earlier place, whatever the faults are
    cases.add_rows([high, low, broken], "refused 2 3 1")
    cases.add_rows([high, broken, low], "refused 3 3 1")
    cases.add_rows([broken, high, low], "refused 3 3 0")
    cases.add_rows([low, high, low, broken, low], "refused 2 3 2")
    cases.add(table(rows=[high, low, high])[:-1], "refused 2 3 1")
    cases.add(table(rows=[high, broken, high])[:-1], "refused 3 3 1")
    cases.add(section(states(5, 5, 4)), "refused 2 1 1")
    cases.add(section(states(5, 5), 3), "refused 2 1 1")
    cases.add(section(states(4, 5), 3), "refused 1 1 2")
    # bytes that remain come last
    for rest in (b"\0", b"\xff", low):
        cases.add(table(rows=[high, low]) + rest, "refused 2 3 1")
        cases.add(table(rows=[low, broken]) + rest, "refused 3 3 1")
        cases.add(table(starts=states(2, 1)) + rest, "refused 2 1 1")
        cases.add(table(accepts=states(2, 1)) + rest, "refused 2 2 1")
        cases.add(table(rows=[low, high]) + rest, "refused 4 3 2")


def section_cases(cases):
    """Faults in several sections, and counts with faults of their own: the earlier section is told."""
    too_many = section([], 0xFFFF)
    broken = section([row(0, 0, 0, pushed_length=11)])
    cases.add(section(states(2, 1)) + too_many, "refused 2 1 1")
    cases.add(section(states(1, 2)) + too_many + broken, "refused 5 2 0")
    cases.add(NONE + section(states(2, 2)) + too_many, "refused 2 2 1")
    cases.add(NONE + section(states(2, 3)) + too_many, "refused 5 3 0")
    cases.add(too_many + too_many + too_many, "refused 5 1 0")
    cases.add(NONE + section(states(3, 2)) + broken, "refused 2 2 1")
    cases.add(NONE + section(states(2, 3)) + broken, "refused 3 3 0")
    # half a count is not whole, even where its high byte alone is too much
    for half in (b"\0", b"\1", b"\2", b"\4", b"\5", b"\xff"):
        cases.add(half, "refused 1 1 0")
        cases.add(NONE + half, "refused 1 2 0")
        cases.add(NONE + NONE + half, "refused 1 3 0")
    # a count above its limit, and entries that do not follow, descend or are broken
    cases.add(b"\1\1", "refused 5 1 0")
    cases.add(section(states(2, 1), 257), "refused 5 1 0")
    cases.add(NONE + section(states(2, 1), 257), "refused 5 2 0")
    cases.add(NONE + NONE + b"\4\1", "refused 5 3 0")
    cases.add(NONE + NONE + section([row(0, 0, 0, popped_length=11)], 1025), "refused 5 3 0")


def width_cases(cases):
    """The largest state at each of the four kinds of places."""
    for state in (0, 1, 127, 128, 254, 255):
        cases.add(table(starts=states(state)), f"opens 1 0 0 {state + 1}")
        cases.add(table(accepts=states(state)), f"opens 0 1 0 {state + 1}")
        cases.add_rows([row(state, 0, 0)], f"opens 0 0 1 {state + 1}")
        cases.add_rows([row(0, 0, state)], f"opens 0 0 1 {state + 1}")
        cases.add_rows([row(0, 0, state), row(0, 1, 0)], f"opens 0 0 2 {state + 1}")
    # letters and symbols are no states
    cases.add_rows([row(0, 255, 0, [255], [255])], "opens 0 0 1 1")
    cases.add(table(states(2), states(5), [row(3, 0, 4)]), "opens 1 1 1 6")
    cases.add(table(states(5), states(2), [row(4, 0, 3)]), "opens 1 1 1 6")


def random_states(dice):
    most = dice.pick([4, 16, 256])
    return states(*sorted({dice.below(most) for _ in range(dice.below(7))}))


def random_row(dice):
    most_states, most_letters = dice.pick([2, 5, 256]), dice.pick([2, 256])
    popped, pushed = (dice.bytes(dice.pick([0, 0, 1, 2, dice.below(WORD + 1)]), 1, dice.pick([2, 255]))
                      for _ in range(2))
    return row(dice.below(most_states), dice.below(most_letters), dice.below(most_states), popped, pushed)


def random_table(dice, most_rows):
    rows = {random_row(dice) for _ in range(most_rows)}
    return table(random_states(dice), random_states(dice), sorted(rows))


def random_cases(cases):
    dice = Dice(20)
    for _ in range(50):
        cases.add_lawful(random_table(dice, dice.below(9)))
    for _ in range(6):
        lawful = random_table(dice, 10)
        cases.add_lawful(lawful)
        for _ in range(40):
            at = dice.below(len(lawful))
            change = dice.pick([1, 255, 1 + dice.below(255)])
            cases.add(with_byte(lawful, at, (lawful[at] + change) % 256))


def kind_of(given):
    words = given.split()
    return words[0] if words[0] == "opens" else " ".join(words[:2])


def main():
    cases = Cases()
    for group in (text_cases, sample_cases, length_cases, zero_cases, stray_cases, count_cases, row_count_cases,
                  order_cases, first_difference_cases, last_byte_cases, precedence_cases, section_cases,
                  width_cases, random_cases):
        group(cases)
    crate = pathlib.Path(__file__).resolve().parent.parent / "crates" / "openings"
    (crate / "stdin").write_text("".join(line + "\n" for line in cases.answers))
    (crate / "stdout").write_text("".join(given + "\n" for given in cases.answers.values()))
    kinds = collections.Counter(kind_of(given) for given in cases.answers.values())
    print(f"{len(cases.answers)} cases: " + ", ".join(f"{kind} {kinds[kind]}" for kind in sorted(kinds)))


if __name__ == "__main__":
    main()

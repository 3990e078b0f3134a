"""Machines that are hard to mark, most of them random, and the bytes of tables and grammars.

A machine drawn blindly is mostly unreachable. So most rows here are those of a walk: it goes from configuration to
configuration and takes for each step a row that applies. Other rows are made of these by a small change, so that
many of them just fail to apply.
"""

from marking_reference import Machine, Row

WORD = 10
BOTTOM = 255


class Dice:
    """Numbers that look random and are the same on every machine."""

    def __init__(self, seed):
        self.state = seed

    def below(self, limit):
        self.state = (self.state * 6364136223846793005 + 1442695040888963407) % 2 ** 64
        return (self.state >> 33) % limit

    def pick(self, choices):
        return choices[self.below(len(choices))]

    def chance(self, percent):
        return self.below(100) < percent

    def between(self, low, high):
        return low + self.below(high - low + 1)

    def bytes(self, length, low, high):
        return [self.between(low, high) for _ in range(length)]

    def some(self, choices, count):
        """As many different ones of the choices, or all of them."""
        left, taken = list(choices), []
        while left and len(taken) < count:
            taken.append(left.pop(self.below(len(left))))
        return taken


# ---- bytes -----------------------------------------------------------------------------------------------------

def padded(word):
    return bytes(word).ljust(WORD, b"\0")


def row_bytes(row):
    lengths = [len(row.popped), len(row.pushed)]
    return bytes([row.source, row.letter, row.target, *lengths]) + padded(row.popped) + padded(row.pushed)


def rule_bytes(rule):
    left, right = rule
    return bytes([left, len(right)]) + padded(right)


def section(entries):
    return len(entries).to_bytes(2, "big") + b"".join(entries)


def single_bytes(numbers):
    return [bytes([number]) for number in sorted(set(numbers))]


def three_sections(first, second, third):
    return section(single_bytes(first)) + section(single_bytes(second)) + section(third)


class Table:
    """A lawful table: entries ascend by their bytes, and none stands twice."""

    kind = "table"

    def __init__(self, starts, accepts, rows):
        rows = sorted(set(rows), key=row_bytes)
        self.machine = Machine(sorted(set(starts)), sorted(set(accepts)), rows)

    def bytes(self):
        machine = self.machine
        return three_sections(machine.starts, machine.accepts, [row_bytes(row) for row in machine.rows])


class Grammar:
    """A lawful grammar; a rule is its left symbol and its right side."""

    kind = "grammar"

    def __init__(self, starts, terminals, rules):
        self.starts, self.terminals = sorted(set(starts)), sorted(set(terminals))
        self.rules = sorted(set(rules), key=rule_bytes)
        rows = [Row(0, 0, 1, (), (symbol, BOTTOM)) for symbol in self.starts]
        rows += [Row(1, 0, 1, (left,), right) for left, right in self.rules]
        rows += [Row(1, symbol, 1, (symbol,), ()) for symbol in self.terminals]
        rows += [Row(1, 0, 2, (BOTTOM,), ())]
        self.machine = Machine([0], [2], rows)

    def bytes(self):
        return three_sections(self.starts, self.terminals, [rule_bytes(rule) for rule in self.rules])


# ---- tables ----------------------------------------------------------------------------------------------------

class Shape:
    """How large the machine is to be, and how its words are drawn."""

    def __init__(self, states, symbols, rows, popped, pushed, letters=(0, 0, 0, 1, 40)):
        self.states, self.symbols, self.rows = states, symbols, rows
        self.popped, self.pushed, self.letters = popped, pushed, letters

    def word(self, dice, length):
        return tuple(dice.pick(self.symbols) for _ in range(length))

    def pushed_word(self, dice):
        return self.word(dice, dice.pick(self.pushed))

    def blind_row(self, dice):
        return Row(dice.pick(self.states), dice.pick(self.letters), dice.pick(self.states),
                   self.word(dice, dice.pick(self.popped)), self.pushed_word(dice))


def small_shape(dice):
    return Shape(states=state_names(dice, dice.between(1, 5)), symbols=symbol_names(dice, dice.between(1, 3)),
                 rows=dice.between(1, 14), popped=dice.pick([[0, 1, 1, 2], [0, 1, 2, 3, 4], [1, 2, 2, 3]]),
                 pushed=dice.pick([[0, 1, 1, 2], [0, 1, 2, 3, 4], [0, 0, 2, 3]]))


def tiny_shape(dice):
    """So small that a search finds every mark."""
    return Shape(states=range(dice.between(1, 3)), symbols=range(1, dice.between(1, 2) + 1),
                 rows=dice.between(1, 6), popped=[0, 1, 1, 2, 3], pushed=[0, 0, 1, 1, 2, 3])


def long_shape(dice):
    return Shape(states=range(dice.between(2, 5)), symbols=range(1, dice.between(1, 2) + 1),
                 rows=dice.between(4, 12), popped=[0, 1, 5, 9, 10, 10], pushed=[0, 5, 9, 10, 10])


def large_shape(dice):
    return Shape(states=state_names(dice, 10), symbols=symbol_names(dice, dice.between(2, 5)),
                 rows=dice.between(30, 60), popped=[0, 1, 1, 1, 2, 3], pushed=[0, 0, 1, 1, 2, 3, 4])


def state_names(dice, count):
    """The first states, or now and then some far apart."""
    if dice.chance(85):
        return range(count)
    return dice.some([0, 1, 2, 3, 7, 31, 63, 64, 127, 128, 254, 255], count)


def symbol_names(dice, count):
    if dice.chance(75):
        return range(1, count + 1)
    return dice.some([1, 2, 15, 16, 17, 64, 127, 128, 254, 255], count)


class Walk:
    """Configurations in turn, and a row for each step."""

    def __init__(self, dice, shape, start):
        self.dice, self.shape = dice, shape
        self.state, self.stack = start, ()
        self.rows = []

    def step(self):
        dice, shape = self.dice, self.shape
        depth = min(dice.pick(shape.popped), len(self.stack))
        pushed = shape.pushed_word(dice) if len(self.stack) < 2 * WORD else ()
        row = Row(self.state, dice.pick(shape.letters), dice.pick(shape.states), self.stack[:depth], pushed)
        self.rows.append(row)
        self.state, self.stack = row.target, pushed + self.stack[depth:]


def walked_rows(dice, shape, starts):
    rows = []
    while len(rows) < shape.rows:
        walk = Walk(dice, shape, dice.pick(starts))
        for _ in range(dice.between(1, shape.rows)):
            walk.step()
        rows += walk.rows
    return rows[:shape.rows]


def changed_word(dice, shape, word):
    """The word with a symbol more, a symbol less or another symbol."""
    at = dice.below(len(word) + 1)
    change = dice.below(3)
    if change == 0 and len(word) < WORD:
        return word[:at] + shape.word(dice, 1) + word[at:]
    if change == 1:
        return word[:at] + word[at + 1:]
    return word[:at] + shape.word(dice, len(word[at:at + 1])) + word[at + 1:]


def changed_row(dice, shape, rows):
    """A row like one of these but for one part, or one that pops what another pushes."""
    row, other = dice.pick(rows), dice.pick(rows)
    ways = [
        lambda: row._replace(letter=dice.below(256)),
        lambda: row._replace(source=dice.pick(shape.states)),
        lambda: row._replace(target=dice.pick(shape.states)),
        lambda: row._replace(popped=changed_word(dice, shape, row.popped)),
        lambda: row._replace(pushed=changed_word(dice, shape, row.pushed)),
        lambda: row._replace(popped=row.popped[::-1]),
        lambda: row._replace(popped=row.pushed),
        lambda: row._replace(popped=row.pushed[:1] + row.popped),
        lambda: row._replace(popped=row.popped[1:]),
        lambda: row._replace(source=other.target, popped=other.pushed),
        # across the border of two pushed words
        lambda: row._replace(source=other.target, popped=other.pushed + row.pushed[:2]),
        lambda: shape.blind_row(dice),
    ]
    made = dice.pick(ways)()
    return made._replace(popped=made.popped[:WORD])


def random_table(dice, shape):
    starts = dice.some(shape.states, dice.pick([1, 1, 1, 2, 3]))
    rows = walked_rows(dice, shape, starts)
    keep = dice.between(1, len(rows))
    rows = rows[:keep]
    while len(rows) < shape.rows:
        rows.append(changed_row(dice, shape, rows))
    if dice.chance(3):
        starts = []
    accepts = dice.some(shape.states, dice.pick([1, 1, 1, 2, 2, 0] if dice.chance(20) else [1]))
    return Table(starts, accepts, rows)


# ---- lines of states -------------------------------------------------------------------------------------------

def symbol_at(height):
    return height % 200 + 1


def chain_rows(states):
    """Pushes up to the middle, and then pops all of it; an even number of states leaves one plain row between."""
    height = (states - 1) // 2
    top = states - 1 - height
    pushes = [Row(at, 0, at + 1, (), (symbol_at(at),)) for at in range(height)]
    plain = [Row(at, 0, at + 1, (), ()) for at in range(height, top)]
    pops = [Row(at, 0, at + 1, (symbol_at(states - 2 - at),), ()) for at in range(top, states - 1)]
    return pushes + plain + pops


def ladder_rows(states):
    """Each state pushes on the way up and pops on the way down, so that very many configurations meet."""
    up = [Row(at, 0, at + 1, (), (symbol_at(at),)) for at in range(states - 1)]
    down = [Row(at + 1, 0, at, (symbol_at(at),), ()) for at in range(states - 1)]
    return up + down


def renamed(rows, names):
    return [row._replace(source=names[row.source], target=names[row.target]) for row in rows]


def line_table(rows, names):
    """Rows of a table ascend by their source, so the names of the states decide the order of the rows."""
    last = max(row.target for row in rows)
    return Table([names[0]], [names[last]], renamed(rows, names))


# ---- grammars --------------------------------------------------------------------------------------------------

def random_grammar(dice, most_rules=12):
    names = dice.some(range(1, 12), 12) if dice.chance(70) else dice.some(range(1, 255), 12)
    nonterminals, names = names[:dice.between(1, 6)], names[6:]
    terminals, undefined = names[:dice.between(1, 4)], names[4:5]
    right_symbols = nonterminals * dice.between(1, 2) + terminals * dice.between(1, 2) + undefined * dice.below(2)
    lengths = dice.pick([[0, 1, 2, 3, 4], [1, 1, 2, 2, 3], [0, 1, 2], [2, 3, 4]])
    rules = []
    for _ in range(dice.between(1, most_rules)):
        right = tuple(dice.pick(right_symbols) for _ in range(dice.pick(lengths)))
        rules.append((dice.pick(nonterminals), right))
    return Grammar(dice.some(nonterminals, dice.pick([1, 1, 1, 2, 0] if dice.chance(20) else [1])), terminals, rules)

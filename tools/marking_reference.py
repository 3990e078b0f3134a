"""Which rows of a machine are reachable and which are useful, found in two ways that share nothing.

`Reference` decides it with two finite automata over stacks, as in Bouajjani, Esparza and Maler, "Reachability
analysis of pushdown automata": one accepts the configurations that some run reaches (post*), the other those from
which some accepting state is reached (pre*). `Search` looks at configurations one by one, up to a height of the
stack. It can miss a run, and finds none that is not there.

A row applies in its source state to a stack that begins, at the top, with its popped word, and puts its pushed word
in that word's place. A run begins at a start with the empty stack; it is accepting if it ends in an accepting
state, with any stack. Letters never stop a run.
"""

import collections

# words are tuples of symbols, the one nearest the top of the stack first
Row = collections.namedtuple("Row", "source letter target popped pushed")
Machine = collections.namedtuple("Machine", "starts accepts rows")
Findings = collections.namedtuple("Findings", "marks starts accepts")

UNREACHABLE, REACHABLE, USEFUL = 0, 1, 2


# ---- the automata ----------------------------------------------------------------------------------------------

def members(mask):
    """The numbers whose bits are set, from the lowest."""
    while mask:
        lowest = mask & -mask
        yield lowest.bit_length() - 1
        mask ^= lowest


class Automaton:
    """A finite automaton: edges that read one symbol, and silent edges, kept as what they lead to in the end."""

    def __init__(self, count):
        self.silent = [1 << state for state in range(count)]
        self.reads = [{} for _ in range(count)]

    def add_read(self, source, symbol, target):
        self.reads[source][symbol] = self.reads[source].get(symbol, 0) | 1 << target

    def add_silent(self, source, target):
        """Whether the silent edge leads somewhere new."""
        if self.silent[source] >> target & 1:
            return False
        for state, reached in enumerate(self.silent):
            if reached >> source & 1:
                self.silent[state] |= self.silent[target]
        return True

    def spread(self, mask):
        result = 0
        for state in members(mask):
            result |= self.silent[state]
        return result

    def step(self, mask, symbol):
        """The states to which an edge reads the symbol from one of these; no silent edge before or after it."""
        result = 0
        for state in members(mask):
            result |= self.reads[state].get(symbol, 0)
        return result

    def after(self, state, word):
        mask = self.silent[state]
        for symbol in word:
            mask = self.spread(self.step(mask, symbol))
        return mask

    def saturate(self, wants):
        """Adds silent edges until for each want (through, symbol, at) there is one from `at` to every state to
        which the symbol is read from `through`."""
        changed = True
        while changed:
            changed = False
            for through, symbol, at in wants:
                for target in members(self.step(self.silent[through], symbol)):
                    changed |= self.add_silent(at, target)


def shared(left, right, left_end, right_end):
    """For each state of the left automaton, the states of the right one from which some common word is accepted."""
    right_before = transposed(right.silent)
    left_before = transposed(left.silent)
    into, backward = read_edges_by_target(left), read_edges_by_symbol(right)
    result = [0] * len(left.silent)
    waiting = set()

    def grow(state, gain):
        if gain & ~result[state]:
            result[state] |= gain
            waiting.add(state)

    for state in members(left_before[left_end]):
        grow(state, right_before[right_end])
    while waiting:
        target = waiting.pop()
        for source, symbol in into[target]:
            gain = 0
            for right_source, right_targets in backward[symbol]:
                if right_targets & result[target]:
                    gain |= right_before[right_source]
            for state in members(left_before[source]):
                grow(state, gain)
    return result


def transposed(lines):
    result = [0] * len(lines)
    for number, line in enumerate(lines):
        for other in members(line):
            result[other] |= 1 << number
    return result


def read_edges_by_target(automaton):
    result = [[] for _ in automaton.reads]
    for source, edges in enumerate(automaton.reads):
        for symbol, targets in edges.items():
            for target in members(targets):
                result[target].append((source, symbol))
    return result


def read_edges_by_symbol(automaton):
    result = collections.defaultdict(list)
    for source, edges in enumerate(automaton.reads):
        for symbol, targets in edges.items():
            result[symbol].append((source, targets))
    return result


# ---- the reference ---------------------------------------------------------------------------------------------

class Steps:
    """The rows cut into steps of one symbol, through fresh states.

    A fresh state has one way on, to the end of its row, and none of them accepts. So from one state of the machine
    to the next the steps do exactly what the rows do.
    """

    def __init__(self, machine):
        named = set(machine.starts) | set(machine.accepts)
        for row in machine.rows:
            named |= {row.source, row.target}
        self.number = {state: number for number, state in enumerate(sorted(named))}
        self.count = len(named)
        self.pops, self.pushes, self.skips = [], [], []
        for row in machine.rows:
            self.cut(row)

    def fresh(self):
        self.count += 1
        return self.count - 1

    def cut(self, row):
        at = self.number[row.source]
        for symbol in row.popped:
            following = self.fresh()
            self.pops.append((at, symbol, following))
            at = following
        for symbol in reversed(row.pushed):
            following = self.fresh()
            self.pushes.append((at, symbol, following))
            at = following
        self.skips.append((at, self.number[row.target]))


class Reference:
    """The two automata of a machine. Each accepts, from a state of the steps, the stacks that go with that state;
    an edge says that the stacks of its target, with its symbol on top, are stacks of its source."""

    def __init__(self, machine):
        self.machine = machine
        self.steps = Steps(machine)
        self.end = self.steps.count
        self.reached = self.make_reached()
        self.leading = self.make_leading()
        self.common = shared(self.reached, self.leading, self.end, self.end)

    def make_reached(self):
        """The configurations that a run reaches: post* of the starts with the empty stack."""
        automaton = Automaton(self.end + 1)
        for start in self.machine.starts:
            automaton.add_silent(self.steps.number[start], self.end)
        for source, target in self.steps.skips:
            automaton.add_silent(target, source)
        for source, symbol, target in self.steps.pushes:
            automaton.add_read(target, symbol, source)
        automaton.saturate(self.steps.pops)
        return automaton

    def make_leading(self):
        """The configurations that lead to acceptance: pre* of the accepting states with every stack."""
        automaton = Automaton(self.end + 1)
        for row in self.machine.rows:
            for symbol in row.popped + row.pushed:
                automaton.add_read(self.end, symbol, self.end)
        for accept in self.machine.accepts:
            automaton.add_silent(self.steps.number[accept], self.end)
        for source, target in self.steps.skips:
            automaton.add_silent(source, target)
        for source, symbol, target in self.steps.pops:
            automaton.add_read(source, symbol, target)
        automaton.saturate([(target, symbol, source) for source, symbol, target in self.steps.pushes])
        return automaton

    def is_reached(self, mask):
        """Whether one of these states of the first automaton has a stack at all; the end of the second has all."""
        return any(self.common[state] >> self.end & 1 for state in members(mask))

    def mark(self, row):
        below = self.reached.after(self.steps.number[row.source], row.popped)
        if not self.is_reached(below):
            return UNREACHABLE
        onward = self.leading.after(self.steps.number[row.target], row.pushed)
        useful = any(self.common[state] & onward for state in members(below))
        return USEFUL if useful else REACHABLE

    def findings(self):
        number = self.steps.number
        marks = [self.mark(row) for row in self.machine.rows]
        starts = {start for start in self.machine.starts if self.leading.silent[number[start]] >> self.end & 1}
        accepts = {accept for accept in self.machine.accepts if self.is_reached(1 << number[accept])}
        return Findings(marks, starts, accepts)


def marks_of(machine):
    return Reference(machine).findings().marks


# ---- the search ------------------------------------------------------------------------------------------------

class Search:
    """The configurations found from the starts, and the moves between them. From one that is higher than a height,
    or past a number, the search does not go on; `whole` says that there was none such."""

    def __init__(self, machine, height, most):
        self.machine = machine
        self.height, self.most = height, most
        self.whole = True
        self.moves = []
        self.found = {(start, ()) for start in machine.starts}
        self.explore()

    def explore(self):
        waiting = collections.deque(self.found)
        while waiting:
            before = waiting.popleft()
            for place, after in self.moves_from(before):
                self.moves.append((before, place, after))
                if after in self.found:
                    continue
                self.found.add(after)
                if len(after[1]) > self.height or len(self.found) > self.most:
                    self.whole = False
                else:
                    waiting.append(after)

    def moves_from(self, configuration):
        state, stack = configuration
        for place, row in enumerate(self.machine.rows):
            depth = len(row.popped)
            if row.source == state and stack[:depth] == row.popped:
                yield place, (row.target, row.pushed + stack[depth:])

    def accepting(self):
        """The configurations from which an accepting state was found."""
        before = collections.defaultdict(list)
        for source, _, target in self.moves:
            before[target].append(source)
        result = {configuration for configuration in self.found if configuration[0] in self.machine.accepts}
        waiting = list(result)
        while waiting:
            for source in before[waiting.pop()]:
                if source not in result:
                    result.add(source)
                    waiting.append(source)
        return result

    def findings(self):
        accepting = self.accepting()
        marks = [UNREACHABLE] * len(self.machine.rows)
        for _, place, after in self.moves:
            marks[place] = max(marks[place], USEFUL if after in accepting else REACHABLE)
        starts = {start for start in self.machine.starts if (start, ()) in accepting}
        reached = {state for state, _ in self.found}
        return Findings(marks, starts, {accept for accept in self.machine.accepts if accept in reached})


def within(searched, findings):
    """Whether a search found nothing beyond these findings."""
    return (all(mark <= other for mark, other in zip(searched.marks, findings.marks))
            and searched.starts <= findings.starts and searched.accepts <= findings.accepts)

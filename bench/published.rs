//! Marks the rows of machines by the published algorithm: D. Grune, W. Fokkink, E. Chatzikalymnios, B. Hond and
//! P. Rutgers, "Detecting Useless Transitions in Pushdown Automata" (LATA 2017), with both optimizations of its
//! section 5. It is the peer of the benchmark, and is built by `rustc --edition 2021 -O -C target-cpu=native`.
//!
//! Each line of the input is `table HEX` or `grammar HEX`. For each the listing is written, or the refusal.
//!
//! What was adapted:
//! - The paper has one initial state. Here a fresh one has a transition to each start, popping and pushing nothing.
//! - The paper reports useless transitions. Here a row that the forward procedure leaves unreachable has mark 0, one
//!   that only the backward procedure finds useless has 1, and any other 2. Where no accepting state is reached, the
//!   paper reports all and stops; here the rows that are reachable still have 1.
//! - Rows that differ in their letter alone stay apart, as letters count for nothing and each row wants its mark.
//!
//! What the paper leaves open was chosen so:
//! - The sets B(s) are lines of a bit matrix, kept closed each time that a silent edge is added.
//! - For the backward procedure, transitions are listed by the first state of their path in the NFA, and the memory
//!   of step 3.3 is kept for each state q and each word still to be read before q: there no state is left twice.

use std::collections::HashMap;
use std::fmt::Write as _;
use std::io::{self, Read, Write};

// ---- bytes -----------------------------------------------------------------------------------------------------

const WORD: usize = 10;
const BOTTOM_OF_GRAMMAR: u8 = 255;

/// The number of the rule that was broken, the section and the place.
struct Fault(usize, usize, usize);

struct Machine {
    starts: Vec<u8>,
    accepts: Vec<u8>,
    rows: Vec<Row>,
}

/// Words have the symbol nearest the top of the stack first.
struct Row {
    from: u8,
    to: u8,
    popped: Vec<u8>,
    pushed: Vec<u8>,
}

/// How the entries of a section are checked.
struct Sort {
    most: usize,
    size: usize,
    lawful: fn(&[u8]) -> bool,
}

const STATES: Sort = Sort {
    most: 256,
    size: 1,
    lawful: |_| true,
};
const ROWS: Sort = Sort {
    most: 1024,
    size: 5 + 2 * WORD,
    lawful: row_is_lawful,
};
const SYMBOLS: Sort = Sort {
    most: 254,
    size: 1,
    lawful: |entry| is_symbol(entry[0]),
};
const RULES: Sort = Sort {
    most: 512,
    size: 2 + WORD,
    lawful: rule_is_lawful,
};

fn is_symbol(byte: u8) -> bool {
    (1..=254).contains(&byte)
}

fn word_is_lawful(length: u8, word: &[u8]) -> bool {
    let length = usize::from(length);
    length <= WORD && !word[..length].contains(&0) && word[length..].iter().all(|&byte| byte == 0)
}

fn row_is_lawful(entry: &[u8]) -> bool {
    word_is_lawful(entry[3], &entry[5..15]) && word_is_lawful(entry[4], &entry[15..])
}

fn rule_is_lawful(entry: &[u8]) -> bool {
    is_symbol(entry[0]) && word_is_lawful(entry[1], &entry[2..]) && !entry[2..].contains(&255)
}

/// The entries of the section at the front of the bytes, which are then cut off.
fn take_section<'a>(
    rest: &mut &'a [u8],
    section: usize,
    sort: &Sort,
) -> Result<Vec<&'a [u8]>, Fault> {
    let [high, low, behind @ ..] = *rest else {
        return Err(Fault(1, section, 0));
    };
    let count = usize::from(u16::from_be_bytes([*high, *low]));
    if count > sort.most {
        return Err(Fault(5, section, 0));
    }
    let mut entries: Vec<&[u8]> = Vec::with_capacity(count);
    *rest = behind;
    for place in 0..count {
        if rest.len() < sort.size {
            return Err(Fault(1, section, place));
        }
        let (entry, behind) = rest.split_at(sort.size);
        if !(sort.lawful)(entry) {
            return Err(Fault(3, section, place));
        }
        if entries.last().is_some_and(|before| *before >= entry) {
            return Err(Fault(2, section, place));
        }
        entries.push(entry);
        *rest = behind;
    }
    Ok(entries)
}

fn take_sections<'a>(data: &'a [u8], sorts: [&Sort; 3]) -> Result<[Vec<&'a [u8]>; 3], Fault> {
    let mut rest = data;
    let first = take_section(&mut rest, 1, sorts[0])?;
    let second = take_section(&mut rest, 2, sorts[1])?;
    let third = take_section(&mut rest, 3, sorts[2])?;
    if rest.is_empty() {
        Ok([first, second, third])
    } else {
        Err(Fault(4, 3, third.len()))
    }
}

fn first_bytes(entries: &[&[u8]]) -> Vec<u8> {
    entries.iter().map(|entry| entry[0]).collect()
}

fn word(length: u8, bytes: &[u8]) -> Vec<u8> {
    bytes[..usize::from(length)].to_vec()
}

fn table(data: &[u8]) -> Result<Machine, Fault> {
    let [starts, accepts, rows] = take_sections(data, [&STATES, &STATES, &ROWS])?;
    let row = |entry: &&[u8]| Row {
        from: entry[0],
        to: entry[2],
        popped: word(entry[3], &entry[5..]),
        pushed: word(entry[4], &entry[15..]),
    };
    Ok(Machine {
        starts: first_bytes(&starts),
        accepts: first_bytes(&accepts),
        rows: rows.iter().map(row).collect(),
    })
}

fn grammar(data: &[u8]) -> Result<Machine, Fault> {
    let [starts, terminals, rules] = take_sections(data, [&SYMBOLS, &SYMBOLS, &RULES])?;
    let (starts, terminals) = (first_bytes(&starts), first_bytes(&terminals));
    if let Some(place) = starts.iter().position(|start| terminals.contains(start)) {
        return Err(Fault(6, 1, place));
    }
    if let Some(place) = rules.iter().position(|rule| terminals.contains(&rule[0])) {
        return Err(Fault(6, 3, place));
    }
    let row = |from, to, popped, pushed| Row {
        from,
        to,
        popped,
        pushed,
    };
    let mut rows = Vec::new();
    rows.extend(
        starts
            .iter()
            .map(|&start| row(0, 1, vec![], vec![start, BOTTOM_OF_GRAMMAR])),
    );
    rows.extend(
        rules
            .iter()
            .map(|rule| row(1, 1, vec![rule[0]], word(rule[1], &rule[2..]))),
    );
    rows.extend(
        terminals
            .iter()
            .map(|&terminal| row(1, 1, vec![terminal], vec![])),
    );
    rows.push(row(1, 2, vec![BOTTOM_OF_GRAMMAR], vec![]));
    Ok(Machine {
        starts: vec![0],
        accepts: vec![2],
        rows,
    })
}

// ---- bit sets --------------------------------------------------------------------------------------------------

const BITS: usize = u64::BITS as usize;

#[derive(Clone)]
struct BitSet {
    words: Vec<u64>,
}

impl BitSet {
    fn new(capacity: usize) -> BitSet {
        BitSet {
            words: vec![0; capacity.div_ceil(BITS)],
        }
    }

    fn contains(&self, element: usize) -> bool {
        self.words[element / BITS] >> (element % BITS) & 1 == 1
    }

    /// Whether the element is new.
    fn insert(&mut self, element: usize) -> bool {
        let word = &mut self.words[element / BITS];
        let before = *word;
        *word |= 1 << (element % BITS);
        *word != before
    }

    fn absorb(&mut self, other: &BitSet) {
        for (word, more) in self.words.iter_mut().zip(&other.words) {
            *word |= more;
        }
    }
}

/// Calls with each number whose bit is set in this word, which is the word at a place of a set.
fn each_element(place: usize, mut word: u64, mut call: impl FnMut(usize)) {
    while word != 0 {
        call(place * BITS + word.trailing_zeros() as usize);
        word &= word - 1;
    }
}

// ---- the automaton without input -------------------------------------------------------------------------------

/// No row has this symbol; it lies below every stack.
const BOTTOM: u8 = 0;

struct Transition {
    from: usize,
    to: usize,
    popped: Vec<u8>,
    pushed: Vec<u8>,
}

/// The automaton P0 of the paper. Its first transitions are the rows, in their order.
struct Pushdown {
    states: usize,
    initial: usize,
    last: usize,
    transitions: Vec<Transition>,
}

impl Pushdown {
    fn new(machine: &Machine) -> Pushdown {
        let ends = machine.rows.iter().flat_map(|row| [row.from, row.to]);
        let named = ends
            .chain(machine.starts.iter().copied())
            .chain(machine.accepts.iter().copied());
        let width = named.max().map_or(0, |largest| usize::from(largest) + 1);
        let (initial, emptying, last) = (width, width + 1, width + 2);
        let mut transitions: Vec<Transition> =
            machine.rows.iter().map(Transition::of_row).collect();
        for &start in &machine.starts {
            transitions.push(Transition::popping(initial, usize::from(start), vec![]));
        }
        for &accept in &machine.accepts {
            transitions.push(Transition::popping(usize::from(accept), emptying, vec![]));
        }
        for symbol in symbols(machine) {
            transitions.push(Transition::popping(emptying, emptying, vec![symbol]));
        }
        transitions.push(Transition::popping(emptying, last, vec![BOTTOM]));
        Pushdown {
            states: width + 3,
            initial,
            last,
            transitions,
        }
    }
}

impl Transition {
    fn of_row(row: &Row) -> Transition {
        Transition {
            from: usize::from(row.from),
            to: usize::from(row.to),
            popped: row.popped.clone(),
            pushed: row.pushed.clone(),
        }
    }

    fn popping(from: usize, to: usize, popped: Vec<u8>) -> Transition {
        Transition {
            from,
            to,
            popped,
            pushed: vec![],
        }
    }
}

fn symbols(machine: &Machine) -> impl Iterator<Item = u8> {
    let mut used = [false; 256];
    for row in &machine.rows {
        for &symbol in row.popped.iter().chain(&row.pushed) {
            used[usize::from(symbol)] = true;
        }
    }
    (1..=255).filter(move |&symbol| used[usize::from(symbol)])
}

// ---- the NFA of the stacks -------------------------------------------------------------------------------------

/// The NFA N of the paper. The states of the pushdown automaton keep their numbers and are the final ones; then
/// comes the state m0, then the others. Each of these has exactly one edge that reads a symbol.
struct Nfa {
    finals: usize,
    capacity: usize,
    present: Vec<bool>,
    /// for each state that is not final, from m0 on: the symbol of its edge, and the target
    edges: Vec<(u8, usize)>,
    /// for each state, the sources of the edges into it, with their symbols
    sources: Vec<Vec<(u8, usize)>>,
    /// for each symbol, the sources of its edges
    readers: Vec<Vec<usize>>,
    /// for each state, the targets of its silent edges
    silent: Vec<BitSet>,
    /// for each state s, the set B(s) of the states that reach it by silent edges alone
    back: Vec<BitSet>,
}

impl Nfa {
    fn new(pushdown: &Pushdown) -> Nfa {
        let pushed: usize = pushdown
            .transitions
            .iter()
            .map(|transition| transition.pushed.len())
            .sum();
        let capacity = pushdown.states + 1 + pushed;
        let mut nfa = Nfa {
            finals: pushdown.states,
            capacity,
            present: vec![false; pushdown.states],
            edges: Vec::new(),
            sources: Vec::new(),
            readers: vec![Vec::new(); 256],
            silent: Vec::new(),
            back: Vec::new(),
        };
        for _ in 0..pushdown.states {
            nfa.add_state();
        }
        nfa.present[pushdown.initial] = true;
        nfa.add_reading(BOTTOM, pushdown.initial);
        nfa
    }

    /// The state m0, from which the symbol at the bottom of every stack is read.
    fn root(&self) -> usize {
        self.finals
    }

    fn add_state(&mut self) -> usize {
        let state = self.back.len();
        self.sources.push(Vec::new());
        self.silent.push(BitSet::new(self.capacity));
        self.back.push(BitSet::new(self.capacity));
        self.back[state].insert(state);
        state
    }

    /// A new state with an edge that reads the symbol and leads to the target.
    fn add_reading(&mut self, symbol: u8, target: usize) -> usize {
        let state = self.add_state();
        self.edges.push((symbol, target));
        self.sources[target].push((symbol, state));
        self.readers[usize::from(symbol)].push(state);
        state
    }

    fn edge(&self, state: usize) -> Option<(u8, usize)> {
        self.edges.get(state.checked_sub(self.finals)?).copied()
    }

    fn target(&self, reader: usize) -> usize {
        self.edges[reader - self.finals].1
    }

    /// The first state of the path that ends in this final state and pushes the word; what is missing is added.
    fn establish(&mut self, word: &[u8], end: usize) -> usize {
        self.present[end] = true;
        let mut state = end;
        for &symbol in word {
            let known = self.sources[state].iter().find(|(read, _)| *read == symbol);
            state = match known {
                Some(&(_, source)) => source,
                None => self.add_reading(symbol, state),
            };
        }
        state
    }

    /// The states from which an edge reads the symbol and leads into the set.
    fn readers_into<'a>(&'a self, symbol: u8, set: &'a BitSet) -> impl Iterator<Item = usize> + 'a {
        let readers = self.readers[usize::from(symbol)].iter().copied();
        readers.filter(|&reader| set.contains(self.target(reader)))
    }

    /// The states from which the symbol is read into the set, and those that reach them silently.
    fn behind(&self, symbol: u8, set: &BitSet) -> BitSet {
        let mut result = BitSet::new(self.capacity);
        for reader in self.readers_into(symbol, set) {
            result.absorb(&self.back[reader]);
        }
        result
    }

    /// The set S of the paper: the states at which a path to the state begins that pushes the word, and begins with
    /// no silent edge.
    fn origins(&self, state: usize, word: &[u8]) -> Vec<usize> {
        let Some((&deepest, above)) = word.split_last() else {
            return vec![state];
        };
        let Some((&top, between)) = above.split_first() else {
            return self.readers_into(deepest, &self.back[state]).collect();
        };
        let mut set = self.behind(top, &self.back[state]);
        for &symbol in between {
            set = self.behind(symbol, &set);
        }
        self.readers_into(deepest, &set).collect()
    }

    /// Whether the silent edge is new.
    fn add_silent(&mut self, source: usize, target: usize) -> bool {
        if !self.silent[source].insert(target) {
            return false;
        }
        if !self.back[target].contains(source) {
            let more = self.back[source].clone();
            for set in &mut self.back {
                if set.contains(target) {
                    set.absorb(&more);
                }
            }
        }
        true
    }
}

// ---- the forward procedure -------------------------------------------------------------------------------------

struct Forward {
    nfa: Nfa,
    /// for each transition that is reachable, the first state of its path
    first: Vec<Option<usize>>,
    /// for each transition, the set S of the last pass
    origins: Vec<BitSet>,
}

/// Goes over all transitions again and again, until the NFA stays as it is.
fn forward(pushdown: &Pushdown) -> Forward {
    let mut nfa = Nfa::new(pushdown);
    let mut first = vec![None; pushdown.transitions.len()];
    let mut found = vec![Vec::new(); pushdown.transitions.len()];
    let mut changed = true;
    while changed {
        changed = false;
        for (place, transition) in pushdown.transitions.iter().enumerate() {
            if !nfa.present[transition.from] {
                continue;
            }
            let origins = nfa.origins(transition.from, &transition.popped);
            if origins.is_empty() {
                continue;
            }
            let path = *first[place].get_or_insert_with(|| {
                changed = true;
                nfa.establish(&transition.pushed, transition.to)
            });
            for &origin in &origins {
                changed |= nfa.add_silent(origin, path);
            }
            found[place] = origins;
        }
    }
    let origins = found
        .iter()
        .map(|states| set_of(nfa.capacity, states))
        .collect();
    Forward {
        nfa,
        first,
        origins,
    }
}

fn set_of(capacity: usize, elements: &[usize]) -> BitSet {
    let mut set = BitSet::new(capacity);
    for &element in elements {
        set.insert(element);
    }
    set
}

// ---- the backward procedure ------------------------------------------------------------------------------------

/// A state q and a word still to be read before it: which states can do so, and from which it was followed already.
struct Goal {
    /// the symbol that is read next, and the goal after it
    next: Option<(u8, usize)>,
    able: BitSet,
    followed: BitSet,
}

struct Backward<'a> {
    nfa: &'a Nfa,
    goals: Vec<Goal>,
    /// the goals by their state, and by the goal after them and the symbol read before it
    at_state: Vec<Option<usize>>,
    before: HashMap<(usize, u8), usize>,
    /// the silent edges in E, and those of them not yet in G
    kept: Vec<BitSet>,
    waiting: Vec<(usize, usize)>,
}

impl<'a> Backward<'a> {
    fn new(nfa: &'a Nfa) -> Backward<'a> {
        Backward {
            nfa,
            goals: Vec::new(),
            at_state: vec![None; nfa.finals],
            before: HashMap::new(),
            kept: vec![BitSet::new(nfa.capacity); nfa.back.len()],
            waiting: Vec::new(),
        }
    }

    fn keep(&mut self, source: usize, target: usize) {
        if self.kept[source].insert(target) {
            self.waiting.push((source, target));
        }
    }

    fn add_goal(&mut self, next: Option<(u8, usize)>, able: BitSet) -> usize {
        let followed = BitSet::new(self.nfa.capacity);
        self.goals.push(Goal {
            next,
            able,
            followed,
        });
        self.goals.len() - 1
    }

    /// The goal of reaching a state with all but the last symbol of the word still to be read.
    fn goal(&mut self, transition: &Transition) -> usize {
        let state = transition.from;
        let mut goal = match self.at_state[state] {
            Some(goal) => goal,
            None => {
                let made = self.add_goal(None, self.nfa.back[state].clone());
                self.at_state[state] = Some(made);
                made
            }
        };
        for &symbol in &transition.popped[..transition.popped.len() - 1] {
            goal = match self.before.get(&(goal, symbol)) {
                Some(&known) => known,
                None => {
                    let able = self.nfa.behind(symbol, &self.goals[goal].able);
                    let made = self.add_goal(Some((symbol, goal)), able);
                    self.before.insert((goal, symbol), made);
                    made
                }
            };
        }
        goal
    }

    /// Keeps the silent edges of all paths from the state to the goal.
    fn follow(&mut self, state: usize, goal: usize) {
        let mut unfollowed = vec![(state, goal)];
        while let Some((state, goal)) = unfollowed.pop() {
            if !self.goals[goal].followed.insert(state) {
                continue;
            }
            for place in 0..self.nfa.silent[state].words.len() {
                let useful =
                    self.nfa.silent[state].words[place] & self.goals[goal].able.words[place];
                each_element(place, useful, |target| {
                    self.keep(state, target);
                    unfollowed.push((target, goal));
                });
            }
            if let (Some((symbol, after)), Some((read, target))) =
                (self.goals[goal].next, self.nfa.edge(state))
            {
                if read == symbol && self.goals[after].able.contains(target) {
                    unfollowed.push((target, after));
                }
            }
        }
    }
}

/// Which transitions lead to the last state.
fn backward(pushdown: &Pushdown, forward: &Forward) -> Vec<bool> {
    let nfa = &forward.nfa;
    let mut useful = vec![false; pushdown.transitions.len()];
    if !nfa.silent[nfa.root()].contains(pushdown.last) {
        return useful;
    }
    let mut by_first = vec![Vec::new(); nfa.back.len()];
    for (place, first) in forward.first.iter().enumerate() {
        if let Some(state) = *first {
            by_first[state].push(place);
        }
    }
    let mut search = Backward::new(nfa);
    search.keep(nfa.root(), pushdown.last);
    while let Some((source, target)) = search.waiting.pop() {
        for &place in &by_first[target] {
            if !forward.origins[place].contains(source) {
                continue;
            }
            useful[place] = true;
            let transition = &pushdown.transitions[place];
            if !transition.popped.is_empty() {
                let goal = search.goal(transition);
                search.follow(nfa.target(source), goal);
            }
        }
    }
    useful
}

// ---- the program -----------------------------------------------------------------------------------------------

fn marks(machine: &Machine) -> Vec<u8> {
    let pushdown = Pushdown::new(machine);
    let forward = forward(&pushdown);
    let useful = backward(&pushdown, &forward);
    let mark = |place: usize| match (forward.first[place], useful[place]) {
        (None, _) => 0,
        (Some(_), false) => 1,
        (Some(_), true) => 2,
    };
    (0..machine.rows.len()).map(mark).collect()
}

fn decoded(text: &str) -> Option<Vec<u8>> {
    let digit = |byte: u8| char::from(byte).to_digit(16);
    let byte = |pair: &[u8]| match *pair {
        [high, low] => Some((digit(high)? << 4 | digit(low)?) as u8),
        _ => None,
    };
    text.as_bytes().chunks(2).map(byte).collect()
}

fn opened(line: &str) -> Option<Result<Machine, Fault>> {
    match line.split_once(' ')? {
        ("table", digits) => Some(table(&decoded(digits)?)),
        ("grammar", digits) => Some(grammar(&decoded(digits)?)),
        _ => None,
    }
}

fn answer(line: &str, out: &mut String) -> std::fmt::Result {
    match opened(line) {
        None => writeln!(out, "unread"),
        Some(Err(Fault(number, section, place))) => {
            writeln!(out, "refused {number} {section} {place}")
        }
        Some(Ok(machine)) => {
            let marks = marks(&machine);
            for (place, mark) in marks.iter().enumerate() {
                writeln!(out, "{place} {mark}")?;
            }
            let useful = marks.iter().filter(|&&mark| mark == 2).count();
            let reachable = marks.iter().filter(|&&mark| mark > 0).count();
            writeln!(
                out,
                "useful {useful} reachable {reachable} of {}",
                marks.len()
            )
        }
    }
}

fn main() -> io::Result<()> {
    let mut input = String::new();
    io::stdin().read_to_string(&mut input)?;
    let mut out = String::new();
    for line in input.lines() {
        answer(line, &mut out).expect("a string takes all that is written");
    }
    io::stdout().write_all(out.as_bytes())
}

#!/usr/bin/env python3
"""Counts the places in crates/*/src that may be written in a newer form, one list for each point of docs/DESIGN-PASS.md.

    python3 tools/count_forms.py [FOLDER] [--places]

FOLDER is a checkout of the repository (this one by default); with --places each place is named. The tests are left out.
It finds by form: bodies of fewer than twelve words are no twins, and loops by `while` and by `enumerate` over a slice
are not counted.
"""
import difflib
import itertools
import pathlib
import re
import sys

FUNCTION = re.compile(r"^( *)(?:pub(?:\([a-z]+\))? )?fn (\w+)", re.M)
WORD = re.compile(r"[A-Za-z_]\w*|\d\w*|\S")
KEPT = {"for", "in", "if", "else", "match", "let", "mut", "while", "return", "fn", "Some", "None", "Ok", "Err", "self", "as", "loop"}


def sources(folder):
    for path in sorted(pathlib.Path(folder).glob("crates/*/src/**/*.rt")):
        if path.name == "tests.rt":
            continue
        text = path.read_text().split("#[cfg(test)]\nmod tests {")[0]
        yield path, re.sub(r"//.*", "", text)


def functions(folder):
    """Each function: its place, its name, its head (with clauses) and its body."""
    for path, text in sources(folder):
        for found in FUNCTION.finditer(text):
            indent = found.group(1)
            end = re.compile(r"^" + indent + r"(?:\}|.*[;}])$", re.M)
            opening = re.compile(r"\{\n|\{\}|;\n").search(text, found.end())
            # the body begins at a brace that stands alone, or at the end of the head's line
            alone = re.compile(r"^" + indent + r"\{", re.M).search(text, found.end())
            same_line = re.compile(r"[^{}\n]*\{\n").match(text, found.end())
            start = same_line.end() - 2 if same_line else (alone.start() if alone else opening.start())
            stop = re.compile(r"^" + indent + r"\}", re.M).search(text, start)
            if stop is None:
                continue
            place = f"{path.parts[-3]}/{path.name}:{found.group(2)}"
            yield place, found.group(2), text[found.start():start], text[start:stop.end()]


def shape(body):
    """The words of a body, with the names of its own replaced by one mark."""
    return [w if w in KEPT or not re.match(r"\w", w) else "x" for w in WORD.findall(body)]


def twins(folder):
    bodies = [(place, shape(body), len(body.split("\n"))) for place, _, _, body in functions(folder)]
    bodies = [b for b in bodies if len(b[1]) >= 12]
    for one, two in itertools.combinations(bodies, 2):
        if abs(len(one[1]) - len(two[1])) > 0.15 * len(one[1]):
            continue
        matcher = difflib.SequenceMatcher(None, one[1], two[1], autojunk=False)
        if matcher.quick_ratio() > 0.96 and matcher.ratio() > 0.96:
            yield f"{one[0]} and {two[0]}"


def refusals(folder):
    for path, text in sources(folder):
        where = f"{path.parts[-3]}/{path.name}"
        for found in re.finditer(r"enum (\w+) \{([^}]*)\}", text):
            variants = [v.strip() for v in found.group(2).split(",") if v.strip()]
            if any("(" in v for v in variants) and not all("(" in v for v in variants):
                yield f"{where}: enum {found.group(1)}, with and without a value"
        for found in re.finditer(r"-> Option<Fault>|if let Some\(fault\)", text):
            yield f"{where}: {found.group(0)}"
        for found in re.finditer(r'"(\w+)" =>', text):
            yield f"{where}: the word {found.group(1)} for a kind"
    for place, name, head, body in functions(folder):
        if "out: &mut [u8]" in head and "-> bool" in head:
            yield f"{place}: whether a write fitted, as a bool"
        if len(re.findall(r"^\s*\d$", body, re.M)) > 1 and "-> u8" in head:
            yield f"{place}: numbers for kinds"
        if re.search(r"size == 0 \{|self.end\(\) \} else \{ 0 \}", body):
            yield f"{place}: 0 for a refusal"


def index_loops(folder):
    for place, _, _, body in functions(folder):
        for found in re.finditer(r"for (\w+|\(\w+, \w+\)) in ([^{\[]*?\.\.[^{]*|\([^{]*\)\.rev\(\)) \{", body):
            yield f"{place}: for {found.group(1)} in {found.group(2)}"
        for found in re.finditer(r"for \((\w+), \w+\) in [^{]*enumerate\(\) \{(.*)", body, re.S):
            if re.search(r"return (?:Some\()?" + found.group(1) + r"\b|\[" + found.group(1) + r"\b", found.group(2)):
                yield f"{place}: a place sought by enumerate"
        for found in re.finditer(r"^\s*([\w.]+) (?:\+|-)= ([^;]*);", body, re.M):
            yield f"{place}: {found.group(0).strip()}"


def by_hand(folder):
    for place, _, _, body in functions(folder):
        for found in re.finditer(r"\bas (?:u8|u16|u32|u64|usize)\b", body):
            yield f"{place}: {found.group(0)}"
        for found in re.finditer(r"\b(?:write|writeln|println|format)!", body):
            yield f"{place}: {found.group(0)}"
        for found in re.finditer(r"256 \*|/ 256|% 256|b'0'|/ 10\b|% 10\b", body):
            yield f"{place}: {found.group(0)}"
        for found in re.finditer(r"\.then\(|\.cmp\(", body):
            yield f"{place}: {found.group(0)}"


def facts(folder):
    seen = {}
    for place, _, head, _ in functions(folder):
        crate = place.split("/")[0]
        for clause in re.findall(r"(?:requires|ensures)(?: \w+)? \{(.*)\}", head):
            for part in re.split(r" × | → ", clause):
                part = re.sub(r"\.(?:old|new|now|entry)\b", "", part).strip(" ()")
                if len(part) > 12:
                    seen.setdefault((crate, part), set()).add(place)
    for (crate, part), places in sorted(seen.items()):
        if len(places) >= 3:
            yield f"{crate}: {part} ({len(places)} functions)"
    together = {}
    for place, _, head, _ in functions(folder):
        crate = place.split("/")[0]
        names = re.findall(r"(\w+): (&?(?:mut )?[\w\[\]<>'_ ]+)", head.split("requires")[0].split("ensures")[0])
        for three in itertools.combinations(sorted(set(names)), 3):
            together.setdefault((crate, three), set()).add(place)
    for (crate, three), places in sorted(together.items()):
        if len(places) >= 3:
            yield f"{crate}: {', '.join(n for n, _ in three)} together ({len(places)} functions)"


def buffers(folder):
    for place, _, head, _ in functions(folder):
        signature = head.split("requires")[0].split("ensures")[0]
        if re.search(r"&mut \[u8\],\s*at: usize|out: &mut \[u8\], at", signature):
            yield f"{place}: an output and a place in it"
        for names in [re.findall(r"(\w+): &(?:mut )?\[u16\]", signature)]:
            if len(names) >= 2:
                yield f"{place}: {', '.join(names)} side by side"
    for path, text in sources(folder):
        for found in re.finditer(r"struct (\w+)[^{;]*\{([^}]*)\}", text):
            fields = found.group(2)
            where = f"{path.parts[-3]}/{path.name}: struct {found.group(1)}"
            if re.search(r"\[u8; \d+\]", fields) and "len" in fields:
                yield f"{where}: a buffer and its length"
            if "sizes" in fields or (fields.count("&'a [u16]") > 1):
                yield f"{where}: bytes and lengths, or arrays side by side"


def switches(folder):
    for path, text in sources(folder):
        for found in re.finditer(r": fn\(|\[fn\(", text):
            yield f"{path.parts[-3]}/{path.name}: {found.group(0)}"


def proofs(folder):
    for crate in sorted(pathlib.Path(folder).glob("crates/*")):
        files = list(crate.glob("proofs/**/*.antt"))
        if files:
            lines = sum(len(f.read_text().splitlines()) for f in files)
            answers = sum(1 for f in files if f.name == "Answers.antt")
            yield f"{crate.name}: {lines} lines, {answers} files of answers", lines


POINTS = [
    ("1 enums, flags and numbers for refusals", refusals),
    ("2 twins", twins),
    ("3 counted loops", index_loops),
    ("4 written by hand", by_hand),
    ("5 facts and parameters that travel", facts),
    ("6 buffers, lengths, side by side", buffers),
    ("7 switches and tables of functions", switches),
]


def main():
    arguments = [a for a in sys.argv[1:] if not a.startswith("--")]
    folder = arguments[0] if arguments else "."
    for title, search in POINTS:
        places = list(search(folder))
        print(f"{title}: {len(places)}")
        if "--places" in sys.argv:
            for place in places:
                print(f"    {place}")
    sizes = list(proofs(folder))
    print(f"8 lines of proof: {sum(n for _, n in sizes)}")
    if "--places" in sys.argv:
        for text, _ in sizes:
            print(f"    {text}")


main()

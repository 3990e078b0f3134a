"""Brings the repository's own definitions and lemmas to today's spelling: words in snake case, joined by `_`.

A dash stays where it joins a function's name to what it is applied to, as in `length-states` or `lexical-append`.
Names that Rattle makes (goals and steps) are left alone. Run once, at the top, after the toolchain's own port.py:
python3 tools/respell.py
"""
import pathlib
import re
import sys

# Lemmas named by the left side of their equation: the function, a dash, its argument.
JOINED = {
    "getD-member": "get_or-member",
    "getD-middle": "get_or-middle",
    "count-append": "count_if-append",
    "count-take": "count_if-take",
}
KEPT = re.compile(r"length-.*|(above|pushed|joined|lexical)-append")
# Constructors that stand on a line with others, and a local lemma.
MORE = {"not-reachable", "not-useful", "zeros-all"}
WORD = re.compile(r"(?<![\w'-])([A-Za-z_][\w']*(?:-[\w']+)+)(?![\w'-])")


def declared(texts):
    """The dashed names that the repository's own definitions, lemmas and fields have."""
    own, goals, foreign = set(MORE), set(), set()
    for text in texts:
        for name, what in re.findall(r"^\s*(?:pub )?(?:abbrev |unfoldable )?(?:pub )?(\S+) : (.*)$", text, re.M):
            (goals if what.startswith("goal.") else own).add(name)
        own.update(re.findall(r"^(?:pub )?(?:data|record) (?:pub )?(\S+)", text, re.M))
        for names in re.findall(r"use (?:Rattle\.std|mathlib|borrow|native|lib)\S*\.\{([^}]*)\}", text):
            foreign.update(name.strip() for name in names.split(","))
    return {name for name in own if "-" in name} - goals - foreign, own | foreign


def main():
    root = pathlib.Path(".")
    proofs = [p for part in ("specs", "proofs") for p in root.glob(f"crates/*/{part}/**/*.antt")]
    dashed, taken = declared([p.read_text() for p in proofs])
    new = {}
    for name in sorted(dashed):
        if name in JOINED:
            new[name] = JOINED[name]
        elif not KEPT.fullmatch(name):
            new[name] = name.replace("-", "_")
    for name, other in new.items():
        if other in taken or list(new.values()).count(other) > 1:
            sys.exit(f"{name} and another would both be called {other}")
    for path in proofs + sorted(root.glob("crates/*/src/**/*.rt")):
        lines = path.read_text().split("\n")
        for at, line in enumerate(lines):
            code, mark, note = line.partition("//" if path.suffix == ".rt" else "--")
            # a goal's name is left alone: it stands behind `goal.`, or as a step of `c`, `w` or `l`
            code = WORD.sub(lambda m: new.get(m.group(1), m.group(1)) if not step(code, m.start()) else m.group(1), code)
            lines[at] = code + mark + note
        path.write_text("\n".join(lines))


def step(code, at):
    return re.search(r"(?:^|[^\w'])(?:goal|c|w)\.$", code[:at]) is not None


main()

#!/usr/bin/env python3
"""Lists where the sources may be written in an older way, by text alone: `tools/places.py [FOLDER]`.

For each point of docs/DESIGN-PASS.md it prints the lines that look like one, and how many there are. A line is only a
candidate: the page says which are places. FOLDER is a checkout, this one by default.
"""
import collections
import pathlib
import re
import sys

TOP = pathlib.Path(sys.argv[1] if len(sys.argv) > 1 else pathlib.Path(__file__).parent.parent)
FILES = sorted(TOP.glob("crates/*/src/**/*.rt"))
TEXTS = {path: path.read_text() for path in FILES}

LINES = {
    "1 own options, flags, numbers for kinds": [
        r"^\s*(pub(\(\w+\))? )?\w+: bool,", r"fn \w+.*&mut .*-> bool", r"^\s*\d+ =>", r"//.*\b(0|none) (where|in|for|if) ",
        r"//.*\bor 0\b", r"^(pub )?const \w+: u8 =", r"(level|tree\S*|to|field) == 0", r"enum Answer",
    ],
    "3 loops that count": [
        r"for \w+ in [^{]*\.\.", r"\bwhile\b", r"\.enumerate\(\)", r"\+= 1;", r"wrapping_add\(1\)", r"^\s*('\w+: )?loop \{",
    ],
    "4 conversion and printing": [
        r"fn (byte|number|refusal_of|write_\w+|put_number|width)\b", r"\bas (u8|u16|u32|u64|usize)\b", r"[/%]=? 10\b", r"\* 10 \+",
    ],
    "6 buffers, parallel lists": [
        r"\[(0|9|false|\"\"|&\[\]|None|Mark \{.*\}); ?\w+\]", r"&mut \w+\[0?\.\.", r"^\s*(pub(\(\w+\))? )?\w+: &'\w+ mut \[",
        r"^\s*(left|room|marks|weights|live|tree|taken): &(mut )?\[",
    ],
    "7 switches and tables": [r'^\s*"[^"]*" =>', r"\bfn\(", r"\bdyn\b"],
}


def shown(path, number, line):
    return f"  {path.relative_to(TOP)}:{number}: {line.strip()[:110]}"


def functions():
    """Each function: its file, its name, its parameters, its required facts, and its body with the names taken out."""
    head = re.compile(r"^ *(?:pub(?:\(\w+\))? )?fn (\w+)", re.M)
    for path, text in TEXTS.items():
        for m in head.finditer(text):
            indent = re.match(r" *", m.group(0)).group(0)
            end = text.find(f"\n{indent}}}\n", m.start())
            part = text[m.start():end]
            opened = re.search(rf"^{indent}{{$|{{$", part, re.M)
            signature, body = (part[:opened.start()], part[opened.end():]) if opened else (part, "")
            params = re.findall(r"(\w+): &?(?:'\w+ )?(?:mut )?[^,)]+", signature.split("->")[0].split("requires")[0])
            clauses = re.findall(r"^ *requires(?: \w+)? \{ (.*) \}$", signature, re.M)
            words = re.findall(r"\w+|[^\s\w]", re.sub(r"//.*", "", body))
            shape = " ".join("0" if w[0].isdigit() else w if not w[0].islower() or w in KEPT else "x" for w in words)
            yield path, m.group(1), params, clauses, shape


KEPT = {"let", "mut", "for", "in", "if", "else", "match", "return", "while", "loop", "Some", "None", "Ok", "Err", "as", "fn", "self"}


def main():
    for point, patterns in LINES.items():
        found = [shown(p, n, l) for p, t in TEXTS.items() for n, l in enumerate(t.split("\n"), 1) if any(re.search(x, l) for x in patterns)]
        print(f"{point}: {len(found)}", *found, sep="\n")
    shapes, clauses, groups = collections.defaultdict(list), collections.defaultdict(set), collections.defaultdict(set)
    for path, name, params, required, shape in functions():
        where = f"{path.relative_to(TOP)}: {name}"
        if len(shape) > 120:
            shapes[shape].append(where)
        for clause in required:
            clauses[re.sub(r"\.(now|old|new)\b", "", clause)].add(where)
        names = sorted(set(params) - {"self", "rt", "f"})
        for i, a in enumerate(names):
            for j in range(i + 1, len(names)):
                for b in names[j + 1:]:
                    groups[(a, names[j], b)].add(where)
    twins = [w for w in shapes.values() if len(w) > 1]
    print(f"2 functions of one shape: {len(twins)}", *("  " + " = ".join(w) for w in twins), sep="\n")
    facts = {c: w for c, w in clauses.items() if len(w) > 2}
    print(f"5 facts required by three functions and more: {len(facts)}", *(f"  {len(w)}: {c[:110]}" for c, w in facts.items()), sep="\n")
    together = {g: w for g, w in groups.items() if len(w) > 2}
    print(f"5 three parameters that travel together: {len(together)}", *(f"  {len(w)}: {', '.join(g)}" for g, w in together.items()), sep="\n")
    for name in ("Answers.antt", "Invariants.antt"):
        files = sorted(TOP.glob(f"crates/*/proofs/**/{name}"))
        print(f"8 {name}: {len(files)} files, {sum(len(f.read_text().splitlines()) for f in files)} lines")
    files = [f for f in TOP.glob("crates/*/proofs/**/*.antt") if f.name not in ("Answers.antt", "Invariants.antt")]
    print(f"8 lemma files: {len(files)} files, {sum(len(f.read_text().splitlines()) for f in files)} lines")


main()

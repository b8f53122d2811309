#!/usr/bin/env python3
"""Counts, in crates/*/src, the places at which code of the older language shows, point by point.

    python3 tools/places.py [-v] [FOLDER]

A row is a place to look at, not a verdict: docs/DESIGN-PASS.md says what became of each. -v prints the places.
"""
import collections
import pathlib
import re
import sys

args = [a for a in sys.argv[1:] if a != "-v"]
verbose = "-v" in sys.argv
top = pathlib.Path(args[0] if args else ".")
files = sorted(p for p in top.glob("crates/*/src/**/*.rt") if "out" not in p.parts)
texts = {p: p.read_text().splitlines() for p in files}
found = collections.OrderedDict()


def note(point, form, path, n, line):
    found.setdefault((point, form), []).append((path, n, line.strip()))


def code(line):
    return not line.lstrip().startswith(("//", "ghost use"))


def by_line(point, form, pattern):
    for path, lines in texts.items():
        for n, line in enumerate(lines, 1):
            if code(line) and re.search(pattern, line):
                note(point, form, path, n, line)


def by_text(point, form, pattern):
    for path, lines in texts.items():
        text = "\n".join("" if not code(l) else l for l in lines)
        for m in re.finditer(pattern, text, re.S):
            n = text[: m.start()].count("\n") + 1
            note(point, form, path, n, lines[n - 1])


# every function: path, line, name, parameters, clauses
functions = []
for path, lines in texts.items():
    text = "\n".join("" if l.lstrip().startswith("//") else l for l in lines)
    for m in re.finditer(r"\bfn (\w+)(?:<[^>(]*>)?\(", text):
        at, depth = m.end(), 1
        while depth and at < len(text):
            depth += {"(": 1, ")": -1}.get(text[at], 0)
            at += 1
        parameters = re.findall(r"(?:mut )?(\w+): ([^,()]+(?:\([^)]*\))?)", text[m.end() : at - 1])
        clauses = []
        for line in text[at:].splitlines()[1:]:
            clause = re.match(r"\s*(?:ensures|requires)(?: \w+)? \{ (.*) \}$", line)
            if not clause:
                break
            clauses.append(clause.group(1))
        functions.append((path, text[: m.start()].count("\n") + 1, m.group(1), parameters, clauses))

# 1
by_line(1, "own enum", r"^\s*(pub |pub\(crate\) )?enum ")
by_text(1, "let .. else that only hands a refusal on", r"let (Ok|Some)\([^=;]*?\) =[^;]*? else \{\s*return (Err\([^;]*\)|None);")
by_line(1, "flag in a tuple or a struct", r"\(bool,|, bool\)|^\s*(pub )?\w+: bool,")
by_line(1, "number for a kind or a refusal", r"\bfn number\(|\.number\(\)|\bkind: u8|\b(split|write)\((1|16),")
by_text(1, "match that hands Ok or Err on", r"Err\((\w+)\) => Err\(|Ok\(\(\)\) => Ok\(\(\)\)|Err\(_\) => unreachable")

# 2
names = collections.defaultdict(list)
for path, n, name, _, _ in functions:
    names[name].append((path, n))
usual = {"fmt", "from", "try_from", "main", "new", "run", "read", "write", "of", "first"}
for name, places in sorted(names.items()):
    if len(places) > 1 and name not in usual:
        for path, n in places:
            note(2, "function of a name that others have", path, n, "fn " + name)

# 3
by_line(3, "for over a range of numbers", r"\bfor \w+ in [^{]*\.\.")
by_line(3, "while", r"\bwhile\b")
by_line(3, "loop", r"\bloop\b")
by_line(3, "counter by hand", r"^\s*[\w.]+ \+= 1;|= [\w.]+\.saturating_add\(1\)|^\s*n -= 1;|\.saturating_add\(1\);")

# 4
by_line(4, "equality by hand", r"\bfn (same|same_bytes|is_of)\(")
by_line(4, "printing by a match to text", r"-> &'static str")
by_line(4, "conversion by arithmetic or a cast", r"/ 256|% 256| as (u8|u16|u32|u64|usize)\b")
by_line(4, "copy by elements", r"(\w)\[0\], \1\[1\]|\w+\[\w+\] = \w+\[\w+\];|copy_from_slice|\bfn put\(")

# 5
clauses = collections.defaultdict(list)
for path, n, name, _, cs in functions:
    for c in cs:
        clauses[c].append((path, n, name))
for c, places in clauses.items():
    if len(places) >= 3:
        for path, n, name in places:
            note(5, "clause that stands in three or more functions", path, n, f"{name}: {c}")
groups = collections.defaultdict(list)
for path, n, name, parameters, _ in functions:
    crate = path.parts[path.parts.index("crates") + 1]
    ps = sorted({(a, t.strip()) for a, t in parameters})
    for i, p in enumerate(ps):
        for q in ps[i + 1 :]:
            groups[(crate, p, q)].append((path, n, name))
for (crate, p, q), places in sorted(groups.items(), key=str):
    if len(places) >= 3:
        note(5, "two parameters that travel together in three or more functions of a crate", places[0][0], places[0][1], f"{p[0]}, {q[0]}: {len(places)} functions")

# 6
by_line(6, "length beside a buffer", r"^\s*(pub )?len: (u8|u16|usize),|out: &mut \[u8; 256\]|\bcount <= 256")
by_line(6, "array by places of another", r"(keys|wanted|before|tail|ends)\w*: (&mut |&)?\[\w+; \w+\]")
by_line(6, "index into a list", r"\w\[[^\]]*(- 1|place|\bi\b|\bb\b|\bk\b)[^\]]*\]")

# 7
by_line(7, "switch on a kind", r"\bmatch (format|case\.format|kind|word|to|command|self|way)\b")

# 8
for path in sorted(top.glob("crates/*/proofs/**/*.antt")):
    crate = path.parts[path.parts.index("crates") + 1]
    for n, line in enumerate(path.read_text().splitlines(), 1):
        if re.match(r"(abbrev )?(pub )?[\w◌.\-']+ : ", line):
            form = "answer" if path.name == "Answers.antt" and ": goal." in line else "invariant or measure" if path.name == "Invariants.antt" else "lemma"
            note(8, form, path, n, line)

for (point, form), rows in found.items():
    print(f"{point}  {form}: {len(rows)}")
    if verbose:
        for path, n, line in rows:
            print(f"     {path.relative_to(top)}:{n}: {line[:110]}")
total = collections.Counter()
for (point, _), rows in found.items():
    total[point] += len(rows)
print("all: " + ", ".join(f"{p}: {total[p]}" for p in sorted(total)))

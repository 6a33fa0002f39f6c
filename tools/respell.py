#!/usr/bin/env python3
"""Brings this repository's own names in specs/, proofs/ and clauses to today's spelling. It was run once, after port.py.

    python3 tools/respell.py        at the top of the repository

A name with dashes that the repository declares in specs/ or proofs/ becomes snake case, and camel case where it begins
with a capital (a fact, a record). Names that Rattle makes for goals and steps, and names of the library, stay. In .rt
files only code outside strings and comments is read, where a name with a dash can stand in a clause alone; in pages only
what stands between backticks.
"""
import glob
import re
import sys

IMPORT = re.compile(r"^\s*(?:ghost )?use ([^{;]+)(?:\{([^}]*)\})?")
LIBRARY = re.compile(r"(?:Rattle\.(?:std|core)|mathlib|Prim|lib|logic)\b")
DECLARED = re.compile(
    r"^\s*(?:(?:abbrev|unfoldable|pub|record|data|ruleset)\s+)*([^\s(){}\[\].,;:=λ]+)\s*(?:[({:]|$)"
)
BOUND = re.compile(r"(?:\blet|λ|[({])\s*((?:[^\s(){}\[\].,;:=λ]+\s+)*[^\s(){}\[\].,;:=λ]+)\s*[:.=]")
TOKEN = re.compile(r"[^\s(){}\[\].,;:=λ`]+")
GENERATED = re.compile(r":\s*goal\.")


def has_inner_dash(name):
    return re.search(r"[\w'₀-₉]-[\w]", name) is not None and re.search(r"[^\w'\-₁]", name) is None


def respelled(name):
    if name[0].isupper():
        return "".join(part[:1].upper() + part[1:] for part in name.split("-"))
    return name.replace("getD", "get_or").replace("-", "_")


def code_lines(text):
    return [line for line in text.split("\n") if not line.lstrip().startswith("--")]


def library_names(paths):
    """What the repository takes from the library, under the names that the library gives it."""
    names = set()
    for path in paths:
        for line in open(path, encoding="utf-8"):
            found = IMPORT.match(line)
            if found and LIBRARY.match(found.group(1).strip()) and found.group(2):
                names.update(item.split(" as ")[0].strip() for item in found.group(2).split(","))
    return names


def aliases(line):
    found = IMPORT.match(line)
    items = found.group(2).split(",") if found and found.group(2) else []
    return {item.split(" as ")[1].strip() for item in items if " as " in item}


def own_names(paths):
    names = set()
    for path in paths:
        goals = {m.group(1) for line in open(path, encoding="utf-8")
                 if GENERATED.search(line) and (m := DECLARED.match(line))}
        for line in code_lines(open(path, encoding="utf-8").read()):
            if line.startswith("use "):
                names |= aliases(line)
                continue
            found = DECLARED.match(line)
            if found and ":" in line and not GENERATED.search(line):
                names.add(found.group(1))
            for bound in BOUND.findall(line):
                names.update(bound.split())
        names -= goals
    return {n for n in names if has_inner_dash(n)}


def turn(text, names):
    return TOKEN.sub(lambda m: respelled(m.group(0)) if m.group(0) in names else m.group(0), text)


def turn_antt(text, names):
    out = []
    for line in text.split("\n"):
        code, mark, note = line.partition("--") if line.lstrip().startswith("--") else (line, "", "")
        out.append(turn(code, names) + mark + note)
    return "\n".join(out)


def turn_rt(text, names):
    pieces = re.split(r'("(?:[^"\\]|\\.)*"|//[^\n]*)', text)
    return "".join(p if i % 2 else turn(p, names) for i, p in enumerate(pieces))


def turn_page(text, names):
    return re.sub(r"`[^`\n]+`", lambda m: turn(m.group(0), names), text)


def turn_edit(text, names):
    return "\n".join(turn_rt(l, names) if l.startswith(("old:", "new:")) else l for l in text.split("\n"))


def main():
    antt = sorted(glob.glob("crates/*/specs/**/*.antt", recursive=True) + glob.glob("crates/*/proofs/**/*.antt", recursive=True))
    code = sorted(glob.glob("crates/*/src/**/*.rt", recursive=True))
    names = own_names(antt) - library_names(antt + code)
    kinds = [(antt, turn_antt), (code, turn_rt),
             (sorted(glob.glob("crates/*/must-fail/*.edit")), turn_edit),
             (["README.md"] + sorted(glob.glob("docs/*.md")), turn_page)]
    for paths, how in kinds:
        for path in paths:
            old = open(path, encoding="utf-8").read()
            new = how(old, names)
            if new != old:
                open(path, "w", encoding="utf-8").write(new)
    for name in sorted(names):
        print(f"{name} {respelled(name)}")


if __name__ == "__main__":
    sys.exit(main())

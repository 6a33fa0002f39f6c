#!/usr/bin/env python3
"""Lists the places in crates/*/src that the design pass looks at, a list for each point, with their number.

Usage: tools/count_places.py [FOLDER]    FOLDER is a checkout; the current folder if none is named.
"""
import re
import sys
from collections import defaultdict
from pathlib import Path

ROOT = Path(sys.argv[1] if len(sys.argv) > 1 else ".")
FILES = sorted(ROOT.glob("crates/*/src/**/*.rt"))
TEXT = {path.relative_to(ROOT).as_posix(): path.read_text() for path in FILES}
FUNCTION = re.compile(r"^( *)(?:pub(?:\([a-z]+\))? )?(?:extern \"C\" )?fn (\w+)", re.M)


def line_of(text, at):
    return text.count("\n", 0, at) + 1


def is_program(name):
    """Test crates and programs, where no contract is asked."""
    return name.split("/")[1] in ("row_tests", "wire_tests", "keeper_tests", "demo", "day", "session")


def found(pattern, keep=lambda name, match: True, flags=re.M):
    places = []
    for name, text in TEXT.items():
        for match in re.finditer(pattern, text, flags):
            if keep(name, match):
                places.append(f"{name}:{line_of(text, match.start())}: {' '.join(match.group(0).split())[:110]}")
    return places


def functions(text):
    """Name, line, header (signature and clauses) and body of each function, by its indentation."""
    for match in FUNCTION.finditer(text):
        indent = match.group(1)
        rest = text[match.start():]
        declared = re.search(r";$|\{$|\{\}$", rest, re.M)
        end = declared if declared and declared.group(0) == ";" else re.search(rf"^{indent}(?:\}}|\{{\}})$", rest, re.M)
        whole = rest[: end.end()] if end else rest
        split = re.search(rf"^{indent}\{{$| \{{$", whole, re.M)
        header, body = (whole[: split.start()], whole[split.end():]) if split else (whole, "")
        yield match.group(2), line_of(text, match.start()), header, body


def twins():
    """Functions and impl blocks that are the same text once names of types, functions and variants, numbers and signs are blanked."""
    groups = defaultdict(list)
    for name, text in TEXT.items():
        if name.split("/")[1].endswith("_tests"):
            continue
        for function, line, header, body in functions(text):
            code = re.sub(r"//.*", "", body)
            code = re.sub(r'"[^"]*"', '""', code)
            code = re.sub(r"\b[A-Z]\w*(?:::[A-Z]\w*)*", "T", code)
            code = re.sub(r"\b\d[\d_]*\b", "0", code)
            code = re.sub(r"[<>]=?", "<", code)
            code = " ".join(code.split())
            parameters = re.sub(r"\s+", " ", header.split("ensures")[0].split("requires")[0])
            parameters = re.sub(r"fn \w+", "fn", re.sub(r"\b[A-Z]\w*(?:::[A-Z]\w*)*", "T", parameters))
            if len(code) > 24:
                groups[(code, parameters if len(code) < 60 else "")].append(f"{name}:{line}: {function}")
    return [" = ".join(group) for group in groups.values() if len(group) > 1]


def repeated_facts():
    """An atom of a requires, or an ensures that says only a bound, in the contracts of three or more functions of a crate."""
    seen = defaultdict(set)
    for name, text in TEXT.items():
        crate = name.split("/")[1]
        for function, line, header, _ in functions(text):
            for clause in re.findall(r"requires(?: \w+)? \{ (.*) \}$", header, re.M):
                for atom in re.split(r" × ", clause):
                    atom = re.sub(r"\.(?:now|old|new)\b", "", atom).strip("() ")
                    atom = re.sub(r"\b(?:self|entries|book|new|m|i|member|instrument)\b", lambda m: m.group(0), atom)
                    seen[(crate, atom)].add(f"{name}:{line}")
    return [f"{crate}: {atom} in {len(where)} functions" for (crate, atom), where in sorted(seen.items()) if len(where) >= 3]


def travelling_parameters():
    """Three or more parameters, by name, that stand together in the parameter lists of three or more functions of a crate."""
    lists = defaultdict(list)
    for name, text in TEXT.items():
        if is_program(name):
            continue
        for function, line, header, _ in functions(text):
            signature = header.split(" ensures")[0].split(" requires")[0]
            inside = re.search(r"\((.*)\)", signature.replace("\n", " "), re.S)
            names = frozenset(re.findall(r"(\w+): ", inside.group(1))) if inside else frozenset()
            lists[name.split("/")[1]].append(names)
    answer = []
    for crate, all_names in sorted(lists.items()):
        groups = set()
        for one in all_names:
            for other in all_names:
                both = one & other
                if len(both) >= 2 and sum(1 for names in all_names if both <= names) >= 3:
                    groups.add(both)
        for group in sorted(groups, key=sorted):
            if not any(group < other and sum(1 for n in all_names if other <= n) == sum(1 for n in all_names if group <= n) for other in groups):
                answer.append(f"{crate}: {', '.join(sorted(group))} in {sum(1 for n in all_names if group <= n)} functions")
    return answer


POINTS = {
    "1 flags beside values": found(r"^\s+(?:pub(?:\([a-z]+\))? )?\w+: bool,$"),
    "1 numbers for kinds or refusals": found(r"\b(?:code|kind|benchmarks?|group): u(?:8|64)\b|-> u8$|self\.code == \d", lambda name, match: not is_program(name)),
    "1 a match that passes Err or None on": found(r"Err\((\w+)\) => Err\(\1\)|None => None|Err\(_\) => false"),
    "1 rows of refusals for one fact": found(r"if \w+ > \d+ \{\n\s+return Err\(Refusal::NoSuch\w+\);\n\s+\}\n(?:.*\n)?\s+if !"),
    "2 twins": twins(),
    "3 loops over a counted index": found(r"^\s+for \w+ in [^{\n]*\.\.[^{\n]* \{$", lambda name, match: not re.search(r"\(0u8\.\.\)", match.group(0))),
    "4 equality by hand": found(r"matches!\([^()]*(?:\([^()]*\))?[^()]*\)|\((?:\w+::)?\w+::\w+, \w+::\w+\) =>", lambda name, match: "row_tests" not in name),
    "4 conversion or printing by hand": found(r"fn (?:number|numbered|words|\w+_bit|to_\w+)\("),
    "4 casts": found(r"\b(?:[a-z_.]+|\)) as u(?:8|16|32|64|128|size)\b"),
    "4 structs copied or blanked field by field": found(r"^(?:pub )?const (?:NO|BLANK)_\w+: \w+ =|^fn with_\w+\("),
    "5 facts in three contracts": repeated_facts(),
    "5 parameters that travel together": travelling_parameters(),
    "6 buffers with a length beside": found(r"count: usize,$|entries: &(?:mut )?\[\w+\], n: usize|entries: &(?:mut )?\[Entry\],$|row: &(?:mut )?\[E\], n: usize|events: &mut \[Event\],\n\s+told: usize|text: String,$"),
    "6 parallel arrays": found(r"^\s+(?:pub(?:\([a-z]+\))? )?\w+: \[u(?:32|64); \w+\],$"),
    "7 switches on a step, tables of functions": found(r"\bfn\(|\blet Step::\w+ \{"),
}

for point, places in POINTS.items():
    print(f"{point}: {len(places)}")
    for place in places:
        print(f"    {place}")
proofs = sorted(ROOT.glob("crates/*/proofs/**/*.antt"))
answers = [path for path in proofs if path.name == "Answers.antt"]
print(f"8 answers in {len(answers)} files: {sum(len(re.findall(r'^pub ', p.read_text(), re.M)) for p in answers)}")
print(f"8 lines of proof: {sum(len(p.read_text().splitlines()) for p in proofs)}")

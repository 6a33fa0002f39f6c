#!/usr/bin/env python3
"""Brings the names of goals and steps in proofs/F/ to today's. It was run once, after respell.py,
and the check does not need it.

    python3 tools/respell_goals.py        at the top of the repository

Rattle makes these names from its own words and the source's. Its own words are in snake case now, and a name from the
source keeps its spelling: `overflow-add-sum` is `overflow_add-sum`, and the step of `set_factor` is `set_factor`.
"""
import glob
import re

WORDS = [("from-residual", "from_residual"), ("in-err", "in_err"), ("in-ok", "in_ok"), ("in-default", "in_default"), ("invariant-of", "invariant_of"),
         *[(f"{kind}-{what}", f"{kind}_{what}") for kind in ("overflow", "nonzero", "offset", "slice")
           for what in ("add", "sub", "mul", "div", "rem", "shl", "shr", "cast", "neg", "step", "bounds")]]
TOKEN = re.compile(r"[^\s(){}\[\].,;:=λ`]+")


def source_names():
    names = set()
    for path in glob.glob("crates/*/src/**/*.rt", recursive=True):
        text = re.sub(r'"(?:[^"\\]|\\.)*"|//[^\n]*', "", open(path, encoding="utf-8").read())
        names.update(re.findall(r"\b[a-z][a-z0-9]*(?:_[a-z0-9]+)+\b", text))
    return sorted(names, key=lambda name: -len(name))


def main():
    pairs = WORDS + [(name.replace("_", "-"), name) for name in source_names()]
    of_name = dict(pairs)
    whole = re.compile(r"(?<![\w'])(?:" + "|".join(re.escape(a) for a, _ in sorted(pairs, key=lambda p: -len(p[0]))) + r")(?![\w'])")
    for path in glob.glob("crates/*/proofs/*/**/*.antt", recursive=True):
        out = []
        for line in open(path, encoding="utf-8").read().split("\n"):
            if line.startswith("use ") and ".Goals" not in line and ".Given" not in line or line.lstrip().startswith("--"):
                out.append(line)
                continue
            out.append(TOKEN.sub(lambda m: whole.sub(lambda n: of_name[n.group(0)], m.group(0)) if "-" in m.group(0) else m.group(0), line))
        new = "\n".join(out)
        if new != open(path, encoding="utf-8").read():
            open(path, "w", encoding="utf-8").write(new)


if __name__ == "__main__":
    main()

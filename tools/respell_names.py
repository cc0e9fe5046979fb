#!/usr/bin/env python3
"""Brings the names of this repository's own definitions and lemmas to one spelling, in place: a type or a fact in
upper camel case, everything else in snake case, with a dash only where a lemma's name joins two functions.

usage: python3 tools/respell_names.py [--list]     at the top of the repository; --list prints the names and changes nothing

Names that Rattle makes (goals, invariants, measures), names of Rust items and the words of std stay as they are.
"""

import glob
import os
import re
import sys

NAME = r"[A-Za-z][A-Za-z0-9_'\-∪∷⊆∈≡≤<+*◌]*"
SIGNATURE = re.compile(r"^( *)(?:abbrev |unfoldable )?(?:pub )?(?:abbrev |unfoldable )?(" + NAME + r") : (.*)$")
RECORD = re.compile(r"^( *)(?:pub )?(?:record|data) (?:pub )?(" + NAME + r")[ :]")
# names that the rules below would give to another definition too, or that speak of an older word
CHOSEN = {
    "is-plan": "is_plan_step", "okOr-ok": "ok_or_ok", "getD-tabled": "get_or-tabled", "all_get_d": "all-get_or",
    "has-set-other": "has-set_other",
}
# names that join two functions: a lemma on the first applied to the second
JOINING = {"get_or-tabled", "all-get_or", "has-set", "has-set_other", "has-tabled", "length-tabled", "absent-set"}
# labels of clauses that had none, by what the clause says
LABELS = {
    "t": "below", "model_in_bounds": "room", "marks_len": "sizes", "sure_given_len": "givens", "possible_value": "widest",
    "possible_len": "sizes", "plan_len": "plan_size", "index_value": "index",
}


def antt_files():
    return sorted(p for p in glob.glob("crates/*/**/*.antt", recursive=True) if "/out/" not in p)


def read(path):
    with open(path, encoding="utf-8") as f:
        return f.read()


def is_function_file(path):
    return os.path.basename(path) in ("Answers.antt", "Invariants.antt", "Proof.antt")


def declared():
    """Every declared name, with what kind it is: type, word, field or lemma. A record's fields stand deeper than it does."""
    kinds = {}
    for path in antt_files():
        lines = read(path).split("\n")
        record = None
        for i, line in enumerate(lines):
            m = RECORD.match(line)
            if m:
                record = len(m.group(1))
                kinds.setdefault(m.group(2), set()).add("type")
                continue
            m = SIGNATURE.match(line)
            if m:
                deep, name, whole = len(m.group(1)), m.group(2), m.group(3)
                if record is not None and deep > record:
                    kinds.setdefault(name, set()).add("field")
                    continue
                record = None
                if is_function_file(path) and whole.startswith("goal."):
                    continue
                k = i + 1
                while whole.endswith(("→", "×")) and k < len(lines):
                    whole += " " + lines[k].strip()
                    k += 1
                if whole.split("→")[-1].strip() == "Type 0":
                    kind = "type"
                elif "/specs/" in path and re.match(r"^ *(pub )?(abbrev|unfoldable)", line):
                    kind = "word"
                else:
                    kind = "lemma"
                kinds.setdefault(name, set()).add(kind)
            elif line and record is not None and len(line) - len(line.lstrip()) <= record:
                record = None
    return kinds


def snake(name):
    name = re.sub(r"(?<=[a-z0-9])([A-Z])", lambda m: "_" + m.group(1).lower(), name) if name[0].islower() else name
    return name.replace("-", "_")


def camel(name):
    return "".join(part[:1].upper() + part[1:] for part in re.split(r"[-_]", name))


def respelled(kinds):
    turned = {}
    for name, kind in kinds.items():
        if "◌" in name or name in JOINING:
            continue
        if name in CHOSEN:
            new = CHOSEN[name]
        elif kind == {"type"}:
            new = camel(name) if re.search(r"[-_]", name) or name[0].islower() else name
        else:
            new = snake(name)
        if new != name:
            turned[name] = new
    return turned


TOKEN = re.compile(r"(\.?)([^\s(){}\[\];,.\"`]+)")


def turn(text, turned, fields):
    """What follows a dot is a field, or a name that Rattle makes."""

    def new(m):
        dot, name = m.groups()
        return dot + (turned.get(name, name) if not dot or name in fields else name)

    return TOKEN.sub(new, text)


def turn_antt(text, turned, fields):
    out = []
    for line in text.split("\n"):
        code, dashes, comment = line.partition("-- ") if line.lstrip().startswith("-- ") else (line, "", "")
        out.append(turn(code, turned, fields) + dashes + comment)
    return "\n".join(out)


def turn_rt(text, turned, fields):
    """Only where antt stands: clauses, ghost members and ghost imports."""
    out = []
    for line in text.split("\n"):
        ghost = re.match(r"\s*(ghost |requires|ensures)", line) or "→" in line or "≡" in line
        if ghost and not line.lstrip().startswith("//"):
            line = turn(line, turned, fields)
            line = re.sub(r"^( *requires )(\w+)(?= \{)", lambda m: m.group(1) + LABELS.get(m.group(2), m.group(2)), line)
        out.append(line)
    return "\n".join(out)


def turn_page(text, turned):
    """Names between backquotes."""
    return re.sub(r"`[^`\n]*`", lambda m: TOKEN.sub(lambda t: t.group(1) + turned.get(t.group(2), t.group(2)), m.group(0)), text)


def rewrite(paths, turner):
    for path in paths:
        old = read(path)
        new = turner(old)
        if new != old:
            with open(path, "w", encoding="utf-8") as f:
                f.write(new)


def main():
    kinds = declared()
    turned = respelled(kinds)
    if "--list" in sys.argv:
        for name in sorted(turned):
            print(f"{'+'.join(sorted(kinds[name])):12} {name} -> {turned[name]}")
        return
    fields = {n for n, k in kinds.items() if "field" in k}
    rewrite(antt_files(), lambda text: turn_antt(text, turned, fields))
    rewrite(sorted(glob.glob("crates/*/src/**/*.rt", recursive=True)), lambda text: turn_rt(text, turned, fields))
    rewrite(["README.md"] + sorted(glob.glob("docs/*.md")), lambda text: turn_page(text, turned))


main()

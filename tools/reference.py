#!/usr/bin/env python3
"""What `sheetlist` has to print for a text, by a second, slow implementation.

It shares no code with the program: the format is read by hand from docs/FORMAT.md, and plans are
found by guessing the atoms on which the reduct and the pair table depend and checking each guess.
Usage: reference.py < TEXT, or reference.py FILE.. (each after a line `# FILE`).
"""
import itertools
import re
import sys

NAME = re.compile(rb"[a-z][A-Za-z0-9_]{0,15}\Z")
LEVELS = {str(level).encode(): level for level in range(16)}
FIELDS = {b"a": (3, 3), b"p": (4, 4), b"r": (2, None), b"b": (1, None)}
RANK = {b"a": 0, b"p": 1, b"r": 2, b"b": 2}


class Fault(Exception):
    def __init__(self, number, line, byte):
        super().__init__(f"fault,{number},{line},{byte}")


class Sheet:
    def __init__(self):
        self.names, self.levels, self.rows, self.lines, self.laid = {}, [], [], [], False

    def lay(self):
        if not self.levels:
            raise Fault(2, 0, 0)
        for first, second, out, line, byte in self.rows:
            if max(self.levels[first], self.levels[second]) >= self.levels[out]:
                raise Fault(5, line, byte)
        self.laid = True


def read(text):
    if len(text) > 65536 or (text and not text.endswith(b"\n")):
        raise Fault(27, 0, 0)
    sheet, rank = Sheet(), 0
    for number, record in enumerate(text.split(b"\n")[:-1], 1):
        rank = read_record(sheet, number, record, rank)
    if not sheet.laid:
        sheet.lay()
    return sheet


def read_record(sheet, number, record, rank):
    fields = record.split(b",")
    at = [sum(len(field) + 1 for field in fields[:k]) for k in range(len(fields))]
    letter = fields[0]
    if letter not in RANK:
        raise Fault(20, number, 0)
    if RANK[letter] < rank:
        raise Fault(24, number, 0)
    if RANK[letter] == 2 and not sheet.laid:
        sheet.lay()
    least, most = FIELDS[letter]
    if len(fields) < least or (most and len(fields) > most):
        raise Fault(26, number, 0)

    def known(k, name):
        if not NAME.match(name):
            raise Fault(21, number, at[k])
        if name not in sheet.names:
            raise Fault(22, number, at[k])
        return sheet.names[name]

    if letter == b"a":
        if not NAME.match(fields[1]):
            raise Fault(21, number, at[1])
        if fields[1] in sheet.names:
            raise Fault(23, number, at[1])
        if fields[2] not in LEVELS:
            raise Fault(25, number, at[2])
        if len(sheet.names) == 256:
            raise Fault(2, number, 0)
        sheet.names[fields[1]] = len(sheet.names)
        sheet.levels.append(LEVELS[fields[2]])
    elif letter == b"p":
        atoms = [known(k, fields[k]) for k in (1, 2, 3)]
        if len(sheet.rows) == 64:
            raise Fault(19, number, 0)
        sheet.rows.append((*atoms, number, at[3]))
    else:
        head = known(1, fields[1]) if letter == b"r" else None
        body = []
        for k in range(2 if letter == b"r" else 1, len(fields)):
            negated = fields[k].startswith(b"-")
            body.append((known(k, fields[k][1:] if negated else fields[k]), negated, at[k]))
        if len(sheet.lines) == 512:
            raise Fault(6, number, 0)
        if len(body) > 8:
            raise Fault(8, number, body[8][2])
        for atom, _, byte in body:
            if head is not None and sheet.levels[atom] > sheet.levels[head]:
                raise Fault(10, number, byte)
        sheet.lines.append((head, [a for a, n, _ in body if not n], [a for a, n, _ in body if n]))
    return RANK[letter]


def least_model(sheet, guess):
    model = {out for first, second, out, _, _ in sheet.rows if first in guess and second in guess}
    kept = [(h, plus) for h, plus, minus in sheet.lines if h is not None and not guess & set(minus)]
    grown = True
    while grown:
        grown = False
        for head, plus in kept:
            if head not in model and all(atom in model for atom in plus):
                model.add(head)
                grown = True
    return model


def plans(sheet):
    asked = {atom for head, _, minus in sheet.lines if head is not None for atom in minus}
    asked |= {atom for row in sheet.rows for atom in row[:2]}
    derivable = {h for h, _, _ in sheet.lines if h is not None} | {row[2] for row in sheet.rows}
    asked = sorted(asked & derivable)
    found = []
    for bits in itertools.product((False, True), repeat=len(asked)):
        guess = {atom for atom, bit in zip(asked, bits) if bit}
        model = least_model(sheet, guess)
        if model & set(asked) != guess:
            continue
        if any(h is None and model.issuperset(plus) and not model & set(minus) for h, plus, minus in sheet.lines):
            continue
        found.append(tuple(int(atom in model) for atom in range(len(sheet.levels))))
    return sorted(found)


def printout(text):
    try:
        sheet = read(text)
    except Fault as fault:
        return f"{fault}\n"
    names = [name.decode() for name in sheet.names]
    listed = plans(sheet)
    lines = [",".join(["plan"] + [name for name, bit in zip(names, plan) if bit]) for plan in listed]
    lines.append(f"end,{len(listed)}")
    for atom, name in enumerate(names):
        held = sum(plan[atom] for plan in listed)
        lines.append(f"tell,{name},{held},{int(held > 0)},{int(0 < held == len(listed))}")
    return "\n".join(lines) + "\n"


if __name__ == "__main__":
    if len(sys.argv) == 1:
        sys.stdout.write(printout(sys.stdin.buffer.read()))
    for path in sys.argv[1:]:
        with open(path, "rb") as file:
            sys.stdout.write(f"# {path}\n{printout(file.read())}")

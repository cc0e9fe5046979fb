"""Writes sheets, runs sheetlist and clingo on each in turn, and prints a table. See benches/run."""
import os
import subprocess
import sys
import tempfile
import time


def pairs(count):
    """Independent even pairs: 2 ** count plans."""
    text = "".join(f"a,p{k},0\na,q{k},0\n" for k in range(count))
    return text + "".join(f"r,p{k},-q{k}\nr,q{k},-p{k}\n" for k in range(count))


def ring(count):
    """A ring in which no two neighbours are both chosen."""
    text = "".join(f"a,p{k},0\na,q{k},0\n" for k in range(count))
    text += "".join(f"r,p{k},-q{k}\nr,q{k},-p{k}\n" for k in range(count))
    return text + "".join(f"b,p{k},p{(k + 1) % count}\n" for k in range(count))


def colouring(nodes, edges):
    text = "".join(f"a,{c}{v},0\n" for v in range(nodes) for c in "rgb")
    for v in range(nodes):
        for c in "rgb":
            text += f"r,{c}{v}" + "".join(f",-{d}{v}" for d in "rgb" if d != c) + "\n"
    return text + "".join(f"b,{c}{v},{c}{w}\n" for v, w in edges for c in "rgb")


def queens(size):
    cells = [(r, c) for r in range(size) for c in range(size)]
    text = "".join(f"a,q{r}_{c},0\na,n{r}_{c},0\n" for r, c in cells) + "".join(f"a,row{r},0\n" for r in range(size))
    text += "".join(f"r,q{r}_{c},-n{r}_{c}\nr,n{r}_{c},-q{r}_{c}\nr,row{r},q{r}_{c}\n" for r, c in cells)
    text += "".join(f"b,-row{r}\n" for r in range(size))
    for i, (r, c) in enumerate(cells):
        for s, d in cells[i + 1:]:
            if r == s or c == d or abs(r - s) == abs(c - d):
                text += f"b,q{r}_{c},q{s}_{d}\n"
    return text


def translated(text):
    """The same rules for clingo: a row of the pair table becomes a rule, which it is where levels are kept."""
    rules, names = [], []
    for record in text.splitlines():
        letter, *fields = record.split(",")
        literals = lambda fs: ", ".join(f"not {f[1:]}" if f.startswith("-") else f for f in fs)
        if letter == "a":
            names.append(fields[0])
        elif letter == "p":
            rules.append(f"{fields[2]} :- {fields[0]}, {fields[1]}.")
        elif letter == "r":
            rules.append(f"{fields[0]} :- {literals(fields[1:])}." if fields[1:] else f"{fields[0]}.")
        else:
            rules.append(f":- {literals(fields)}.")
    return "\n".join(rules + [f"#show {name}/0." for name in names]) + "\n"


def seconds(command, source, target):
    with open(source, "rb") as stdin, open(target, "wb") as stdout:
        start = time.perf_counter()
        status = subprocess.run(command, stdin=stdin, stdout=stdout, stderr=subprocess.DEVNULL).returncode
        return time.perf_counter() - start, status


def listed(path):
    with open(path, "rb") as file:
        lines = file.read().splitlines()
    return next((int(line[4:]) for line in lines if line.startswith(b"end,")), None)


SHEETS = [
    ("18 even pairs", pairs(18)),
    ("ring of 16", ring(16)),
    ("4 queens", queens(4)),
    ("colouring of a ring of 9", colouring(9, [(k, (k + 1) % 9) for k in range(9)])),
]


def main(program, rounds):
    print(f"Best of {rounds}, in seconds, output to a file.\n")
    print("| sheet | plans | sheetlist | clingo 0 | ratio |\n|---|---|---|---|---|")
    with tempfile.TemporaryDirectory() as folder:
        text, rules, ours, theirs = (os.path.join(folder, name) for name in ("text", "rules", "ours", "theirs"))
        for label, sheet in SHEETS:
            with open(text, "w") as file:
                file.write(sheet)
            with open(rules, "w") as file:
                file.write(translated(sheet))
            best = [9e9, 9e9]
            for _ in range(rounds):
                best[0] = min(best[0], seconds([program], text, ours)[0])
                best[1] = min(best[1], seconds(["clingo", "0", "-"], rules, theirs)[0])
            print(f"| {label} | {listed(ours)} | {best[0]:.3f} | {best[1]:.3f} | {best[0] / best[1]:.2f} |", flush=True)
        with open(text, "w") as file:
            names = [f"{c}{d}" for c in "abcdefghijklmnop" for d in "abcdefghijklmnop"]
            head = "".join(f"a,{name},0\n" for name in names)
            body = "r,aa" + "".join(f",{names[255 - k % 7]}" for k in range(30000))
            file.write((head + body)[:65532] + ",!\n")
        best = min(seconds([program], text, ours)[0] for _ in range(rounds))
        with open(ours) as file:
            print(f"\nA refused text of {os.path.getsize(text)} bytes ({file.read().strip()}): {best * 1000:.1f} ms.")


if __name__ == "__main__":
    main(sys.argv[1], int(sys.argv[2]))

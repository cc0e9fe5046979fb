#!/usr/bin/env python3
"""Writes the texts under crates/trials/data, their names to crates/trials/args, and what has to be
printed for them, by tools/reference.py, to crates/trials/stdout."""
import os
import random
import shutil

import reference

CRATE = os.path.join(os.path.dirname(os.path.abspath(__file__)), "..", "crates", "trials")


def atoms(count, level=0, first=0):
    return "".join(f"a,{name(k)},{level}\n" for k in range(first, first + count))


def name(k):
    return "x" + str(k)


def long_name(k):
    return f"n{k:015d}"


def pad(length):
    """An accepted text of exactly so many bytes."""
    text = "".join(f"a,{long_name(k)},0\n" for k in range(40))
    body = "".join(f",{long_name(k)}" for k in range(8))
    line = f"r,{long_name(39)}{body}\n"
    while length - len(text) > 2 * len(line):
        text += line
    rest = length - len(text)
    # one more atom, and three lines with it as head, whose lengths come to the rest
    for width in range(1, 17):
        short = "q" * width
        head = f"a,{short},0\n"
        left = rest - len(head)
        for one in range(9):
            for two in range(9):
                for three in range(9):
                    tail = [f"r,{short}" + f",{long_name(1)}" * k + "\n" for k in (one, two, three)]
                    if sum(map(len, tail)) == left:
                        cut = text.index("r,")
                        return text[:cut] + head + text[cut:] + "".join(tail)
    raise ValueError(length)


def random_sheet(seed):
    rng = random.Random(seed)
    count = rng.randint(2, 9)
    levels = sorted(rng.randint(0, 2) for _ in range(count))
    lines = [f"a,{name(k)},{levels[k]}" for k in range(count)]
    for _ in range(rng.randint(0, 3)):
        out = rng.randrange(count)
        lower = [k for k in range(count) if levels[k] < levels[out]]
        if lower:
            lines.append(f"p,{name(rng.choice(lower))},{name(rng.choice(lower))},{name(out)}")
    for _ in range(rng.randint(1, 3 * count)):
        bar = rng.random() < 0.15
        head = rng.randrange(count)
        fit = [k for k in range(count) if bar or levels[k] <= levels[head]]
        body = "".join("," + rng.choice(("", "-")) + name(rng.choice(fit)) for _ in range(rng.randint(0, 3)))
        if not bar or body:
            lines.append("b" + body if bar else f"r,{name(head)}{body}")
    return "\n".join(lines) + "\n"


TWO = "a,x,0\na,y,0\n"
TRIALS = [
    # worked sheets
    ("kit", "a,gauge,0\na,dummy,0\na,bare,0\na,ready,1\np,gauge,dummy,ready\nr,gauge\nr,dummy,-bare\nr,bare,-dummy\n"),
    ("one_atom_no_line", "a,a,0\n"),
    ("own_reason", "a,a,0\nr,a,a\n"),
    ("odd_loop", "a,p,0\nr,p,-p\n"),
    ("even_loop", "a,a,0\na,b,0\nr,a,-b\nr,b,-a\n"),
    ("even_loop_barred", "a,a,0\na,b,0\nr,a,-b\nr,b,-a\nb,a\n"),
    ("positive_loop", "a,a,0\na,b,0\na,c,0\nr,a,b\nr,b,a\nr,a,-c\nr,c,-a\n"),
    ("row_both", "a,a,0\na,b,0\na,t,1\np,a,b,t\nr,a\nr,b\n"),
    ("row_one", "a,a,0\na,b,0\na,c,0\na,t,1\np,a,c,t\nr,a\nr,b\n"),
    ("row_by_plan", "a,a,0\na,b,0\na,t,1\np,a,a,t\nr,a,-b\nr,b,-a\n"),
    ("open_and_settled", "a,a,0\na,b,0\na,c,0\na,d,0\na,e,0\nr,a,-b\nr,b,-a\nr,c\nr,d,c\nr,e,-d\n"),
    ("empty_bar", "a,x,0\nr,x\nb\n"),
    ("bar_above_levels", "a,x,0\na,y,1\nr,x\nr,y,x\nb,x,-y\n"),
    ("rows_repeat", "a,x,0\na,t,1\np,x,x,t\np,x,x,t\nr,x\n"),
    ("literal_twice_and_both_sides", "a,x,0\na,y,0\nr,x,y,y,-y\nr,y\n"),
    # the whole text
    ("empty_text", ""),
    ("no_atoms_at_a_rule", "r,x\n"),
    ("no_atoms_at_a_bar", "b\n"),
    ("no_atoms_short_rule", "r\n"),
    ("not_ended", "a,x,0"),
    ("not_ended_after_damage", "q,x,0\nr,x"),
    ("only_a_line_feed", "\n"),
    # letters
    ("letter_capital", "A,x,0\n"),
    ("letter_two", TWO + "rr,x\n"),
    ("letter_space", TWO + " r,x\n"),
    ("blank_line", TWO + "r,x\n\nr,y\n"),
    ("letter_cr", TWO + "b\r\n"),
    ("letter_comma_first", ",x\n"),
    # order
    ("order_row_after_rule", TWO + "r,x\np,x,x,y\n"),
    ("order_atom_after_row", "a,x,0\na,y,1\np,x,x,y\na,z,0\n"),
    ("order_before_count", TWO + "b,x\na\n"),
    ("row_first", "p,x,y,z\n"),
    # number of fields
    ("fields_atom_two", "a,x\n"),
    ("fields_atom_four", "a,x,0,\n"),
    ("fields_row_three", TWO + "p,x,y\n"),
    ("fields_row_five", TWO + "p,x,y,x,y\n"),
    ("fields_rule_one", TWO + "r\n"),
    ("fields_none", TWO + "r,x\nr\n"),
    # malformed names
    ("malformed_capital_first", "a,Xx,0\n"),
    ("malformed_empty", "a,,0\n"),
    ("malformed_17_bytes", "a,abcdefghijklmnopq,0\n"),
    ("name_of_16_bytes", "a,abcdefghijklmnop,0\n"),
    ("name_with_everything", "a,aZ09_z,15\nr,aZ09_z\n"),
    ("malformed_in_row_third", "a,x,0\na,y,1\np,x,x,Y\n"),
    ("malformed_head_minus", TWO + "r,-x\n"),
    ("malformed_literal_minus_only", TWO + "r,x,y,-\n"),
    ("malformed_literal_two_minus", TWO + "b,x,--y\n"),
    ("malformed_comma_at_end", TWO + "r,x,\n"),
    ("malformed_cr", TWO + "r,x\r\n"),
    ("malformed_atom_minus", "a,-x,0\n"),
    ("malformed_row_minus", "a,x,0\na,y,1\np,-x,x,y\n"),
    ("malformed_high_byte", b"a,x\xc3\xa9,0\n"),
    ("malformed_nul", b"a,x\x00,0\n"),
    # unknown names
    ("unknown_head", TWO + "r,z,x\n"),
    ("unknown_literal", TWO + "r,x,y,-z\n"),
    ("unknown_in_row_second", "a,x,0\na,y,1\np,x,z,y\n"),
    ("unknown_case_matters", TWO + "b,x,xX\n"),
    ("unknown_beats_eight", "a,x,0\nr,x" + ",x" * 9 + ",z\n"),
    # declared twice
    ("twice_at_once", "a,x,0\na,x,0\n"),
    ("twice_before_level", "a,x,0\na,y,0\na,x,99\n"),
    # levels
    ("level_16", "a,x,16\n"),
    ("level_15", "a,x,15\nr,x\n"),
    ("level_leading_zero", "a,x,0\na,y,07\n"),
    ("level_two_zeros", "a,x,00\n"),
    ("level_empty", "a,x,\n"),
    ("level_sign", "a,x,+1\n"),
    ("level_cr", "a,x,0\r\n"),
    ("level_letter", "a,x,0\na,yy,1a\n"),
    # the sheet's own faults
    ("atoms_256", atoms(256)),
    ("atoms_257", atoms(257)),
    ("atom_257_level_first", atoms(256) + "a,y,16\n"),
    ("rows_64", "a,x,0\na,t,1\n" + "p,x,x,t\n" * 64 + "r,x\n"),
    ("rows_65", "a,x,0\na,t,1\n" + "p,x,x,t\n" * 65 + "r,x\n"),
    ("rows_65_of_three_atoms", "a,x,0\na,y,0\na,t,1\n" + "p,x,y,t\n" * 65),
    ("row_65_unknown_first", "a,x,0\na,t,1\n" + "p,x,x,t\n" * 64 + "p,x,x,u\n"),
    ("row_equal_level", "a,x,1\na,y,0\na,t,1\np,y,y,t\np,y,x,t\nr,x\n"),
    ("row_level_first_of_two", "a,xx,2\na,y,0\na,t,1\np,y,y,t\np,xx,y,t\np,y,xx,t\nb\n"),
    ("row_level_at_the_end", "a,x,0\na,t,0\np,x,x,t\n"),
    ("row_level_before_count", "a,x,0\na,t,0\np,x,x,t\nr\n"),
    ("row_level_after_order", "a,x,0\na,t,0\np,x,x,t\na,y,0\n"),
    ("lines_512", "a,x,0\n" + "r,x\n" * 512),
    ("lines_513", "a,x,0\n" + "r,x\n" * 513),
    ("lines_512_with_bars", "a,x,0\n" + "r,x\n" * 511 + "b,-x\n"),
    ("line_513_a_bar", "a,x,0\n" + "r,x\nb,-x\n" * 256 + "b,x\n"),
    ("line_513_beats_eight", "a,x,0\n" + "r,x\n" * 512 + "r,x" + ",x" * 9 + "\n"),
    ("body_8", "a,x,0\nr,x\nr,x" + ",x" * 8 + "\n"),
    ("body_9", "a,x,0\nr,x\nr,x" + ",x" * 9 + "\n"),
    ("body_9_with_minus", "a,x,0\na,yy,0\nr,x" + ",yy" * 8 + ",-x,x\n"),
    ("bar_9", "a,x,0\nb" + ",x" * 9 + "\n"),
    ("bar_8", "a,x,0\nb" + ",x" * 8 + "\n"),
    ("body_9_beats_level", "a,x,0\na,y,1\nr,x" + ",y" * 9 + "\n"),
    ("level_above_head", "a,x,0\na,y,1\nr,x,x,y\n"),
    ("level_above_head_negated", "a,x,0\na,yy,1\na,z,1\nr,x,x,-yy,z\n"),
    ("level_equal_head", "a,x,3\na,y,3\nr,x,-y\n"),
    # length
    ("bytes_65536", pad(65536)),
    ("bytes_65537", pad(65537)),
    ("bytes_65536_not_ended", pad(65536)[:-1] + "x"),
    ("line_of_60000_bytes", "a,x,0\nr,x" + ",-x" * 20000 + "\n"),
    # lists
    ("free_choices", "".join(f"a,{name(k)},0\n" for k in range(10)) + "".join(f"r,{name(2 * k)},-{name(2 * k + 1)}\nr,{name(2 * k + 1)},-{name(2 * k)}\n" for k in range(5))),
    ("three_colours", "".join(f"a,{c}{v},0\n" for v in range(4) for c in "rgb")
        + "".join(f"r,{c}{v}" + "".join(f",-{d}{v}" for d in "rgb" if d != c) + "\n" for v in range(4) for c in "rgb")
        + "".join(f"b,{c}{v},{c}{w}\n" for v, w in ((0, 1), (1, 2), (2, 3), (3, 0), (0, 2)) for c in "rgb")),
] + [(f"random_{seed:02d}", random_sheet(seed)) for seed in range(40)]


def main():
    folder = os.path.join(CRATE, "data")
    shutil.rmtree(folder, ignore_errors=True)
    os.makedirs(folder)
    labels = [label for label, _ in TRIALS]
    assert len(set(labels)) == len(labels)
    with open(os.path.join(CRATE, "args"), "w") as args, open(os.path.join(CRATE, "stdout"), "w") as expected:
        for label, text in TRIALS:
            text = text if isinstance(text, bytes) else text.encode()
            with open(os.path.join(folder, f"{label}.sheet"), "wb") as file:
                file.write(text)
            args.write(f"{label}.sheet\n")
            expected.write(f"# {label}.sheet\n{reference.printout(text)}")


if __name__ == "__main__":
    main()

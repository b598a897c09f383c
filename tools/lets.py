#!/usr/bin/env python3
"""lets.py CRATE FN: after `rt goals CRATE`, in the repository's root.
Of the older kit: it reads what `rt goals` wrote. Today an answer names its facts (Answers.antt), and `rt check --start FN` writes the file.

In FN's Proof.antt a line `@lets if1,decide,top` becomes the `let` lines that name these places, nearest first: `at-if1` is the record
with the field `if1`, and `top` the function's start.
"""
import re, sys
from facts import read


def places(records, start):
    """Each field of the records from `start` on, with the number of `.before`s that lead to it, nearest first."""
    record, depth = start, 0
    while record:
        fields = dict(records.get(record, []))
        if "args" in fields:
            yield "top", depth
        yield from ((name, depth) for name in fields if name != "before")
        record, depth = fields.get("before"), depth + 1


def lets(indent, wanted, found):
    """The lines, each place by way of the one before it."""
    from_, depth = "c", 0
    for at, name in sorted((next(d for n, d in found if n == name), name) for name in wanted):
        bound = "top" if name == "top" else f"at-{name}"
        yield f"{indent}let {bound} = {from_}{' .before' * (at - depth)} in"
        from_, depth = bound, at


def main():
    crate, function = sys.argv[1:]
    records, needs = read(f"target/goals/{crate}/Rattle·{crate}·proofs/proofs/{function}/Lts.antt")
    path = f"crates/{crate}/proofs/{function}/Proof.antt"
    lines, need = [], None
    for line in open(path).read().split("\n"):
        if m := re.match(r"\S+ : tie\.(Need-\S+)", line):
            need = m.group(1)
        if m := re.match(r"(\s*)@lets (.*)", line):
            lines += lets(m.group(1), re.split(r",\s*", m.group(2)), list(places(records, dict(needs)[need])))
        else:
            lines.append(line)
    open(path, "w").write("\n".join(lines))


if __name__ == "__main__":
    main()

#!/usr/bin/env python3
"""repath.py OLD CRATE [FN..]: in the repository's root, after `rt goals CRATE` here and in OLD, a clone of the tree before the change.
Of the older kit: it reads what `rt goals` wrote. Today facts are named and not counted (Answers.antt), so that no path moves.

A statement that the code gains moves every path of an answer behind it: `c .before .before .limits` becomes `c .before .before .before
.limits`. This writes the paths of each Proof.antt anew, so that each leads to the record with the same field as before. It prints the
paths whose field is gone.
"""
import glob, os, re, sys
from facts import read
from lets import places

PATH = re.compile(r"(?<![\w·-])(c|[a-z][\w-]*)((?: \.before)+)(?: \.([\w-]+))?|(?<![\w·.-])(c) \.([\w-]+)|let (\S+) = (c|[a-z][\w-]*)((?: \.before)*) in")


def tables(root, crate, function):
    path = f"{root}/target/goals/{crate}/Rattle·{crate}·proofs/proofs/{function}/Lts.antt"
    records, needs = read(path)
    return {need: list(places(records, start)) for need, start in needs}


def answer(text, old, new, report):
    """The text of one answer with its paths written anew; old and new are the places of its need."""
    fields, depth_of = {}, {}
    for name, depth in old:
        fields.setdefault(depth, []).append(name)
    for name, depth in new:
        depth_of.setdefault(name, depth)
    bound = {"c": (0, 0)}  # each name for a place: its depth before and now

    def now(depth, field):
        for name in [field] + fields.get(depth, []):
            if name in depth_of and name in fields.get(depth, []):
                return depth_of[name]
        report(depth, field, fields.get(depth))
        return depth

    def one(m):
        if m.group(6):
            base, steps, field, alias = m.group(7), m.group(8), None, m.group(6)
        elif m.group(4):
            base, steps, field, alias = m.group(4), "", m.group(5), None
        else:
            base, steps, field, alias = m.group(1), m.group(2), m.group(3), None
        if base not in bound:
            return m.group(0)
        was = bound[base][0] + steps.count(".before")
        top = field in ("args", "pre", "fits", "good")
        to = now(was, "top" if top else field)
        path = base + " .before" * (to - bound[base][1])
        if to < bound[base][1]:
            report(was, field, "before its base")
        if alias:
            bound[alias] = (was, to)
            return f"let {alias} = {path} in"
        return path + (f" .{field}" if field else "")

    return PATH.sub(one, text)


def update(old, crate, function):
    path = f"crates/{crate}/proofs/{function}/Proof.antt"
    before, after = tables(old, crate, function), tables(".", crate, function)
    blocks = re.split(r"(?m)^(?=\S+ : tie\.Need-|pub )", open(path).read())
    for i, block in enumerate(blocks):
        m = re.match(r"\S+ : tie\.(Need-\S+)", block)
        if m and m.group(1) in before and m.group(1) in after:
            blocks[i] = answer(block, before[m.group(1)], after[m.group(1)], lambda *what: print(function, m.group(1), *what))
    open(path, "w").write("".join(blocks))


def main():
    old, crate, *functions = sys.argv[1:]
    found = glob.glob(f"crates/{crate}/proofs/*/Proof.antt")
    for function in functions or sorted(os.path.basename(os.path.dirname(path)) for path in found):
        update(old, crate, function)


if __name__ == "__main__":
    main()

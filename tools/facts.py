#!/usr/bin/env python3
"""facts.py CRATE FN [WORD..]: after `rt goals CRATE`, in the repository's root.
Of the older kit: it reads what `rt goals` wrote. Today `rt check --allow-holes` prints, for each open goal, the facts by their names.

Prints, for each need of the function (whose name has one of the words), every path into c that leads to a fact, nearest
first: what an answer in FN's Proof.antt may use.
"""
import re, sys

RECORD = re.compile(r"\s+pub record (\S+) : Type 0 where")
FIELD = re.compile(r"\s+pub (\S+) : (.*)")
NEED = re.compile(r"\s+(Need-\S+) =")
PLACE = re.compile(r"\(c : (\S+?)\)")


def read(path):
    """The records with their fields, and the needs with the record that each starts from."""
    lines = open(path).read().split("\n")
    records, needs, current = {}, [], None
    for i, line in enumerate(lines):
        if m := RECORD.match(line):
            current = records.setdefault(m.group(1), [])
        elif (m := FIELD.match(line)) and current is not None:
            current.append((m.group(1), m.group(2).split()[0]))
        elif m := NEED.match(line):
            found = next(filter(None, map(PLACE.search, lines[i : i + 3])), None)
            if found:
                needs.append((m.group(1), found.group(1)))
    return records, needs


def paths(records, place):
    path = "c"
    while place in records and place != "Start":
        before = None
        for name, kind in records[place]:
            if name == "before":
                before = kind
            else:
                inside = ",".join(f for f, _ in records.get(kind, [])) or "result,ensures,last,kept"
                yield f"{path} .{name} .{{{inside}}}"
        path, place = path + " .before", before
    yield f"{path} .{{args,fits,pre,good}}"


def main():
    crate, function, *words = sys.argv[1:]
    records, needs = read(f"target/goals/{crate}/Rattle·{crate}·proofs/proofs/{function}/Lts.antt")
    for need, place in needs:
        if not words or any(word in need for word in words):
            print(need, "at", place)
            for path in paths(records, place):
                print("   ", path)


if __name__ == "__main__":
    main()

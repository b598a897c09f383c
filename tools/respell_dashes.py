#!/usr/bin/env python3
"""respell_dashes.py [ROOT]: run once: the repository's own definitions and lemmas have no dash: kept-count is kept_count.

A name that then would be that of another (a definition, mostly) gets `_lem`; one that a library declares too stays. Names that Rattle makes, as goals and their steps, keep their
dashes: they stand behind a dot, or in Answers.antt and Invariants.antt. Of edits the lines `old:`, `new:` and `theorem:` turn, of pages
and comments what stands in a code span.
"""
import os, re, sys

ROOT = sys.argv[1] if len(sys.argv) > 1 else "."
NAME = r'[^\s(){}.;,@"«»]+'
TOKEN = re.compile(r"(\.?)(" + NAME + r")")
ANSWERS = ("Answers.antt", "Invariants.antt")
# no fact, so no capital; `volume_a` is the volume
OWN = {"volume-A": "volume_a_lem"}
SPAN = re.compile(r"`[^`\n]+`")


def files(ending, *tops):
    for top in tops:
        path = os.path.join(ROOT, top)
        if os.path.isfile(path):
            yield path
        for d, ds, fs in os.walk(path):
            ds[:] = sorted(x for x in ds if x not in ("out", ".git", "target"))
            for f in sorted(fs):
                if f.endswith(ending):
                    yield os.path.join(d, f)


def read(p):
    with open(p, encoding="utf-8") as f:
        return f.read()


def parts(t):
    """The text as (code, comment) pairs."""
    at = 0
    for m in re.finditer(r'(?<![^\s(){}.;,@"«»])--[^\n]*', t):
        yield t[at : m.start()], m[0]
        at = m.end()
    yield t[at:], ""


def code(t):
    return "".join(c for c, _ in parts(t))


def declared(p):
    """(name, whether it is a field of a record) of each declaration in a file."""
    answers, record = os.path.basename(p) in ANSWERS, None
    for line in code(read(p)).split("\n"):
        indent = len(line) - len(line.lstrip())
        if record is not None and line.strip() and indent <= record:
            record = None
        m = re.match(rf"^ *(?:pub )?record ({NAME}).*where$", line)
        if m:
            record = indent
            yield m[1], False
            continue
        m = re.match(rf"^( *)(?:abbrev |unfoldable )*(?:pub )?((?:data )?(?:pub )?)({NAME})((?: {NAME})*)[^:=]*:(?: |$)", line)
        if m and not line.startswith("use ") and not (answers and line.startswith(("pub ", "abbrev pub ", " "))):
            for x in [m[3]] + m[4].split():
                yield x, record is not None


def main():
    names, fields, words = set(), set(), set()
    for p in files(".antt", "crates"):
        for x, is_field in declared(p):
            (fields if is_field else names).add(x)
        words |= {m[2] for m in TOKEN.finditer(code(read(p))) if not m[1]}
    # what a library declares too stays in every file
    theirs = set()
    for p in files(".antt", "crates"):
        for m in re.finditer(r"(?m)^use ((?:mathlib|native|lib|borrow|Prim|Rattle\.std)\.[^\s{]*)\{([^}]*)\}", read(p)):
            theirs |= {x.split(" as ")[0] for x in m[2].split(", ")}
        # and what Rattle makes
        theirs |= set(re.findall(rf"\bgoal\.({NAME})", read(p)))
        for m in re.finditer(r"(?m)^use Rattle\.[^\s{]*\.Goals\.\{([^}]*)\}", read(p)):
            theirs |= set(m[1].split(", "))
    table = {}
    for x in sorted(names | fields):
        if "-" in x and x not in theirs and re.search(r"[^\W\d_]", x):
            y = x.replace("-", "_")
            taken = y in words or y in names or y in table.values()
            table[x] = y + "_lem" if taken and x not in fields else y
    table.update(OWN)
    lems = [y for y in table.values() if y.endswith("_lem")]
    print(len(table), "names, of which with _lem:", " ".join(lems))

    def turned(t, modules=()):
        def one(m):
            dot, x = m[1], m[2]
            before = re.search(NAME + "$", t[: m.start()]) if dot else None
            of_module = before and (before[0] in modules or before[0][0].isupper())
            # `w` holds what Rattle knows of a branch
            if x not in table or (dot and not of_module and (x not in fields or (before and before[0] == "w"))):
                return m[0]
            return dot + table[x]

        return TOKEN.sub(one, t)

    def span(t):
        return SPAN.sub(lambda m: "`" + turned(m[0][1:-1]) + "`", t)

    def write(p, t):
        with open(p, "w", encoding="utf-8") as f:
            f.write(t)

    for p in files(".antt", "crates"):
        t = read(p)
        # of a module that the file names, as lists.All-both; those that Rattle makes are called goal
        modules = set(re.findall(rf"(?m)^use {NAME}(?:\.{NAME})* as ({NAME})$", t)) - {"goal"}
        n = "".join(turned(c, modules) + span(k) for c, k in parts(t))
        if n != t:
            write(p, n)
    for p in files(".rt", "crates"):
        t = read(p)
        n = re.sub(r"//[^\n]*", lambda m: span(m[0]), t)
        if n != t:
            write(p, n)
    for p in files(".edit", "crates", "tests"):
        t = read(p)
        n = "".join(turned(l) if l.startswith(("old: ", "new: ", "theorem: ")) and ".rt" not in l else span(l) for l in t.splitlines(keepends=True))
        if n != t:
            write(p, n)
    for p in files((".md", "README"), "README.md", "docs", "tests/README.md"):
        t = read(p)
        # fenced blocks of antt too, whole
        n = re.sub(r"(?ms)^```(?:antt|text)?\n.*?^```$", lambda m: turned(m[0]), span(t))
        if n != t:
            write(p, n)


main()

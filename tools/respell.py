#!/usr/bin/env python3
"""respell.py [ROOT]: run once, after port.py: brings the repository's own definitions and lemmas to today's spelling.

1. A word in mixed case that begins small is spelled in snake case, in every .antt and .rt file: goodName is good_name. A part that is
   a fact keeps its capital, as in entry_IsPlace.
2. Lemmas that then would have the name of a definition get `_lem` (LEMMAS); local facts get another name (LOCAL).
3. The definition `result` of rules/specs/Entries.antt is `result_of`, since `result` is a word of clauses now. Clauses that port.py left for
   that reason lose their brackets.
4. The module rules/specs/Contracts is Promises, since Rattle makes a module `contracts`.
5. The pages of docs/, and the scripts of tests/ that write or read definitions, say the new names.
"""
import os, re, sys

ROOT = sys.argv[1] if len(sys.argv) > 1 else "."
WORD = re.compile(r'[^\s(){}.;,@"«»]+')
# where a lemma is declared, and its name
LEMMAS = [
    ("bitmap.proofs.Walk", "is_free"),
    ("dates.proofs.Laws", "two_digits"),
    ("grant_space.proofs.Laws", "asked_is"),
    ("model.proofs.Choose", "first_part"),
    ("open_table.proofs.Calls", "not_found"),
    ("rules.proofs.Answer", "given_back"),
    ("rules.proofs.Taken", "good_length"),
]
# the file, the name of a local fact, its new name
LOCAL = [
    ("crates/grant_space/proofs/Decided.antt", "label_is", "label_eq"),
    ("crates/update/proofs/Put.antt", "left_is", "left_eq"),
    ("crates/update/proofs/Put.antt", "asked_by", "asked_here"),
]
PAGES = ["README.md", "docs", "tests/make_cases.py", "tests/wrong_definitions", "tests/README.md"]


def snake(name):
    def part(p):
        if not p[:1].islower():
            return p
        p = p.replace("getD", "get_or")
        p = re.sub(r"(?<=[A-Z])(?=[A-Z][a-z])", "_", p)
        p = re.sub(r"(?<=[a-z0-9])(?=[A-Z])", "_", p)
        return re.sub(r"[A-Z]", lambda m: m[0].lower(), p)

    return "".join(p if p in "-_" else part(p) for p in re.split(r"([-_])", name))


def files(endings, top="crates"):
    for d, ds, fs in os.walk(os.path.join(ROOT, top)):
        ds[:] = sorted(x for x in ds if x not in ("out", ".git", "target"))
        for f in sorted(fs):
            if f.endswith(endings):
                yield os.path.join(d, f)


def read(p):
    with open(p, encoding="utf-8") as f:
        return f.read()


def write(p, t):
    with open(p, "w", encoding="utf-8") as f:
        f.write(t)


def code(t):
    return re.sub(r'(?<![^\s(){}.;,@"«»])--[^\n]*', "", t)


def bare(t, old, new):
    """The word where it stands alone: behind no dot and before none."""
    return re.sub(rf'(?<![^\s(){{}};,@"«»]){re.escape(old)}(?![^\s(){{}};,@"«»])', new, t)


def main():
    # 2: before 1, while a lemma and the definition differ
    for module, name in LEMMAS:
        crate, part, last = module.split(".")
        own = os.path.join(ROOT, "crates", crate, part, last + ".antt")
        for p in files((".antt",)):
            t = read(p)
            uses = re.search(rf"Rattle\.{re.escape(module)}\.\{{[^}}]*(?<![^\s{{,]){name}(?![^\s}},])", t)
            if p == own or uses:
                write(p, bare(t, name, name + "_lem"))
    for p, old, new in LOCAL:
        p = os.path.join(ROOT, p)
        write(p, bare(read(p), old, new))
    # 3
    for p in files((".antt", ".rt")):
        t = read(p)
        uses = re.search(r"Entries\.\{[^}]*(?<![^\s{,])result(?![^\s},])", t)
        if os.path.relpath(p, ROOT) == "crates/rules/specs/Entries.antt" or re.search(r"/rules/specs/(Zz)?Entries\d*\.antt$", p):
            write(p, bare(t, "result", "result_of"))
        elif uses and p.endswith(".antt"):
            write(p, bare(t, "result", "result_of"))
        elif uses:
            out = []
            for line in t.split("\n"):
                m = re.match(r"^(\s*)ensures\* \{ λ (\w+)\. ⌜ (.*) ⌝ \}$", line)
                if line.startswith("ghost use"):
                    line = bare(line, "result", "result_of")
                elif m:
                    body = bare(m[3], "result", "result_of")
                    # the returned value, alone or before a field
                    body = re.sub(rf'(?<![^\s(){{}};,@"«»]){m[2]}(?=[\s(){{}};,.]|$)', "result", body) if m[2] != "_" else body
                    line = f"{m[1]}ensures {{ {body} }}"
                out.append(line)
            write(p, "\n".join(out))
    # 1
    table = {}
    for p in files((".antt",)):
        for w in WORD.findall(code(read(p))):
            if w[0].islower() and snake(w) != w:
                table[w] = snake(w)
    print(len(table), "names")
    # 4
    table["rules.specs.Contracts"] = "rules.specs.Promises"
    old = re.compile(r"(?<![\w'-])(" + "|".join(sorted(map(re.escape, table), key=len, reverse=True)) + r")(?![\w'-])")
    for p in files((".antt", ".rt")):
        t = read(p)
        n = old.sub(lambda m: table[m[1]], t)
        n = n.replace("rules/specs/Contracts.antt", "rules/specs/Promises.antt")
        if n != t:
            write(p, n)
    d = os.path.join(ROOT, "crates/rules/specs")
    for f in sorted(os.listdir(d)):
        if re.fullmatch(r"(Zz)?Contracts\d*\.antt", f):
            os.rename(os.path.join(d, f), os.path.join(d, f.replace("Contracts", "Promises")))
    lib = os.path.join(d, "Lib.antt")
    write(lib, read(lib).replace("pub mod Contracts", "pub mod Promises"))
    # 5
    for page in PAGES:
        top = os.path.join(ROOT, page)
        for p in [top] if os.path.isfile(top) else list(files((".md",), page)):
            t = read(p)
            n = old.sub(lambda m: table[m[1]], t).replace("specs/Contracts", "specs/Promises")
            if n != t:
                write(p, n)


main()

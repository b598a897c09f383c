#!/usr/bin/env python3
"""imports.py CRATE [FILE..]: rewrite the `use` lines of a crate's .antt files (default: all of specs/ and proofs/*.antt).
Of the older kit: it reads its spelling (Rattle·model.specs). Today `rt check --fix-imports` writes `use` lines, and `rt tidy` drops some.

Names of our own crates are found by an index of what each module exports; of a library's `use` line only the names that
the file still mentions are kept. A name that the file defines itself is not imported. Run it in the repository's root.
"""
import glob, os, re, sys

WORD = re.compile(r"[^\s(){},;]+")


def strip_comments(text):
    return re.sub(r"--[^\n]*", "", text)


def exports(path):
    """The names that a module makes public: definitions, records, data types and their constructors."""
    names, block = [], ""
    for line in strip_comments(open(path).read()).split("\n"):
        m = re.match(r"(\s*)(?:(?:abbrev|unfoldable) +)?pub (?:(record|data|mod) +)?(\S+)", line)
        if line and not line[0].isspace():
            block = (re.match(r"pub (record|data) ", line) or [0, "other"])[1]
        if m and m.group(2) != "mod" and not (m.group(1) and block == "record"):
            names.append(m.group(3))
        elif block == "data" and line[:1].isspace():
            m = re.match(r"\s+([^:]+) :", line)
            if m:
                names += m.group(1).split()
    return names


def declared(path):
    """The names that a file defines, fields of records left out."""
    names, block = set(), ""
    for line in strip_comments(open(path).read()).split("\n"):
        if line and not line[0].isspace():
            block = "record" if re.match(r"(pub )?record ", line) else "other"
        m = re.match(r"(\s*)(?:(?:abbrev|unfoldable) +)?(?:pub +)?(?:(?:record|data) +)?(\S+)(?: \{[^}]*\})?(?: \([^)]*\))* : ", line)
        if m and not (m.group(1) and block == "record"):
            names.add(m.group(2))
    return names


def words(body):
    body = strip_comments(body)
    body = re.sub(r"[^\s(){},;]*Rattle·\S+", " ", body)
    body = re.sub(r"([{;]\s*)[^\s(){},;]+ =", r"\1", body)  # the fields of a record that is made
    body = re.sub(r"(?m)^(\s+)(?:pub )?[^\s(){}:]+ :", r"\1", body)  # and of one that is declared
    body = re.sub(r"\blet [^\s(){}:]+ (?=[:=])", "let ", body)
    out = set()
    for w in WORD.findall(body):
        if w.startswith("."):
            continue
        out.add(w.rstrip("."))
    return out


KIT = "/opt/rattle"
PLAIN = {"decLe", "map", "Bool", "true", "false", "Option", "none", "some", "List", "sym", "ap", "ap₂", "subst", "refl", "cond", "not", "inl", "inr", "getD", "set", "take", "drop", "length", "replicate", "leb", "ltb", "eqb", "T"}  # names without a hyphen
OPERATORS = {
    "Prim.Native.Nat": ["ℕ", "zero", "suc", "_+_", "_-_", "_*_", "_/_", "_%_", "_≤_", "_<_", "max", "min"],
    "mathlib.Core.Path": ["_≡_", "_∙_"],
    "mathlib.Core.List": ["List", "[]", "_∷_", "_++_"],
    "mathlib.Core.Bool": ["_&&_", "_||_"],
    "mathlib.Core.Logic": ["_⊎_", "_↔_"],
    "native.Mathlib.Omega": ["arith"],
}
LIBRARIES = [  # searched in this order for names that no crate of ours has
    ("lib.ListN", "logic/Lib/ListN.antt"),
    ("lib.Seq", "logic/Lib/Seq.antt"),
    ("lib.Dec", "logic/Lib/Dec.antt"),
    ("borrow.Author.Tests", "logic/Borrow/Author/Tests.antt"),
    ("mathlib.Core.Path", "antt/port/mathlib/src/Core/Path.antt"),
    ("mathlib.Core.Bool", "antt/port/mathlib/src/Core/Bool.antt"),
    ("mathlib.Core.Option", "antt/port/mathlib/src/Core/Option.antt"),
    ("mathlib.Core.List", "antt/port/mathlib/src/Core/List.antt"),
    ("mathlib.Core.Logic", "antt/port/mathlib/src/Core/Logic.antt"),
    ("native.Mathlib.Nat", "antt/lib/native/src/Mathlib/Nat.antt"),
    ("native.Mathlib.Decide", "antt/lib/native/src/Mathlib/Decide.antt"),
    ("native.Mathlib.Numerals", "antt/lib/native/src/Mathlib/Numerals.antt"),
]


def library_index():
    where = {}
    for module, path in LIBRARIES:
        path = f"{KIT}/{path}"
        for name in exports(path) if os.path.exists(path) else []:
            where.setdefault(name, module)
    return where


def index():
    where = {}
    for path in sorted(glob.glob("crates/*/specs/*.antt") + glob.glob("crates/*/proofs/*.antt")):
        _, crate, kind, file = path.split("/")
        if file == "Lib.antt":
            continue
        for name in exports(path):
            where.setdefault(name, []).append((crate, kind, file[:-5]))
    return where


def main():
    crate, files = sys.argv[1], sys.argv[2:]
    if not files:
        files = sorted(glob.glob(f"crates/{crate}/specs/*.antt") + glob.glob(f"crates/{crate}/proofs/*.antt"))
    deps = {crate}
    lines = dict(l.split(":", 1) for l in open("crates.txt").read().split("\n") if l and not l.startswith("#"))
    todo = [crate]
    while todo:
        for d in lines.get(todo.pop(), "").split():
            if d not in deps:
                deps.add(d); todo.append(d)
    order = [c for c in lines if c in deps]
    where, library = index(), library_index()
    for path in files:
        if os.path.basename(path) == "Lib.antt":
            continue
        text = open(path).read()
        uses = re.findall(r"^use [^\n]*\n", text, re.M)
        body = re.sub(r"^use [^\n]*\n", "", text, flags=re.M)
        used, own = words(body), declared(path)
        kept, pick = [], {}
        for u in uses:
            m = re.match(r"use (\S+?)\.\{(.*)\}", u)
            if not m or ("Rattle·" in m.group(1) and "·tie" not in m.group(1) and ".declared" not in m.group(1)):
                if m:
                    mod = re.match(r"Rattle·([a-z0-9_]+)(?:·\w+)?\.(specs|proofs)\.(\w+)", m.group(1))
                    for n in m.group(2).split(", "):
                        if " as " in n and mod:
                            pick.setdefault((mod.group(1), mod.group(2), mod.group(3)), set()).add(n)
                continue
            names = [n for n in m.group(2).split(", ") if n in used or n.strip("_") in used or " as " in n]
            if names:
                kept.append(f"use {m.group(1)}.{{{', '.join(names)}}}\n")
        for module, names in OPERATORS.items():
            line = [i for i, k in enumerate(kept) if k.startswith(f"use {module}.{{")]
            have = re.search(r"\{(.*)\}", kept[line[0]]).group(1).split(", ") if line else []
            missing = [n for n in names if n not in have and n not in own and (n in used or (n.startswith("_") and n.strip("_") in used))]
            if missing:
                new = f"use {module}.{{{', '.join(have + missing)}}}\n"
                if line:
                    kept[line[0]] = new
                else:
                    kept.append(new)
        libs = set(n for k in kept for n in re.search(r"\{(.*)\}", k).group(1).split(", "))
        aliased = set(n.split(" as ")[1] for ns in pick.values() for n in ns)
        for name in used:
            if name in own or name in libs or name in aliased:
                continue
            if name not in where:
                if ("-" in name or name in PLAIN) and name in library:
                    add = library[name]
                    at = [i for i, k in enumerate(kept) if k.startswith(f"use {add}.{{")]
                    if at:
                        kept[at[0]] = kept[at[0]].replace("}\n", f", {name}}}\n")
                    else:
                        kept.append(f"use {add}.{{{name}}}\n")
                continue
            here = [w for w in where[name] if w[0] in deps and not (path.split("/")[2] == "specs" and w[1] == "proofs" and w[0] == crate)]
            here = [w for w in here if f"crates/{w[0]}/{w[1]}/{w[2]}.antt" != path]
            if not here:
                continue
            if len(here) > 1:
                old = [w for w in here if any(f"{w[1]}.{w[2]}." in u and name in re.split(r"[{}, ]", u) for u in uses)]
                if old:
                    here = old
                else:
                    print(f"{path}: {name} stands in {here}")
            pick.setdefault(here[0], set()).add(name)
        ours = []
        for c, kind, mod in sorted(pick, key=lambda w: (order.index(w[0]), w[1] != "specs", w[2])):
            prefix = f"Rattle·{c}·{kind}.{kind}" if c == crate else f"Rattle·{c}.{kind}"
            ours.append(f"use {prefix}.{mod}.{{{', '.join(sorted(pick[(c, kind, mod)]))}}}\n")
        head = re.match(r"(?:--[^\n]*\n)*", body).group(0)
        open(path, "w").write(head + "".join(kept) + "".join(ours) + body[len(head):])


main()

#!/usr/bin/env python3
"""Keeps answers and `use` lines readable. The gate asks with --check that nothing is left to do.

    tools/tidy.py [CRATE..]      all crates without a word
    tools/tidy.py --check        says which files it would change

Places: in an answer of a proof that walks the code by hand (proofs/FN/Proof.antt) a place that is named by a long row of `.before` is
bound once, by the name of what is known there (`let at-settle = c.before.before.. in`, `top` for the start of the function). Comments
that name a line and column of the source are dropped: they point at other lines as soon as the source moves.
Uses: names that a file imports and does not use are dropped; `rt tidy` does that too, in one crate that proves.
"""
import re
import sys
from pathlib import Path

ROOT = Path(__file__).resolve().parent.parent
LONG = 3  # so many `.before` are worth a name
PLACE = re.compile(r"(?<![\w.-])(?P<var>[\w'-]+)(?P<row>(?:\.before)+)(?:\.(?P<next>[\w-]+))?")
# They look through every record in scope, up to a bound, and a bound place is one more.
TACTICS = re.compile(r"\b(?:search|omega|simp|cc)\b")
BOUND = re.compile(r"let (?:top|at[-_]\S+) =")
SOURCE = re.compile(r"^-- src/\w+\.rt:\d+:\d+\n", re.M)
ANSWER = re.compile(r"^(?P<head>[\w'-]+(?: [\w'κ-]+)+) =(?P<body>(?:[ \n].*)?)\Z", re.S)


# ---- places


def name_of(field):
    if field in ("pre", "args", None):
        return "top"
    return "at-" + field.strip("«»").replace("·", "-")


def names_of(text, var):
    """A name for each depth of `.before` that is worth one, and the lines that bind them."""
    fields = {}
    for place in PLACE.finditer(text):
        depth = place["row"].count(".before")
        if place["var"] == var and depth >= LONG:
            fields.setdefault(depth, []).append(name_of(place["next"]))
    names, lets, before, last = {}, [], var, 0
    for depth in sorted(fields):
        name = "top" if "top" in fields[depth] else max(fields[depth], key=fields[depth].count)
        while name in names.values():
            name += "'"
        names[depth] = name
        lets.append(f"    let {name} = {before}{'.before' * (depth - last)} in\n")
        before, last = name, depth
    return names, lets


def bound(head, body):
    """The body of one answer with its places bound; head is what stands before `=`."""
    if TACTICS.search(body) or BOUND.search(body):
        return body
    var = head.split()[1]
    where = re.search(r"^\s+where\b", body, re.M)
    text, rest = (body[: where.start()], body[where.start():]) if where else (body, "")
    names, lets = names_of(text, var)
    if not names:
        return body

    def put(place):
        depth = place["row"].count(".before")
        if place["var"] != var or depth < LONG:
            return place.group(0)
        return names[depth] + (f".{place['next']}" if place["next"] else "")

    return "\n" + "".join(lets) + "    " + PLACE.sub(put, text).strip() + ("\n" + rest if rest else "")


def with_places(text):
    out = []
    for part in re.split(r"(?m)^(?=\S)", SOURCE.sub("", text)):
        answer = ANSWER.match(part)
        if answer and not part.startswith(("use ", "pub ", "--", "open ")):
            body = answer["body"].rstrip("\n")
            part = answer["head"] + " =" + bound(answer["head"], body) + answer["body"][len(body):]
        out.append(part)
    return "".join(out)


# ---- uses


def words_of(lines):
    body = "\n".join(x for x in lines if not re.match(r"(ghost )?use ", x) and not x.strip().startswith(("--", "//")))
    words = set(re.findall(r"[^\s(){}⌜⌝,;\[\]]+", body)) | ({"[]"} if "[]" in body else set())
    return words | {part for word in words for part in re.split(r"[.·«»]", word)}


def is_used(name, words):
    name = name.split(" as ")[-1].strip()
    if name in words:
        return True
    parts = [part for part in name.split("◌") if part]
    # an operator stands between its arguments, or within a longer sign
    return "◌" in name and any(part in word for part in parts for word in words if part == word or not word.isalnum())


def without_unused(text):
    lines = text.split("\n")
    words = words_of(lines)
    out = []
    for line in lines:
        names = re.match(r"^((?:ghost )?use [^{]+)\.\{([^}]*)\}(;?)$", line)
        module = re.match(r"^use \S+ as (\S+)$", line)
        if names:
            every = [name.strip() for name in names[2].split(",")]
            kept = [name for name in every if is_used(name, words)]
            if len(kept) < len(every):
                line = f"{names[1]}.{{{', '.join(kept)}}}{names[3]}"
            if kept:
                out.append(line)
        elif not module or any(word == module[1] or word.startswith(module[1] + ".") for word in words):
            out.append(line)
    return "\n".join(out)


def main():
    crates = [word for word in sys.argv[1:] if word != "--check"]
    check = "--check" in sys.argv
    stale = False
    for path in sorted((ROOT / "crates").rglob("*")):
        crate, part, *_ = [*path.relative_to(ROOT / "crates").parts, ""]
        if path.suffix not in (".antt", ".rt") or part == "out" or (crates and crate not in crates):
            continue
        text = path.read_text()
        new = without_unused(with_places(text) if path.name == "Proof.antt" else text)
        if new != text:
            stale = True
            if check:
                print(f"tools/tidy.py would change {path.relative_to(ROOT)}")
            else:
                path.write_text(new)
    sys.exit(1 if check and stale else 0)


main()

#!/usr/bin/env python3
"""answers.py NAMES CRATE [FUNCTION..]: turns the Proof.antt files of a crate, which walk the code by hand, to Invariants.antt and
Answers.antt. NAMES is the names.json that `rt check --generated DIR --old-names` writes in the crate. An answer that only says
`search rules` goes: the check tries more than that by itself. What it could not turn is printed, for a hand.
"""
import json, os, re, sys

NAME = r'[^\s(){};,@"«»\[\]]+'
TOKEN = re.compile(NAME)
norm = lambda s: re.sub(r"[-_«»]", "", s).lower()


def read(p):
    with open(p, encoding="utf-8") as f:
        return f.read()


def source_words(crate):
    words = set()
    for d, _, fs in os.walk(os.path.join(crate, "src")):
        for f in fs:
            if f.endswith(".rt"):
                words |= set(re.findall(r"\b[a-z]\w*_\w*\b", read(os.path.join(d, f))))
    return words


def parameters(crate, path):
    """The parameters of the function of that path, as the source names them."""
    name = path.split(".")[-1].lstrip("+")
    for d, _, fs in os.walk(os.path.join(crate, "src")):
        for f in fs:
            if not f.endswith(".rt"):
                continue
            m = re.search(rf"\bfn {re.escape(name)}(?:<[^>]*>)?\(", read(os.path.join(d, f)))
            if m:
                t, depth, i = read(os.path.join(d, f)), 1, m.end()
                start = i
                while depth:
                    depth += {"(": 1, "[": 1, ")": -1, "]": -1}.get(t[i], 0)
                    i += 1
                flat, depth = "", 0
                for ch in t[start : i - 1]:
                    depth += {"(": 1, "[": 1, ")": -1, "]": -1}.get(ch, 0)
                    flat += " " if depth else ch
                return [re.match(r"\s*(?:mut )?(\w+)\s*:", x)[1] for x in flat.split(",") if ":" in x]
    return []


def requires_of(root):
    """The names of the clauses of each function that has several `requires`, by the function's own name."""
    found = {}
    for d, ds, fs in os.walk(root):
        ds[:] = [x for x in ds if x not in ("out", "proofs", "specs", "must-fail")]
        for f in fs:
            if f.endswith(".rt"):
                for m in re.finditer(r"(?m)^ *(?:pub )?(?:extern \"C\" )?fn (\w+)(.*?)^\{", read(os.path.join(d, f)), re.S):
                    names = re.findall(r"(?m)^ *requires (\w+) \{", m[2])
                    if len(names) > 1:
                        found.setdefault(m[1], {})[os.path.relpath(d, root).split("/")[0]] = names
    return found


def as_record(body, names):
    """A body that ends in a tuple of a fact for each clause, with the tuple as a record."""
    if not body.endswith(")"):
        return None
    depth, i = 0, len(body)
    commas = []
    while i:
        i -= 1
        ch = body[i]
        if ch in ")]}":
            depth += 1
        elif ch in "([{":
            depth -= 1
            if not depth:
                break
        elif ch == "," and depth == 1:
            commas.append(i)
    ends = sorted(commas) + [len(body) - 1]
    parts, at = [], i + 1
    for e in ends:
        parts.append(body[at:e].strip())
        at = e + 1
    parts = [x for x in parts if x]
    if len(parts) != len(names):
        return None
    return body[:i] + "record { " + "; ".join(f"{n} = {x}" for n, x in zip(names, parts)) + " }"


def blocks(text):
    """The declarations of a file: head lines of `use`, then (signature, rest) pairs."""
    uses, decls, cur = [], [], None
    for line in text.split("\n"):
        if line.startswith("use "):
            uses.append(line)
            continue
        sig = re.match(rf"^(?:abbrev )?(?:pub )?({NAME}) :(?: |$)", line)
        if (sig and not line.startswith(" ")) or line.startswith(("record ", "pub record ", "module ", "data ")):
            cur = [line]
            decls.append(cur)
        elif cur is None:
            if line.strip():
                decls.append([line])
        else:
            cur.append(line)
    return uses, ["\n".join(d).rstrip() for d in decls]


def main():
    names = json.load(open(sys.argv[1]))
    crate = sys.argv[2].rstrip("/")
    only = sys.argv[3:]
    lib = os.path.basename(os.path.abspath(crate))
    words = source_words(crate)
    clauses = requires_of(os.path.join(crate, ".."))
    dashed = {w.replace("_", "-"): w for w in words}
    src = {}
    for d, _, fs in os.walk(os.path.join(crate, "proofs")):
        if "Proof.antt" not in fs:
            continue
        p = os.path.join(d, "Proof.antt")
        text = read(p)
        if " as tie" not in text:
            continue
        path = os.path.relpath(d, os.path.join(crate, "proofs")).replace("/", ".")
        if only and path not in only:
            continue
        key = f"Rattle-{lib}-proofs.{path}.Lts"
        if key not in names:
            print(f"{path}: not in names.json")
            continue
        turn(path, d, p, text, names[key], lib, dashed, parameters(crate, path), clauses)


def turn(path, d, p, text, it, lib, dashed, own, clauses):
    clauses = {f: at.get(lib) or list(at.values())[0] for f, at in clauses.items()}
    uses, decls = blocks(text)
    needs = {norm(old): (new, i) for i, (old, new) in enumerate(it["needs"])}
    places = {}
    for i, (name, parent, step, _, _) in enumerate(it["places"]):
        places[name] = (parent, step[0], step[1])
    asked = it["asked_at"]
    arms = {}
    for (name, *_), arm in zip(it["places"], it["arms"]):
        if arm:
            arms[name] = [(f"{arm[0]}.{field}", old, below) for field, old, below in arm[2]]
    said = []

    def say(what):
        said.append(f"{path}: {what}")

    def chain(place, n):
        for _ in range(n):
            if place is None or place not in places:
                return None
            place = places[place][0]
        return place

    def fields(parts):
        return "".join("." + dashed.get(f, f) for f in parts)

    # the parameters of the callees, by the last part of their names
    params = {norm(k.split("::")[-1]): v for k, v in it["params"].items()}

    def later(step, parts):
        """The fields behind a step: of a call, `.new.1.1.0` is what its parameter number 2 holds after it."""
        ps = params.get(norm(re.sub(r"\d+$", "", step))) or params.get(norm(step))
        if ps and len(parts) >= 2 and parts[0] == "new" and parts[1] in ("0", "1"):
            n = 1
            while n < len(parts) and parts[n] == "1":
                n += 1
            if n - 1 < len(ps):
                parts = ["new", ps[n - 1]] + parts[n + (parts[n : n + 1] == ["0"]) :]
        return fields(parts)

    def argument(f, parts):
        """An array's parameter had a number for a name, as t1."""
        m = re.match(r"t(\d+)$", parts[0]) if f == "args" and parts else None
        mine = clauses.get(path.split(".")[-1], [])
        if f == "requires" and parts and parts[0].isdigit() and int(parts[0]) < len(mine):
            parts = [mine[int(parts[0])]] + parts[1:]
        if m and parts[0] not in own and int(m[1]) <= len(own):
            parts = [own[int(m[1]) - 1]] + parts[1:]
        return fields(parts)

    def resolve(token, env):
        head, *parts = token.split(".")
        if head not in env:
            return token
        place, n = env[head], 0
        while n < len(parts) and parts[n] == "before":
            n += 1
        at = chain(place, n)
        rest = parts[n:]
        if not rest:
            return ("PLACE", at)
        f = rest[0]
        # what an arm of a match binds and tells
        for up in (at, env["c"]):
            while up is not None:
                for field, old, below in arms.get(up, []):
                    if norm(old) == norm(f) and rest[1 : 1 + len(below)] == below and below:
                        return "c." + field + fields(rest[1 + len(below) :])
                up = places[up][0]
        if at is not None and norm(places[at][1]) == norm(f) and f != "":
            return "c." + places[at][2] + later(f, rest[1:])
        # the steps between were others in the older Rattle: by the step's name
        up = env["c"]
        while up is not None:
            if norm(places[up][1]) == norm(f):
                return "c." + places[up][2] + later(f, rest[1:])
            up = places[up][0]
        if norm(f) == "wellformed":
            return "c.well_formed" + fields(rest[1:])
        if f in ("args", "requires", "ranges", "auto"):
            return "c." + f + argument(f, rest[1:])
        say(f"{token}: no step {f}")
        return "c." + dashed.get(f, f) + fields(rest[1:])

    def body_of(body, place):
        env = {"c": place}
        locs = {}
        pos, out = 0, []
        # lets that name a place go; other tokens are turned one by one
        let = re.compile(rf"let ({NAME}) = ({NAME}) in[ \n]*")
        while pos < len(body):
            m = let.match(body, pos)
            if m and m[2].split(".")[0] in env:
                r = resolve(m[2], env)
                if isinstance(r, tuple):
                    env[m[1]] = r[1]
                    pos = m.end()
                    continue
            m2 = re.compile(rf"let ({NAME})(?= [=:])(?: = ({NAME}) in)?").match(body, pos)
            if m2:
                step = m2[2].split(".")[-1] if m2[2] and m2[2].split(".")[0] in env else ""
                locs[m2[1]] = step
            m = TOKEN.match(body, pos)
            if m:
                r = resolve(m[0], env)
                if isinstance(r, tuple):
                    say(f"{m[0]}: a place as a value")
                    r = "c"
                if r == m[0] and "." in r and r.split(".")[0] in locs:
                    h, *ps = r.split(".")
                    r = h + (argument(locs[h], ps) if locs[h] in ("args", "requires") else later(locs[h], ps))
                elif r == m[0] and r.startswith("."):
                    r = "." + dashed.get(r[1:], r[1:]) if "." not in r[1:] else fields(r[1:].split("."))
                out.append(r)
                pos = m.end()
            else:
                out.append(body[pos])
                pos += 1
        return "".join(out)

    invs, answers, helpers = [], [], []
    base = f"Rattle.{lib}.proofs.{path}"
    for decl in decls:
        sig = re.match(rf"^(abbrev )?(pub )?({NAME}) : ?(.*?)(?=\n\S)", decl + "\n\n#", re.S)
        if not sig:
            helpers.append(decl)
            continue
        name, typ = sig[3], sig[4]
        rest = decl[len(sig[0]) :].lstrip("\n")
        unfold = ""
        m = re.match(r"^(unfolding [^\n]*\n)", rest)
        if m:
            unfold = m[1]
            rest = rest[len(unfold) :]
        t = re.match(rf"^tie\.({NAME})", typ.strip())
        if name.endswith("-spec") or name.endswith("_spec"):
            if "statement" in typ:
                continue
        if not t:
            if "tie." in decl:
                say(f"helper {name} names tie")
            helpers.append(decl)
            continue
        kind = t[1]
        if kind.startswith(("invariant-", "decreases-")):
            which, loop = kind.split("-", 1)
            found = [(a, b) for a, b in zip(it["loops"], it["changed"]) if norm(a[0][0]) == norm(loop)]
            if not found:
                say(f"{kind}: no such loop")
                continue
            (loopname, vars_), changed = found[0]
            m = re.match(rf"^{re.escape(name)}((?: {NAME})*) =\s*(.*)$", rest, re.S)
            if not m:
                say(f"{kind}: no clause")
                continue
            args = m[1].split()
            moved = [v for v, ch in zip(vars_, changed) if ch]
            if len(args) != len(vars_) + len(moved):
                say(f"{kind}: {len(args)} arguments for {vars_} {changed}")
                continue
            table = {}
            for a, v, ch in zip(args, vars_, changed):
                table[a] = f"l.initial.{v}" if ch else f"l.{v}"
            for a, v in zip(args[len(vars_) :], moved):
                table[a] = f"l.{v}"

            def turned(mm):
                h, *ps = mm[0].split(".")
                if h in table:
                    return table[h] + fields(ps)
                return mm[0]

            b = TOKEN.sub(turned, m[2])
            nm = f"{which}-{loopname[1]}"
            invs.append(f"abbrev pub {nm} : goal.{nm}\n{unfold}{nm} l =" + ("\n    " if "\n" in b.strip() else " ") + b.strip())
            continue
        if not kind.startswith("Need-"):
            say(f"{name}: {kind}")
            helpers.append(decl)
            continue
        old = kind[5:]
        hit = needs.get(norm(old)) or needs.get(norm(re.sub(r"^overflow-", "", old))) or needs.get(norm(re.sub(r"^slice-bounds-", "part-", old)))
        if not hit:
            say(f"need {old}: not in names.json")
            continue
        new, i = hit
        m = re.match(rf"^{re.escape(name)} c(?: κs)?((?: {NAME})*) =\s*(.*)$", rest, re.S)
        if not m:
            say(f"need {old}: clause {rest[:60]!r}")
            continue
        more, body = m[1], m[2].strip()
        if body == "search rules" and not unfold:
            continue
        b = body_of(body, asked[i][0])
        callee = re.match(r"(\w+)(?:-.*)?-requires", new)
        if callee and callee[1] in clauses:
            r = as_record(b, clauses[callee[1]])
            if r is None:
                say(f"{new}: write the clauses {clauses[callee[1]]}")
            else:
                b = r
        if re.fullmatch(r"search rules|omega arith", b.strip()) and not unfold:
            continue
        one = "\n" not in b and len(b) < 120
        answers.append(f"pub {new} : goal.{new}\n{unfold}{new} c{more} =" + (" " if one else "\n    ") + b.strip())
    keep = [u for u in uses if not re.search(r"\.(Statement|Tie)(\.|\s|$)", u)]
    if not any("rules" in TOKEN.findall(x) for x in answers + invs + helpers):
        keep = [u for u in keep if "borrow.Author.Rules.{rules}" not in u]

    def used(u, blob):
        m = re.match(r"^use (.*)\.\{(.*)\}$", u)
        if not m:
            return u
        toks = set()
        for x in TOKEN.findall(blob):
            toks.add(x)
            toks |= set(x.split("."))
        items = []
        for x in m[2].split(", "):
            core = x.split(" as ")[-1]
            op = re.sub("◌", "", core)
            if core in toks or (op != core and (op in toks or any(q and q in toks for q in core.split("◌")))) or (core == "[]" and "[]" in blob):
                items.append(x)
        return f"use {m[1]}.{{{', '.join(items)}}}" if items else None

    def put(file, parts, goal):
        blob = "\n".join(parts)
        us = [x for x in (used(u, blob) for u in keep) if x]
        g = f"use {base}.{goal} as goal"
        with open(os.path.join(d, file), "w", encoding="utf-8") as f:
            f.write("\n".join(us + [g, ""] + ["\n\n".join(parts)]) + "\n")

    if invs:
        # helpers that an invariant uses would have to stand elsewhere
        put("Invariants.antt", invs, "Given")
    if answers:
        put("Answers.antt", helpers + answers, "Goals")
    elif helpers:
        say("helpers without an answer: " + ", ".join(h.split(" ")[0] for h in helpers))
    os.remove(p)
    for s in said:
        print(s)


main()

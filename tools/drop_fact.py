#!/usr/bin/env python3
"""drop_fact.py FACT BY [TOP]: takes FACT out of every `requires` of which it is a component, as when a type carries it from now on, and
moves what cites it: in a function's own answers FACT becomes BY and the components behind it move up, and in its callers' answers the
tuple that proves the `requires` loses its place. It reads text alone, so `rt check` then says what is left (it prints what it saw and did
not understand). It served for
    drop_fact.py 'Limits (geometry_of g)' c.args.g.in_limits
which changed 71 functions and left five answers to do by hand."""
import glob
import os
import re
import sys

fact, by = sys.argv[1], sys.argv[2]
os.chdir(sys.argv[3] if len(sys.argv) > 3 else os.path.join(os.path.dirname(os.path.abspath(__file__)), ".."))
crates = [l.split(":")[0].split()[0] for l in open("crates.txt") if l.strip() and not l.lstrip().startswith("#") and ":" in l]


def split_top(text, sep):
    """The parts of a text between separators that stand in no bracket."""
    out, depth, cur, i = [], 0, "", 0
    while i < len(text):
        depth += text[i] in "([{"
        depth -= text[i] in ")]}"
        if depth == 0 and text.startswith(sep, i):
            out.append(cur)
            cur, i = "", i + len(sep)
            continue
        cur, i = cur + text[i], i + 1
    return [part.strip() for part in out + [cur]]


def sources(crate):
    return sorted(glob.glob(f"crates/{crate}/src/**/*.rt", recursive=True))


def without(components):
    """A clause of the components that are left."""
    if len(components) > 1:
        return " × ".join(components)
    only = components[0]
    return only[1:-1] if only.startswith("(") and only.endswith(")") else only


# ---- the clauses: (crate, function) to the clause's name, how many components it had, and which was the fact
clauses, counts = {}, {}
for crate in crates:
    for path in sources(crate):
        lines, new, name = open(path).read().split("\n"), [], None
        for line in lines:
            m = re.match(r"\s*(pub )?(extern \"C\" )?(const )?fn (\w+)", line)
            if m:
                name = m.group(4)
            m = re.match(r"(\s*requires )(\w+ )?\{ (.*) \}$", line)
            if m and name:
                parts = split_top(m.group(3), " × ")
                counts[crate, name] = counts.get((crate, name), 0) + 1
                if fact in parts:
                    clauses[crate, name] = (m.group(2).strip() if m.group(2) else None, len(parts), parts.index(fact))
                    parts.remove(fact)
                    if parts:
                        new.append(m.group(1) + (m.group(2) or "") + "{ " + without(parts) + " }")
                    continue
            new.append(line)
        if new != lines:
            open(path, "w").write("\n".join(new))
print(len(clauses), "functions")

# ---- their own answers: by `c.requires`, or by a name that a `let` gives it
for (crate, name), (clause, many, place) in clauses.items():
    for path in sorted(set(glob.glob(f"crates/{crate}/proofs/**/{name}/Answers.antt", recursive=True))):
        text = open(path).read()
        parts = re.split(r"(?m)^(?=pub [\w-]+ : goal\.)", text)
        for k, part in enumerate(parts):
            roots = ["c.requires" + (f".{clause}" if clause else "")]
            if many > 1:
                roots += re.findall(rf"let (\w+) = {re.escape(roots[0])} in", part)
            if clause and many > 1:
                roots += [f"{alias}.{clause}" for alias in re.findall(r"let (\w+) = c\.requires in", part)]
            for root in roots:
                if many == 1:
                    part = re.sub(rf"(?<![\w.]){re.escape(root)}(?!\.?\w)", by, part)
                    continue

                def moved(m):
                    j = int(m.group(1))
                    if j == place:
                        return by
                    return root if many == 2 else f"{root}.{j - (j > place)}"

                part = re.sub(rf"(?<![\w.]){re.escape(root)}\.(\d+)\b", moved, part)
            parts[k] = part
        if "".join(parts) != text:
            open(path, "w").write("".join(parts))

# ---- their callers' answers
callers = {}
for crate, name in clauses:
    callers.setdefault(name, []).append(crate)


def called(crate, name, text):
    """The crate of the function of this name that the text of a crate calls."""
    if (crate, name) in counts and re.search(rf"(?<!::)\b{name}\(", text):
        return crate if crate in callers[name] else None
    named = [other for other in callers[name] if re.search(rf"\b{other}::{name}\(", text)]
    return named[0] if len(named) == 1 else None


def closing(text, start):
    depth = 0
    for end in range(start, len(text)):
        depth += text[end] in "([{"
        depth -= text[end] in ")]}"
        if depth == 0:
            return end + 1
    return None


def last_tuple(text):
    depth = 0
    for start in range(len(text) - 1, -1, -1):
        depth += text[start] in ")]}"
        depth -= text[start] in "([{"
        if depth == 0:
            return start
    return None


for crate in crates:
    text_of_crate = "\n".join(open(path).read() for path in sources(crate))
    for path in sorted(set(glob.glob(f"crates/{crate}/proofs/**/Answers.antt", recursive=True))):
        text = open(path).read()
        parts = re.split(r"(?m)^(?=pub [\w-]+ : goal\.)", text)
        out = [parts[0]]
        for part in parts[1:]:
            goal = re.match(r"pub ([\w-]+) : ", part).group(1)
            m = re.match(r"(\w+?)(-[\w-]*)?-requires(-[\w-]+)?$", goal)
            target = called(crate, m.group(1), text_of_crate) if m and m.group(1) in callers else None
            if target:
                clause, many, place = clauses[target, m.group(1)]
                if many == 1 and counts[target, m.group(1)] == 1:
                    continue
                body = part.rstrip()
                start = re.search(rf"\b{clause} = \(", body) if clause else None
                start = start.end() - 1 if start else last_tuple(body) if not clause and body.endswith(")") else None
                end = closing(body, start) if start is not None else None
                items = [x for x in split_top(body[start + 1 : end - 1], ",") if x] if end else []
                if len(items) == many:
                    del items[place]
                    body = body[:start] + (items[0] if len(items) == 1 else "(" + ", ".join(items) + ")") + body[end:]
                    part = body + part[len(part.rstrip()) :]
                else:
                    print(f"{path}: {goal}: by hand")
            out.append(part)
        if "".join(out) != text:
            open(path, "w").write("".join(out))

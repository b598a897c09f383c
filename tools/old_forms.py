#!/usr/bin/env python3
"""old_forms.py [--list] [TOP]: counts the places in crates/*/src (and, for point 8, crates/*/proofs) that docs/DESIGN-PASS.md speaks
of, point by point; with --list each place too. It reads text alone: a place that it finds may be there for a reason, which then
stands beside it in the source."""
import collections
import glob
import os
import re
import sys

listing = "--list" in sys.argv
tops = [a for a in sys.argv[1:] if not a.startswith("--")]
os.chdir(tops[0] if tops else os.path.join(os.path.dirname(os.path.abspath(__file__)), ".."))

crates = [l.split(":")[0].split()[0] for l in open("crates.txt") if l.strip() and not l.lstrip().startswith("#") and ":" in l]
sources = [p for c in crates for p in sorted(glob.glob(f"crates/{c}/src/**/*.rt", recursive=True))]


def code(path):
    """The lines of a source, comments blanked."""
    return [re.sub(r"\s*//.*", "", l.rstrip("\n")) for l in open(path)]


def functions():
    """Each function: path, line, name, parameters and result, contract, body."""
    for path in sources:
        lines = code(path)
        i = 0
        while i < len(lines):
            m = re.match(r"\s*(pub )?(extern \"C\" )?(const )?fn (\w+)", lines[i])
            if not m:
                i += 1
                continue
            start, head, clauses = i, [], []
            while not re.match(r"\s*\{$|.*\{$", lines[i]) or re.match(r"\s*(requires|ensures)", lines[i]):
                (clauses if re.match(r"\s*(requires|ensures)", lines[i]) else head).append(lines[i].strip())
                i += 1
            if lines[i].strip() != "{":
                head.append(lines[i].strip().rstrip("{"))
            indent = len(lines[start]) - len(lines[start].lstrip())
            body = []
            i += 1
            while not (lines[i].startswith(" " * indent + "}") and len(lines[i]) - len(lines[i].lstrip()) == indent):
                body.append(lines[i])
                i += 1
            yield path, start + 1, m.group(4), " ".join(head), " ".join(clauses), body


def lines_with(pattern, where=None):
    return [f"{p}:{i}: {l.strip()}" for p in sources if not where or re.search(where, p) for i, l in enumerate(code(p), 1) if re.search(pattern, l)]


places = collections.OrderedDict()
fns = list(functions())

# 1: own enums of the shape of Option or Result, a flag with a value beside it, numbers for kinds or refusals
places["1 flags in structs"] = lines_with(r"^\s*(pub )?(ok|fits|taken|clear|last): bool,|^\s*(pub )?refusal: u32,")
shapes = []
for p in sources:
    text = "\n".join(code(p))
    for m in re.finditer(r"enum (\w+) \{\s*\w+\([^)]*\),\s*\w+,\s*\}|enum (\w+) \{\s*\w+,\s*\w+\([^)]*\),\s*\}", text):
        shapes.append(f"{p}: enum {m.group(1) or m.group(2)}")
places["1 enums of the shape of Option"] = shapes
places["1 constants for refusals"] = lines_with(r"^pub const E_")
ffi = {"vtoc", "vtoc_c", "probe", "replay_step"}
places["1 functions that answer a refusal's number"] = [
    f"{p}:{i}: {n}" for p, i, n, h, c, b in fns
    if h.endswith("-> u32") and p.split("/")[1] not in ffi and re.search(r"\bE_[A-Z]|refusal|_in\(|_set\(|place\(|lengthen\(|longer\(", "\n".join(b)) and not re.search(r"fn (refusal_line|cylinders)", h)]
places["1 kinds by numbers"] = lines_with(r"if (op|kind|option) (==|>|<=) \d")

# 2: functions that differ only in types, sizes and constants
twins = collections.defaultdict(list)
for p, i, n, h, c, b in fns:
    text = h + " " + " ".join(l.strip() for l in b)
    text = re.sub(r"\bpub |extern \"C\" ", "", text)
    text = re.sub(r"fn \w+", "fn F", text)
    text = re.sub(r"\b(u8|u16|u32|u64|usize|bool)\b", "T", text)
    text = re.sub(r"\b(0x[0-9A-Fa-f_]+|\d[\d_]*)(u8|u16|u32|u64|usize)?\b", "N", text)
    names = {}
    params = re.findall(r"(\w+): ", h)
    for k, w in enumerate(params):
        text = re.sub(rf"\b{w}\b", f"p{k}", text)
    twins[re.sub(r"\s+", " ", text)].append(f"{p}:{i}: {n}")
places["2 functions alike but for types, sizes and constants"] = [
    " = ".join(g) for t, g in twins.items() if len(g) > 1 and not all("/vtoc_c/" in x or "/vtoc/" in x for x in g)]

# 3: loops
places["3 while and loop"] = lines_with(r"^\s*('\w+: )?(while|loop)\b")

# 4: what the library has
places["4 own min, max, widening"] = [f"{p}:{i}: {n}" for p, i, n, h, c, b in fns if n in ("wide", "byte", "wide16", "index", "at_most", "lesser", "larger", "longer")]
places["4 calls of these"] = lines_with(r"(?<!fn )\b(wide|byte|wide16|index|at_most|lesser|larger|longer)\(")
places["4 fills and copies byte by byte"] = [f"{p}:{i}: {n}" for p, i, n, h, c, b in fns if n in ("put_same", "put_row", "erase", "free_below", "copy") and any("while" in l for l in b)]

# 5: facts in contracts
def with_clause(pattern):
    return [f"{p}:{i}: {n}" for p, i, n, h, c, b in fns if re.search(pattern, c)]


places["5 Limits (geometry_of g)"] = with_clause(r"requires.*Limits \(geometry_of g\)")
places["5 length of the table by its geometry"] = with_clause(r"requires.*length table\.\w+ ≡ 140 \* slots \(geometry_of g\)")
places["5 length 140 of a record"] = with_clause(r"requires.*length \w+\.\w+ ≡ 140(?! \*)")
places["5 length 8 of the map of slots"] = with_clause(r"requires.*length free_slots\.\w+ ≡ 8")
places["5 length 136 of a recorded call"] = with_clause(r"requires.*length asked\.now ≡ 136")
places["5 table and g together"] = [f"{p}:{i}: {n}" for p, i, n, h, c, b in fns if re.search(r"table: &", h) and re.search(r"\bg: (dscb::)?Geometry", h)]
places["5 f1 and f3 together"] = [f"{p}:{i}: {n}" for p, i, n, h, c, b in fns if re.search(r"\bf1: &", h) and re.search(r"\bf3: &", h)]
places["5 both maps together"] = [f"{p}:{i}: {n}" for p, i, n, h, c, b in fns if re.search(r"free_tracks: &", h) and re.search(r"free_slots: &", h)]

# 6: buffers with a length or a place beside them
places["6 a list with its length or range"] = [
    f"{p}:{i}: {n}" for p, i, n, h, c, b in fns
    if re.search(r"(chain|list|into|given): &(mut )?\[u16\],.*\b(n|a|b|was|need|count): usize", h) or re.search(r"pieces: \[\[u16; 2\]; 5\], count: usize", h)]
places["6 a buffer with a place to write at"] = [f"{p}:{i}: {n}" for p, i, n, h, c, b in fns if re.search(r"out: &mut \[u8\],.*at: usize|out: &mut \[u8\], at: usize", h) and "-> usize" in h]

# 7: a switch on which step to run
places["7 switches on a step"] = [f"{p}:{i}: {n}" for p, i, n, h, c, b in fns if sum(bool(re.search(r"if op == ", l)) for l in b) > 1]

# 8: proofs
places["8 names of Rattle's own in answers"] = [
    f"{p}:{i}" for p in sorted(glob.glob("crates/*/proofs/**/*.antt", recursive=True)) for i, l in enumerate(open(p), 1)
    if re.search(r"slice_known|branch-raw|deref-raw", l)]

# 9: what the older checker asked for
places["9 `if x {} else`"] = lines_with(r"\{\} else \{")

for name, found in places.items():
    print(f"{len(found):4}  {name}")
    if listing:
        for f in found:
            print("        " + f)

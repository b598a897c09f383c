#!/usr/bin/env python3
"""needs.py CRATE [FN..]: after `rt goals CRATE`, in the repository's root.
Of the older kit: it reads what `rt goals` wrote. Today `rt check` names the goals without an answer; `--generated DIR` lists all of them.

Brings each Proof.antt of the crate (or of these functions) to the needs that its function has now, in their order: a need without an
answer gets `search needs`, an answer without a need goes, the list behind `tie.spec` is made anew. A change of a number's type adds such
needs (a cast, a product) and seldom touches another answer. It prints what it changed.
"""
import glob, os, re, sys


def wanted(tie):
    """The needs in order, each with whether it speaks of a loop's invariant."""
    text = open(tie).read()
    text = text[text.index("pub spec :") :]
    return [(m.group(1), bool(m.group(2))) for m in re.finditer(r"\(answer : Need-(\S+?)( [^)]*)?\)", text[: text.index("spec =")])]


def update(crate, function):
    path = f"crates/{crate}/proofs/{function}/Proof.antt"
    text = open(path).read()
    list_ = re.search(r"\(tie\.spec\b([^)]*)\)", text)
    have = list_.group(1).split()
    needs = wanted(f"target/goals/{crate}/Rattle·{crate}·proofs/proofs/{function}/Tie.antt")
    names = [name for name, _ in needs]
    loops = [word for word in have if re.search(rf"(?m)^abbrev {re.escape(word)} ", text)]
    rest = [word for word in have if word not in loops]
    if rest == names:
        return
    blocks = {}
    for name in rest:
        m = re.search(rf"(?ms)^{re.escape(name)} : tie\.Need-.*?(?=^\S+ : |^pub |\Z)", text)
        blocks[name] = m.group(0)
        text = text.replace(m.group(0), "", 1)
    made = ""
    for name, loop in needs:
        new = f"{name} : tie.Need-{name}{''.join(' ' + word for word in loops) if loop else ''}\n{name} c{' κs' if re.search('-requires(-[0-9]+)?$', name) else ''} = search needs\n\n"
        made += blocks.get(name, new)
    at = text.index("pub ", text.rindex("\n\n") if "\n\npub " not in text else text.index("\n\npub "))
    text = text[:at] + made + text[at:]
    text = text.replace(list_.group(0), "(tie.spec " + " ".join(loops + names) + ")")
    if "search needs" in made and "borrow.Author.Needs" not in text:
        text = "use borrow.Author.Needs.{needs}\n" + text
    open(path, "w").write(text)
    print(function, "new:", [n for n in names if n not in rest], "gone:", [n for n in rest if n not in names])


def main():
    crate, *functions = sys.argv[1:]
    found = glob.glob(f"crates/{crate}/proofs/*/Proof.antt")
    for function in functions or sorted(os.path.basename(os.path.dirname(path)) for path in found):
        update(crate, function)


if __name__ == "__main__":
    main()

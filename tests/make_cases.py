#!/usr/bin/env python3
"""make_cases.py DIR: specs/Sample.antt of crates cases, chain_cases and request_cases from what `cases` printed into DIR, with imports
and one theorem for each sequence.

--check compares with the files that are checked in and changes nothing.
"""
import re, sys

IMPORTS = """use Rattle.std.specs.Prelude.{List, [], ◌∷◌, T}
use Rattle.model.specs.Choice.{choose}
use Rattle.model.specs.Model.{format0s, free, gaps, held, unused, used}
use Rattle.model.specs.Tracks.{tracks_kept}
use Rattle.rules.specs.Calls.{allocate, date_to_packed, date_to_stored, extend, grant, lspace, obtain, preview, release, rename, request, rule, scratch}
use Rattle.rules.specs.Dates.{expiry_from, to_packed, to_stored, with_expiry}
use Rattle.rules.specs.Entries.{convert_date, good_lengths, initialise, perform}
use Rattle.rules.specs.Layout.{encode, extent_part, format1, format3, format4, format5, records}
use Rattle.rules.specs.Listing.{listing, printable}
use Rattle.rules.specs.Reading.{read, read_extents, read_geometry, read_label, read_records}
use Rattle.rules.specs.Slots.{settle}
use Rattle.rules.specs.Table.{good_label, good_length, good_name, limits, taken, valid}
use Rattle.case_rows.specs.Check.{Row, attr, attr_n, begin, begin_sized, build, convert_sized, date, hurt, listed, nm, no, no_date, ok, ok_labels, parts, put, raw, right, sized, told, untold}"""
UNFOLDED = """held gaps free used unused format0s choose extent_part format4 format5 format1 format3 records encode
read_geometry read_extents read_label read_records read good_name limits good_label valid taken good_length settle grant tracks_kept
to_stored to_packed expiry_from with_expiry rule good_lengths perform initialise convert_date printable listing""".replace("\n", " ")
# the program prints names of definitions as they were spelled when it was written
SPELLED = {word: re.sub("[A-Z]", lambda m: "_" + m[0].lower(), word) for word in "attrN beginSized convertSized dateToPacked dateToStored noDate okLabels".split()}
LONG = 45  # rows: more would pass the checker's limit of steps, so the first calls of such a sequence become one row
CHAINS = [20]  # the sequences are in three crates, so that each is computed within a minute
REQUESTS = 31  # the first one of document 02


def shortened(block):
    """A long sequence with its first accepted calls in one `build` row, which compares only the table after them."""
    rows = re.findall(r"^    (?:∷ )?(.*)$", block, re.M)
    if len(rows) <= LONG or not rows[0].startswith("begin"):
        return block
    calls = []
    for row in rows[1:]:
        m = re.match(r"ok \((.*)\) 0x[0-9A-F]+ (0x[0-9A-F]+)$", row)
        if not m:
            break
        calls.append(m.group(1))
        digest = m.group(2)
    geometry = " ".join(rows[0].split()[1:6])
    first = f"    build {geometry}\n    (" + "\n    ∷ ".join(calls) + f"\n    ∷ [])\n    {digest}"
    head = block[: block.index("    begin")]
    return head + "\n    ∷ ".join([first] + rows[len(calls) + 1 :]) + "\n"


def crate_of(number):
    if number in CHAINS:
        return "chain_cases"
    return "cases" if number < REQUESTS else "request_cases"


def imports(text):
    """The imports, without names that the text does not use."""
    used = set(re.findall(r"[^\s(){},]+", text))
    lines = [(head, [name for name in names.split(", ") if name in used or name.startswith("◌")]) for head, names in re.findall(r"(.*)\{(.*)\}", IMPORTS)]
    return "\n".join(f"{head}{{{', '.join(names)}}}" for head, names in lines if names)


def main():
    text = open(sys.argv[1] + "/Sample.antt").read().replace(" , ", ", ")
    text = re.sub("|".join(SPELLED), lambda m: SPELLED[m[0]], text)
    head, *blocks = re.split(r"\n\n(?=(?:-- [^\n]*\n)+abbrev pub sequence)", text)
    samples = {"cases": "", "chain_cases": "", "request_cases": ""}
    for block in blocks:
        name, number = re.search(r"abbrev pub (sequence(\d+))", block).groups()
        theorem = f"\npub case{number} : T (right [] {name})\nunfolding {UNFOLDED}\ncase{number} = tt"
        block = shortened(block).replace("\nabbrev pub", "\n\nabbrev pub").rstrip("\n")
        samples[crate_of(int(number))] += f"\n{block}\n{theorem}\n"
    for crate, sample in samples.items():
        target = f"crates/{crate}/specs/Sample.antt"
        text = head.replace("-- IMPORTS", imports(sample)) + "\n" + sample
        if "--check" in sys.argv:
            if open(target).read() != text:
                sys.exit(f"{target} is not what tests/src/bin/cases.rs makes: run cargo run --bin cases -- DIR and tests/make_cases.py DIR")
        else:
            open(target, "w").write(text)


main()

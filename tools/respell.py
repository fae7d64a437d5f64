#!/usr/bin/env python3
"""Brings this repository's own definitions, lemmas and fields to today's spelling: words in snake case, types and modules in camel case.

usage: python3 tools/respell.py        at the top of the repository, once, after port.py and before any edit by hand

Renamed are the names that a file of specs/ or proofs/ declares, and the fields of src/ in camel case.
A lemma whose name would be a definition's gets _lem. Names of the library, names that Rattle makes, and functions of src/ stay.
The same names are respelled in the must-fail edits and, between backticks, in the documents.
It prints each new name with the old one, and stops where two names of one file would fall together.
"""

import collections
import glob
import re
import sys

DECLARED = re.compile(r"^( *)((?:abbrev |unfoldable |pub |record |data |package )*)([^\s:(){}]+)(?: +[({][^:]*:[^)}]*[)}])* *:")
WORD = r"[^\W\d][\w'-]*"

# What port.py respelled because the library has the same name; the edits and the documents still have the old one.
BY_PORT = """
add-at add-reads add-wide after-call after-store all-held all-map and-assoc and-comm and-left and-right as-long askedOf at-first at-five
at-last at-least at-most at-one at-place below-next bit-high by-cases by-number byte-inside callOf cell-in cell-out codeOf count-next
drop-spec each-keep each-take end-refused endOf entry-read entry-spec fill-spec find-spec flagsOf follow-one foundFrom frame-below
frame-small frameOf from-first gives-same has-first high-part high-same holds-then index-below index-same is-found is-held is-known
is-same isNone keep-append keyAt keyOf last-has lies-in lies-out liesAt load-spec load-split look-hit look-spec low-of main-spec mark-spec
mul-at mul-left no-gap no-longer no-mode none-before none-first none-inside noted-other nothing-above nothing-known number-is number-small
one-bit one-spec one-type only-kept or-assoc or-left other-tag own-alone pick-spec placeOf put-spec read-spec reads-all reads-now
root-alike same-length same-number same-tag same-true says-same seen-turned set-below set-getD start-spec step-spec stepped-by
store-length store-spec store-split sub-read table-fits tag-below tag-same tag-small to-step to-write told-with too-large turn-is turn-spec
typeOf under-spec walk-refused walkOf was-read wayOf width-same write-spec
""".split()


def snake(name):
    name = name.replace("-", "_")
    return re.sub(r"(?<=[a-z0-9])[A-Z]+", lambda m: "_" + m.group(0).lower(), name) if name[0].islower() else name


def is_camel(name):
    return re.match(r"[a-z0-9]+[A-Z]", name) is not None


def read(path):
    with open(path, encoding="utf-8") as file:
        return file.read()


def declared(path):
    """The names that a file declares, in its modules too, but not the goals that it answers."""
    inside = re.search(r"/proofs/\w+\.antt$", path)
    for line in read(path).splitlines():
        m = DECLARED.match(line)
        if m and "tie." not in line and (inside or m.group(1) == "" or m.group(2)):
            yield m.group(3)


def new_names():
    specs, proofs = set(), set()
    for path in glob.glob("crates/*/specs/**/*.antt", recursive=True):
        specs |= set(declared(path))
    for path in glob.glob("crates/*/proofs/**/*.antt", recursive=True):
        proofs |= set(declared(path)) | set(re.findall(r" as ([a-z]+[A-Z]\w*)", read(path)))
    fields = {f for path in glob.glob("crates/*/src/**/*.rt", recursive=True) for f in re.findall(r"(?m)^    (?:pub )?([a-z]+[A-Z]\w*):", read(path))}
    names = {n: snake(n) for n in specs | fields | {n for n in proofs if is_camel(n)}}
    taken = set(names.values())
    for n in sorted(proofs - set(names)):
        names[n] = snake(n) + ("_lem" if snake(n) in taken and n != snake(n) else "")
    # A lemma that port.py gave the name to which a definition, otherTag, is respelled.
    names["other_tag"] = "other_tag_lem"
    return {n: new for n, new in names.items() if n != new}


def respell(text, names):
    return re.sub(WORD, lambda m: names.get(m.group(0), m.group(0)), text)


def in_backticks(text, names):
    return re.sub(r"`[^`\n]+`", lambda m: respell(m.group(0), names), text)


def write(path, text):
    with open(path, "w", encoding="utf-8") as file:
        file.write(text)


def main():
    names = new_names()
    for path in sorted(glob.glob("crates/*/specs/**/*.antt", recursive=True) + glob.glob("crates/*/proofs/**/*.antt", recursive=True)):
        old = collections.Counter(declared(path))
        fallen = collections.Counter(names.get(n, n) for n in old)
        if max(fallen.values(), default=0) > 1:
            print(f"respell: {path}: names fall together: {[n for n, k in fallen.items() if k > 1]}", file=sys.stderr)
            return 1
    for path in glob.glob("crates/*/s*/**/*.*t", recursive=True) + glob.glob("crates/*/proofs/**/*.antt", recursive=True):
        write(path, respell(read(path), names))
    older = names | {n: names.get(snake(n), snake(n)) for n in BY_PORT}
    for path in glob.glob("crates/*/must-fail/*.edit"):
        write(path, respell(read(path).replace("\u2032", "'"), older))
    for path in ["README.md", *glob.glob("docs/**/*.md", recursive=True)]:
        write(path, in_backticks(read(path), older))
    for old, new in sorted(names.items()):
        print(f"{old} -> {new}")
    return 0


if __name__ == "__main__":
    raise SystemExit(main())

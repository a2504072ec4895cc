#!/usr/bin/env python3
"""Lists the places in crates/*/src where an older form of the language may stand, point by point.

Each row is a place to look at: docs/DESIGN-PASS.md says what became of it.
    tools/places.py            the counts
    tools/places.py NUMBER     the places of one point
"""
import collections
import glob
import os
import re
import sys

os.chdir(os.path.join(os.path.dirname(os.path.abspath(__file__)), ".."))
SOURCES = sorted(glob.glob("crates/*/src/*.rt"))

# (point, what is looked for, what a line with it matches)
LINES = [
    ("1a", "enums (those of the shape of Option or Result)", r"^\s*(pub(\(crate\))? )?enum "),
    ("1b", "arms that hand absence or an error on, or say that it cannot be",
     r"None => (return )?(None|Err\()|Err\(.*\) => (return )?(Err\(|None|unreachable)|None => return Ok|=> unreachable|^\s*_ => None"),
    ("1c", "flags: fields and parameters of type bool", r"\b\w+: bool\b"),
    ("1d", "numbers for kinds: arms that give a number, and constants that stand for none", r"=> \d+,$|const NONE\b|=> u32::MAX"),
    ("3", "loops over a range or by a condition, and counted loops", r"\bfor \w+ in .*\.\.|\bwhile\b|\bloop\b|\.enumerate\(\)"),
    ("4", "impls of comparison, functions that convert, compare or print",
     r"^impl (PartialEq|fmt::\w+) for|fn (same\w*|is_word|number|from_number|from_bits|text|\w+_text|head_of|grade_of|reason|verdict|copied)\b"),
    ("6", "arrays with a length in their type", r"\[.*; \d[\d_]*\]( =|;|,|$)|&'static \[.*; \d[\d_]*\]"),
    ("7", "functions as values, and steps chosen by a flag", r"\bfn\(|\bif tight\b"),
]


def lines():
    for path in SOURCES:
        with open(path, encoding="utf-8") as source:
            for number, line in enumerate(source, 1):
                if not line.lstrip().startswith(("//", "ghost use")):
                    yield path, number, line.rstrip()


def matching(pattern):
    return [f"{path}:{number}: {line.strip()}" for path, number, line in lines() if re.search(pattern, line)]


def repeated_facts():
    """The facts that stand as a requires of three functions or more."""
    facts = collections.defaultdict(list)
    for path, number, line in lines():
        found = re.search(r"requires (?:\w+ )?\{ (.*) \}", line)
        if found:
            fact = found.group(1).replace(".old", ".now").replace("self.slots", "slots").replace("self.", "")
            facts[fact].append(f"{path}:{number}")
    return [f"{fact}  in {' '.join(places)}" for fact, places in facts.items() if len(places) >= 3]


def travelling_parameters():
    """The pairs of parameters that three functions of one crate or more take together."""
    pairs = collections.defaultdict(list)
    for path in SOURCES:
        text = open(path, encoding="utf-8").read()
        crate = path.split("/")[1]
        for found in re.finditer(r"fn (\w+)(?:<[^(]*>)?\(([^)]*)\)", text):
            names = [re.sub(r"'\w+ ?", "", part.strip()) for part in found.group(2).split(",")]
            names = [part for part in names if ":" in part and not part.startswith(("heap:", "rt:"))]
            for i, one in enumerate(names):
                for two in names[i + 1:]:
                    pairs[(crate, one, two)].append(found.group(1))
    return [f"{crate}: {one}, {two}  in {' '.join(fns)}" for (crate, one, two), fns in pairs.items() if len(fns) >= 3]


def proof_files():
    return sorted(glob.glob("crates/*/proofs/**/Answers.antt", recursive=True)) + sorted(glob.glob("crates/*/proofs/*.antt"))


POINTS = [(name, what, lambda pattern=pattern: matching(pattern)) for name, what, pattern in LINES] + [
    ("5a", "facts required by three functions or more", repeated_facts),
    ("5b", "pairs of parameters that three functions of a crate take together", travelling_parameters),
    ("8", "files of answers, and of lemmas", proof_files),
]


def main():
    for name, what, places in sorted(POINTS, key=lambda point: point[0]):
        if len(sys.argv) < 2:
            print(f"{name:3} {len(places()):4}  {what}")
        elif name.startswith(sys.argv[1]):
            print(f"{name} {what}")
            for place in places():
                print("   ", place)


main()

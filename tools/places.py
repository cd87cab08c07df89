#!/usr/bin/env python3
"""Counts, in src/ without tests, the places that docs/DESIGN-PASS.md speaks of: tools/places.py [-l] [FOLDER]; -l lists them."""
import pathlib
import re
import sys

FORMS = [
    ("1a", "a `let .. else` that gives up with None, Err, 0 or nothing", r"else \{\s*return(?: None| Err\([^;]*\)| Ok\(None\)| Ok\(\(\)\)| 0)?;\s*\}"),
    ("1b", "an `if` that gives up with None", r"if [^{;]*\{\s*return None;\s*\}"),
    ("1c", "an arm that hands on None, an Err or an Ok", r"None => (?:return )?None\b|Err\(\w+\) => (?:return )?Err\(|Ok\(\(\)\) => Ok\(\(\)\)|if let Err\(\w+\)"),
    ("1d", "an `if` that chooses between Some and None", r"if [^{;]*\{\s*(?:Some\((?:[^;{}]|\{[^{}]*\})*\)|None)\s*\} else \{\s*(?:Some\((?:[^;{}]|\{[^{}]*\})*\)|None)\s*\}"),
    ("1e", "a pair of a Result and a value, or an Option in an Option", r"-> \(Result<[^;{]*\)\n|Option<Option<"),
    ("1f", "a number where nothing is computed", r"\{\n    0\n\}"),
    ("3a", "a `for` over numbers", r"\bfor \w+ in [^{]*\.\."),
    ("3b", "a `while`", r"^\s*while\b"),
    ("3c", "a `for` that ends early by an answer", r"\bfor [^{]*\{\n\s*(?:let [^;]*;\n\s*)*if [^{]*\{\n\s*return"),
    ("4a", "equality, order or copying by hand", r"^impl.*\b(?:PartialEq|Eq|PartialOrd|Ord|Clone|Copy|Hash|Debug)\b(?:<\w+>)? for "),
    ("4b", "a Display", r"^impl.*\bDisplay for "),
    ("4c", "an `as` to a number type", r"\bas (?:u8|u16|u32|u64|usize|i8|i16|i32|i64|isize)\b"),
    ("6a", "an array type of a fixed length", r"\[[\w<>:' ]+; \w+\]"),
]


def sources(top):
    for path in sorted(pathlib.Path(top).glob("crates/*/src/**/*.rt")):
        if "tests" not in path.parts and path.name != "tests.rt":
            yield path


def main():
    words = [w for w in sys.argv[1:] if w != "-l"]
    top = words[0] if words else "."
    for name, what, form in FORMS:
        found = []
        for path in sources(top):
            text = path.read_text()
            for m in re.finditer(form, text, re.M):
                found.append(f"{path.relative_to(top)}:{text.count(chr(10), 0, m.start()) + 1}")
        print(f"{name} {len(found):3} {what}")
        if "-l" in sys.argv:
            for place in found:
                print("      ", place)


main()

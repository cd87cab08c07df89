#!/usr/bin/env python3
"""Brings the definitions and lemmas of specs/ and proofs/ to the library's spelling: words in snake case, types and facts in
camel case. Run once, at the top, after the kit's own scripts. It goes by the text: a name that specs/ or proofs/ define (a
goal's name apart) and that has a dash, or a type that has words joined by _, is spelled anew wherever it stands in .antt and
.rt files, in edits, and between backticks in pages. Strings, and names of src/, stay. It stops, and changes nothing, where
two names would fall together."""
import collections
import glob
import re
import sys

WORD = r"[A-Za-z_][\w'-]*"
TOKEN = re.compile(r"(?<![\w'-])" + WORD)
DEFINES = re.compile(r"^\s*(?:(?:unfoldable |abbrev |mutual )?(?:pub )?)(?:(?:record|data) (?:pub )?)?(" + WORD + r")\s*(?:\{[^}]*\}|\([^)]*\)|\s)*:(?:\s|$)")
NAMED = re.compile(r"\bas (" + WORD + r")")
STRING = re.compile(r'"(?:\\.|[^"\\])*"')

# Names that would fall together with one of src/ or of the library.
APART = {
    "Program-line": "IsProgramLine",
    "Description-line": "IsDescriptionLine",
}

# Lemmas that would have the name of the function that states them.
LEMMAS = [
    "always-ends-as-written", "broken-always-shows", "history-names-accesses", "history-shows-order", "kept-is-always-same",
    "kept-is-whole-same", "marks-as-written", "order-decides-history", "runs-as-written", "serial-is-kept",
]

# A field of two records, and a lemma: no file means more than one of them by the bare name.
TOGETHER = ["takes-time"]


def spelled(name):
    if name in APART:
        return APART[name]
    if name in LEMMAS:
        return name.replace("-", "_") + "_lem"
    if name[0].isupper():
        return "".join(part[:1].upper() + part[1:] for part in re.split("[-_]", name))
    return name.replace("-", "_")


def antt():
    return sorted(glob.glob("crates/*/specs/**/*.antt", recursive=True) + glob.glob("crates/*/proofs/**/*.antt", recursive=True))


def names_of(text):
    found, goals = set(), set()
    for line in text.split("\n"):
        if line.lstrip().startswith("--"):
            continue
        m = DEFINES.match(line)
        if m:
            (goals if re.search(r":\s*goal\.", line) else found).add(m[1])
        found.update(NAMED.findall(line))
    return found, goals


def turn(text, table):
    """The text with each word of the table spelled anew, but in strings."""
    out, at = [], 0
    for s in STRING.finditer(text):
        out.append(TOKEN.sub(lambda m: table.get(m[0], m[0]), text[at:s.start()]))
        out.append(s[0])
        at = s.end()
    out.append(TOKEN.sub(lambda m: table.get(m[0], m[0]), text[at:]))
    return "".join(out)


def read(path):
    with open(path, encoding="utf-8") as f:
        return f.read()


def write(path, old, new):
    if new != old:
        with open(path, "w", encoding="utf-8") as f:
            f.write(new)


def names_and_uses():
    """The names that are defined and are no goals, and for each word the files that it stands in."""
    found, goals, uses = set(), set(), collections.defaultdict(set)
    for path in antt():
        text = read(path)
        d, g = names_of(text)
        found |= d
        goals |= g
        for word in TOKEN.findall(STRING.sub("", text)):
            uses[word].add(path)
    return found, goals, uses


def clashes(table, found, uses):
    """Where two names would fall together: in one file, in one spelling, or with a name that is defined already."""
    told = []
    back = collections.defaultdict(set)
    for old, new in table.items():
        back[new].add(old)
        both = set() if old in TOGETHER else uses[old] & uses.get(new, set())
        told += [f"{old} and {new} stand both in {p}" for p in sorted(both)]
        if new in found:
            told.append(f"{old} would be {new}, which is defined too")
    return told + [f"{' and '.join(sorted(olds))} would all be {new}" for new, olds in back.items() if len(olds) > 1]


def look_at_items(table, uses):
    for path in sorted(glob.glob("crates/*/src/**/*.rt", recursive=True)):
        items = set(re.findall(r"\b(?:fn|struct|enum|trait|const|type|mod) (\w+)", read(path)))
        crate = path.split("/")[1]
        for old, new in sorted(table.items()):
            if new in items and any(p.startswith(f"crates/{crate}/") for p in uses[old]):
                print(f"look: {new} (from {old}) is an item of {path} too")


def in_backticks(text, table):
    return re.sub(r"`([^`\n]*)`", lambda m: "`" + TOKEN.sub(lambda w: table.get(w[0], w[0]), m[1]) + "`", text)


def main():
    found, goals, uses = names_and_uses()
    table = {n: spelled(n) for n in found - goals if "-" in n or (n[0].isupper() and "_" in n)}
    look_at_items(table, uses)
    clash = clashes(table, found, uses)
    if clash:
        print("\n".join(sorted(clash)))
        sys.exit(1)
    sources = antt() + glob.glob("crates/*/src/**/*.rt", recursive=True) + glob.glob("crates/*/must-fail/*.edit")
    for path in sorted(sources):
        text = read(path)
        write(path, text, turn(text, table))
    for path in ["README.md", "CHANGELOG.md"] + sorted(glob.glob("docs/*.md")):
        text = read(path)
        write(path, text, in_backticks(text, table))
    print(f"respell: {len(table)} names")


main()

#!/usr/bin/env python3
"""Brings the repository's own definitions and lemmas to snake case, once, after the toolchain's port.py.

Run at the top: python3 tools/respell.py
Types, modules, goals, names of src/, strings, inputs and outputs keep their spelling.
"""
import glob
import re

# Names that snake case alone would make one with another name in scope.
APART = {
    "short-term": "short_term_counts",
    "long-term": "long_term_counts",
    "is-kind": "is_of_kind",
    "is-counted": "is_counted_pick",
    "is-set": "storey_set",
    "isField": "of_field",
    "twoStoreys": "two_storeys_column",
    "loadFactor": "factor_of_load",
    "outcomeOf": "outcome_from",
    "startsBlank": "begins_blank",
    "termWord": "word_of_term",
    "numbersOf": "load_numbers",
    "countsOf": "counts_in",
    "last-field": "last_field_lem",
    "counts-line": "counts_line_lem",
    "kind-text": "kind_text_lem",
    "names-line": "names_line_lem",
    "load-text": "load_text_lem",
}

DEFINED = re.compile(
    r"^\s*(?:(?:pub|abbrev|unfoldable|data|record|ruleset|opaque)\s+)*([a-z][\w'-]*)\s*:(?![:=])"
)
HEADED = re.compile(
    r"^\s*(?:(?:pub|abbrev|unfoldable|ruleset|opaque)\s+)+([a-z][\w'-]*)\b"
)
WORD = re.compile(r"[A-Za-z_][\w'-]*")
USE = re.compile(r"use\s+(?:ghost\s+)?([\w.]+)\.\{([^}]*)\}")
TEXT = re.compile(r'"(?:\\.|[^"\\])*"')


def snake(name):
    name = re.sub(r"([a-z0-9])([A-Z])", r"\1_\2", name).replace("-", "_")
    return name.lower()


def goals(text):
    return set(re.findall(r"\bgoal\.([\w'-]+)", text))


def own_names(files):
    names = set()
    for path, text in files.items():
        if not path.endswith(".antt"):
            continue
        skip = goals(text)
        for line in text.split("\n"):
            found = DEFINED.match(line) or HEADED.match(line)
            if found and found.group(1) not in skip:
                names.add(found.group(1))
    return names


def brought_in(text):
    """Names that the file has from outside the repository."""
    names = set()
    for path, listed in USE.findall(text):
        crate = path.split(".")[1] if path.startswith("Rattle.") else ""
        if crate in CRATES:
            continue
        for item in listed.split(","):
            for word in item.split():
                names.add(word)
    return names


def respelled(path, text, table):
    skip = goals(text) | brought_in(text)
    strings = [m.span() for m in TEXT.finditer(text)] if path.endswith(".rt") else []

    def new(match):
        word, start = match.group(0), match.start()
        if word not in table or word in skip:
            return word
        if re.search(r"(^|[^\w'.-])[cwl]\.$", text[max(0, start - 3):start]):
            return word
        if any(a <= start < b for a, b in strings):
            return word
        return table[word]

    return WORD.sub(new, text)


paths = [
    p
    for kind in ("specs/**/*.antt", "proofs/**/*.antt", "src/**/*.rt", "must-fail/*.edit")
    for p in glob.glob("crates/*/" + kind, recursive=True)
]
CRATES = {p.split("/")[1] for p in paths}
FILES = {p: open(p, encoding="utf-8").read() for p in paths}
TABLE = {}
for name in own_names(FILES):
    to = APART.get(name, snake(name))
    if to != name:
        TABLE[name] = to

if __name__ == "__main__":
    for path, text in FILES.items():
        after = respelled(path, text, TABLE)
        if after != text:
            with open(path, "w", encoding="utf-8") as out:
                out.write(after)
    print(len(TABLE), "names")

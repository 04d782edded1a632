#!/usr/bin/env python3
"""Respells the repository's own definitions and lemmas: words in snake case, facts and types in camel case.

Run once at the top of the checkout. It renames what specs/ and proofs/ declare with a dash, in specs/, proofs/,
clauses of src/ and must-fail edits. Functions of src/, names that the check makes (goals, steps of the code),
strings, inputs and outputs keep their names."""
import glob
import re
import sys

WORD = r"[A-Za-z_◌][A-Za-z_0-9'◌]*"
DASHED = re.compile(r"(?<![\w'◌-])" + WORD + r"(?:-[A-Za-z_0-9'◌]+)+(?![\w'◌-])")
# names that a rule does not spell
SPECIAL = {
    # a law of the stores is called in_range
    "in-range": "in_index_range",
    "reader-sound": "ReaderSound",
    "getD-doubles": "get_or_doubles",
    "below-ltZ": "below_lt_z",
    "ltZ-below": "lt_z_below",
    "leZ-true": "le_z_true",
    "leZ-false": "le_z_false",
    "Odd": "odd",
    "Negative": "negated",
}
# single words, in one crate only
ONLY_IN = {"Odd": "crates/double/", "Negative": "crates/double/"}
# made by the check where a proof of a function cites it, and a local name elsewhere
MADE = {"next-is"}
# names of a pattern, which stand before no colon
PATTERNS = {"in-it"}


def spelled(name):
    if name in SPECIAL:
        return SPECIAL[name]
    if name[0].isupper() and not name.startswith("T_"):
        return "".join(w[0].upper() + w[1:] for w in name.split("-"))
    return name.replace("-", "_")


def of_function(path):
    """Whether a file is a function's own proof: crates/NAME/proofs/F/.."""
    return "/proofs/" in path and path.split("/proofs/")[1].count("/") > 0


def antt_files():
    return sorted(glob.glob("crates/*/specs/**/*.antt", recursive=True) + glob.glob("crates/*/proofs/**/*.antt", recursive=True))


def declared():
    """The dashed names that stand before a colon, but for goals."""
    names = set()
    binder = re.compile(r"(?:^|[\s({])(" + WORD + r"(?:-[A-Za-z_0-9'◌]+)+)(?: [^=:\n]*?)? :(?!:)(?! goal\.)", re.M)
    for path in antt_files():
        text = open(path, encoding="utf-8").read()
        names |= {m.group(1) for m in binder.finditer(text)}
    return names - libraries()


def libraries():
    """The names that are imported from other repositories' modules."""
    crates = [line.split(":")[0] for line in open("crates.txt", encoding="utf-8") if not line.startswith("#")]
    names = set()
    for path in antt_files() + sorted(glob.glob("crates/*/src/*.rt")):
        text = open(path, encoding="utf-8").read()
        for m in re.finditer(r"use ([^\s{}]+)\.\{([^}]*)\}", text):
            if not any(m.group(1).startswith(f"Rattle.{c}.") for c in crates):
                names |= {n.strip().split(" as ")[0] for n in m.group(2).split(",")}
    return names


def renamed(text, names, path):
    def turn(m):
        name = m.group(0)
        before = text[max(0, m.start() - 6) : m.start()]
        if name not in names:
            return name
        if of_function(path) and (name in MADE or re.search(r"(?<![\w.'])(?:[cwl]|goal)\.$", before)):
            return name
        return spelled(name)

    out = DASHED.sub(turn, text)
    for word, where in ONLY_IN.items():
        if path.startswith(where):
            out = re.sub(r"(?<![\w'-])" + word + r"(?![\w'-])", SPECIAL[word], out)
    return out


def outside_strings(text, turn):
    """Applies turn to all but string literals."""
    parts = re.split(r'("(?:[^"\\\n]|\\.)*")', text)
    return "".join(p if p.startswith('"') else turn(p) for p in parts)


def main():
    names = declared() | PATTERNS
    together = {}
    for n in sorted(names):
        together.setdefault(spelled(n), []).append(n)
    for new, old in together.items():
        if len(old) > 1:
            sys.exit(f"{old} would all be {new}")
    count = 0
    for path in antt_files() + sorted(glob.glob("crates/*/src/*.rt") + glob.glob("crates/*/must-fail/*.edit")):
        text = open(path, encoding="utf-8").read()
        if path.endswith(".antt"):
            out = renamed(text, names, path)
        else:
            out = outside_strings(text, lambda p: renamed(p, names, path))
        if out != text:
            open(path, "w", encoding="utf-8").write(out)
            count += 1
    print(f"{len(names)} names, {count} files")


main()

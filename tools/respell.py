#!/usr/bin/env python3
"""Brings the repository's own names to the library's spelling: definitions, laws and fields in snake case.

usage: python3 tools/respell.py [--dry]     once, at the top, after the toolchain's own respelling

`sizedWord` becomes `sized_word`, and a record's field `few-dims` becomes `few_dims`. A law's dash stays where it joins
two names (`dims-length`), types and modules stay in camel case, and names of src/ stay as they are.
"""

import re
import sys
from pathlib import Path

TOKEN = re.compile(r"[^\s(){}\[\].,;\"«»|\\`:]+")
# Names of the library, which have their own spelling, and those of the repository whose parts are not words.
KEEP = {"shr_slice_Tells", "uint_Tells", "uint_Makes", "walk_Meets", "mut_slice_Tells", "shr_Tells", "mut_Tells",
        "bool_Makes", "sint_Makes", "sint_Lawful", "true→T"}
ODD = {"isNaN": "is_nan", "gap-nonNeg": "gap-non_neg", "sub-nonNeg": "sub-non_neg", "getD-pad": "get_or-pad",
       "getD-false": "get_or-false", "getD-zeros": "get_or-zeros", "getD-padded": "get_or-padded",
       "getD-replicate-any": "get_or-replicate-any", "at-getD": "at-get_or", "getD-listed": "get_or-listed",
       "populationSize": "population_size_of"}
# Laws whose dash the toolchain's respelling took, and which would fall together with a definition: they get it back.
FALLEN = {"all_digits", "count_at", "entries_fit", "held_by", "is_open", "limits_of", "next_fits", "no_place",
          "numbers_of", "plain_at", "same_flags", "whole_word", "word_first", "not_sound", "read_answer"}
LAW = re.compile(r"(?:(?<=By\.)|(?<![\w'\-.→]))(" + "|".join(sorted(FALLEN)) + r")(?![\w'\-→.])")


def snake(name):
    """`sizedWord` as `sized_word`; None where nothing changes."""
    if name in ODD:
        return ODD[name]
    parts = name.split("-")
    if name in KEEP or not all(re.fullmatch(r"[\w'→≢ℤℕ]+", p) for p in parts):
        return None
    turned = [re.sub(r"(?<=[a-z0-9])([A-Z])", lambda m: "_" + m.group(1).lower(), p) if re.match(r"[a-z]", p) else p for p in parts]
    new = "-".join(turned)
    return new if new != name and not re.search(r"[A-Z]", new.replace("All", "")) else None


def fields(text):
    """The fields of the records that a file declares."""
    inside, depth = False, 0
    for line in text.split("\n"):
        indent = len(line) - len(line.lstrip())
        if re.match(r"\s*(pub )?record \S", line) and line.rstrip().endswith("where"):
            inside, depth = True, indent
        elif inside and line.strip() and not line.lstrip().startswith("--"):
            if indent <= depth:
                inside = False
                continue
            m = re.match(r"\s*(?:pub )?([^\s:(){}]+) :", line)
            if m:
                yield m.group(1)


def main():
    dry = "--dry" in sys.argv
    antt = sorted(Path("crates").glob("*/specs/**/*.antt")) + sorted(Path("crates").glob("*/proofs/**/*.antt"))
    texts = {p: LAW.sub(lambda m: m.group(1).replace("_", "-"), p.read_text(encoding="utf-8")) for p in antt}
    for p in antt:
        # An alias that would hide a definition.
        texts[p] = re.sub(r" as (held|look)_at$", r" as \1-at", texts[p], flags=re.M)
    turns = {}
    for text in texts.values():
        for line in text.split("\n"):
            for token in TOKEN.findall(line):
                new = snake(token)
                if new:
                    turns[token] = new
        for name in fields(text):
            if "-" in name:
                turns[name] = (snake(name) or name).replace("-", "_")
    names = {t for text in texts.values() for t in TOKEN.findall(text)}
    for old, new in sorted(turns.items()):
        if new in names:
            print(f"look: {old} falls together with {new}")
    others = sorted(Path("crates").glob("*/src/**/*.rt")) + sorted(Path("crates").glob("*/must-fail/*.edit"))
    pages = [p for p in sorted(Path("docs").glob("**/*.md")) + [Path("README.md")] if p.exists() and p.name != "PORT.md"]
    count = 0
    for p in [*antt, *others, *pages]:
        kept = p.read_text(encoding="utf-8")
        text = texts.get(p) or kept
        new = TOKEN.sub(lambda m: turns.get(m.group(0), m.group(0)), text)
        if new != kept:
            count += 1
            if not dry:
                p.write_text(new, encoding="utf-8")
    print(f"{len(turns)} names turned, in {count} files")
    if dry:
        for old, new in sorted(turns.items()):
            print(old, new)


main()

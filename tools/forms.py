#!/usr/bin/env python3
"""tools/forms.py COMMIT: counts, in src/ of every crate at COMMIT, the places that docs/DESIGN-PASS.md speaks of.
With -v each place is named."""
import collections
import re
import subprocess
import sys

ARGS = [a for a in sys.argv[1:] if a != "-v"]
SHOWN = "-v" in sys.argv
COMMIT = ARGS[0] if ARGS else "HEAD"


def git(*words):
    return subprocess.run(["git", *words], check=True, capture_output=True, text=True).stdout


FILES = [f for f in git("ls-tree", "-r", "--name-only", COMMIT, "crates").split("\n") if re.match(r"crates/\w+/src/.*\.rt$", f)]
TEXT = {f: git("show", COMMIT + ":" + f) for f in FILES}
CODE = {f: "\n".join(re.sub(r"//.*", "", l) for l in t.split("\n")) for f, t in TEXT.items()}


def body_at(s, at):
    """the text of the braces that open at or after `at`, outside clauses"""
    depth = 0
    for k in range(at, len(s)):
        if s[k] == "{":
            depth += 1
        elif s[k] == "}":
            depth -= 1
            if depth == 0:
                return s[at:k + 1]
    return s[at:]


def opening(s, k):
    """where the body opens; -1 of a declaration without one"""
    depth = 0
    for j in range(k, len(s)):
        depth += {"[": 1, "]": -1}.get(s[j], 0)
        if s[j] == "{":
            return j
        if s[j] == ";" and depth == 0:
            return -1
    return -1


def functions():
    """file, name, parameters, clauses, body"""
    out = []
    for f, s in CODE.items():
        for m in re.finditer(r"\bfn (\w+)(?:<[^(]*>)?\(", s):
            depth, k = 1, m.end()
            while depth and k < len(s):
                depth += {"(": 1, ")": -1}.get(s[k], 0)
                k += 1
            params = s[m.end():k - 1]
            clauses = []
            while True:
                c = re.match(r"(?:[^{]*?)\b(requires|ensures)\b[*\w\s]*(?=\{)", s[k:])
                if not c:
                    break
                text = body_at(s, k + c.end())
                clauses.append((c.group(1), text[1:-1].strip()))
                k += c.end() + len(text)
            b = opening(s, k)
            if b < 0:
                continue
            out.append((f, m.group(1), params, clauses, body_at(s, b)))
    return out


FUNCTIONS = functions()


def enums():
    for f, s in CODE.items():
        for m in re.finditer(r"\benum (\w+)[^{]*\{", s):
            yield f, m.group(1), body_at(s, m.end() - 1)


def structs():
    for f, s in CODE.items():
        for m in re.finditer(r"\bstruct (\w+)[^{;(]*\{", s):
            yield f, m.group(1), body_at(s, m.end() - 1)


def own_shapes():
    """1a: an enum with a value in one case and 'none', 'refused', 'malformed' or the like in another"""
    bare = r"(?m)^\s*(Unset|Unnamed|Not|Nothing|Valid|Refused|Malformed|Failed|Full|Taken|End)\b"
    return [f"{f} {n}" for f, n, b in enums() if re.search(bare, b) and "(" in b]


def flags():
    """1b: a bool, or an array of them, that says whether a value beside it is there, or whether a run goes on"""
    names = r"(?m)^\s*(?:pub )?(ok|plain|stores|accepted|stopped|nan|known_call|known_state|found|filled|categorical): (?:bool|\[bool; \d+\])"
    return [f"{f} {n}.{m}" for f, n, b in structs() for m in re.findall(names, b)]


def numbers():
    """1c: a field or a parameter that is a number for a case, and a number that stands for 'none'"""
    names = r"\b(kind|strategy|refusal|sized|named|stepped|log_scale|discovered): u64"
    places = [f"{f} {n}.{m}" for f, n, b in structs() for m in re.findall(names, b)]
    places += [f"{f} {n}({m})" for f, n, p, _, _ in FUNCTIONS for m in re.findall(names, p)]
    return places + [f"{f} {n}: {m}" for f, n, _, _, b in FUNCTIONS for m in re.findall(r"(?m)^\s*(99|usize::MAX)$", b)]


def shape(b):
    words = re.findall(r"\w+|[^\w\s]", b)
    keep = {"if", "else", "while", "for", "in", "match", "let", "mut", "return", "loop"}
    return tuple("n" if w[0].isdigit() else ("i" if re.match(r"\w", w) and w not in keep else w) for w in words)


def twins():
    """2: functions of more than 24 words whose bodies are one text but for names and numbers"""
    groups = collections.defaultdict(list)
    for f, n, _, _, b in FUNCTIONS:
        k = shape(b)
        if len(k) > 24:
            groups[k].append(f"{f} {n}")
    structs_of = collections.defaultdict(list)
    for f, n, b in structs():
        fields = re.findall(r"(\w+): ([^,\n]+)", b)
        if len(fields) == 2 and any(t == "Gen" for _, t in fields):
            structs_of["a value, and the generator after it"].append(f"{f} {n}")
    return [" = ".join(g) for g in list(groups.values()) + list(structs_of.values()) if len(g) > 1]


def loops():
    """3: a `while` whose body counts an index"""
    return [f"{f} {n}: while {c}" for f, n, _, _, b in FUNCTIONS for c in re.findall(r"while ([^{]*)\{", b)]


def by_hand():
    """4: a function that only turns one enum into numbers or another enum, copies, compares or prints what a derive or a trait would"""
    places = []
    for f, n, p, _, b in FUNCTIONS:
        inner = b.strip()[1:-1].strip()
        if re.fullmatch(r"match \w+ \{(\s*\w+(::\w+)*(\([\w_]*\))? => [\w.]+,)+\s*\}", inner):
            places.append(f"{f} {n}: a match")
        elif re.fullmatch(r"if \w+ \{ \d+ \} else \{ \d+ \}|\w+ as \w+", inner):
            places.append(f"{f} {n}: a cast")
        elif re.fullmatch(r"if (\w+) < (\w+) \{ (\w+) \} else \{ (\w+) \}", inner):
            places.append(f"{f} {n}: a least or a largest")
    return places


def facts():
    """5a: a fact that stands in the `requires` of three or more functions of a crate"""
    seen = collections.defaultdict(set)
    for f, n, _, cs, _ in FUNCTIONS:
        for kind, text in cs:
            if kind == "requires":
                for part in text.split(" × "):
                    seen[f.split("/")[1], part.strip().strip("()")].add(n)
    return [f"{c}: {t} ({len(ns)})" for (c, t), ns in seen.items() if len(ns) >= 3]


def together():
    """5b: two parameters that stand side by side, by name and type, in three or more functions of a crate"""
    seen = collections.defaultdict(set)
    for f, n, p, _, _ in FUNCTIONS:
        ps = [re.sub(r"\s+", " ", x.strip()) for x in re.split(r",(?![^\[<(]*[\]>)])", p) if x.strip()]
        for a, b in zip(ps, ps[1:]):
            seen[f.split("/")[1], a, b].add(n)
    return [f"{c}: {a}, {b} ({len(ns)})" for (c, a, b), ns in seen.items() if len(ns) >= 3 and "self" not in a]


def buffers():
    """6: an array by value with a count beside it, as parameters or as fields"""
    places = []
    for f, n, p, _, _ in FUNCTIONS:
        if re.search(r"\w+: \[\w+; \d+\],\s*\w+: usize", p):
            places.append(f"{f} {n}(..)")
    for f, n, b in structs():
        if re.search(r"\w+: \[\w+; \d+\],", b) and re.search(r"\bn\w*: usize|\b(filled|found)\b", b):
            places.append(f"{f} struct {n}")
    return places


def switches():
    """7: a chain of two or more tests of one number or word, each with a step of its own"""
    places = []
    for f, n, _, _, b in FUNCTIONS:
        for v, k in collections.Counter(re.findall(r"if ([\w.]+|\w+\(\w+, \d+, b\"\w+\"\)) == \d+ \{", b)).items():
            if k > 1:
                places.append(f"{f} {n}: {v} ({k})")
        if len(re.findall(r"if (?:key_is|is)\(", b)) > 1:
            places.append(f"{f} {n}: keywords")
    return places + [f"{f} {n}: {v}" for f, n, p, _, _ in FUNCTIONS for v in re.findall(r"\b(work): \w+", p)]


def proofs():
    """8: the lines of proof files, and the files"""
    fs = [f for f in git("ls-tree", "-r", "--name-only", COMMIT, "crates").split("\n") if re.match(r"crates/\w+/proofs/.*\.antt$", f)]
    n = sum(git("show", COMMIT + ":" + f).count("\n") for f in fs)
    return len(fs), n


def main():
    for name, places in (("1a own enums of the shape of Option or Result", own_shapes()), ("1b flags with a value beside", flags()), ("1c numbers for cases", numbers()),
                         ("2 twins (groups)", twins()), ("3 while loops", loops()), ("4 by hand", by_hand()), ("5a facts in three contracts", facts()),
                         ("5b parameters together in three functions", together()), ("6 arrays with a count beside", buffers()), ("7 switches", switches())):
        print(f"{len(places):4}  {name}")
        if SHOWN:
            for p in places:
                print("        " + p)
    files, lines = proofs()
    print(f"{lines:4}  8 lines of proofs, in {files} files")


main()

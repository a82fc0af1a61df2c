#!/usr/bin/env python3
"""Lists the places in crates/*/src that docs/DESIGN-PASS.md counts: python3 tools/places.py [COMMIT] [-v]

Without a commit it reads the working tree. With -v it names each place."""
import re
import subprocess
import sys
from collections import defaultdict
from difflib import SequenceMatcher

KEPT = set("if else match let mut for in return fn pub self impl Ok Err Some None ensures requires while".split())
ROOT = subprocess.run(["git", "rev-parse", "--show-toplevel"], capture_output=True, text=True, check=True).stdout.strip()


def git(*words):
    return subprocess.run(["git", "-C", ROOT, *words], capture_output=True, text=True, check=True).stdout


def read(commit, suffix):
    names = git("ls-tree", "-r", "--name-only", commit) if commit else git("ls-files", "-co", "--exclude-standard")
    for name in sorted(set(names.split("\n"))):
        if not re.match(r"crates/\w+/" + suffix, name):
            continue
        try:
            text = git("show", f"{commit}:{name}") if commit else open(f"{ROOT}/{name}", encoding="utf-8").read()
        except FileNotFoundError:
            continue
        yield name, text.split("\n")


def matching(files, pattern):
    wanted = re.compile(pattern)
    return [(f"{name}:{i + 1}", line.strip()) for name, lines in files for i, line in enumerate(lines)
            if wanted.search(line) and not line.lstrip().startswith(("//", "ghost use"))]


def clauses(files, least):
    """Facts that stand in the `requires` of so many functions, names of variables aside."""
    seen = defaultdict(list)
    for place, line in matching(files, r"^\s*requires\b"):
        for fact in re.split(r" × ", line[line.index("{") + 1:].rstrip(" }")):
            shape = re.sub(r"\b(?:self|c|x|s)\b", "_", re.sub(r"[()]", "", fact).strip())
            seen[shape].append((place, line))
    return [place for places in seen.values() if len(places) >= least for place in places]


def functions(files):
    """Each function with its lines, names and numbers turned into one letter."""
    for name, lines in files:
        for start, line in enumerate(lines):
            if not re.match(r"\s*(pub(\(\w+\))? )?fn \w+", line):
                continue
            indent = len(line) - len(line.lstrip())
            end = next((k for k in range(start, len(lines)) if lines[k].startswith(" " * indent + "}") or lines[k].endswith("};")), start)
            shape = [re.sub(r"\w+", lambda w: w[0] if w[0] in KEPT else "x", text.strip()) for text in lines[start:end + 1]]
            yield f"{name}:{start + 1}", line.strip(), shape


def twins(files, length, likeness):
    """Functions that are of one shape with another one: the same but for names, numbers and a few lines."""
    all_functions = [f for f in functions(files) if len(f[2]) >= length]
    found = []
    for i, (place, line, shape) in enumerate(all_functions):
        others = [other for k, other in enumerate(all_functions) if k != i
                  and SequenceMatcher(None, shape, other[2], autojunk=False).ratio() >= likeness]
        if others:
            found.append((place, f"{line}   ~ " + ", ".join(other[0].split("src/")[-1] for other in others)))
    return found


def main():
    words = [word for word in sys.argv[1:] if word != "-v"]
    commit = words[0] if words else None
    files = list(read(commit, r"src/.*\.rt$"))
    own = [(name, lines) for name, lines in files if "_tests/" not in name]
    proofs = list(read(commit, r"proofs/.*\.antt$"))
    points = [
        ("1 enums of our own", matching(files, r"^\s*(pub(\(crate\))? )?enum ")),
        ("1 numbers for kinds", matching(files, r"const \w+: u(8|16|32) = \d{1,3};|number: u8|\((u8)\),")),
        ("2 functions of one shape with another", twins(own, 7, 0.8)),
        ("2 the same in the crates of tests", twins([f for f in files if f not in own], 7, 0.8)),
        ("3 loops over an index, and while", matching(files, r"^\s*(for \w+ in [^{]*\.\.|while |loop )")),
        ("3 other loops", matching(files, r"^\s*for .* in (?![^{]*\.\.)[^{]*\{$")),
        ("4 conversions and texts by hand", matching(files, r"fn (number|name|letter|\w+_sign|or_dash|verdict_of|eq|cmp|clone|fmt)\((self|\w+: (Option|Received|Phase|Reply|Call))")),
        ("5 requires that stand in three functions or more", clauses(own, 3)),
        ("5 clauses with the three ghost arguments of book and log", matching(files, r"\w\.Book\.state \w\.Log\.entries \w\.Log\.limit")),
        ("6 arrays in structs and parameters", matching(own, r"^\s*(pub(\(crate\))? )?\w+: \[[^\]]+; [\w:]+\],|answers: \[")),
        ("6 lengths beside them", matching(own, r"^\s*(pub(\(crate\))? )?(len|used|count): usize|answers: \[.*size: usize")),
        ("7 flags as parameters", matching(own, r"fn .*\b\w+: bool\b")),
        ("8 files of answers and invariants", [(name, "") for name, _ in proofs if re.search(r"(Answers|Invariants|Proof)\.antt$", name)]),
        ("8 lines of proofs", [(name, "") for name, lines in proofs for _ in lines]),
    ]
    for title, places in points:
        print(f"{len(places):6}  {title}")
        for place, line in places if "-v" in sys.argv and not title.startswith("8") else []:
            print(f"          {place}  {line}")


main()

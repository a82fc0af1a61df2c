#!/usr/bin/env python3
"""respell [FOLDER]: gives the repository's own definitions and lemmas the library's spelling, in every file that names them.

A name that says a type, with a capital first, goes to camel case: Waits-first becomes WaitsFirst. Any other goes to snake
case: change-refusal becomes change_refusal, commitMsgs becomes commit_msgs. So does the name under which a file imports
one. The names of src/, of goals and of what the check makes stay. It says how many it renamed, and stops before it writes
where two names would fall together in one file. Must-fail edits and the names that pages quote in backticks follow, but
for docs/PORT.md, which has the old names beside the new. A second run changes nothing."""
import collections
import glob
import os
import re
import sys

TOKEN = r"[^\s(){}\[\],.;:λ\"`|]+"
MARKS = r"(?:(?:abbrev|pub|unfoldable|data|record|ruleset)\s+)*"
DECLARED = re.compile(rf"^\s*{MARKS}({TOKEN})\s*(?::\s|\(|\{{|where\b)")
GOAL = re.compile(rf"^\s*{MARKS}({TOKEN})\s*:\s*goal\.")
BOUND = re.compile(rf"\blet\s+({TOKEN})\s*[:=]|λ\s*\(?((?:{TOKEN}\s+)*{TOKEN})\s*[.:)]|[({{]((?:{TOKEN}\s+)+):\s")
PLAIN = re.compile(r"[A-Za-z][\w'-]*$")
USE = re.compile(r"^\s*(?:pub )?(?:ghost )?use ")


def bare(line):
    return re.sub(r"--.*", "", line)


def respelled(name):
    if name[0].isupper():
        head, *rest = name.split("-")
        return head + "".join(it[:1].upper() + it[1:] for it in rest)
    snake = re.sub(r"(?<=[a-z0-9])([A-Z])(?=[a-z])", lambda it: "_" + it[1].lower(), name)
    return snake.replace("-", "_")


def antt_files(top):
    found = glob.glob(f"{top}/crates/*/specs/**/*.antt", recursive=True) + glob.glob(f"{top}/crates/*/proofs/**/*.antt", recursive=True)
    return sorted(it for it in found if "/out/" not in it)


def rt_files(top):
    return sorted(glob.glob(f"{top}/crates/*/src/**/*.rt", recursive=True))


def imported_words(top):
    """Words that a file imports under the name of a type, with what they should be: allowed as AllowedOf."""
    words = {}
    for path in antt_files(top) + rt_files(top):
        for line in open(path, encoding="utf-8"):
            for it in re.findall(r"\b[a-z]\w* as ([A-Z][\w-]*)", line) if USE.match(line) else []:
                words[it] = respelled(re.sub(r"(?<=[a-z0-9])([A-Z])", lambda big: "_" + big[1].lower(), it[0].lower() + it[1:]))
    return words


def own_names(top):
    """The names that the repository's antt files declare, bind or import under another name, each with the files; goals apart."""
    own, goals = collections.defaultdict(set), set()
    for path in antt_files(top):
        for line in open(path, encoding="utf-8"):
            text = bare(line)
            if USE.match(text) or re.match(r"\s*(pub )?mod ", text):
                continue
            goal = GOAL.match(text)
            if goal or re.match(r"\s*(abbrev )?pub (invariant|decreases|ghosts)-", text):
                goals.add(goal[1] if goal else DECLARED.match(text)[1])
                continue
            found = DECLARED.match(text)
            names = [found[1]] if found else []
            for it in BOUND.finditer(text):
                names += " ".join(filter(None, it.groups())).split()
            for name in names:
                if PLAIN.match(name):
                    own[name].add(path)
    for path in antt_files(top) + rt_files(top):
        for line in open(path, encoding="utf-8"):
            for name in re.findall(rf" as ({TOKEN})", line) if USE.match(line) else []:
                if PLAIN.match(name):
                    own[name].add(path)
    return {it: where for it, where in own.items() if it not in goals}, goals


def borrowed(top):
    """The names that the files take from the library or from what the check makes."""
    names = set()
    for path in antt_files(top) + rt_files(top):
        for line in open(path, encoding="utf-8"):
            if USE.match(line) and re.search(r"Rattle\.(std|base\.specs\.declared)\b|Goals|Given|\bborrow\.|\bdenote\.", line):
                names |= set(re.findall(TOKEN, line.partition("{")[2]))
    return names


def main():
    top = sys.argv[1] if len(sys.argv) > 1 else "."
    own, goals = own_names(top)
    made = borrowed(top)
    new = {it: respelled(it) for it in own if respelled(it) != it and it not in made}
    new |= {it: to for it, to in imported_words(top).items() if to not in own}
    for name in sorted(goals & set(own)):
        print(f"look: {name} names a goal too")
    together = False
    for name, to in sorted(new.items()):
        for other in (it for it in own if it != name and new.get(it, it) == to):
            shared = own[name] & own[other]
            print(f"look: {name} and {other} both become {to}" + (f", in {', '.join(sorted(shared))}" if shared else ""))
            together = together or bool(shared)
    if together:
        return 1
    edits = new | {it.replace("_", "-"): it for it in own if "_" in it}
    for path in antt_files(top) + rt_files(top):
        rewrite(path, lambda text: tokens(text, new))
    for path in sorted(glob.glob(f"{top}/crates/*/must-fail/*.edit")):
        rewrite(path, lambda text: tokens(text, edits))
    pages = sorted(set(glob.glob(f"{top}/docs/*.md")) - {f"{top}/docs/PORT.md"}) + [f"{top}/README.md"]
    for path in pages:
        rewrite(path, lambda text: re.sub(r"`[^`\n]+`", lambda it: tokens(it[0], edits), text))
    print(f"{len(new)} names respelled")
    return 0


def tokens(text, new):
    return re.sub(r"(?<![\w'-])[A-Za-z][\w'-]*", lambda it: new.get(it[0], it[0]), text)


def rewrite(path, turn):
    with open(path, encoding="utf-8", newline="") as file:
        old = file.read()
    text = turn(old)
    if text != old:
        with open(path, "w", encoding="utf-8", newline="") as file:
            file.write(text)


if __name__ == "__main__":
    sys.exit(main())

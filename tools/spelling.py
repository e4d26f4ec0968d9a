#!/usr/bin/env python3
"""Spells the repository's own definitions and lemmas as today's Rattle does. Run once at the top, after the kit's port.py.

Words are in snake case (`rights-of` becomes `rights_of`), types, records and facts in camel case (`Lies-apart` becomes `LiesApart`).
A dash stays where it joins a name to a type or to an operator (`All-append`, `among-++`), and in the names that Rattle makes.
With --list it prints the names and changes nothing.
"""

import glob
import re
import sys

DECLARATION = re.compile(r"^(\s*)((?:(?:unfoldable|abbrev|pub|record|data|ruleset)\s+)*)([^\s:(){};,.«»]+)\s*((?:\(.*?\)\s*|\{.*?\}\s*)*):\s")
TOKEN = re.compile(r"[^\s(){};,.«»\"`:]+")
PLAIN = re.compile(r"^[^\W\d_]?[\w']*$")
# a name that would fall together with one of the library's
OTHER = {"bit-and": "bit_of_and"}


def antt_files():
    found = glob.glob("crates/*/specs/**/*.antt", recursive=True) + glob.glob("crates/*/proofs/**/*.antt", recursive=True)
    return sorted(f for f in found if "/out/" not in f)


def read(path):
    with open(path, encoding="utf-8") as f:
        return f.read()


def divided(name):
    """Whether a name has a dash, or is a fact that port.py joined by a line below."""
    return "-" in name or (name[0].isupper() and "_" in name)


def declared():
    """Each divided name that a file of specs/ or proofs/ declares, and the words before it."""
    names = {}
    for path in antt_files():
        made = path.endswith(("/Answers.antt", "/Invariants.antt"))
        text = read(path)
        keep = foreign_names(text)
        for line in text.split("\n"):
            code = line.split("--")[0]
            match = DECLARATION.match(code + " ")
            if match and divided(match.group(3)) and not (made and "goal." in line):
                words = names.setdefault(match.group(3), set())
                words.update(match.group(2).split())
                words.update({"type"} if code.rstrip().endswith("Type 0") else set())
            if not made:  # a variable, a binder or another name for what is imported
                for word in TOKEN.findall(code):
                    if "-" in word and word[0].islower() and word not in keep:
                        names.setdefault(word, set())
    return names


def spelled(name, words):
    parts = re.split("[-_]", name) if name[0].isupper() else name.split("-")
    if name in OTHER:
        return OTHER[name]
    if not all(p and PLAIN.match(p) for p in parts):
        return name
    if name[0].isupper():
        if words & {"abbrev", "unfoldable", "record", "data", "type"}:
            return "".join(p[0].upper() + p[1:] for p in parts)
        return name
    return "_".join(p.lower() if len(p) == 1 else p for p in parts)


def foreign_names(text):
    """What a file imports from the library, under the library's own name."""
    own = tuple("Rattle." + c.split("/")[1] + "." for c in glob.glob("crates/*"))
    found = set()
    for module, items in re.findall(r"use ([\w.+-]+)\.\{([^}]*)\}", text):
        if not module.startswith(own):
            found.update(item.strip() for item in items.split(",") if " as " not in item)
    return found


def respell(text, names, keep):
    def one(match):
        word = match.group(0)
        return names[word] if word in names and word not in keep else word

    return TOKEN.sub(one, text)


def in_comment(text, names):
    """A comment speaks plain words: only facts, and what stands in backquotes, are names there."""
    facts = {n: s for n, s in names.items() if n[0].isupper()}
    text = respell(text, facts, set())
    return re.sub(r"`([^`\n]+)`", lambda m: "`" + respell(m.group(1), names, set()) + "`", text)


def lines_respelled(text, names, mark):
    keep = foreign_names(text)
    done = []
    for line in text.split("\n"):
        at = line.find(mark)
        if at < 0:
            done.append(respell(line, names, keep))
        else:
            done.append(respell(line[:at], names, keep) + in_comment(line[at:], names))
    return "\n".join(done)


def main():
    names = {}
    for name, words in declared().items():
        new = spelled(name, words)
        if new != name:
            names[name] = new
    if "--list" in sys.argv:
        for name in sorted(names):
            print(name, names[name])
        return
    for path in antt_files():
        text = read(path)
        clash = foreign_names(text) & {names[w] for w in TOKEN.findall(text) if w in names and w not in foreign_names(text)}
        if clash:
            print(path, "a name of the library falls together:", sorted(clash))
    jobs = [(p, "--") for p in antt_files()]
    jobs += [(p, "//") for p in sorted(glob.glob("crates/*/src/**/*.rt", recursive=True))]
    jobs += [(p, "\0") for p in sorted(glob.glob("crates/*/must-fail/*.edit"))]
    for path, mark in jobs:
        old = read(path)
        new = lines_respelled(old, names, mark)
        if new != old:
            with open(path, "w", encoding="utf-8") as f:
                f.write(new)
    for path in ["README.md"] + sorted(glob.glob("docs/*.md")):
        old = read(path)
        new = in_comment(old, names)
        if new != old:
            with open(path, "w", encoding="utf-8") as f:
                f.write(new)


if __name__ == "__main__":
    main()

#!/usr/bin/env python3
"""Brings the names that the repository's own antt files declare to one spelling: snake case for what is no type.

usage: tools/port_names.py            at the top of the repository, once, right after port.py
       tools/port_names.py --list     prints the names, old and new, and writes nothing

A name that specs/ or proofs/ declare, with a dash or a capital inside, gets underscores: inverseIn -> inverse_in, flow-of-one ->
flow_of_one. Names behind `as` go along. A name that a file takes from a library stays in that file. What Rattle makes (goals, steps and
their fields) is not declared by a file, and stays; the answers of a function's Proof.antt are named after goals, and stay too. The must-fail
edits and the names that README and docs/ quote are spelled alike.
"""

import collections
import glob
import re
import sys

DECLARED = re.compile(
    r"^(\s*)((?:abbrev |unfoldable |pub |private )*)(?:(record|data|module)\s+)?([^\s(){}.,;:«»]+)"
    r"((?: \{[^{}]*\}| \([^()]*(?:\([^()]*\)[^()]*)*\))*)\s*:(?=\s|$)"
)
TOKEN = re.compile(r"[^\s(){}.,;:@«»\"`→]+")
USE = re.compile(r"^\s*(?:pub |ghost )*use ([^\s{;]+?)\.?\{([^}]*)\}", re.M)
USE_ONE = re.compile(r"^\s*(?:pub |ghost )*use ([^\s{;]+)\.([^\s{;.]+)\s*;?\s*$", re.M)
MODULE_AS = re.compile(r"^\s*use (Rattle\.[^\s{;]+) as (\S+)", re.M)
AS = re.compile(r" as «?([^\s,;}»]+)»?")


def snake(name):
    name = re.sub(r"(?<=[a-z0-9])[A-Z]", lambda m: "_" + m[0].lower(), name)
    if re.match(r"[A-Z]-", name):
        name = name[0].lower() + name[1:]
    return name.replace("-", "_")


def to_turn(name):
    if re.match(r"[A-Z][A-Za-z0-9]*$", name):
        return False
    return bool(re.search(r"[\w'₀-₉]-[\w]|[a-z0-9][A-Z]", name)) and not re.search(r"[◌|&*+<>=≤≡∷]", name)


def own(path):
    return re.match(r"Rattle\.(?!std\b|core\b|libc\b|io\b|os\b)\w+\.(specs|proofs)\b", path) or path.startswith("package")


def read(path):
    with open(path, encoding="utf-8") as f:
        return f.read()


def antt():
    return sorted(glob.glob("crates/*/specs/**/*.antt", recursive=True) + glob.glob("crates/*/proofs/**/*.antt", recursive=True))


def declared():
    names, fields = collections.defaultdict(set), set()
    for path in antt():
        if path.endswith("/Proof.antt"):
            continue
        inside = None
        for line in read(path).split("\n"):
            if line.strip().startswith("--"):
                continue
            if re.match(r"\s*(pub )?record ", line):
                inside = len(line) - len(line.lstrip())
                continue
            indent = len(line) - len(line.lstrip())
            if line.strip() and inside is not None and indent <= inside:
                inside = None
            m = DECLARED.match(line)
            if not m or m.group(3) == "module":
                continue
            names[m.group(4)].add(path)
            if inside is not None:
                fields.add(m.group(4))
    for path in antt() + glob.glob("crates/*/src/**/*.rt", recursive=True):
        for line in read(path).split("\n"):
            if re.match(r"\s*(pub |ghost )*use ", line):
                for it in AS.findall(line):
                    names[it].add(path)
    return names, fields


def main():
    names, fields = declared()
    table = {it: snake(it) for it in names if to_turn(it)}
    table["type_size"] = "size_of"  # port.py took the own name size-of for a library's
    table["turned_down"] = "turned_down_lem"  # of desk/proofs: turnedDown of its specs/ gets the plain name
    table["Stand-of"], table["Taken-of"] = "StandOf", "TakenOf"
    # A lemma that would have the name of a definition, or of another lemma, gets _lem.
    for it, new in list(table.items()):
        if "-" in it and (new in names or any(other != it and to == new for other, to in table.items())):
            table[it] = new + "_lem"
    heads = {it: names[it] for it in names}
    clashes = [(a, b) for a, b in table.items() if b in heads]
    both = collections.defaultdict(list)
    for a, b in table.items():
        both[b].append(a)
    if "--list" in sys.argv:
        for a, b in sorted(table.items()):
            print(a, b)
        for a, b in clashes:
            print("clash:", a, b, sorted(names[a]), sorted(names[b]))
        for b, many in both.items():
            if len(many) > 1:
                print("twice:", b, [(m, sorted(names[m])) for m in many])
        return
    turned = 0
    for path in antt() + sorted(glob.glob("crates/*/src/**/*.rt", recursive=True)):
        text = read(path)
        foreign = set()
        modules = {b for a, b in MODULE_AS.findall(text) if own(a) and not re.search(r"\.(Tie|Goals|Given|Statement|Lts)$", a)}
        for where, items in USE.findall(text):
            if not own(where):
                foreign.update(re.split(r"[\s,]+", items.strip()))
        for where, item in USE_ONE.findall(text):
            if not own(where):
                foreign.add(item)
        answers = set()
        if path.endswith("/Proof.antt"):
            for line in text.split("\n"):
                m = re.match(r"^\s*(?:abbrev |pub )*(\S+) : tie\.", line)
                if m:
                    answers.add(m.group(1))
                m = re.match(r"^\s*pub (\S+-spec) :", line)
                if m:
                    answers.add(m.group(1))
        skip = (foreign | answers) - {""}

        def turn(m, text=text):
            word = m[0]
            if word not in table or word in skip:
                return word
            before = text[m.start() - 1] if m.start() else " "
            if before == ".":
                head = re.search(r"([^\s(){},;]*)\.$", text[max(0, m.start() - 200) : m.start()])
                first = head[1].split(".")[0] if head else ""
                last_import = re.search(r"use (Rattle\.\S+)\.$", text[max(0, m.start() - 200) : m.start()])
                if last_import and own(last_import[1]):
                    return table[word]
                if first not in modules and word not in fields:
                    return word
            return table[word]

        new = TOKEN.sub(turn, text)
        was, now = set(TOKEN.findall(text)), set(TOKEN.findall(new))
        for it in sorted(now - was):
            if len([a for a in was if table.get(a) == it]) > 1:
                print("look: falls together:", path, it)
        for a in sorted(was & set(table)):
            if table[a] in was and a not in now and table[a] not in table:
                print("look: falls together:", path, a, table[a])
        if new != text:
            turned += 1
            with open(path, "w", encoding="utf-8") as f:
                f.write(new)
    loose = {a: b for a, b in table.items()}
    for path in sorted(glob.glob("crates/*/must-fail/*.edit") + glob.glob("tests/edits/*/*.edit")):
        text = read(path)
        new = TOKEN.sub(lambda m: loose.get(m[0], m[0]), text)
        if new != text:
            turned += 1
            with open(path, "w", encoding="utf-8") as f:
                f.write(new)
    for path in ["README.md"] + sorted(glob.glob("docs/*.md") + glob.glob("docs/requests/*.md") + glob.glob("*/README.md")):
        text = read(path)
        new = re.sub(r"`[^`\n]+`", lambda q: TOKEN.sub(lambda m: loose.get(m[0], m[0]), q[0]), text)
        if new != text:
            turned += 1
            with open(path, "w", encoding="utf-8") as f:
                f.write(new)
    print(f"port_names: {len(table)} names, {turned} files")


if __name__ == "__main__":
    main()

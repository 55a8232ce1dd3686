#!/usr/bin/env python3
"""Brings the names of this repository's definitions to today's spelling: words in snake case, types and modules in camel case.

usage: tools/spelling.py [FOLDER]      once, at the top, after the kit's port.py; FOLDER is another checkout

A word as byTerms becomes by_terms wherever it stands in crates/ (sources, specs, proofs, must-fail edits), also as a part of a
lemma's name, and so does the dash of a record's field, a constructor or a computing definition (not of a lemma, where it joins
parts). Functions of src/ keep their names. Where two names of one file fall together it says so.
"""
import os
import re
import sys

TOKEN = re.compile(r"[^\s(){}.;,@\"«»\[\]\\`:=]+")
CAMEL = re.compile(r"(?<![A-Za-z0-9_'])[a-z][a-z0-9']*(?:_[a-z0-9']+)*[A-Z][A-Za-z0-9_']*")
# A text of SMT-LIB, of C or of the library that has such a word keeps it.
KEPT = {"toZ", "ofZ"}
# A dash that is a minus: an example's polynomial.
MINUS = re.compile(r"\d+\w?²?-|^-|^[tx-z][²³⁵]?-[\dtx-z]")


def texts(top):
    for folder, folders, files in os.walk(os.path.join(top, "crates")):
        folders[:] = sorted(it for it in folders if it != "out")
        for name in sorted(files):
            if name.endswith((".antt", ".rt", ".edit")):
                yield os.path.join(folder, name)


def snake(word):
    word = re.sub(r"([a-z0-9'])([A-Z])", r"\1_\2", word)
    return re.sub(r"([A-Z])([A-Z][a-z])", r"\1_\2", word).lower()


def respelled(token):
    """The token with each word in camel case that begins small in snake case; a type's name stays."""
    return CAMEL.sub(lambda it: it[0] if it[0] in KEPT else snake(it[0]), token)


def dashed(top):
    """The fields, constructors and computing definitions whose names have a dash."""
    found = set()
    for path in texts(top):
        if not path.endswith(".antt") or path.endswith("/Proof.antt"):
            continue
        with open(path, encoding="utf-8") as it:
            inside = False
            for line in it:
                if re.match(r"\S", line):
                    inside = bool(re.match(r"(pub )?(data|record) ", line))
                one = re.match(r"(?:unfoldable|abbrev) (?:pub )?(\S+) :", line)
                one = one or (inside and re.match(r"  (?:pub )?([^\s:(){}]+) :", line))
                if one and "-" in one[1] and not MINUS.search(one[1]) and re.fullmatch(r"[\w'-]+", one[1]):
                    found.add(one[1])
    return found


def lemmas(top):
    """The names of lemmas: what stands before a statement, and nowhere before a definition that computes."""
    found, computing = set(), set()
    for path in texts(top):
        if path.endswith(".antt") and not path.endswith("/Proof.antt"):
            with open(path, encoding="utf-8") as it:
                text = it.read()
            computing |= set(re.findall(r"^ *(?:unfoldable|abbrev) (?:pub )?([^\s:(){}]+) :", text, re.M))
            found |= set(re.findall(r"^ *(?:pub )?([^\s:(){}]+) : (?:\(|map )", text, re.M))
    return found - computing


def beside(word):
    return f"the_{word}" if word.endswith("_of") else f"{word}_of"


def of_source(line, names):
    """A line of a .rt file; names has the words that would fall together with a function's."""
    if line.lstrip().startswith("ghost use "):
        for it in names:
            line = re.sub(rf"(?<= as ){it}(?=[,}}; ]|$)", names[it], line)
            line = re.sub(rf"(?<! as )(?<=[ {{.]){it}(?=[,}};])", f"{respelled(it)} as {names[it]}", line)
    return TOKEN.sub(lambda it: names.get(it[0]) or respelled(it[0]), line)


def main():
    top = sys.argv[1] if len(sys.argv) > 1 else "."
    before = {}
    for path in texts(top):
        with open(path, encoding="utf-8") as it:
            before[path] = it.read()
    tokens = {it for text in before.values() for it in TOKEN.findall(text)}
    camels = {respelled(it) for it in tokens if respelled(it) != it}
    # A lemma whose name would fall together with a definition's is joined by dashes, as the others are.
    back = {it for it in lemmas(top) if it in camels}
    dashes = {it for it in dashed(top) if it.replace("-", "_") not in camels | tokens}

    def turned(text):
        def one(it):
            token = it[0]
            if token in back and text[it.start() - 1 : it.start()] != ".":
                return token.replace("_", "-")
            return respelled(token.replace("-", "_") if token in dashes else token)

        return TOKEN.sub(one, text)

    after, clashes = {}, []
    for path, text in before.items():
        if not path.endswith(".rt"):
            after[path] = turned(text)
            continue
        # In a source a definition that would have a function's name gets an ending, as in 'many as many_of'.
        has = set(TOKEN.findall(text))
        names = {it: beside(respelled(it)) for it in has if respelled(it) != it and respelled(it) in has}
        clashes += [(path, it) for it in names.values() if it in has]
        # the strings of a program are no names
        parts = re.split(r"(\"(?:[^\"\\\n]|\\.)*\")", text)
        for i in range(0, len(parts), 2):
            parts[i] = "\n".join(of_source(line, names) for line in parts[i].split("\n"))
        after[path] = "".join(parts)
    for path, text in after.items():
        if path.endswith(".antt"):
            seen = {}
            code = re.sub(r"(?m)^--.*| -- .*", "", before[path])
            for it in TOKEN.finditer(code):
                if code[it.start() - 1 : it.start()] != ".":
                    new = it[0].replace("_", "-") if it[0] in back else respelled(it[0].replace("-", "_") if it[0] in dashes else it[0])
                    seen.setdefault(new, set()).add(it[0])
            clashes += [(path, *sorted(it)) for it in seen.values() if len(it) > 1]
    for it in clashes:
        print("look: one name for two in a file:", *it)
    for path, text in after.items():
        if text != before[path]:
            with open(path, "w", encoding="utf-8") as it:
                it.write(text)
    print("lemmas joined by dashes again:", *sorted(back))
    print("fields, constructors and definitions that had a dash:", *sorted(dashes))
    return 0


if __name__ == "__main__":
    sys.exit(main())

#!/usr/bin/env python3
"""Brings the repository's own definitions, lemmas, constructors and fields in specs/ and proofs/ to snake case.

usage: tools/respell.py [--check]      at the top of the repository, after the kit's port.py, once

A definition is spelled as a function of src/ is: volumeAtLevel is volume_at_level, and the lemma new-head-within is new_head_within. Types, facts and modules keep
their capitals. Names of the kit's libraries, and those that Rattle makes for a function's goals, are left alone. --check lists names that would fall together.
"""
import os
import re
import sys

WORD = re.compile(r"--[^\n]*|\"(?:[^\"\\]|\\.)*\"|«[^»]*»|[^\s(){}.;,@\"«»\[\]\\]+")
CODE = re.compile(r"//[^\n]*|\"(?:[^\"\\]|\\.)*\"|[A-Za-z_0-9'◌·⊕⊖÷]+")
USE = re.compile(r"(?m)^\s*(?:pub )?(?:ghost )?(?:pub )?use ([\w+'-]+(?:\.[\w+'-]+)*)(?:\.\{([^}]*)\})?")
# Names that would fall together with another in the same file, and what they are called instead.
INSTEAD = {"headPattern": "head_pattern_of", "getD-joined": "get_or_joined", "getD-listOf": "get_or_list_of"}


def files(*ends):
    for folder, dirs, names in os.walk("crates"):
        dirs[:] = sorted(d for d in dirs if d not in ("out", "must-fail", "data"))
        for name in sorted(names):
            if name.endswith(ends):
                yield os.path.join(folder, name)


def read(path):
    with open(path, encoding="utf-8") as it:
        return it.read()


def snake(name):
    return re.sub(r"(?<=[a-z0-9])([A-Z])", lambda m: "_" + m[1].lower(), name)


def of_function(path):
    """Whether the file is a function's own proof, whose goals Rattle names."""
    return os.path.basename(path) in ("Proof.antt", "Invariants.antt", "Answers.antt")


def is_lower_camel(word):
    return bool(re.fullmatch(r"[a-z][A-Za-z0-9]*(?:[-_'₀-₉][A-Za-z0-9]+)*['₀-₉]*", word)) and bool(re.search(r"[a-z0-9][A-Z]", word))


def of_kit(text):
    """The names that the file imports from the kit's libraries."""
    found = set()
    for path, names in USE.findall(text):
        first = path.split(".")
        ours = first[0] == "Rattle" and len(first) > 1 and os.path.isdir(os.path.join("crates", first[1]))
        if not ours:
            for it in (names or "").split(","):
                found.add(it.strip().split(" as ")[0].strip())
    return found


DECLARED = re.compile(r"^( *)((?:abbrev |unfoldable )?)((?:pub )?)((?:record |data )?)([^\s:(){}\[\].,;λ]+)( :| [({])")


def declared(path, text):
    found = set()
    for line in text.splitlines():
        if line.lstrip().startswith("--"):
            continue
        it = DECLARED.match(line)
        if it:
            found.add(it[5])
    return found


def table():
    kit, own, said = set(), set(), set()
    for path in files(".antt"):
        text = read(path)
        kit |= of_kit(text)
        names = declared(path, text)
        if of_function(path):
            # What Rattle names has a type of its own module.
            names -= set(re.findall(r"(?m)^(?:abbrev )?(?:pub )?(\S+) : (?:tie|goal)\.", text)) | set(re.findall(r"(?m)^pub (\S+-spec) :", text))
        own |= names
        said |= {w for w in WORD.findall(text) if is_lower_camel(w)}
    own |= said - kit
    result = {}
    plain = {it for it in own if "-" not in it}
    taken = plain | {snake(it) for it in plain}
    for name in own:
        if name[0].isupper() or not re.fullmatch(r"[A-Za-z][\w'-]*", name):
            continue
        new = INSTEAD.get(name) or snake(name).replace("-", "_")
        if "-" in name and new in taken:
            new += "_lem"
        if new != name:
            result[name] = new
    # One script of the kit took the first part of a variable's name for a word of its own.
    return result | {"in_List": "in_list"}


def of_file(path, text, names):
    """The table for one file: what it imports from the kit keeps its name."""
    kit = of_kit(text)
    return {a: b for a, b in names.items() if a not in kit}


def turned(text, words, names):
    def one(it):
        word = it[0]
        if word.startswith(("--", '"', "//")):
            if word.startswith('"'):
                return word
            return re.sub(r"[A-Za-z][\w'-]*", lambda m: names.get(m[0], m[0]) if is_lower_camel(m[0]) else m[0], word)
        return names.get(word, word)

    return words.sub(one, text)


def main(argv):
    names = table()
    if argv == ["--table"]:
        for a, b in sorted(names.items()):
            print(a, b)
        return 0
    together = 0
    for path in files(".antt"):
        text = read(path)
        words = {w for w in WORD.findall(text) if not w.startswith(("--", '"'))}
        here = of_file(path, text, names)
        seen = {}
        for w in sorted(words):
            new = here.get(w, w)
            if new in seen and seen[new] != w:
                print(f"{path}: {seen[new]} and {w} are both {new}")
                together += 1
            seen.setdefault(new, w)
    for path in files(".rt"):
        text = read(path)
        words = {w for w in CODE.findall(text) if not w.startswith(("//", '"'))}
        for w in sorted(words):
            # A function of that name is no trouble, since clauses do not name functions; a parameter or a field is.
            if w in names and is_lower_camel(w) and re.search(r"(?<![\w:.])" + names[w] + r"\s*:(?!:)|let (?:mut )?" + names[w] + r"\b", text):
                print(f"{path}: {w} beside {names[w]}")
                together += 1
    print(f"{len(names)} names, {together} that fall together")
    if argv == ["--check"]:
        return 0
    for path in files(".antt"):
        text = read(path)
        new = turned(text, WORD, of_file(path, text, names))
        if new != text:
            with open(path, "w", encoding="utf-8") as it:
                it.write(new)
    camel = {a: b for a, b in names.items() if is_lower_camel(a) and "-" not in a}
    for path in files(".rt"):
        text = read(path)
        new = turned(text, CODE, camel)
        if new != text:
            with open(path, "w", encoding="utf-8") as it:
                it.write(new)
    return 0


if __name__ == "__main__":
    raise SystemExit(main(sys.argv[1:]))

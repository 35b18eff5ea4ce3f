#!/usr/bin/env python3
"""Whether the prover refused every wrong answer for itself, where one check tries several.

    tools/wrong_answers.py                 every such edit has been tried as it and its crate stand; the gate asks this
    tools/wrong_answers.py try [CRATE ..]  tries those that have not been, and notes in tools/tried.txt where all is well

It says nothing where all is well; exit status 1 and a line for each wrong answer where it is not. docs/CONTRIBUTING.md
has the form of an edit. tools/tried.txt has a line for each edit of several wrong answers that was tried and was well,
with the sum of the texts that stood then: the edit's, and its crate's src/, specs/ and proofs/. The prover's words for
an edit are kept by no command of rt's, and a check of each would take the gate half an hour.

`rt ci` sees to it that an edit is refused. In an edit of several wrong answers one that is accepted would hide behind
the others. So each names the functions that have to be refused for it: where their code is changed, by an error of their
own proof that does not follow from another; where a definition is, not because they call another that is refused. No
other function may be refused. No function is named by two of one edit, no definition is changed that the contract of
another's function, or of one that it calls, comes to, and no contract of one that it calls (`faults`; a test asks it of
every edit).
"""
import fnmatch
import hashlib
import pathlib
import re
import shutil
import subprocess
import sys
import tempfile
from dataclasses import dataclass, field

ROOT = pathlib.Path(__file__).resolve().parent.parent
PARTS = ("src", "specs", "proofs")

NAME = re.compile(r"[^\s(){}.,;«»\[\]]+")
FUNCTION = re.compile(r"^[ \t]*(?:pub )?fn (\w+)", re.M)
CONTRACT = re.compile(r"^ *(?:requires|ensures)(?: \w+)? \{(.*)\}$", re.M)
DEFINITION = re.compile(r"^(?:(?:abbrev|unfoldable|pub|record) )*([^\s:(){}]+)(?= :| \()", re.M)
PROOF = re.compile(r"([^/ ]*)/(?:Proof|Answers|Invariants)\.antt:\d+:\d+: error: (.*)")
FOLLOWS = re.compile(r"was not admitted|cannot be checked|which was rejected|(?:was|were) not checked")


@dataclass
class WrongAnswer:
    """Its name, the functions that have to be refused for it, and its changes: file, old text, new text."""

    label: str
    refused: list = field(default_factory=list)
    changes: list = field(default_factory=list)

    def in_code(self):
        return any(file.startswith("src/") for file, _, _ in self.changes)


@dataclass
class Item:
    """A function or a definition: its file, where its text begins there, the text without comments, and the names that it cites."""

    file: str
    begin: int
    text: str
    names: set

    def holds(self, file, at):
        return self.file == file and self.begin <= at < self.begin + len(self.text)


def together(edit):
    """The wrong answers of an edit that has several; none for an edit of one, whose name is the file's."""
    answers, file, old = [], None, None
    for line in edit.read_text().splitlines():
        key, _, rest = line.partition(":")
        rest = rest.removeprefix(" ")
        if key == "wrong":
            answers.append(WrongAnswer(rest))
        elif key == "file":
            file = rest
        elif key == "old":
            old = rest
        elif answers and key == "refused":
            answers[-1].refused += rest.split()
        elif answers and key == "new":
            answers[-1].changes.append((file, old, rest))
    return answers


def labels(edit):
    """The names of an edit's wrong answers."""
    return [answer.label for answer in together(edit)] or [edit.stem]


def tried(crate, pattern):
    """The names of a crate's wrong answers that a pattern fits."""
    names = [label for edit in sorted(crate.glob("must-fail/*.edit")) for label in labels(edit)]
    return fnmatch.filter(names, pattern)


def items(crate, pattern, head, cited):
    """The items of a crate's files by name, each from its head to the next one's; `cited` gives the text of what it cites."""
    found = {}
    for path in sorted(crate.glob(pattern)):
        text = re.sub(r"(--|//).*", lambda comment: " " * len(comment[0]), path.read_text())
        heads = list(head.finditer(text))
        ends = [following.start() for following in heads[1:]] + [len(text)]
        for begun, end in zip(heads, ends):
            own = text[begun.start() : end]
            item = Item(str(path.relative_to(crate)), begun.start(), own, set(NAME.findall(cited(own))))
            found.setdefault(begun[1], []).append(item)
    return found


def functions(crate):
    return items(crate, "src/**/*.rt", FUNCTION, lambda text: " ".join(CONTRACT.findall(text)))


def definitions(crate):
    return items(crate, "specs/**/*.antt", DEFINITION, lambda text: text)


def at_place(found, file, at):
    return {name for name, places in found.items() for item in places if item.holds(file, at)}


def cited_by(places):
    return set().union(*(item.names for item in places))


def calls(places, name):
    return any(re.search(rf"\b{name}\(", item.text) for item in places)


def reached(names, found):
    """These names, and all that the definitions among them come to."""
    seen, waiting = set(), list(names)
    while waiting:
        name = waiting.pop()
        if name not in seen:
            seen.add(name)
            waiting += cited_by(found.get(name, []))
    return seen


def faults_of_code(answer, source, at, inside, others, known):
    """A change of code is inside a function that the wrong answer names, and leaves the contracts on which the others' functions rest."""
    if not inside & set(answer.refused):
        yield f"{answer.label}: it changes no function that it names"
    line = source[source.rfind("\n", 0, at) + 1 : source.find("\n", at)]
    if re.match(r" *(requires|ensures) ", line):
        for name in sorted(others & set(known)):
            if any(calls(known[name], changed) for changed in inside):
                yield f"{answer.label}: it changes the contract of a function that {name} calls"


def faults_of_definition(answer, changed, others, known, defined):
    """A change of a definition leaves what the contracts of the others' functions, and of those that they call, come to."""
    if not changed:
        yield f"{answer.label}: it changes no definition"
    for name in sorted(others & set(known)):
        rested_on = [name, *(called for called in known if calls(known[name], called))]
        if changed & reached(set().union(*(cited_by(known[one]) for one in rested_on)), defined):
            yield f"{answer.label}: it bears on {name}, which is to be refused for another one"


def faults(crate, answers):
    """Why these wrong answers cannot be tried in one check, a line each."""
    known, defined, texts = functions(crate), definitions(crate), {}
    for answer in answers:
        others = {name for other in answers if other is not answer for name in other.refused}
        if not answer.refused or not answer.changes:
            yield f"{answer.label}: it names no function, or changes nothing"
        for name in answer.refused:
            if name not in known:
                yield f"{answer.label}: {name} is no function of the crate"
            if name in others:
                yield f"{answer.label}: {name} is to be refused for another one too"
        for file, old, new in answer.changes:
            source = (crate / file).read_text()
            text = texts.get(file, source)
            if source.count(old) != 1 or text.count(old) != 1:
                yield f"{answer.label}: its old text does not stand once in {file}"
                continue
            texts[file] = text.replace(old, new)
            at = source.index(old)
            if file.startswith("src/"):
                yield from faults_of_code(answer, source, at, at_place(known, file, at), others, known)
            else:
                yield from faults_of_definition(answer, at_place(defined, file, at), others, known, defined)


def judged(answers, text):
    """What is wrong with how a check's words show these wrong answers, a line each."""
    bare = set(re.findall(r"^fn [\w:]*?(\w+): no proof(?!(?:(?!did not prove).)*[:;] it calls )", text, re.M))
    refused = bare | set(re.findall(r"^fn [\w:]*?(\w+): not proved(?!.*; it calls )", text, re.M))
    own = bare | {name for name, reason in PROOF.findall(text) if not FOLLOWS.search(reason)}
    for answer in answers:
        missed = set(answer.refused) - (own if answer.in_code() else refused)
        if missed:
            yield f"{answer.label} is accepted by {' '.join(sorted(missed))}"
    for name in sorted(refused - {name for answer in answers for name in answer.refused}):
        yield f"{name} is refused, and none of its wrong answers names it"


def several(root):
    """The edits of several wrong answers, each with its name in tools/tried.txt."""
    found = ((f"{edit.parent.parent.name}/{edit.stem}", edit) for edit in sorted(root.glob("crates/*/must-fail/*.edit")))
    return {name: edit for name, edit in found if together(edit)}


def sum_of(edit):
    """The sum of an edit's text and of its crate's."""
    crate = edit.parent.parent
    texts = sorted(path for part in PARTS for path in (crate / part).rglob("*") if path.is_file())
    found = hashlib.sha256(edit.read_bytes())
    for path in texts:
        found.update(f"\0{path.relative_to(crate)}\0".encode() + path.read_bytes())
    return found.hexdigest()


def noted(root):
    """What tools/tried.txt says: by an edit's name the sum of the texts with which it was well."""
    record = root / "tools" / "tried.txt"
    return dict(line.split() for line in record.read_text().splitlines()) if record.exists() else {}


def note(root, name, total):
    """Notes an edit that was well; lines of edits that are gone go too."""
    left = {one: known for one, known in noted(root).items() if one in several(root)} | {name: total}
    (root / "tools").mkdir(exist_ok=True)
    (root / "tools" / "tried.txt").write_text("".join(f"{one} {known}\n" for one, known in sorted(left.items())))


def copied(root, to):
    """Copies the crates without what checks keep in them: rt begins in the copy with what they left in the checkout."""
    shutil.copytree(root / "crates", to / "crates", ignore=shutil.ignore_patterns("out"))
    for name in ("crates.txt", "HANDLES"):
        if (root / name).exists():
            shutil.copyfile(root / name, to / name)


def checked(crate, answers):
    """What `rt check` says of a copied crate with these wrong answers, which it has no longer afterwards."""
    were = {crate / file: (crate / file).read_text() for answer in answers for file, _, _ in answer.changes}
    try:
        for answer in answers:
            for file, old, new in answer.changes:
                (crate / file).write_text((crate / file).read_text().replace(old, new))
        how = {"stdin": subprocess.DEVNULL, "stdout": subprocess.PIPE, "stderr": subprocess.STDOUT, "errors": "replace"}
        return subprocess.run(["rt", "check"], cwd=crate, **how).stdout
    finally:
        for path, text in were.items():
            path.write_text(text)
        # The next one begins with what was kept of the crate as it stands.
        shutil.rmtree(crate / "out", ignore_errors=True)


def untried(root):
    """The edits that have not been tried as they stand, or were not well, by their names with their sums."""
    known, sums = noted(root), {name: sum_of(edit) for name, edit in several(root).items()}
    return {name: total for name, total in sums.items() if known.get(name) != total}


def try_those(root, crates, check=checked):
    """Tries the edits of these crates, of all for none, that have not been tried; what is wrong, a line each."""
    edits = several(root)
    left = {name: total for name, total in untried(root).items() if not crates or name.split("/")[0] in crates}
    with tempfile.TemporaryDirectory(prefix="currantnest-tries.") as room:
        copy = pathlib.Path(room)
        copied(root, copy)
        for number, (name, total) in enumerate(left.items(), 1):
            print(f"[{number}/{len(left)}] {name}", file=sys.stderr, flush=True)
            answers = together(edits[name])
            text = check(copy / "crates" / name.split("/")[0], answers)
            if not re.search(r"^fn [\w:]+: (no proof|not proved)", text, re.M):
                yield f"{name}: no function is refused, or the check did not end: {text[-600:]}"
                continue
            bad = [f"{name}: {line}" for line in judged(answers, text)]
            yield from bad
            if not bad and sum_of(edits[name]) == total:
                note(root, name, total)


def main(root, words=(), check=checked):
    if words[:1] not in ((), ("try",)) or words[1:] and not all((root / "crates" / name).is_dir() for name in words[1:]):
        print(__doc__.strip(), file=sys.stderr)
        return 2
    bad = False
    if words:
        for line in try_those(root, words[1:], check):
            print(line, flush=True)
            bad = True
        return 1 if bad else 0
    for name in untried(root):
        print(f"{name}: it was not tried as it stands; tools/wrong_answers.py try {name.split('/')[0]} does that")
        bad = True
    return 1 if bad else 0


if __name__ == "__main__":
    sys.exit(main(ROOT, tuple(sys.argv[1:])))

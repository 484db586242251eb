#!/usr/bin/env python3
"""Spells this repository's own definitions and lemmas as the kit does: words in snake case, facts in upper camel case.

usage: tools/spell_names.py [FOLDER]      (a repository, once, after port.py; without FOLDER this one)

A name is taken where it is declared, in specs/ or proofs/ of any crate, or given by an import. Names of goals keep their dashes, since the check makes them.
A name that would meet another in some file stays, and a line 'left:' says so. Comments, strings and the functions of src/ are not touched.
"""

import collections
import os
import re
import sys

TOKEN = re.compile(r"[^\s(){}\[\].;,@\"«»]+")
DECLARED = re.compile(r"^\s*(?:(?:abbrev|opaque|unfoldable|pub|instance)\s+)*(?:(?:record|data)\s+)?([^\s:(){},.=|λ←→;\[\]]+)((?:\s+[({][^=]*)?)\s*:(?:\s|$)(.*)$")
GOAL = re.compile(r"^(goal|given|need)\.")
LABEL = re.compile(r"^(returns|loop|invariant|decreases|overflow|bounds|nonzero|unreachable|the)-|-requires(-|$)")
# Names whose plain spelling is that of a function of src/, of the kit, or of another definition.
CHOSEN = {
    "actLine": "line_of_act",
    "act-line": "act_line_lem",
    "beginsWith": "begins_by",
    "carriageLine": "line_of_carriage",
    "echoCounts": "counts_as_echo",
    "in-range": "in_range_lem",
    "initCounts": "counts_as_init",
    "isNew": "is_new_to",
    "kindLine": "line_of_kind",
    "letterField": "field_letter",
    "markIn": "mark_put",
    "marksLine": "line_of_marks",
    "marksOver": "marks_from",
    "noMarks": "empty_marks",
    "numberField": "field_number",
    "readCause": "cause_of_read",
    "sameKind": "is_same_kind",
    "toldTo": "story_told_to",
    "turns-on": "turns_on_lem",
    "two-stories": "two_stories_lem",
    "twoStories": "both_stories",
}


def texts(root):
    for folder, dirs, files in os.walk(os.path.join(root, "crates")):
        dirs[:] = sorted(d for d in dirs if d not in ("out", "target"))
        for name in sorted(files):
            if name.endswith((".antt", ".rt")):
                path = os.path.join(folder, name)
                with open(path, encoding="utf-8") as f:
                    yield path, f.read()


def respelled(name, is_fact):
    words = re.sub(r"(?<=[a-z0-9])[A-Z]", lambda m: "_" + m[0].lower(), name).replace("-", "_")
    return "".join(w[:1].upper() + w[1:] for w in words.split("_")) if is_fact else words


def import_names(text):
    """Names that imports give in mixed case, as `state_of as echoState`."""
    for line in re.findall(r"(?m)^\s*(?:ghost )?use [^\n]*", text):
        yield from re.findall(r"\bas ([a-z]\w*[A-Z]\w*)", line)


def declarations(path, text):
    """Names declared in a file of specs/ or proofs/, each with whether it is a fact."""
    is_answer = os.path.basename(path) in ("Answers.antt", "Invariants.antt", "Choices.antt")
    for line in text.split("\n"):
        m = DECLARED.match(re.sub(r"\s*--.*", "", line))
        if not m or m[1] in ("use", "mod", "open", "module", "let", "in", "where"):
            continue
        name, type_of = m[1], m[3].strip()
        if is_answer and (GOAL.match(type_of) or LABEL.search(name)):
            continue
        if re.fullmatch(r"[a-z][\w'-]*", name):
            yield name, bool(re.search(r"Type 0$", type_of)) and "=" not in type_of


def spans(path, text):
    """The parts of a text that may be respelled: no comments, no strings."""
    comment = r"//[^\n]*|\"(?:\\.|[^\"\\])*\"" if path.endswith(".rt") else r"--(?=\s)[^\n]*|\"[^\"\n]*\""
    at = 0
    for m in re.finditer(comment, text):
        yield text[at : m.start()], True
        yield m[0], False
        at = m.end()
    yield text[at:], True


def main(root):
    files = dict(texts(root))
    facts, names = set(), set()
    for path, text in files.items():
        names.update(import_names(text))
        if path.endswith(".antt"):
            for name, is_fact in declarations(path, text):
                names.add(name)
                if is_fact:
                    facts.add(name)
    tokens = {p: {t for part, free in spans(p, x) if free for t in TOKEN.findall(part)} for p, x in files.items()}
    turned = {n: CHOSEN.get(n) or respelled(n, n in facts) for n in sorted(names)}
    turned = {n: to for n, to in turned.items() if n != to}
    targets = collections.Counter(turned.values())
    for name, to in sorted(turned.items()):
        meets = [p for p, found in tokens.items() if to in found and (name in found or path_declares(files[p], to))]
        if targets[to] > 1 or meets:
            print(f"left: {name}, since {to} is a name already ({', '.join(os.path.relpath(p, root) for p in meets[:3]) or 'another name is turned to it'})")
            del turned[name]
    changed = 0
    for path, text in files.items():
        out = "".join(TOKEN.sub(lambda m: turned.get(m[0], m[0]), part) if free else part for part, free in spans(path, text))
        if out != text:
            changed += 1
            with open(path, "w", encoding="utf-8") as f:
                f.write(out)
    print(f"{len(turned)} names in {changed} files")


def path_declares(text, name):
    return bool(re.search(rf"(?m)^\s*(?:(?:abbrev|unfoldable|pub|record|data)\s+)*{re.escape(name)}\s[^=\n]*:(?:\s|$)", text))


if __name__ == "__main__":
    main(sys.argv[1] if len(sys.argv) > 1 else os.path.join(os.path.dirname(os.path.realpath(__file__)), ".."))

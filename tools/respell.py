#!/usr/bin/env python3
"""Brings the repository's own words of specs/ and proofs/ to the spelling of today's Rattle.

usage: respell.py [--list]      at the top of the repository, once, after the kit's port.py

A word, that is a definition, a lemma, a field or a variable, is in snake case: movementOf becomes movement_of. A dash in a definition or a
field of specs/ becomes an underscore too: zero-unless-live becomes zero_unless_live; in a lemma's name it joins two names and stays. Types,
facts, modules and the constructors of a type keep their capital. Functions of src/ have snake case already and are not touched.
The must-fail edits of specs/ and proofs/ follow: the same words, those that port.py turned, and a field without a space before its dot.

It goes by spelling alone and stops where two words would fall together. --list prints each word beside the new one and writes nothing.
"""

import os
import re
import sys

HUMP = re.compile(r"(?<=[a-z0-9])(?=[A-Z])")
# A word of antt or of a clause: dashes and underscores are parts of a name.
WORD = re.compile(r"(?<![A-Za-z0-9_'-])[A-Za-z_][A-Za-z0-9_'-]*")
DECLARED = re.compile(r"^(?:(?:abbrev|unfoldable|pub) )*(?:(?:record|data|ruleset) )?((?:[A-Za-z_][A-Za-z0-9_'-]* )*[A-Za-z_][A-Za-z0-9_'-]*) *(?:\(.*)?:(?: |$)")
FIELD = re.compile(r"^  (?:pub )?((?:[A-Za-z_][A-Za-z0-9_'-]* )*[A-Za-z_][A-Za-z0-9_'-]*) : ")
# A word that is no part of a path and no field.
BARE = re.compile(r"(?<![A-Za-z0-9_'.-])[A-Za-z_][A-Za-z0-9_'-]*(?![A-Za-z0-9_'-]|\.[a-z])")
COMMENT = re.compile(r"--(?: .*)?$", re.M)
# A space between a value and its field.
TIGHT = re.compile(r"([A-Za-z0-9_')]) \.(?=[a-z])")
# A field alone in brackets, which needs none.
ALONE = re.compile(r"(?<=[ (])\(([a-z][A-Za-z0-9_']*(?:\.[a-z][a-z0-9_]*)+)\)(?![.'A-Za-z0-9_])")
# A field of what a call gives has the call in brackets.
CALLS = [
    (re.compile(r"\((next k \(tick t\)|word_of a w|read_of a\.pending w|axis_of [ef]s|axis_from a es)\.([a-z.]+)\)"), r"(\1).\2"),
    (re.compile(r"(?<!\()(axis_of es|axis_of fs|axis_from a es|word_of a w)\."), r"(\1)."),
    (re.compile(r"\((view_in k\.switches k\.position t mode state)\.kept\)"), r"(\1).kept"),
    (re.compile(r"^\.state\) "), ".state "),
]
# Words with a dash that port.py turned.
TURNED = {"not-live": "not_live", "no-other": "no_other", "in-step": "in_step", "same-length": "same_length", "ask-in": "ask_in"}
# Where the new spelling has another meaning already.
OTHERWISE = {"withUnits": "units_replaced"}
KINDS = re.compile(r"^(abbrev|unfoldable|pub|record|data|ruleset)$")


def files(top):
    for folder, dirs, names in os.walk(os.path.join(top, "crates")):
        dirs[:] = sorted(d for d in dirs if d not in ("out", "must-fail"))
        for name in sorted(names):
            if name.endswith((".antt", ".rt")):
                yield os.path.join(folder, name)


def snake(word):
    """movementOf -> movement_of; a part that begins with a capital is a type's or a fact's name and stays."""
    parts = []
    for part in word.split("-"):
        if part[:1].islower():
            part = HUMP.sub("_", part)
            part = "_".join(p if p == "S" else p.lower() for p in part.split("_")) if re.search(r"[A-Z]", part) else part
        parts.append(part)
    return "-".join(parts)


def declared_in_specs(text):
    """The words that a file of specs/ declares: definitions, and fields and constructors, which are indented."""
    for line in text.splitlines():
        m = DECLARED.match(line) or FIELD.match(line)
        if m:
            for word in m[1].split():
                if not KINDS.match(word):
                    yield word


def edits(top):
    for folder, dirs, names in os.walk(os.path.join(top, "crates")):
        dirs[:] = sorted(d for d in dirs if d != "out")
        if "/must-fail" in folder:
            yield from (os.path.join(folder, name) for name in sorted(names) if name.endswith(".edit"))


def turn_edit(path, words):
    """An edit of an .antt file in today's spelling; one of src/ is code, in which no word changed."""
    with open(path, encoding="utf-8") as f:
        lines = f.read().split("\n")
    if not any(l.startswith("file: ") and l.endswith(".antt") for l in lines):
        return

    def turn(m):
        word = m[0]
        return words.get(word) or TURNED.get(word) or (snake(word) if word[0].islower() and HUMP.search(word) else word)

    for i, line in enumerate(lines):
        if line.startswith(("old: ", "new: ")):
            text = WORD.sub(turn, line[5:]).replace("negℤ", "neg_ℤ")
            text = ALONE.sub(r"\1", TIGHT.sub(r"\1.", text))
            for find, put in CALLS:
                text = find.sub(put, text)
            lines[i] = line[:5] + text
    with open(path, "w", encoding="utf-8") as f:
        f.write("\n".join(lines))


def main(argv):
    top = os.getcwd()
    texts = {}
    for path in files(top):
        with open(path, encoding="utf-8") as f:
            texts[path] = f.read()
    words = {}
    for path, text in texts.items():
        if "/specs/" in path:
            for word in declared_in_specs(text):
                if "-" in word and not word[0].isupper() or re.match(r"S-", word):
                    words[word] = snake(word).replace("-", "_")
    for path, text in texts.items():
        if path.endswith(".rt"):
            text = "\n".join(l for l in text.splitlines() if CLAUSE.search(l))
        for m in WORD.finditer(text):
            word = m[0]
            if word not in words and word[0].islower() and HUMP.search(word):
                new = snake(word)
                if new != word:
                    words[word] = new
    words.update((old, new) for old, new in OTHERWISE.items() if old in words)
    bad = 0
    by_new = {}
    for old, new in words.items():
        by_new.setdefault(new, []).append(old)
    for new, olds in sorted(by_new.items()):
        if len(olds) > 1:
            print(f"fall together: {', '.join(olds)} -> {new}")
            bad += 1
    for path, text in sorted(texts.items()):
        here = {m[0] for m in WORD.finditer(text)}
        bare = set(BARE.findall(COMMENT.sub("", text))) if path.endswith(".antt") else set()
        for word in sorted(here):
            if words.get(word) in bare:
                print(f"stands already: {path}: {word} -> {words[word]}")
                bad += 1
    if "--list" in argv:
        for old, new in sorted(words.items()):
            print(old, new)
        return 0
    if bad:
        return 1
    for path in edits(top):
        turn_edit(path, words)
    for path, text in texts.items():
        turned = WORD.sub(lambda m: words.get(m[0], m[0]), text)
        if turned != text:
            with open(path, "w", encoding="utf-8") as f:
                f.write(turned)
    return 0


CLAUSE = re.compile(r"^\s*(?:requires|ensures|ghost)\b")

if __name__ == "__main__":
    sys.exit(main(sys.argv[1:]))

#!/usr/bin/env python3
"""Spells the repository's own definitions and laws as today's Rattle does: words in snake case, without dashes.

usage: tools/respell.py [--check]      at the top of the repository, after the kit's own port.py

Turned are the names that specs/ and proofs/ declare: camel case (`memberAt` becomes `member_at`) and dashes
(`kept-ids-apart` becomes `kept_ids_apart`), in specs/, in proofs/, in the clauses of src/, in the edits, and between
backticks in the pages. A law that would get the name of a definition gets `_lem` after it. Names that Rattle makes, as of
goals, names of the kit's library, functions of src/, strings, inputs and outputs are not touched. A line that begins
'together:' names a file where a new name stood already.
"""

import collections
import os
import re
import sys

WORD = re.compile(r"[^\s(){}\[\].;,@\"«»λ`|]+")
CAMEL = re.compile(r"(?<=[a-z0-9])[A-Z]")
CODE = re.compile(r"`[^`\n]+`")
DASHED = r"[a-z][\w']*-[\w'-]*"
OWN = re.compile(r"Rattle\.(?:words|types|values|frames|replies|layout|answers|handles|cases)\.")
DECLARED = re.compile(rf"(?m)^ *(?:(?:abbrev|unfoldable|pub|data|record|ruleset) )*(\+?{DASHED})(?: \{{[^{{}}\n]*\}})* :(?= |$)(.*)$")
BOUND = [
    re.compile(rf"\blet ({DASHED}) [:=]"),
    re.compile(rf"(?m)\bas ({DASHED})\s*$"),
    re.compile(rf"\((?:[\w'-]+ )*({DASHED})(?: [\w'-]+)* :"),
]
BINDERS = re.compile(r"[λ∷(] ?((?:[\w'-]+ )*[\w'-]+)\.")
IMPORTED = re.compile(r"(?m)^ *(?:pub )?use (\S+)\.\{([^}]*)\}")
# What Rattle makes stands behind these, or is one of those.
MADE_BEHIND = re.compile(r"(?:^|[\s(.])(?:goal|goal\.at|tie|lts|[\w-]+-lts)\.$")
MADE = {"image-is", "info-bytes"}
# Names that are no law's, and would meet another.
BY_HAND = {"member-row": "member_row_at", "first-is": "first_row_is"}


def files(*endings):
    for top in ("crates", "docs", "README.md"):
        if os.path.isfile(top):
            yield top
        for folder, inner, names in os.walk(top):
            inner[:] = sorted(i for i in inner if i != "out")
            for name in sorted(names):
                if name.endswith(endings) and name != "PORT.md":
                    yield os.path.join(folder, name)


def read(path):
    with open(path, encoding="utf-8") as it:
        return it.read()


def unqualified(text):
    """The words of a text that stand behind no dot."""
    return {it[0] for it in WORD.finditer(text) if text[it.start() - 1 : it.start()] != "."}


def dashed(texts):
    """The names with dashes that the texts declare or bind, without those that they import from the library."""
    found, library = set(), set()
    for text in texts:
        for it in DECLARED.finditer(text):
            if not it[2].startswith(" goal."):
                found.add(it[1])
        for pattern in BOUND:
            found.update(pattern.findall(text))
        for it in BINDERS.finditer(text):
            found.update(w for w in it[1].split() if re.fullmatch(DASHED, w))
        for it in IMPORTED.finditer(text):
            if not OWN.match(it[1] + "."):
                library.update(w.split(" as ")[0].strip() for w in it[2].split(","))
    return found - library


def table(texts):
    """Each old name with its new one."""
    turned = {}
    words = [unqualified(text) for text in texts]
    for text in texts:
        for word in WORD.findall(text):
            if re.fullmatch(r"[a-z][\w'-]*", word) and CAMEL.search(word) and not re.search(r"-[A-Z]", word):
                turned[word] = CAMEL.sub(lambda it: "_" + it[0].lower(), word)
    places = collections.defaultdict(list)
    for k, it in enumerate(words):
        for word in it:
            places[turned.get(word, word)].append(k)
    for name in sorted(dashed(texts)):
        new = CAMEL.sub(lambda it: "_" + it[0].lower(), name).replace("-", "_")
        meets = set(places[turned.get(name, name)]) & set(places[new])
        turned[name] = BY_HAND.get(name) or (new + "_lem" if meets else new)
    return turned


def turn(text, turned, is_page):
    kept = set(re.findall(r"(?m)^ *(?:abbrev )?(?:pub )?(\S+) : goal\.", text))

    def word(it):
        name, behind = it[0], it.string[max(0, it.start() - 12) : it.start()]
        if name not in turned or name in kept and not behind.endswith("."):
            return name
        if behind.endswith(".") and not is_page and (MADE_BEHIND.search(behind) or name in MADE):
            return name
        return turned[name]

    if is_page:
        return CODE.sub(lambda it: WORD.sub(word, it[0]), text)
    return WORD.sub(word, text)


def mend():
    """The kit's script takes the dash out of one law's name, and the definition beside it then gets the same: it is put back."""
    laws = "crates/types/proofs/layout/LayoutLaws.antt"
    if "otherAt" in read(laws):
        for path in (laws, "crates/types/proofs/layout/placing/place_other/Proof.antt"):
            text = re.sub(r"(?<![\w.-])other_at(?![\w-])", "other-at", read(path))
            with open(path, "w", encoding="utf-8") as it:
                it.write(text)


def main(check):
    if not check:
        mend()
    turned = table([read(path) for path in files(".antt", ".rt")])
    for path in files(".antt", ".rt", ".edit", ".md"):
        text = read(path)
        done = turn(text, turned, path.endswith(".md"))
        if done != text and not check:
            with open(path, "w", encoding="utf-8") as it:
                it.write(done)
    print(f"{len(turned)} names, {len(set(turned.values()))} of them apart")
    for name, new in sorted(turned.items()):
        if new.endswith("_lem"):
            print(f"beside a definition: {name} is {new}")


main("--check" in sys.argv)

#!/usr/bin/env python3
"""Brings the repository's own definitions and lemmas to the spelling of today's Rattle: words in snake case, so `jobLength` is `job_length`.

usage: tools/spelling.py [--list] FOLDER..

It goes by tokens, over .antt, .rt, .edit and .md files: a word in lower camel case becomes snake case, also as a part of a name that a dash joins.
Types, facts and modules keep their capital. --list writes nothing and prints each word with what it becomes, and first those that fall together
with a word that stands there already. Run once, in the port to this Rattle; docs/PORT.md says so.
"""

import collections
import os
import re
import sys

WORD = re.compile(r"(?<![\w'])[a-z][a-z0-9]*(?:[A-Z][a-z0-9]*)+(?![a-zA-Z0-9])")
TOKEN = re.compile(r"(?<![\w'])[a-z][a-z0-9_]*(?![a-zA-Z0-9])")
# Words that would fall together with another in their file, or with a tactic's name, and what they become before the rest is turned.
APART = [
    ("crates/replay_reading/", "first_of", "first_until"),
    ("crates/replay_", "first_of", "first_differing"),
    ("crates/replay_", "firstOf-same", "first_differing-same"),
    ("crates/line_judge/", "at_other", "at_other_lem"),
    ("crates/line_spec/", "is_digit", "is_digit_lem"),
    ("crates/tool_loads/proofs/", "no_key", "no_key_lem"),
    ("crates/tool_row/proofs/", "row_room", "has_row_room"),
    ("crates/lubdhvani_traces/", "shown_of", "shown_of_lem"),
]
# Names of source that stay beside the words above: behind a dot, or a function's own path.
OWN = r"(?<![\w'.]){}(?![\w'-])"


def snake(word):
    return re.sub(r"[A-Z]", lambda m: "_" + m.group().lower(), word)


def turned(path, text):
    """The text of a file with its words in today's spelling."""
    if path.endswith(".antt"):
        for folder, old, new in APART:
            if folder in path:
                text = re.sub(OWN.format(re.escape(old)), new, text)
    return WORD.sub(lambda m: snake(m.group()), text)


def files(folders):
    for top in folders:
        for folder, dirs, names in os.walk(top):
            dirs[:] = sorted(d for d in dirs if d not in ("out", ".git", "target"))
            for name in sorted(names):
                if name.endswith((".antt", ".rt", ".edit", ".md")):
                    yield os.path.join(folder, name)


def main(words):
    listing = "--list" in words
    folders = [w for w in words if w != "--list"]
    found, there = collections.Counter(), collections.defaultdict(set)
    for path in files(folders):
        with open(path, encoding="utf-8") as f:
            text = f.read()
        for m in WORD.finditer(text):
            found[m.group()] += 1
        for m in TOKEN.finditer(text):
            there[m.group()].add(path)
        if not listing:
            new = turned(path, text)
            if new != text:
                with open(path, "w", encoding="utf-8") as f:
                    f.write(new)
    if listing:
        for word in sorted(found):
            if snake(word) in there:
                print(f"falls together: {word} {snake(word)}: {' '.join(sorted(there[snake(word)]))}")
        for word, n in sorted(found.items()):
            print(f"{word} {snake(word)} {n}")
    return 0


if __name__ == "__main__":
    raise SystemExit(main(sys.argv[1:]))

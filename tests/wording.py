#!/usr/bin/env python3
"""Finds long sentences, and phrases that this project doesn't use, in its documents.

usage: tests/wording.py [FILE..]
If no file is named, these are README.md, CONTRIBUTING.md, CHANGELOG.md, docs/*.md, and the README.md of examples, bench
and viewer.
Blocks of code aren't looked at, and a piece of code in a sentence counts as one word. Each cell of a table is a text by
itself. The last line is 'N passed, M failed', where N and M count files.
"""

import os
import re
import sys
from pathlib import Path

sys.path.insert(0, str(Path(__file__).resolve().parent.parent / "tools"))

from testing import ROOT, Tally, start

FOLDERS = ("examples", "bench", "viewer")
MOST_WORDS = 30
# each phrase, and what a document says in its place
PHRASES = {
    r"(?:stands?|stood)(?! for\b)|standing": "is, is in, depends on, holds",
    r"of (?:its|their) own": "its own X, another X",
    r"from nothing": "from scratch",
    r"(?:go|goes|going|went) by": "iterates over, follows, uses",
    r"passes over|past what": "skips",
    r"isn't said": "is unspecified",
    r"in every end": "on every return path",
    r"was gone": "died",
    r"refused bytes": "writing failed",
    r"words aren't right|words of (?:a|the) command line": "arguments",
    r"compiled apart": "compiled as a specialised copy",
    r"done with before": "finishes before",
    r"as may be": "the maximum number",
    r"hands? (?:its|the) text on": "flushes",
    r"contracts bite": "the contracts aren't vacuous",
    r"known by its": "identified by",
    r"has its (?:home|place) in": "is in",
    r"how often \w+ (?:has )?failed": "the number of failures",
    r"what comes back": "the result",
    r"one after (?:the other|another)": "in order",
    r"so many|such an?": "this, these, n",
    r"told|tells?": "says, reports",
}
PHRASE = re.compile(r"\b(?:" + "|".join(PHRASES) + r")\b", re.IGNORECASE)


def texts(document):
    """The paragraphs, items of lists, headings and cells of a document, each with the number of its line."""
    found, fenced, goes_on = [], False, False
    for number, line in enumerate(document.splitlines(), 1):
        text = line.strip()
        if text.startswith("```"):
            fenced, goes_on = not fenced, False
        elif fenced or not text or (line.startswith("    ") and not goes_on):
            goes_on = False
        elif text.startswith("|"):
            found += [(number, cell) for cell in re.split(r"(?<!\\)\|", text)]
            goes_on = False
        elif goes_on and not re.match(r"(?:[-*]|\d+\.) |#", text):
            found[-1] = (found[-1][0], f"{found[-1][1]} {text}")
        else:
            found.append((number, re.sub(r"^(?:[-*]|\d+\.|#+) ", "", text)))
            goes_on = not text.startswith("#")
    return found


def plain(text):
    """A text without marks, in which each piece of code is one word."""
    text = re.sub(r"!?\[([^\]]*)\]\([^)]*\)", r"\1", re.sub(r"`[^`]*`", "code", text))
    return text.replace("*", "")


def faults(document):
    """What is wrong with the wording of a document: lines 'NUMBER: FAULT'."""
    found = []
    for number, text in texts(document):
        text = plain(text)
        found += [f"{number}: '{it[0]}'" for it in PHRASE.finditer(text)]
        for sentence in re.split(r"(?<=[.?!])[)\"']?\s+", text):
            words = [it for it in sentence.split() if re.search(r"\w", it)]
            if len(words) > MOST_WORDS:
                found.append(f"{number}: a sentence of {len(words)} words: {' '.join(words[:8])} ..")
    return found


def documents():
    """The files that are looked at if none is named."""
    named = [ROOT / it for it in ("README.md", "CONTRIBUTING.md", "CHANGELOG.md")]
    return [*named, *sorted((ROOT / "docs").glob("*.md")), *(ROOT / it / "README.md" for it in FOLDERS)]


def is_lacking(names):
    """Whether one of the files named isn't there, which is then said on standard error."""
    lacking = [it for it in names if not Path(it).is_file()]
    if lacking:
        print(f"there is no file '{lacking[0]}'", file=sys.stderr)
    return bool(lacking)


def try_wording(tally, names):
    """Checks the wording of the documents named, or of all of them."""
    for file in [Path(it) for it in names] or documents():
        name = os.path.relpath(file, ROOT)
        found = [f"{name}:{it}" for it in faults(file.read_text())]
        tally.count(name, "the wording:\n" + "\n".join(found) if found else None)


def main(names):
    if is_lacking(names):
        return 2
    tally = Tally()
    try_wording(tally, names)
    return tally.end()


if __name__ == "__main__":
    start(main)

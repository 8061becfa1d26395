"""What the exporters share: a text of `ultra`, line by line, and one clear line where it isn't what is expected."""

import re
import sys
from contextlib import contextmanager

# P.N@A, and what is behind it.
REQUEST = re.compile(r"(\d+)\.(\d+)@(\d+)")


class TextFault(Exception):
    """What is wrong with a line of the text."""


def usage_of(doc):
    """The lines of a script's text that say how to call it."""
    return doc.partition("\n\n")[2].partition("\n\n")[0]


@contextmanager
def opened(words, doc):
    """The text that the arguments name, or standard input where they name none. What is wrong ends the call."""
    if len(words) > 1 or words and words[0].startswith("-"):
        print(usage_of(doc), file=sys.stderr)
        sys.exit(2)
    name = words[0] if words else "standard input"
    try:
        with open(words[0], encoding="ascii") if words else sys.stdin as text:
            yield text
    except BrokenPipeError:
        sys.exit(5)
    except (OSError, UnicodeDecodeError) as fault:
        fail(f"cannot read {name}: {getattr(fault, 'strerror', None) or 'not ascii'}")
    except TextFault as fault:
        fail(f"{name}: {fault}")


def fail(why):
    print(f"{sys.argv[0].rpartition('/')[2]}: {why}", file=sys.stderr)
    sys.exit(3)


def lines_of(text):
    """Each line of a text with its number, from 1."""
    return enumerate((it.rstrip("\n") for it in text), 1)


def unexpected(number, line):
    return TextFault(f"line {number}: '{line[:60]}' isn't expected here")

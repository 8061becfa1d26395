"""The trace viewer as one page that needs no other file: its styles, its scripts, and the texts that it opens."""

import json
import re
from graphlib import TopologicalSorter
from html import escape
from pathlib import Path

FOLDER = Path(__file__).resolve().parent
# index.html loads its scripts by these two, which a page that has its scripts in it doesn't need
LOADERS = '<script src="scripts.js"></script>\n<script src="load.js"></script>\n'


def read(name):
    return (FOLDER / name).read_text()


def script_order():
    """The names of the scripts, each behind those that it needs by the table of scripts.js."""
    text = read("scripts.js")
    table = json.loads(text[text.index("{"):text.rindex("}") + 1])
    return list(TopologicalSorter(table).static_order())


def element_of(attribute, data):
    """Data of a page. No `<` is left in it, so nothing in it ends its element."""
    text = json.dumps(data).replace("<", "\\u003c")
    return f'<script type="application/json" {attribute}>{text}</script>\n'


def sort_of(text):
    """What sort of text a file has, as texts.js says it by the first lines."""
    if text.startswith("ultra trace"):
        return "trace"
    if re.match(r"\d+ (step|reply) \d", text):
        return "steps"
    lines = (re.sub(r"#.*", "", it).strip() for it in text.split("\n"))
    return "settings" if re.match(r'["\w-]+\s*=|\[', next(filter(None, lines), "")) else "program"


def trace_of(name, traces):
    """The trace to which a text belongs: the one in the same folder, or the only one. Else this is a ValueError."""
    beside = [it for it in traces if Path(it).parent == Path(name).parent]
    found = beside if len(beside) == 1 else traces
    if len(found) != 1:
        raise ValueError(f"{name}: which trace it belongs to isn't clear: put it into the folder of its trace")
    return found[0]


def elements_of(texts):
    """The elements of texts, which are pairs of a name and a text: traces, and what belongs to them."""
    traces = [name for name, text in texts if sort_of(text) == "trace"]
    for name, text in texts:
        if name in traces:
            yield element_of(f'data-trace="{escape(name)}"', text)
        else:
            yield element_of(f'data-text="{escape(name)}" data-of="{escape(trace_of(name, traces))}"', text)


def page_with(texts, playground=None):
    """The page with these texts in it, and with the data of a playground. A text without its trace is a ValueError."""
    style = f"<style>\n{read('style.css')}</style>"
    inside = "".join(elements_of(texts))
    scripts = "".join(f"<script>\n{read(f'src/{it}.js')}</script>\n" for it in script_order())
    page = re.sub(r'<link rel="stylesheet" href="style\.css">', lambda _: style, read("index.html"))
    head, tail = page.split(LOADERS)
    if playground is not None:
        inside += element_of('id="playground-data"', playground)
        scripts += f"<script>\n{read('playground.js')}</script>\n"
    return head + inside + scripts + tail

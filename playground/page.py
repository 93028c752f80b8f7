"""The page: its sources, the module, the examples and the lessons in one HTML file."""
import base64
import glob
import gzip
import json
import os
import re

import lessons

HERE = os.path.dirname(os.path.realpath(__file__))
SCRIPTS = ("colours.js", "graph.js", "page.js")


def text_of(path):
    with open(path, encoding="utf-8") as it:
        return it.read()


def parted(text):
    """A program or a graph, and the inputs after it."""
    begin = re.match(r"etsgraph ", text)
    found = re.search(r"^main .*\n", text, re.M) if begin else re.search(r"^inputs\n", text, re.M)
    if not found:
        return {"text": text, "inputs": ""}
    return {"text": text[: found.end() if begin else found.start()], "inputs": " ".join(text[found.end() :].split())}


def files(pattern):
    return {os.path.basename(it): parted(text_of(it)) for it in sorted(glob.glob(pattern))}


def make(root, module, facts):
    """The page of the checkout `root`, with this module, and with these facts about it, each a name and a text."""
    tutorial = f"{root}/crates/test_tutorial/data"
    data = {
        "facts": facts,
        "examples": files(f"{root}/crates/test_programs/data/*.df"),
        "files": {**files(f"{tutorial}/*.df"), **files(f"{tutorial}/*.ets")},
        "lessons": lessons.lessons(f"{tutorial}/TUTORIAL.md", tutorial),
        "grammars": [json.loads(text_of(f"{root}/share/vscode/syntaxes/{it}.tmLanguage.json")) for it in ("etsprogram", "etsgraph")],
    }
    parts = {
        "STYLE": text_of(f"{HERE}/page/page.css"),
        "WORKER": text_of(f"{HERE}/page/worker.js"),
        "SCRIPT": "\n".join(text_of(f"{HERE}/page/{it}") for it in SCRIPTS),
        "DATA": json.dumps(data, ensure_ascii=False, sort_keys=True).replace("<", "\\u003c"),
        "MODULE": base64.b64encode(gzip.compress(module, 9, mtime=0)).decode(),
    }
    return re.sub(r"@([A-Z]+)@", lambda it: parts[it[1]], text_of(f"{HERE}/page/page.html")).encode()

"""The tutorial as lessons of the page: its steps in HTML, and what in them can be opened and tried.

Of Markdown it knows what the tutorial has: headings, paragraphs, lists, tables, blocks of code, pictures that lie beside it, bold words, code and links.
"""
import base64
import html
import json
import re
import shlex


def inline(text):
    """A piece of a paragraph. A link to another part of the tutorial leads to its lesson; the page has no other pages to lead to."""
    pieces = re.split(r"(`[^`]*`)", text)
    shown = []
    for it in pieces:
        if it.startswith("`"):
            shown.append(f"<code>{html.escape(it[1:-1], False)}</code>")
            continue
        it = html.escape(it, False)
        it = re.sub(r"\[([^\]]*)\]\(#([\w-]+)\)", r'<a href="#lesson=\2">\1</a>', it)
        it = re.sub(r"\[([^\]]*)\]\([^)]*\)", r"\1", it)
        it = re.sub(r"\*\*(.+?)\*\*", r"<b>\1</b>", it)
        shown.append(re.sub(r"\*(.+?)\*", r"<em>\1</em>", it))
    return "".join(shown)


def attempt(command):
    """What the page can do of a command line: a file, inputs in place of its own, a deed, and the machine's sizes; None where it can do nothing."""
    command = re.sub(r"; echo \$\?$", "", command)
    found = (
        re.fullmatch(r"ets lower < tutorial/(?P<file>\S+\.df)( \| ets (?P<deed>run)(?P<options>.*))?", command)
        or re.fullmatch(r"ets (?P<deed>run|trace|profile|orders)(?P<options>.*) < tutorial/(?P<file>\S+\.ets)", command)
        or re.fullmatch(r"\(sed '/\^main /q' tutorial/(?P<file>\S+\.ets); printf '(?P<inputs>[-\d\\n]*)'\) \| ets (?P<deed>run)(?P<options>.*)", command)
    )
    if not found:
        return None
    words = shlex.split(found["options"] or "")
    options = dict(zip(words[::2], words[1::2]))
    if not set(options) <= {"--elements", "--frames", "--steps", "--take"} or found["deed"] == "profile":
        options = {} if found["deed"] in ("orders", "trace", "profile") else None
    if options is None:
        return None
    inputs = found.groupdict().get("inputs")
    given = {"file": found["file"], "deed": found["deed"] or "graph", "options": {name[2:]: value for name, value in options.items()}}
    return given if inputs is None else {**given, "inputs": " ".join(inputs.split("\\n")).strip()}


def console(lines, first):
    """A block of commands and of what they print, with a button for each that can be tried. The file `first` is in the editor from the beginning, so it is not shown again; and a
    picture is drawn by a button, and not by Graphviz."""
    kept, buttons, is_left_out = [], [], False
    for line in lines:
        opened = re.fullmatch(r"\$ cat tutorial/(\S+\.(?:df|ets))", line)
        pictured = re.fullmatch(r"\$ sed '/\^main /q' tutorial/(\S+\.ets) \| ets dot > .*", line)
        tried = attempt(line[2:]) if line.startswith("$ ") else None
        is_left_out = bool(opened and opened[1] == first or pictured or line.startswith("$ dot ")) if line.startswith("$ ") else is_left_out
        kept += [] if is_left_out else [line]
        if opened:
            buttons.append((f"Open {opened[1]}", {"file": opened[1]}))
        elif pictured:
            buttons.append((f"Graph of {pictured[1]}", {"file": pictured[1], "deed": "graph", "options": {}}))
        elif tried:
            words = " ".join([tried["deed"].capitalize(), tried["file"], *[f"{name} {value}" for name, value in tried["options"].items()]])
            buttons.append((words + (f", inputs {tried['inputs']}" if "inputs" in tried else ""), tried))
    made = "".join(f'<button type="button" data-try="{html.escape(json.dumps(it))}">{html.escape(words)}</button>' for words, it in buttons)
    shown = f"<pre>{html.escape(chr(10).join(kept), False)}</pre>" if kept else ""
    return shown + (f'<div class="tries">{made}</div>' if made else "")


def table(rows):
    cells = [[inline(it.strip()) for it in row.strip("|").split("|")] for row in rows]
    line = lambda row, name: f"<tr>{''.join(f'<{name}>{it}</{name}>' for it in row)}</tr>"
    return f'<div class="table"><table>{line(cells[0], "th")}{"".join(line(it, "td") for it in cells[2:])}</table></div>'


def picture(line, folder):
    """A picture that lies beside the tutorial, within the page. What is elsewhere is left out."""
    text, path = re.fullmatch(r"!\[(.*)\]\((.*)\)", line).groups()
    if "/" in path:
        return ""
    with open(f"{folder}/{path}", "rb") as it:
        data = base64.b64encode(it.read()).decode()
    return f'<details><summary>{inline(text)}</summary><img alt="{html.escape(text)}" src="data:image/svg+xml;base64,{data}"></details>'


def html_of(lines, folder, first):
    """A part of the tutorial, which begins with the file `first`."""
    made, at = [], 0

    def taken(is_more):
        """The lines from here on of which this holds."""
        nonlocal at
        begin = at
        while at < len(lines) and is_more(lines[at]):
            at += 1
        return lines[begin:at]

    while at < len(lines):
        line = lines[at]
        if not line:
            at += 1
        elif line.startswith("```"):
            at += 1
            made.append(console(taken(lambda it: not it.startswith("```")), first))
            at += 1
        elif line.startswith("|"):
            made.append(table(taken(lambda it: it.startswith("|"))))
        elif line.startswith("!["):
            made.append(picture(line, folder))
            at += 1
        elif line.startswith("    "):
            made.append(f"<pre>{html.escape(chr(10).join(it[4:] for it in taken(lambda it: it.startswith('    '))), False)}</pre>")
        elif line.startswith("### "):
            made.append(f"<h3>{inline(line[4:])}</h3>")
            at += 1
        elif line.startswith("- "):
            items = []
            for it in taken(lambda it: it.startswith(("- ", "  "))):
                items.append(it[2:]) if it.startswith("- ") else items.append(items.pop() + " " + it.strip())
            made.append(f"<ul>{''.join(f'<li>{inline(it)}</li>' for it in items)}</ul>")
        else:
            text = " ".join(taken(lambda it: it and not it.startswith(("```", "|", "![", "    ", "- "))))
            # The way to this lesson, from the tutorial
            if not re.fullmatch(r"\[[^\]]*\]\(\S*/playground-\S*\)", text):
                made.append(f"<p>{inline(text)}</p>")
    return "".join(made)


def lessons(path, folder):
    """The lessons of the tutorial: each with its key, its title, its text, and the files that it names, the first of which it opens with."""
    with open(path, encoding="utf-8") as it:
        parts = re.split(r"^## ", it.read(), flags=re.M)[1:]
    made = []
    for part in parts:
        title, _, text = part.partition("\n")
        step = re.match(r"Step (\d+)", title)
        key = step[1] if step else re.sub(r"[^a-z0-9]+", "-", title.lower()).strip("-")
        files = list(dict.fromkeys(re.findall(r"tutorial/(\S+?\.(?:df|ets))\b", text)))
        made.append({"key": key, "title": title, "html": html_of(text.split("\n"), folder, files[0] if files else None), "files": files})
    return made

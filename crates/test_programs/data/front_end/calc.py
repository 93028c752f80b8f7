#!/usr/bin/env python3
"""A calculator whose programs run on the machine: a front end in two files (docs/FRONT_ENDS.md).

usage: calc.py [--graph] [--elements N] FILE [INPUT..]

Prints the value of the program in FILE on the inputs, or with --graph the graph that it becomes. The package `ets` runs it.
Status 1: FILE has no program; 2: the words are wrong; 3: the value is a fault; 4: the run did not come to rest.
"""
import argparse
import re
import sys

from graphs import Graph, TooLarge

BOUND = 8  # how many iterations of a sum are under way at once
WORDS = {"def", "input", "let", "in", "if", "then", "else", "sum", "from", "to", "of"}
TOKEN = re.compile(r"(?P<space>[ \t\r\n]+|#[^\n]*)|(?P<number>[0-9]+)|(?P<name>[A-Za-z][A-Za-z0-9_]*)|(?P<sign>[<>=!]=|[-+*/%<>=(),;])")
LEVELS = ({"==": "eq", "!=": "ne", "<": "lt", "<=": "le", ">": "lt", ">=": "le"}, {"+": "add", "-": "sub"}, {"*": "mul", "/": "div", "%": "rem"})


class CalcError(Exception):
    """What is wrong in a program, and its place: a line and a column, from 1."""

    def __init__(self, place, text):
        super().__init__(text)
        self.place = place


def split(text):
    """Each token: its kind, its word, its place."""
    at, line, start = 0, 1, 0
    while at < len(text):
        found, place = TOKEN.match(text, at), (line, at - start + 1)
        if not found:
            raise CalcError(place, f"no token begins with {text[at]!r}")
        kind, word, at = found.lastgroup, found.group(), found.end()
        if kind != "space":
            yield word if kind == "sign" or word in WORDS else kind, word, place
        elif "\n" in word:
            line, start = line + word.count("\n"), found.start() + word.rindex("\n") + 1
    yield "the end", "the end", (line, at - start + 1)


class Calculator:
    """Reads a program once. Each method that reads an expression adds its nodes to a region, and gives the node of its value."""

    def __init__(self, text):
        self.tokens, self.at, self.depth, self.graph, self.functions, self.calls = list(split(text)), 0, 0, Graph(), {}, []
        while self.taken("def"):
            name, place = self.name()
            if name in self.functions:
                raise CalcError(place, f"two functions have the name {name}")
            self.take("(")
            self.functions[name] = self.function("f_" + name, place, ")", "=")
            self.take(";")
        place = self.tokens[self.at][2]
        self.inputs = self.function("main", place, ";") if self.taken("input") else self.function("main", place)
        self.take("the end")
        for name, place, count in self.calls:
            if self.functions.get(name) != count:
                raise CalcError(place, f"{name} has {self.functions[name]} inputs" if name in self.functions else f"no function has the name {name}")

    def take(self, *kinds):
        kind, word, place = self.tokens[self.at]
        if kind not in kinds:
            raise CalcError(place, f"{word} where {' or '.join(kinds)} has to be")
        self.at += 1
        return word, place

    def taken(self, *kinds):
        return self.take(*kinds) if self.tokens[self.at][0] in kinds else None

    def name(self):
        word, place = self.take("name")
        if len(word) > 24:
            raise CalcError(place, "a name has at most 24 letters")
        return word, place

    def function(self, block, place, *signs):
        """Reads the inputs, if signs follow them, and the body; gives the number of inputs."""
        region, names = self.graph.block(block, place), {}
        while signs and (not names or self.taken(",")):
            word, at = self.name()
            if word in names or len(names) == 16:
                raise CalcError(at, f"two inputs have the name {word}" if word in names else "there are at most 16 inputs")
            names[word] = region.input(None, at)
        for sign in signs:
            self.take(sign)
        if not names:
            region.input(None, place)  # a block has at least one
        region.block.results = [self.expression(region, names)]
        return len(names)

    def after(self, kind, region, names):
        self.take(kind)
        return self.expression(region, names)

    def expression(self, region, names):
        """`names` has the node of each name that is known here. Some are of regions around this one."""
        place, self.depth = self.tokens[self.at][2], self.depth + 1
        if self.depth > 50:
            raise CalcError(place, "more than 50 expressions are open here")
        if self.taken("let"):
            name, value = self.name()[0], self.after("=", region, names)
            node = self.after("in", region, {**names, name: value})
        elif self.taken("if"):
            test = self.expression(region, names)
            node = region.choose_or_fault(test, place, lambda arm: self.after("then", arm, names), lambda arm: self.after("else", arm, names))
        elif self.taken("sum"):
            name, first, last = self.name()[0], self.after("from", region, names), self.after("to", region, names)
            some = region.add("le", [first, last], place)
            node = region.choose_or_fault(some, place, lambda arm: self.body(arm, name, first, last, names, place), lambda arm: arm.literal(0, place))
        else:
            node = self.infix(0, region, names)
        self.depth -= 1
        return node

    def body(self, region, name, first, last, names, place):
        """The loop of a sum that has a first number. Its own values are the number, the sum so far, and the last number."""
        body = self.graph.block(f"sum_{len(self.graph.blocks)}", place, region)
        number, total, end = body.input(region.bring(first), place), body.input(region.literal(0, place), place), body.bring(last)
        total.next = body.add("add", [total, self.after("of", body, {**names, name: number})], place)
        number.next = body.add("add", [number, body.literal(1, place)], place)
        return region.loop(body, body.add("lt", [number, end], place), BOUND, 1, place)

    def infix(self, level, region, names):
        if level == len(LEVELS):
            return self.operand(region, names)
        node, more = self.infix(level + 1, region, names), True
        while more and (sign := self.taken(*LEVELS[level])):
            other = self.infix(level + 1, region, names)
            node = region.add(LEVELS[level][sign[0]], [other, node] if sign[0] in (">", ">=") else [node, other], sign[1])
            more = level > 0  # comparisons make no chain
        return node

    def operand(self, region, names):
        signs = []
        while sign := self.taken("-"):
            signs.append(sign[1])
        node = self.primary(region, names)
        for place in reversed(signs):
            node = region.add("neg", [node], place)
        return node

    def primary(self, region, names):
        if self.tokens[self.at][0] in ("let", "if", "sum"):
            return self.expression(region, names)
        word, place = self.take("number", "name", "(")
        if word == "(":
            node, _ = self.expression(region, names), self.take(")")
            return node
        if word.isdigit():
            if len(word) > 19 or int(word) >= 1 << 63:
                raise CalcError(place, "a number has at most 19 digits, and is at most 9223372036854775807")
            return region.literal(int(word), place)
        if not self.taken("("):
            if word not in names:
                raise CalcError(place, f"no value has the name {word}")
            return region.bring(names[word])
        sources = [self.expression(region, names)]
        while self.taken(","):
            sources.append(self.expression(region, names))
        self.take(")")
        self.calls.append((word, place, len(sources)))
        return region.add(f"call f_{word}", sources, place)


def run(text, inputs, elements):
    """The report of a run of a graph. Nothing else here knows how graphs are run."""
    import ets
    return ets.Graph(text).run(inputs, elements=elements, frames=1024, steps=1 << 32, take="depth")


def integer(word):
    if not -(1 << 63) <= int(word) < 1 << 63:
        raise ValueError
    return int(word)


def main():
    parser = argparse.ArgumentParser(usage=__doc__.split("\n")[2][7:], epilog=__doc__.split("\n\n")[2])
    parser.add_argument("--graph", action="store_true", help="print the graph")
    parser.add_argument("--elements", type=int, choices=range(1, 17), default=1, metavar="N", help="run on N processing elements, 1 to 16")
    parser.add_argument("file")
    parser.add_argument("inputs", nargs="*", type=integer)
    words = parser.parse_args()

    def show(place, what, status):
        print(f"{words.file}:{place[0]}:{place[1]}: {what}\n{lines[place[0] - 1]}\n{' ' * (place[1] - 1)}^", file=sys.stderr)
        return status

    try:
        with open(words.file, encoding="utf-8", errors="replace") as file:
            lines = file.read().split("\n")
        program = Calculator("\n".join(lines))
        graph = program.graph.text()
        if words.graph:
            print(graph, end="")
            return 0
        if len(words.inputs) != program.inputs:
            parser.error(f"the program has {program.inputs} inputs, and not {len(words.inputs)}")
        report = run(graph, words.inputs or [0], words.elements)
    except (CalcError, TooLarge) as error:
        return show(error.place, error, 1)
    except (ImportError, OSError) as error:
        parser.error(str(error))
    if not report.is_complete:
        print(f"{words.file}: the run ended with {report.end}", file=sys.stderr)
        return 4
    value = report.outputs[0]
    if not isinstance(value, int):
        return show(program.graph.place_of(value.block, value.node), f"fault {value.kind}", 3)
    print(value)
    return 0


if __name__ == "__main__":
    sys.exit(main())

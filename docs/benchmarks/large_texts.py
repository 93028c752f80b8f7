#!/usr/bin/env python3
"""Writes a graph or a program at the limits of its text, for docs/benchmarks/run.

usage: docs/benchmarks/large_texts.py NAME [BLOCKS]

NAME is adds, literals, conditionals or calls, a graph; or sums, arms, loops or functions, a program. It has as many blocks as the text may have, or BLOCKS.
"""
import sys

BLOCKS = 256


# Graphs: each block has as many nodes as it may have.


def graph(blocks, lines_of):
    text = "".join(f"block b{number} 1 1\n" + "\n".join(lines) + f"\nout {len(lines)}.0\nend\n" for number in range(blocks) for lines in [lines_of(number)])
    return f"etsgraph 1\n{text}main b0\n"


def adds(blocks=None):
    """Each block is a chain of additions of the last node to itself."""
    return graph(blocks or BLOCKS, lambda block: [f"- add {node - 1}.0 {node - 1}.0" for node in range(1, 1024)])


def literals(blocks=None):
    """About as many literals as an object may have, all different."""
    return graph(blocks or 64, lambda block: [f"- lit {1023 * block + node} {node - 1}.0" for node in range(1, 1024)])


def conditionals(blocks=None):
    """Each block is 170 conditionals, one after another."""

    def lines_of(block):
        lines = []
        for first in range(1, 1021, 6):
            last, cond = first - 1, first + 1
            lines += [f"- le {last}.0 0.0", f"- cond {first}.0", f"{cond}+ enter {last}.0", f"{cond}- enter {last}.0"]
            lines += [f"- merge {cond} {cond + 1}.0 {cond + 2}.0", f"- neg {cond + 3}.0"]
        return lines

    return graph(blocks or BLOCKS, lines_of)


def calls(blocks=None):
    """Each block is a chain of calls, which has more slots than a frame may have."""
    number = blocks or BLOCKS
    return graph(number, lambda block: [f"- call b{(block + 1) % number} {node - 1}.0" for node in range(1, 1024)])


def widest(blocks, source=""):
    """Blocks with 16 inputs and 1,008 strict calls of 16 sources each, with the longest names: the longest lines. Or each source is this one."""
    name = lambda block: f"b{block}".ljust(32, "x")
    lines = ["etsgraph 2"]
    for block in range(blocks):
        lines.append(f"block {name(block)} 16 16")
        for node in range(16, 1024):
            lines.append(f"- scall {name(block)} " + " ".join([source or f"{node - 1}.{15 if node > 16 else 0}"] * 16))
        lines += ["out " + " ".join(["1023.15"] * 16), "end"]
    return "\n".join([*lines, f"main {name(0)}", ""])


# Programs: as many functions, with about as many nodes.


def program(blocks, body_of):
    names = [*(f"f{number}" for number in range(1, blocks)), "main"]
    return "".join(f"fn {name}(n) {{\n    let a0 = n;\n{body_of(number)}}}\n" for number, name in enumerate(names, 1))


def chain(length, value_of):
    """So many values, each made of the one before; the last one is the result."""
    return "".join(f"    let a{it + 1} = {value_of(f'a{it}')};\n" for it in range(length)) + f"    a{length}\n"


def sums(blocks=None):
    """Each function adds its last value to itself, again and again."""
    return program(blocks or BLOCKS, lambda number: chain(1000, lambda it: f"{it} + {it}"))


def arms(blocks=None):
    """Each function is a chain of conditionals."""
    return program(blocks or BLOCKS, lambda number: chain(90, lambda it: f"if {it} < n {{ {it} + n }} else {{ {it} - n }}"))


def loops(blocks=None):
    """Each function is a loop, with a long body."""
    return program(
        (blocks or BLOCKS) // 2,
        lambda number: "    loop 4 (i = n) {\n    let a0 = i;\n" + chain(900, lambda it: f"{it} * i") + "    } while (i < n)\n",
    )


def functions(blocks=None):
    """Each function is a chain of calls of the next one."""
    names = [*(f"f{number}" for number in range(1, blocks or BLOCKS)), "main"]
    return program(len(names), lambda number: chain(1000, lambda it: f"{names[number % len(names)]}({it})"))


GRAPHS = {it.__name__: it for it in (adds, literals, conditionals, calls)}
PROGRAMS = {it.__name__: it for it in (sums, arms, loops, functions)}


def main(name=None, blocks=None):
    made = {**GRAPHS, **PROGRAMS}.get(name)
    if made is None or blocks is not None and not blocks.isdecimal():
        print(__doc__.strip(), file=sys.stderr)
        return 2
    sys.stdout.write(made(int(blocks) if blocks else None))
    return 0


if __name__ == "__main__":
    sys.exit(main(*sys.argv[1:]))

#!/usr/bin/env python3
"""Prints the fewest frames with which programs come to rest, as a table: with the oldest tokens, and by depth.

usage: docs/benchmarks/fewest_frames.py ETS [ELEMENTS..] [--mode MODE] [--depth]

ETS is the program. For each number of elements (1 if none is given) it tries runs in the mode, `one` if none is given, by bisection, and gives the frames of all
elements together, with `--depth` by depth alone; `-` is more than 1,024 for each element. On several elements that is a number with which a run comes to rest where one fewer does not; there may be
a smaller one.
"""
import argparse
import os
import re
import subprocess

EXAMPLES = os.path.join(os.path.dirname(os.path.abspath(__file__)), "..", "..", "examples")
FIBONACCI = "fn main(n) { if n < 2 { n } else { main(n - 1) + main(n - 2) } }"
ACKERMANN = """
fn a(m, n) { if m == 0 { n + 1 } else { if n == 0 { a(m - 1, 1) } else { a(m - 1, a(m, n - 1)) } } }
fn main(m, n) { a(m, n) }
"""
LOOPS = """
fn main(n) {
    let _, s = loop K (i = 0, s = 0) while i < n {
        let _, t = loop K (j = 0, t = 0) while j < n {
            let _, u = loop K (m = 0, u = 0) while m < n { m + 1, u + i * j + m };
            j + 1, t + u
        };
        i + 1, s + t
    };
    s
}
"""
WAVEFRONT = """
array W[2500];
fn main(n) {
    loop 64 (i = 0) while i < n {
        loop 64 (j = 0) while j < n {
            let above = if i == 0 { 1 } else { W[(i - 1) * n + j] };
            let left = if j == 0 { 1 } else { W[i * n + j - 1] };
            W[i * n + j] := if (i == 0) | (j == 0) { 1 } else { (above + left) & 65535 };
            j + 1
        };
        i + 1
    };
    W[n * n - 1]
}
"""


def example(name):
    """The text of a program of the examples, without its inputs."""
    with open(os.path.join(EXAMPLES, name), encoding="utf-8") as file:
        return file.read().split("\ninputs\n")[0]


def programs():
    """Rows: what the program is, its text, its inputs."""
    for n in (10, 15, 20, 25):
        yield f"Fibonacci of {n}, by two calls", FIBONACCI, [n]
    for inputs in ((12, 8, 4), (18, 12, 6)):
        yield "`tak.df` of " + " ".join(map(str, inputs)), example("tak.df"), inputs
    yield "`hanoi.df` of 15", example("hanoi.df"), [15]
    yield "`queens.df` of 8", example("queens.df"), [8]
    yield "Ackermann's function of 3 4", ACKERMANN, [3, 4]
    for bound in (2, 16, 64):
        yield f"three loops in one another, 8 turns each, bounds {bound}", re.sub(r"\bK\b", str(bound), LOOPS), [8]
    yield "a wavefront of 50 by 50, bounds 64", WAVEFRONT, [50]
    yield "`mergesort.df` of 256", example("mergesort.df"), [256]


def comes_to_rest(ets, graph, mode, take, elements, frames):
    """Whether the run ends at rest, and no reader waits."""
    words = ["run", "--steps", "4294967296", "--mode", mode, "--take", take, "--elements", str(elements), "--frames", str(frames)]
    ran = subprocess.run([ets, *words], input=graph, stdout=subprocess.PIPE, stderr=subprocess.DEVNULL)
    lines = ran.stdout.split(b"\n")
    return ran.returncode == 0 and b"deferred 0" in lines and b"end Rest" in lines


def fewest(ets, graph, mode, take, elements):
    """The fewest frames of all elements together, as text."""
    least, most = 1, 1024
    if not comes_to_rest(ets, graph, mode, take, elements, most):
        return "-"
    while least < most:
        half = (least + most) // 2
        if comes_to_rest(ets, graph, mode, take, elements, half):
            most = half
        else:
            least = half + 1
    return f"{least * elements:,}"


def main():
    parser = argparse.ArgumentParser(usage=__doc__)
    parser.add_argument("ets")
    parser.add_argument("elements", type=int, nargs="*", default=[1])
    parser.add_argument("--mode", default="one")
    parser.add_argument("--depth", action="store_true")
    words = parser.parse_args()
    ets, numbers = words.ets, words.elements
    takes = {"depth": "By depth"} if words.depth else {"depth": "By depth", "oldest": "Oldest"}
    heads = [f"{take}, {number}" if len(numbers) > 1 else take for number in numbers for take in takes.values()]
    print("| Program | " + " | ".join(heads) + " |")
    print("| --- |" + " --- |" * len(heads))
    for name, text, inputs in programs():
        program = text + "\ninputs\n" + "".join(f"{it}\n" for it in inputs)
        graph = subprocess.run([ets, "lower"], input=program.encode(), stdout=subprocess.PIPE, check=True).stdout
        cells = [fewest(ets, graph, words.mode, take, number) for number in numbers for take in takes]
        print(f"| {name} | " + " | ".join(cells) + " |", flush=True)


if __name__ == "__main__":
    main()

#!/usr/bin/env python3
"""What the programs of this folder that courses use have to give, computed without this project.

usage: examples/expected.py [ETS [FOLDER]]

With no word it prints the table `expected.txt`: on each line a program, its inputs, `=`, and its outputs. Each is computed here in another way than by
the program if there is one: by a library, a closed formula, a search through all cases, or a list that was published.
With the program ETS it compares the table with the file, and runs each line with no option but its inputs: `ets run NAME.df INPUTS`. Each run has to come to
rest with these outputs, with no reader and no request that waits, and with no frame that is out. FOLDER has the programs, if another one is meant.
The last line is `N passed, M failed`. The exit status is 0 if none failed, 1 if one did, and 2 if there is no such program.
"""
import functools
import itertools
import math
import os
import shutil
import subprocess
import sys
import zlib
from concurrent.futures import ThreadPoolExecutor
from fractions import Fraction

HERE = os.path.dirname(os.path.realpath(__file__))


def ackermann(m, n):
    return {0: n + 1, 1: n + 2, 2: 2 * n + 3, 3: 2 ** (n + 3) - 3}[m]


def bareiss(n):
    """The sum over all permutations."""
    rows = [[(i * i * 5 + j * j * 3 + i * j * 4 + i) % 9 - 4 for j in range(n)] for i in range(n)]
    total = 0
    for order in itertools.permutations(range(n)):
        falls = sum(order[a] > order[b] for a, b in itertools.combinations(range(n), 2))
        total += (-1) ** falls * math.prod(rows[i][order[i]] for i in range(n))
    return total


def binary_search(n, wanted):
    squares = [i * i + 3 * i for i in range(n)]
    low, high, steps = 0, n, 0
    while high - low > 1:
        middle = (low + high) // 2
        low, high, steps = (middle, high, steps + 1) if squares[middle] <= wanted else (low, middle, steps + 1)
    return squares.index(wanted) if wanted in squares else -1, steps


def bitonic_sort(p):
    numbers = sorted(i * 7919 % 1009 for i in range(2**p))
    return p * (p + 1) // 2, numbers[0], numbers[len(numbers) // 2], numbers[-1]


def coins(amount):
    @functools.lru_cache(None)
    def ways(rest, kinds):
        return 1 if rest == 0 else 0 if rest < 0 or not kinds else ways(rest - kinds[0], kinds) + ways(rest, kinds[1:])

    return ways(amount, (200, 100, 50, 20, 10, 5, 2, 1))


def collatz(n):
    return 0 if n == 1 else 1 + collatz(3 * n + 1 if n % 2 else n // 2)


def longest_collatz(limit):
    best = max(range(1, limit), key=lambda n: (collatz(n), -n))
    return best, collatz(best)


def crc(n):
    return zlib.crc32(("123456789" * n)[:n].encode())


def edit_distance(n, m):
    one = [i * i * 7 % 11 % 4 for i in range(n)]
    other = [j * j * 5 % 13 % 4 for j in range(m)]

    @functools.lru_cache(None)
    def apart(i, j):
        if i == n or j == m:
            return n - i + m - j
        return apart(i + 1, j + 1) if one[i] == other[j] else 1 + min(apart(i + 1, j + 1), apart(i + 1, j), apart(i, j + 1))

    return apart(0, 0)


def fibonacci(n):
    return round(((1 + math.sqrt(5)) / 2) ** n / math.sqrt(5))


def greatest(seed):
    numbers = []
    for _ in range(16):
        seed = (seed * 1103515245 + 12345) % 2**31
        numbers.append(seed % 1000)
    return max(numbers)


def histogram(n):
    numbers = [i * i * 31 % 127 for i in range(n)]
    return tuple(sum(part * 16 <= it < part * 16 + 16 for it in numbers) for part in range(8))


def knapsack(n, limit):
    """All sets of things."""
    things = [(3 + i * 7 % 11, 10 + i * 13 % 17) for i in range(n)]
    sets = (it for size in range(n + 1) for it in itertools.combinations(things, size))
    return max(sum(value for _, value in it) for it in sets if sum(weight for weight, _ in it) <= limit)


def life(n):
    alive = {divmod(it, 12) for it in (65, 66, 76, 77, 89)}
    around = [(a, b) for a in (-1, 0, 1) for b in (-1, 0, 1) if a or b]
    for _ in range(n):
        counts = {}
        for row, column in alive:
            for a, b in around:
                at = (row + a) % 12, (column + b) % 12
                counts[at] = counts.get(at, 0) + 1
        alive = {at for at, count in counts.items() if count == 3 or count == 2 and at in alive}
    return len(alive), sum(row * 12 + column for row, column in alive)


def mandelbrot(n):
    """With numbers of 12 bits after the point, rounded down. Division is that of the program: towards zero."""
    towards_zero = lambda a, b: int(Fraction(a, b))

    def steps(x, y):
        a = b = 0
        for step in range(20):
            if a * a + b * b > 2**26:
                return step
            a, b = math.floor(Fraction(a * a - b * b, 4096)) + x, math.floor(Fraction(2 * a * b, 4096)) + y
        return 20

    points = [steps(towards_zero(c * 12288, n) - 8192, towards_zero(r * 8192, n) - 4096) for r in range(n) for c in range(n)]
    return points.count(20), sum(points)


def matrix_product(n):
    """The first and the last number, by the sums in closed form."""
    first = sum((k + 1) * (n * n - k * n) for k in range(n))
    last = sum(((n - 1) * n + k + 1) * (n * n - k * n - n + 1) for k in range(n))
    return first, last


def mergesort(n):
    numbers = sorted(i * 7919 % 1009 for i in range(n))
    return numbers[0], numbers[n // 2], numbers[-1]


def number_theoretic_transform(p):
    """The sums themselves."""
    n, prime = 2**p, 119 * 2**23 + 1
    root = pow(3, (prime - 1) // n, prime)
    at = lambda k: sum((i * i + 3 * i + 1) * pow(root, i * k, prime) for i in range(n)) % prime
    return at(0), at(n // 2), at(n - 1)


def paraffins(n):
    """As published: sequence A000602 of the On-Line Encyclopedia of Integer Sequences."""
    known = (1, 1, 1, 1, 2, 3, 5, 9, 18, 35, 75, 159, 355, 802, 1858, 4347, 10359, 24894, 60523, 148284, 366319)
    return {**dict(enumerate(known)), 40: 62481801147341}[n]


def pascal(n):
    return math.comb(n, n // 2), 2**n


def pipeline(n):
    scaled = [i * 37 % 64 * 3 - 64 for i in range(n)]
    smooth = [scaled[0], *[int(Fraction(a + b, 2)) for a, b in zip(scaled, scaled[1:])]]
    return sum(smooth), smooth[-1]


def queens(n):
    """All permutations: a queen in each column."""
    is_good = lambda it: len({a + b for a, b in enumerate(it)}) == len({a - b for a, b in enumerate(it)}) == n
    return sum(map(is_good, itertools.permutations(range(n))))


def quicksort(n):
    numbers = sorted((i * 7919 + 13) % 1009 for i in range(n))
    return numbers[0], numbers[n // 2], numbers[-1]


def relaxation(n):
    plate = {(r, c): 10000 * (r == 0) for r in range(10) for c in range(10)}
    for _ in range(n):
        inside = lambda r, c: 0 < r < 9 and 0 < c < 9
        plate = {(r, c): (plate[r - 1, c] + plate[r + 1, c] + plate[r, c - 1] + plate[r, c + 1]) // 4 if inside(r, c) else it for (r, c), it in plate.items()}
    return plate[1, 4], plate[4, 4]


def run_lengths(n):
    lengths = [len(list(it)) for _, it in itertools.groupby(i * i // 7 % 3 for i in range(n))]
    return len(lengths), max(lengths)


def scan(n):
    sums = list(itertools.accumulate(i * 37 % 101 for i in range(n)))
    return math.ceil(math.log2(n)), sums[n // 2], sums[-1]


def sieve(n):
    primes = [p for p in range(2, n + 1) if all(p % d for d in range(2, p))]
    return len(primes), primes[-1]


@functools.lru_cache(None)
def tak(x, y, z):
    """Its definition; each value is computed once."""
    return tak(tak(x - 1, y, z), tak(y - 1, z, x), tak(z - 1, x, y)) if y < x else z


def virtual_machine(n):
    return math.factorial(n), 2 + 3 * n


def warshall(n):
    """A search from each place."""
    edges = {i: {j for j in range(n) if (i * 5 + j * 3 + i * j) % 7 == 2} for i in range(n)}

    def reached(i):
        seen, new = set(), set(edges[i])
        while new:
            seen |= new
            new = {k for j in new for k in edges[j]} - seen
        return seen

    return sum(map(len, edges.values())), sum(len(reached(i)) for i in range(n))


# The programs, and on which inputs each is run; the first are those in the file.
TABLE = {
    ackermann: [(2, 5), (0, 7), (1, 10), (2, 10), (3, 3)],
    bareiss: [(6,), (1,), (2,), (3,), (4,), (5,), (7,)],
    binary_search: [(100, 130), (100, 131), (1, 0), (256, 65790), (256, 0), (10, -1)],
    bitonic_sort: [(4,), (0,), (1,), (6,), (8,)],
    coins: [(200,), (0,), (1,), (10,), (99,), (255,)],
    collatz: [(27,), (2,), (97,), (871,)],
    crc: [(9,), (0,), (1,), (10,), (100,)],
    edit_distance: [(10, 12), (0, 0), (0, 5), (5, 0), (30, 30), (63, 40)],
    fibonacci: [(10,), (0,), (1,), (20,)],
    greatest: [(1,), (2,), (10,)],
    "hanoi": [(12,), (0,), (1,), (10,)],
    histogram: [(100,), (1,), (10,), (256,)],
    knapsack: [(10, 40), (0, 40), (10, 0), (16, 100), (12, 127)],
    life: [(4,), (0,), (1,), (2,), (10,), (20,)],
    longest_collatz: [(30,), (2,), (10,), (100,)],
    mandelbrot: [(10,), (1,), (2,), (16,), (32,)],
    matrix_product: [(3,), (1,), (2,), (8,)],
    mergesort: [(64,), (1,), (2,), (10,), (100,), (256,)],
    number_theoretic_transform: [(4,), (0,), (1,), (2,), (6,)],
    paraffins: [(10,), (1,), (2,), (3,), (4,), (5,), (6,), (7,), (8,), (9,), (11,), (12,), (13,), (20,), (40,)],
    pascal: [(10,), (0,), (1,), (2,), (33,), (60,)],
    pipeline: [(10,), (1,), (2,), (100,), (256,)],
    queens: [(7,), (1,), (2,), (3,), (4,), (5,), (6,), (8,)],
    quicksort: [(10,), (1,), (2,), (33,), (64,)],
    relaxation: [(10,), (0,), (1,), (2,), (40,)],
    run_lengths: [(20,), (1,), (2,), (100,), (256,)],
    scan: [(10,), (1,), (2,), (3,), (100,), (256,)],
    sieve: [(100,), (2,), (3,), (4,), (10,), (121,), (1000,)],
    tak: [(12, 8, 4), (10, 5, 2), (2, 3, 4), (7, 7, 1)],
    virtual_machine: [(10,), (1,), (2,), (20,)],
    warshall: [(10,), (1,), (2,), (7,), (12,)],
}


def lines():
    for program, cases in TABLE.items():
        name = program if isinstance(program, str) else program.__name__
        for inputs in cases:
            given = 2 ** inputs[0] - 1 if name == "hanoi" else program(*inputs)
            outputs = given if isinstance(given, tuple) else (given,)
            yield f"{name} {' '.join(map(str, inputs))} = {' '.join(map(str, outputs))}"


def difference(ets, folder, line, with_inputs=True):
    """What is wrong with the run of this line; with no inputs, those in the file are meant."""
    words, _, outputs = line.partition(" = ")
    name, *inputs = words.split(" ")
    command = [ets, "run", f"{folder}/{name}.df", *(["--", *inputs] if with_inputs else [])]
    ran = subprocess.run(command, stdout=subprocess.PIPE, stderr=subprocess.PIPE, text=True)
    wanted = [*[f"output {at} {it}" for at, it in enumerate(outputs.split(" "))], "deferred 0", "waiting 0 0", "frames 0", "end Rest"]
    came = [it for it in ran.stdout.splitlines() if not it.startswith("cell ")]
    if came == wanted and ran.returncode == 0 and not ran.stderr:
        return None
    return f"{' '.join(['ets', 'run', f'{name}.df', *command[3:]])}\n  wanted {wanted}\n  came   {came} {ran.stderr}"


def main(ets=None, folder=HERE):
    if ets is None:
        print("\n".join(lines()))
        return 0
    if ets.startswith("-") or not shutil.which(ets):
        print(__doc__.strip() if ets in ("--help", "-h") else f"examples/expected.py: {ets}: no such program", file=sys.stderr)
        return 0 if ets in ("--help", "-h") else 2
    ets = os.path.realpath(shutil.which(ets))
    table = list(lines())
    with open(f"{HERE}/expected.txt", encoding="utf-8") as it:
        is_same = it.read().splitlines() == table
    firsts = [next(it for it in table if it.startswith(name + " ")) for name in dict.fromkeys(it.split(" ")[0] for it in table)]
    with ThreadPoolExecutor(2) as pool:
        came = [*pool.map(lambda it: difference(ets, folder, it), table), *pool.map(lambda it: difference(ets, folder, it, False), firsts)]
    wrong = [it for it in came if it] + ([] if is_same else ["expected.txt is not what this script computes"])
    print("".join(f"{it}\n" for it in wrong), end="")
    print(f"{len(came) + 1 - len(wrong)} passed, {len(wrong)} failed")
    return 1 if wrong else 0


if __name__ == "__main__":
    sys.exit(main(*sys.argv[1:]))

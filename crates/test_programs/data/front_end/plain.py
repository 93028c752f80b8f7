"""The programs of the folder `programs`, each in plain Python: inputs, and what comes. It knows nothing of calc.py and of graphs."""
import math

LEAST, LARGEST = -(1 << 63), (1 << 63) - 1


def wrapped(value):
    """In 64 bits of two's complement."""
    return (value - LEAST) % (1 << 64) + LEAST


def quotient(a, b):
    return wrapped(abs(a) // abs(b) * (1 if (a < 0) == (b < 0) else -1))


def remainder(a, b):
    return abs(a) % abs(b) * (-1 if a < 0 else 1)


def fault(line, column):
    return "fault", "zero", (line, column)


def fibonacci(n):
    a, b = 0, 1
    for _ in range(n):
        a, b = b, a + b
    return a


def collatz(n):
    steps = 0
    while n != 1:
        n, steps = n // 2 if n % 2 == 0 else 3 * n + 1, steps + 1
    return steps


def ackermann(m, n):
    if m == 0:
        return n + 1
    return ackermann(m - 1, ackermann(m, n - 1) if n else 1)


def triangle(n, a):
    return sum(a * i - j if j % 2 else i for i in range(1, n + 1) for j in range(i, n + 1))


def wraps(a, b):
    return wrapped(quotient(wrapped(a * b + LEAST), b) - remainder(a, b) * 3 + 1 - a)


def names(a):
    a += 1
    return sum(it * (a * 2 + 1) for it in range(a, a + 3)) - a - 1


def many_values(a, b, c, d, e, f, g, h, i, j, k, l):
    return sum(a + b * n + c - d + e * f + g - h + i * j + k - l for n in (1, 2, 3))


def comparisons(a, b):
    bits = [a < b, a <= b, a > b, a >= b, a == b, a != b]
    return sum(1 << at for at, bit in enumerate(bits) if bit) + (64 if a != b else 128)


def of(function, *rows):
    return [(list(row), function(*row)) for row in rows]


KNOWN = {
    "factorial": of(lambda n: wrapped(math.factorial(max(n, 0))), (0,), (1,), (20,), (21,), (66,), (-5,)),
    "fibonacci": of(fibonacci, (0,), (1,), (2,), (10,), (14,)),
    "greatest_divisor": of(math.gcd, (1071, 462), (0, 0), (0, 5), (LARGEST, 7)),
    "collatz": of(collatz, (1,), (6,), (27,)),
    "even_or_odd": of(lambda n: 1 - n % 2, (0,), (13,), (40,)),
    "ackermann": of(ackermann, (0, 0), (1, 5), (2, 3), (3, 2)),
    "primes": of(lambda n: sum(all(i % d for d in range(2, i)) for i in range(2, n + 1)), (1,), (2,), (30,)),
    "triangle": of(triangle, (0, 3), (1, 3), (9, -4), (12, 7)),
    "squares": of(lambda n: sum(i * i for i in range(1, n + 1)), (0,), (1,), (1000,)),
    "products": of(lambda n: (n * (n + 1) // 2) ** 2, (0,), (20,)),
    "edges": of(lambda n: n * (n + 1) // 2 * 1000, (0,), (1,), (20,)),
    "wraps": of(wraps, (7, -2), (-7, 2), (LEAST, -1), (LARGEST, LARGEST), (LARGEST, 3), (LEAST, LEAST)),
    "names": of(names, (0,), (-3,), (1000,)),
    "without_inputs": of(lambda: 2 + 3 * 4 - (7 - 2 - 1) * -(5 // 2), ()),
    "many_values": of(many_values, tuple(range(1, 13)), tuple(range(-12, 0))),
    "comparisons": of(comparisons, (1, 2), (2, 1), (3, 3), (LEAST, LARGEST), (-1, 0)),
    "faults": [([number, 0], it) for number, it in enumerate(
        [0, fault(4, 16), fault(6, 27), fault(7, 28), fault(8, 39), fault(9, 30), fault(10, 37), fault(11, 43), fault(12, 50), fault(13, 33), 10])]
    + [([1, 2], 0), ([6, 1], math.factorial(7))],
}

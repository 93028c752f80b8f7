"""Random programs of the calculator, with their values. A program is drawn as a tree, evaluated as one, and written as one: nothing of calc.py is used."""
import random

from plain import LARGEST, LEAST, quotient, remainder, wrapped

FORMS = ("number", "name", "negative", "let", "if", "sum", "call", "+", "-", "*", "/", "%", "==", "!=", "<", "<=", ">", ">=")
LEVEL = {**dict.fromkeys(("==", "!=", "<", "<=", ">", ">="), 0), "+": 1, "-": 1, "*": 2, "/": 2, "%": 2}
ON_INTEGERS = {
    "+": lambda a, b: a + b, "-": lambda a, b: a - b, "*": lambda a, b: a * b, "/": quotient, "%": remainder, "==": lambda a, b: int(a == b),
    "!=": lambda a, b: int(a != b), "<": lambda a, b: int(a < b), "<=": lambda a, b: int(a <= b), ">": lambda a, b: int(a > b), ">=": lambda a, b: int(a >= b),
}
INTEGERS = (0, 1, 2, 3, 5, 7, 10, 100, LARGEST)


class TooLong(Exception):
    """An evaluation that makes more calls and iterations than the machine surely has frames for."""


class Tree:
    def __init__(self, kind, *parts):
        self.kind, self.parts, self.place = kind, parts, None


class Drawn:
    """A program: `text`, `inputs`, `value`, and the `forms` that its evaluation met."""

    def __init__(self, seed):
        self.random = random.Random(seed)
        while True:
            self.functions, self.forms, self.left = {}, set(), 400
            for name in self.random.sample(("f", "g", "h2", "let_it", "of_3"), self.random.randint(0, 3)):
                self.functions[name] = self.function(name)
            self.names = self.random.sample(("a", "b", "x", "y_1"), self.random.randint(0, 3))
            self.main = self.expression(self.random.randint(2, 6), self.names)
            self.inputs = [self.random.choice(INTEGERS) * self.random.choice((1, -1)) for _ in self.names]
            self.text = self.written()
            try:
                self.value = self.evaluated(self.main, dict(zip(self.names, self.inputs)))
                return
            except TooLong:
                continue

    # ---- Drawing

    def function(self, name):
        """It calls those that were drawn before it, and itself with a first argument that is one less."""
        names = self.random.sample(("n", "a", "b"), self.random.randint(1, 3))
        end = self.expression(self.random.randint(1, 3), names)
        if self.random.random() < 0.4:
            return names, end
        again = [Tree("-", Tree("name", names[0]), Tree("number", 1))] + [self.expression(2, names) for _ in names[1:]]
        step = Tree(self.random.choice(("+", "-", "*")), self.expression(2, names), Tree("call", name, again))
        return names, Tree("if", Tree("<=", Tree("name", names[0]), Tree("number", 0)), end, step)

    def expression(self, depth, names):
        draw = self.random
        if depth == 0 or draw.random() < 0.1:
            return Tree("name", draw.choice(names)) if names and draw.random() < 0.6 else Tree("number", draw.choice(INTEGERS))
        kind = draw.choices(("infix", "negative", "let", "if", "sum", "call"), (8, 1, 2, 3, 1.5, 3 if self.functions else 0))[0]
        part = lambda more=(): self.expression(depth - 1, [*names, *more])
        if kind == "infix":
            return Tree(draw.choice(tuple(LEVEL)), part(), part())
        if kind == "negative":
            return Tree(kind, part())
        if kind == "if":
            return Tree(kind, part(), part(), part())
        name = draw.choice(("a", "b", "i", "j", "sum_1"))
        if kind == "let":
            return Tree(kind, name, part(), part([name]))
        few = lambda: Tree("%", part(), Tree("number", draw.choice((2, 3, 5))))
        if kind == "sum":
            return Tree(kind, name, few(), few(), part([name]))
        called = draw.choice(tuple(self.functions))
        return Tree(kind, called, [few()] + [part() for _ in self.functions[called][0][1:]])

    # ---- Evaluating: an integer, or a fault, which has its place

    def spend(self):
        self.left -= 1
        if self.left < 0:
            raise TooLong

    def evaluated(self, tree, names):
        kind, parts = tree.kind, tree.parts
        self.forms.add(kind)
        if kind == "number":
            return parts[0]
        if kind == "name":
            return names[parts[0]]
        if kind == "negative":
            value = self.evaluated(parts[0], names)
            return wrapped(-value) if isinstance(value, int) else value
        if kind == "let":
            return self.evaluated(parts[2], {**names, parts[0]: self.evaluated(parts[1], names)})
        if kind == "if":
            test = self.evaluated(parts[0], names)
            return self.evaluated(parts[1 if test else 2], names) if isinstance(test, int) else test
        if kind == "call":
            self.spend()
            values = [self.evaluated(it, names) for it in parts[1]]
            inputs, body = self.functions[parts[0]]
            return self.evaluated(body, dict(zip(inputs, values)))
        if kind == "sum":
            first, last = [self.evaluated(it, names) for it in parts[1:3]]
            for bound in (first, last):
                if not isinstance(bound, int):
                    return bound
            total = 0
            for number in range(first, last + 1):
                self.spend()
                value = self.evaluated(parts[3], {**names, parts[0]: number})
                if isinstance(total, int):
                    total = wrapped(total + value) if isinstance(value, int) else value
            return total
        values = [self.evaluated(it, names) for it in parts]
        for value in values[::-1] if kind in (">", ">=") else values:
            if not isinstance(value, int):
                return value
        if kind in ("/", "%") and values[1] == 0:
            return "fault", "zero", tree.place
        return wrapped(ON_INTEGERS[kind](*values))

    # ---- Writing

    def written(self):
        self.parts, self.line, self.column = [], 1, 1
        for name, (inputs, body) in self.functions.items():
            self.put("def", name, "(")
            self.put_list(inputs, self.put)
            self.put(")", "=")
            self.put_expression(body, 0, True)
            self.put(";")
        if self.names:
            self.put("input")
            self.put_list(self.names, self.put)
            self.put(";")
        self.put_expression(self.main, 0, True)
        return "".join(self.parts)

    def put(self, *words):
        """Words, each after some space."""
        for word in words:
            space = self.random.choices((" ", "\n", "  ", " \n\n\t ", " # of ( 1 +\n "), (30, 4, 2, 1, 1))[0]
            for text in (space, word):
                self.parts.append(text)
                self.line += text.count("\n")
                self.column = len(text) - text.rindex("\n") if "\n" in text else self.column + len(text)

    def put_list(self, parts, put):
        for number, part in enumerate(parts):
            if number:
                self.put(",")
            put(part)

    def sign(self, tree, word):
        self.put(word)
        tree.place = self.line, self.column - len(word)

    def put_expression(self, tree, level, is_last):
        """In an operand of `level`, which is 0 for a whole expression. `is_last`: no operator can follow."""
        kind, parts = tree.kind, tree.parts
        is_open = kind in ("let", "if", "sum")
        if is_open and level and not is_last or kind in LEVEL and LEVEL[kind] < level or self.random.random() < 0.05:
            self.put("(")
            self.put_expression(tree, 0, True)
            self.put(")")
        elif kind in ("number", "name"):
            self.put(str(parts[0]))
        elif kind == "negative":
            self.put("-")
            self.put_expression(parts[0], 3, is_last)
        elif kind in LEVEL:
            self.put_expression(parts[0], LEVEL[kind] + (kind in ON_INTEGERS and LEVEL[kind] == 0), False)
            self.sign(tree, kind)
            self.put_expression(parts[1], LEVEL[kind] + 1, is_last)
        elif kind == "call":
            self.put(parts[0], "(")
            self.put_list(parts[1], lambda it: self.put_expression(it, 0, True))
            self.put(")")
        else:
            words = {"let": ("=", "in"), "if": (None, "then", "else"), "sum": ("from", "to", "of")}[kind]
            self.put(kind, *([] if kind == "if" else [parts[0]]))
            for word, part in zip(words, parts[-len(words):]):
                if word:
                    self.put(word)
                self.put_expression(part, 0, True)

"""Graphs as a front end makes them: nodes are added one after another, and numbered when the text is written."""


class TooLarge(Exception):
    """More than a graph has room for; and the place that it is said of."""

    def __init__(self, place, text):
        super().__init__(text)
        self.place = place


class Node:
    """A node: its region, kind and sources, and its place in the program. The value that it stands for is that of one port."""

    def __init__(self, region, kind, sources, place, about=None, port=0):
        self.region, self.kind, self.sources, self.place, self.about, self.port = region, kind, sources, place, about, port
        self.next = self  # of an input of a loop: what the next iteration gets


class Block:
    def __init__(self, name, place):
        self.name, self.place, self.inputs, self.nodes, self.results = name, place, [], [], []

    def text(self):
        number = {node: at for at, node in enumerate(self.inputs + self.nodes)}
        if len(number) > 1024:
            raise TooLarge(self.place, f"{len(number)} nodes are needed here, and a block has at most 1024")
        ports = lambda nodes: "".join(f" {number[node]}.{node.port}" for node in nodes)
        lines = [f"block {self.name} {len(self.inputs)} {len(self.results)}"]
        for node in self.nodes:
            arm, about = node.region.arm, f" {number[node.about]}" if node.about else ""
            lines.append((f"{number[arm]}{node.region.sign}" if arm else "-") + f" {node.kind}{about}{ports(node.sources)}")
        return "\n".join([*lines, f"out{ports(self.results)}", "end", ""])


class Graph:
    def __init__(self):
        self.blocks = []

    def block(self, name, place, parent=None):
        """A new block: its root. The body of a loop has as parent the region that the loop is in."""
        self.blocks.append(Block(name, place))
        return Region(self.blocks[-1], parent)

    def text(self):
        if len(self.blocks) > 256:
            raise TooLarge(self.blocks[256].place, "a graph has at most 256 blocks")
        return "etsgraph 2\n" + "".join(block.text() for block in self.blocks) + "main main\n"

    def place_of(self, block, node):
        """The place of a node, by the numbers that a fault has."""
        return (self.blocks[block].inputs + self.blocks[block].nodes)[node].place


class Region:
    """Where a node is: in the root of a block, or in an arm of the conditional `arm`, + or -."""

    def __init__(self, block, parent=None, arm=None, sign=""):
        self.block, self.parent, self.arm, self.sign, self.brought = block, parent, arm, sign, {}

    def add(self, kind, sources, place, about=None, port=0):
        self.block.nodes.append(Node(self, kind, sources, place, about, port))
        return self.block.nodes[-1]

    def input(self, first, place):
        """A new input of the block: of a loop, `first` is what its first iteration gets."""
        self.block.inputs.append(Node(self, "input", [first], place))
        return self.block.inputs[-1]

    def bring(self, node):
        """The value of a node from here or from around, here: an arm gets it by an `enter`, a loop by an input of its body."""
        if node.region is self:
            return node
        if node not in self.brought:
            outer = self.parent.bring(node)
            self.brought[node] = self.add("enter", [outer], node.place) if self.arm else self.input(outer, node.place)
        return self.brought[node]

    def literal(self, value, place):
        """A literal comes when its trigger does: in an arm the predicate, in a root the first input."""
        trigger = self.bring(self.arm.sources[0]) if self.arm else self.block.inputs[0]
        return self.add(f"lit {value}", [trigger], place)

    def choose(self, test, place, yes, no):
        """A conditional. `yes` and `no` are given the region of their arm; they add its nodes and give its value."""
        cond = self.add("cond", [test], place)
        arms = [part(Region(self.block, self, cond, sign)) for part, sign in ((yes, "+"), (no, "-"))]
        return self.add("merge", arms, place, cond)

    def choose_or_fault(self, test, place, yes, no):
        """The same, but the value of a test that is a fault is that fault. By itself it would take the second arm, as 0 does."""
        def other(arm):
            again = arm.bring(test)
            return arm.choose(arm.add("eq", [again, again], place), place, no, lambda inner: inner.bring(test))
        return self.choose(test, place, yes, other)

    def loop(self, body, flag, bound, port, place):
        """The loop of a body whose nodes are all there. It has a first iteration, and another one after each whose flag is true."""
        inputs = body.block.inputs
        if len(inputs) > 15:
            raise TooLarge(place, f"{len(inputs)} values go from one iteration to the next here, and a loop has at most 15")
        body.block.results = [flag] + [it.next for it in inputs]
        return self.add(f"loop {body.block.name} {bound}", [it.sources[0] for it in inputs], place, port=port)

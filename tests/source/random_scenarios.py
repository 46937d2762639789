"""Random scenarios, as JSON: every event, and programs of every statement."""
import random

KEYS = ["a", "b", "k/1", "é", "\"", "line\nfeed", "tab\there", "back\\slash", "\u0001", "/", "\U0001f600"]
NUMBERS = [0, 1, 2, 7, -1, -5, 10, 2**63 - 1, -(2**63)]
COUNTS = [0, 0, 1, 2, 7, 2**63 - 1]
LEVELS = ["SerializableSnapshot", "Serializable", "RepeatableReads", "ReadCommitted"]
OPERATORS = ["add", "sub", "mul", "div", "rem", "cat"]


class Maker:
    def __init__(self, seed):
        self.random = random.Random(seed)

    def one_of(self, values):
        return self.random.choice(values)

    def expression(self, depth):
        if depth <= 0 or self.random.random() < 0.3:
            return self.one_of([self.one_of(KEYS + [""]), self.one_of(NUMBERS), ["var", self.random.randrange(16)]])
        if self.random.random() < 0.6:
            return [self.one_of(OPERATORS), self.expression(depth - 1), self.expression(depth - 1)]
        return [self.one_of(["get", "rev", "text_of", "num_of"]), self.expression(depth - 1)]

    def condition(self, depth):
        if depth <= 0 or self.random.random() < 0.3:
            return [self.one_of(["eq", "less"]), self.expression(2), self.expression(2)]
        if self.random.random() < 0.3:
            return ["not", self.condition(depth - 1)]
        return [self.one_of(["and", "or"]), self.condition(depth - 1), self.condition(depth - 1)]

    def block(self, depth, most=3):
        return [self.statement(depth - 1) for _ in range(self.random.randrange(most + 1))]

    def statement(self, depth):
        match self.random.randrange(9 if depth > 0 else 5):
            case 0:
                return ["set", self.random.randrange(16), self.expression(4)]
            case 1:
                return ["put", self.expression(3), self.expression(3), self.one_of(COUNTS)]
            case 2:
                return ["del", self.expression(3)]
            case 3:
                return ["emit", self.expression(4)]
            case 4:
                return ["abort", self.expression(2)]
            case 5:
                return ["for", self.random.randrange(16), self.expression(2), self.random.randrange(1001), self.block(depth)]
        no = [self.statement(1)] if self.random.random() < 0.4 else self.block(depth)
        return ["if", self.condition(3), self.block(depth), no]

    def program(self):
        keys = self.random.sample(KEYS, self.random.randrange(1, 4))
        return ([["prefetch", keys]] if self.random.random() < 0.2 else []) + self.block(4, 4)

    def compare(self):
        target = self.one_of(["version", "create", "mod", "lease", "value"])
        side = self.one_of(KEYS + [""]) if target == "value" else self.one_of(COUNTS)
        return [target, self.one_of(KEYS + [""]), self.one_of(["=", "!=", "<", ">"]), side]

    def operation(self):
        match self.random.randrange(3):
            case 0:
                return ["get", self.one_of(KEYS), self.one_of(COUNTS)]
            case 1:
                return ["put", self.one_of(KEYS), self.one_of(KEYS + [""]), self.one_of(COUNTS)]
        return ["del", self.one_of(KEYS + [""])]

    def some(self, make, most=3):
        return [make() for _ in range(self.random.randrange(most + 1))]

    def event(self):
        number = self.one_of(COUNTS)
        match self.random.randrange(11):
            case 0 | 1:
                return [["start", self.one_of(LEVELS), self.one_of([0, 1, 2, 4294967295]), self.program()]]
            case 2:
                return [["step", self.one_of([1, 2, 3, number])] for _ in range(self.random.randrange(40))]
            case 3:
                return [["txn", self.some(self.compare), self.some(self.operation), self.some(self.operation)]]
            case 4:
                return [["watch_key", self.one_of(KEYS), number]]
            case 5:
                return [["watch_range", self.one_of(KEYS), self.one_of(KEYS + [""]), number]]
            case 6:
                return [[self.one_of(["grant", "poll"]), number, self.one_of(COUNTS)]]
        return [[self.one_of(["keep", "revoke", "advance", "cancel", "compact"]), number]]

    def scenario(self):
        begins = self.one_of([[], [], [["begin", 5]], [["begin", 2**63 - 2, self.random.randrange(1, 128)]]])
        return begins + [it for _ in range(self.random.randrange(6)) for it in self.event()]


def scenario(seed):
    return Maker(seed).scenario()


def program(seed):
    return Maker(seed).program()

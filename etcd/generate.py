"""Random scenarios that a real etcd can be driven to: programs at all four levels that conflict, other clients' transactions, leases and watchers."""

LEVELS = ["SerializableSnapshot", "Serializable", "RepeatableReads", "ReadCommitted"]
KEYS = ["a", "b", "c", "s/1", "s/2", "\u00e9"]
COUNTED = "n/"  # the keys n/0, n/1, .. are those that a loop computes
LEASES = [1, 2, 3, 9223372036854775807]
# How often each kind of event is drawn, by the theme of a scenario.
THEMES = [
    {"start": 3, "step": 14, "txn": 5},
    {"start": 3, "step": 12, "txn": 2, "grant": 2, "keep": 1, "revoke": 1, "advance": 2},
    {"start": 1, "step": 4, "txn": 5, "watch": 2, "poll": 4, "cancel": 0.3},
    {"txn": 8, "grant": 2, "revoke": 1, "advance": 1, "watch": 1, "poll": 2},
    {"start": 3, "step": 12, "txn": 4, "watch": 1, "poll": 2, "compact": 1.5},
    {"txn": 6, "watch": 2, "poll": 3, "compact": 1.5, "grant": 0.5},
    {"start": 2, "step": 9, "txn": 2, "grant": 1, "keep": 0.5, "revoke": 0.5, "advance": 1, "watch": 0.7, "poll": 2, "cancel": 0.2},
]


class Programs:
    """Draws programs. Where they are strict, none asks for the revision of a key that it writes; else many do."""

    def __init__(self, draw, strict):
        self.draw = draw
        keys = KEYS[: draw.choice([2, 3, 3, 4, len(KEYS)])]
        self.strict = strict
        self.asked = self.written = self.read = keys
        if strict:
            cut = draw.randint(1, len(keys) - 1)
            self.asked, self.written = keys[:cut], keys[cut:]

    def program(self):
        return self.block(self.draw.randint(2, 6), 0)

    def block(self, length, depth):
        statements = []
        for _ in range(length):
            statements.append(self.statement(depth))
            if not self.strict and statements[-1][0] in ("put", "del") and self.draw.random() < 0.3:
                statements.append(["emit", ["rev", statements[-1][1]]])
        return statements

    def statement(self, depth):
        draw = self.draw
        word = draw.choice(["set", "put", "put", "put", "put", "del", "emit", "emit", "if", "if", "for", "abort"])
        if word == "set":
            return ["set", draw.randint(0, 2), self.expression(depth)]
        if word == "put":
            return ["put", self.written_key(), self.content(depth), draw.choice(LEASES) if draw.random() < 0.15 else 0]
        if word == "del":
            return ["del", self.written_key()]
        if word == "emit":
            return ["emit", self.expression(depth)]
        if word == "abort" or depth > 1:
            return ["abort", "stopped"] if draw.random() < 0.15 else ["emit", self.expression(depth)]
        if word == "if":
            return ["if", self.condition(depth), self.block(draw.randint(0, 2), depth + 1), self.block(draw.randint(0, 2), depth + 1)]
        return self.loop()

    def loop(self):
        """A loop over counted keys; now and then it is longer than a commit may be."""
        turns = 130 if self.draw.random() < 0.03 else self.draw.randint(0, 3)
        key = ["cat", COUNTED, ["text_of", ["var", 3]]]
        body = [["put", key, ["text_of", ["var", 3]], 0]]
        if turns < 4 and self.draw.random() < 0.5:
            body.insert(0, ["emit", ["get", key]])
        return ["for", 3, turns, 200, body]

    def written_key(self):
        return self.draw.choice(self.written) if self.draw.random() > 0.01 else ""

    def content(self, depth):
        """A text: mostly the number of a key and something."""
        if self.draw.random() < 0.3:
            return str(self.draw.randint(0, 9))
        return ["text_of", ["add", self.number(depth), self.draw.randint(-2, 5)]]

    def number(self, depth):
        draw = self.draw
        kind = draw.random()
        if kind < 0.25 or depth > 3:
            return draw.randint(-3, 9)
        if kind < 0.45:
            return ["rev", draw.choice(self.asked)]
        if kind < 0.55:
            return ["var", draw.randint(0, 3)]
        if kind < 0.65:
            return [draw.choice(["add", "sub", "mul", "div", "rem"]), self.number(depth + 1), self.number(depth + 1)]
        return ["num_of", ["cat", "0", ["get", draw.choice(self.read)]]]

    def expression(self, depth):
        kind = self.draw.random()
        if kind < 0.5:
            return ["get", self.draw.choice(self.read)]
        if kind < 0.9:
            return self.number(depth)
        return ["cat", ["get", self.draw.choice(self.read)], self.draw.choice(["", "x", 1])]

    def condition(self, depth):
        kind = self.draw.random()
        if kind < 0.4:
            return ["less", self.number(depth), self.number(depth)]
        if kind < 0.7:
            return ["eq", ["rev", self.draw.choice(self.asked)], self.draw.choice([0, 0, 2, 3])]
        if kind < 0.8:
            return ["eq", ["get", self.draw.choice(self.read)], ""]
        if kind < 0.9:
            return ["not", self.condition(depth)]
        return [self.draw.choice(["and", "or"]), self.condition(depth), self.condition(depth)]


class Scenarios:
    """Draws one scenario."""

    def __init__(self, draw, strict):
        self.draw = draw
        self.programs = Programs(draw, strict)
        self.weights = draw.choice(THEMES)
        self.watchers = self.moment = self.base = 0
        self.left = []  # how many steps are left to each runner
        self.events = []

    def scenario(self):
        draw = self.draw
        if draw.random() < 0.15:
            self.base = draw.choice([1, 3, 4, draw.randint(5, 60)])
            self.events.append(["begin", self.base])
            if draw.random() < 0.5:
                self.events[0].append(draw.choice([3, 4, 5, 8, 128]))
        self.events.append(["txn", [], [["put", key, str(draw.randint(0, 9)), 0] for key in draw.sample(KEYS, 3)], []])
        kinds, weights = list(self.weights), list(self.weights.values())
        for kind in draw.choices(kinds, weights, k=draw.randint(15, 60)):
            self.events.append(getattr(self, kind)())
        while any(self.left):
            self.events.append(self.step() if draw.random() < 0.85 else self.txn())
        self.events += [["poll", watcher, 1000] for watcher in range(1, self.watchers + 1)]
        return self.events

    def start(self):
        """A start; a program is often given to several runners, so that they conflict."""
        draw = self.draw
        limit = 0 if draw.random() < 0.02 else draw.randint(1, 4)
        if limit > 0:
            self.left.append(draw.randint(2, 3 + limit))
        if not hasattr(self, "last") or draw.random() < 0.6:
            self.last = self.programs.program()
        return ["start", draw.choice(LEVELS), limit, self.list() + self.last]

    def list(self):
        """A list of keys that a program may begin with."""
        if self.draw.random() < 0.65:
            return []
        keys = KEYS + [COUNTED + "0"]
        return [["prefetch", self.draw.sample(keys, self.draw.randint(0, 4))]]

    def compact(self):
        """A compaction, mostly near the revision that the store may be at."""
        return ["compact", max(1, self.base + self.draw.randint(len(self.events) // 4, len(self.events) // 2 + 2))]

    def step(self):
        """A step of a runner that has some left, now and then of any number; a start where none has."""
        standing = [i for i, left in enumerate(self.left) if left > 0][:4]
        if self.draw.random() < 0.02:
            return ["step", self.draw.randint(1, len(self.left) + 1)]
        if not standing:
            return self.start()
        runner = self.draw.choice(standing)
        self.left[runner] -= 1
        return ["step", runner + 1]

    def txn(self):
        draw = self.draw
        compares = [self.compare() for _ in range(draw.choice([0, 0, 0, 1, 2]))]
        return ["txn", compares, self.operations(), self.operations() if draw.random() < 0.5 else []]

    def compare(self):
        draw = self.draw
        what = draw.choice(["version", "create", "mod", "lease", "value"])
        operand = str(draw.randint(0, 9)) if what == "value" else draw.randint(0, 6)
        return [what, self.key(), draw.choice(["=", "!=", ">", "<"]), operand]

    def key(self):
        return self.draw.choice(self.programs.read) if self.draw.random() > 0.01 else ""

    def operations(self):
        return [self.operation() for _ in range(self.draw.choice([0, 1, 1, 1, 2, 3]))]

    def operation(self):
        draw = self.draw
        kind = draw.random()
        if kind < 0.6:
            return ["put", self.key(), str(draw.randint(0, 9)), draw.choice(LEASES) if draw.random() < 0.25 else 0]
        if kind < 0.8:
            return ["del", self.key()]
        return ["get", self.key(), draw.choice([0, 0, 1, 2, draw.randint(1, 60)])]

    def grant(self):
        return ["grant", self.draw.choice(LEASES), self.draw.randint(1, 30)]

    def keep(self):
        return ["keep", self.draw.choice(LEASES)]

    def revoke(self):
        return ["revoke", self.draw.choice(LEASES)]

    def advance(self):
        self.moment = max(0, self.moment + self.draw.randint(-1, 12))
        return ["advance", self.moment]

    def watch(self):
        draw = self.draw
        self.watchers += 1
        start = draw.choice([0, 0, 1, 2, draw.randint(1, 20)])
        if draw.random() < 0.5:
            return ["watch_key", draw.choice(KEYS), start]
        return ["watch_range", *draw.choice([("a", "c"), ("a", "z"), ("s/", "s0"), ("n/", "n0"), ("\u00e9", "\u00ea")]), start]

    def poll(self):
        """A poll, now and then of a watcher that is not there; a watch where there is none yet."""
        if not self.watchers:
            return self.watch()
        return ["poll", self.draw.randint(1, self.watchers + (self.draw.random() < 0.1)), self.draw.choice([0, 1, 1, 2, 100])]

    def cancel(self):
        return ["cancel", self.draw.randint(1, self.watchers + 1)]


def scenario(draw, strict):
    """Draws a scenario, as a list of events."""
    return Scenarios(draw, strict).scenario()

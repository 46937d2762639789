"""Random sources: programs and rules of the whole language, each start stepped to its end before the next."""
import json
import random

TEXT, NUMBER = "text", "number"
KEYS = ["a", "b", "c", "d", "e/1"]
TEXTS = ["", "0", "1", "7", "12", "x", "-3", "a b", "é\n", "\"q\""]
NAMES = ["n", "m", "total", "held", "left", "right", "max", "at", "start", "value", "x_1", "end"]
LEVELS = ["SerializableSnapshot", "Serializable", "RepeatableReads", "ReadCommitted"]
LEASE = 7
# what is defined before all else, and the events before the first start
FIRST = ["let lease = 7", "let gate = \"g\"", "let times = 2", "grant lease ttl 100000", 'txn { put("a", "3") put("b", "x") put("c", "12", lease) }']
CONSTANTS = [("lease", "number"), ("gate", "text"), ("times", "number")]
STEPS = 60


def quoted(text):
    return json.dumps(text, ensure_ascii=False)


class Scope:
    """What is in sight of a statement."""

    def __init__(self, maker, variables=(), parameters=(), lists=(), loops=()):
        self.maker = maker
        self.variables = list(variables)  # (name, kind)
        self.parameters = list(parameters)  # (name, kind)
        self.lists = list(lists)  # (name, kind)
        self.loops = list(loops)
        # parameters that stand for a key, and for a number of turns
        self.slots, self.counts = [], []

    def inner(self, loop=None):
        loops = [*self.loops, loop] if loop else self.loops
        inner = Scope(self.maker, self.variables, self.parameters, self.lists, loops)
        inner.slots, inner.counts = self.slots, self.counts
        return inner

    def taken(self):
        return {name for name, _ in self.variables + self.parameters + self.lists} | set(self.maker.taken)

    def fresh(self):
        free = [it for it in NAMES if it not in self.taken()]
        return self.maker.random.choice(free) if free and len(self.variables) < 12 else None


class Maker:
    """Makes one source. `numbered` says that the program has the variables v0 to v15, `mixes` that values may have another kind than is wanted, and
    `asks` that it may ask how runners ended."""

    def __init__(self, seed):
        self.random = random.Random(seed)
        self.taken, self.definitions, self.constants, self.lists = [name for name, _ in CONSTANTS], [], list(CONSTANTS), []
        self.numbered = self.mixes = self.asks = False
        self.runners = []
        self.lines = list(FIRST)

    def chance(self, percent):
        return self.random.random() * 100 < percent

    # ---- values

    def value(self, kind, scope, depth, may_else):
        if self.mixes and self.chance(4):
            kind = NUMBER if kind == TEXT else TEXT
        if depth <= 0 or self.chance(25):
            return self.leaf(kind, scope)
        return self.text(scope, depth - 1, may_else) if kind == TEXT else self.number(scope, depth - 1, may_else)

    def leaf(self, kind, scope):
        names = [name for name, its in scope.variables + scope.parameters + self.constants if its == kind]
        if names and self.chance(60):
            return self.random.choice(names)
        if kind == TEXT:
            return quoted(self.random.choice(TEXTS))
        return str(self.random.choice([0, 1, 2, 3, 5, 10, -1, -4, 1000] if self.chance(97) else [2**63 - 1, -(2**63)]))

    def key(self, scope, depth, may_else):
        if depth > 0 and self.chance(20):
            return f'"e/" ++ {self.operand(TEXT, scope, depth - 1, may_else)}'
        if self.chance(10):
            return self.random.choice(["gate", *scope.slots])
        return quoted(self.random.choice(KEYS))

    def operand(self, kind, scope, depth, may_else):
        value = self.value(kind, scope, depth, may_else)
        return f"({value})" if " " in value and not value.startswith('"') or self.chance(10) else self.single(value)

    @staticmethod
    def single(value):
        """A text with a space in it is one operand; anything else with one may be several."""
        try:
            json.loads(value)
            return value
        except ValueError:
            return f"({value})" if " " in value else value

    def look_up(self, scope, depth, may_else):
        if self.asks and self.chance(40):
            return self.random.choice(["end({})", "why({})", "out({}, 0)"]).format(self.random.choice(self.runners))
        key = self.key(scope, depth, may_else)
        if may_else and self.chance(60):
            other = quoted(self.random.choice(TEXTS[1:5])) if self.chance(75) else self.operand(TEXT, scope, depth - 1, True)
            return f"get({key}) else {other}"
        return f"get({key})"

    def text(self, scope, depth, may_else):
        match self.random.randrange(6):
            case 0 | 1:
                return self.look_up(scope, depth, may_else)
            case 2 | 3:
                left = self.value(TEXT, scope, depth, may_else)
                return f"{self.in_brackets(left)} ++ {self.operand(TEXT, scope, depth, may_else)}"
            case 4:
                return f"text_of({self.value(NUMBER, scope, depth, may_else)})"
        return self.use(TEXT, scope, depth, may_else)

    def in_brackets(self, left):
        return self.single(left) if self.chance(50) else left

    def number(self, scope, depth, may_else):
        match self.random.randrange(8):
            case 0:
                return f"rev({self.key(scope, depth, may_else)})"
            case 1 | 2:
                return f"num_of({self.numeral(scope, depth, may_else)})"
            case 3 | 4 | 5:
                return self.arithmetic(scope, depth, may_else)
            case 6:
                return f"{self.operand(NUMBER, scope, depth, may_else)} {self.random.choice('/%')} {self.random.choice([2, 3, -2])}"
        return self.use(NUMBER, scope, depth, may_else)

    def numeral(self, scope, depth, may_else):
        """A text that is often a number."""
        if may_else and self.chance(80):
            return f'get({self.key(scope, depth, may_else)}) else "0"'
        if self.chance(60):
            return f"text_of({self.value(NUMBER, scope, depth, may_else)})"
        return self.value(TEXT, scope, depth, may_else)

    def arithmetic(self, scope, depth, may_else):
        sign = self.random.choice(["+", "-", "*"])
        left = self.operand(NUMBER, scope, depth, may_else)
        return f"{left} {sign} {self.operand(NUMBER, scope, depth, may_else)}"

    def use(self, kind, scope, depth, may_else):
        fits = [it for it in self.definitions if it[2] == kind and (may_else or not it[3])]
        if not fits:
            return self.leaf(kind, scope)
        name, kinds, _, _ = self.random.choice(fits)
        if not kinds:
            return name
        return f"{name}({', '.join(self.value(it, scope, depth, may_else) for it in kinds)})"

    # ---- conditions

    def comparison(self, scope, depth, may_else):
        kind = self.random.choice([TEXT, NUMBER])
        left = self.value(kind, scope, depth, may_else)
        return f"{left} {self.random.choice(['==', '!=', '<', '<=', '>', '>='])} {self.value(kind, scope, depth, may_else)}"

    def condition(self, scope, depth, may_else=True):
        may_else = may_else and not self.numbered
        if depth <= 0 or self.chance(55):
            return self.comparison(scope, depth, may_else)
        match self.random.randrange(4):
            case 0:
                return f"!({self.condition(scope, depth - 1, may_else)})"
            case 1:
                return f"({self.condition(scope, depth - 1, may_else)})"
        left = self.condition(scope, depth - 1, may_else)
        return f"{left} {self.random.choice(['&&', '||'])} {self.condition(scope, depth - 1, False)}"

    # ---- statements

    def block(self, scope, depth, size):
        """Returns the text of a block, and how it ends."""
        scope, parts, end = scope, [], None
        for _ in range(self.random.randrange(size + 1)):
            part, end = self.statement(scope, depth)
            if part is None:
                continue
            parts.append(part + (";" if self.chance(15) else ""))
            if end == "leaves" or end == "aborts" and self.chance(90):
                break
        return "{ " + " ".join(parts) + " }", end

    def statement(self, scope, depth):
        may_else = not self.numbered
        match self.random.randrange(22):
            case 0 | 1 | 2 | 3:
                return self.let(scope, may_else), None
            case 4 | 5:
                return self.assignment(scope, may_else), None
            case 6 | 7 | 8:
                return f"put({self.key(scope, 2, may_else)}, {self.value(TEXT, scope, 2, may_else)}{self.lease(scope)})", None
            case 9:
                return f"del({self.key(scope, 1, may_else)})", None
            case 10 | 11 | 12:
                return f"emit({self.value(self.random.choice([TEXT, NUMBER]), scope, 3, may_else)})", None
            case 13 | 14 | 15:
                return self.choice(scope, depth) if depth > 0 else (None, None)
            case 16:
                return (self.count(scope, depth), None) if depth > 0 else (None, None)
            case 17 | 20:
                return (self.copies(scope, depth), None) if depth > 0 else (None, None)
            case 18 if depth < 3 or self.chance(10):
                return self.leave(scope)
            case 19 | 21 if depth > 0:
                return self.guard(scope, depth), None
        return None, None

    def guard(self, scope, depth):
        """A block that is left where a condition holds."""
        inner = scope.inner()
        block, end = self.block(inner, depth - 1, 1)
        left = "" if end else self.leave(inner)[0] + " "
        return f"if {self.condition(scope, 2)} {block[:-1]}{left}}}"

    def lease(self, scope):
        if not self.chance(20):
            return ""
        return f", {self.random.choice(['0', str(LEASE), 'lease'])}"

    def let(self, scope, may_else):
        if self.numbered:
            return self.assignment(scope, may_else)
        name = scope.fresh()
        if name is None:
            return None
        kind = self.random.choice([TEXT, NUMBER])
        line = f"let {name} = {self.value(kind, scope, 3, may_else)}"
        scope.variables.append((name, kind))
        return line

    def assignment(self, scope, may_else):
        if self.numbered:
            name, _ = self.random.choice(scope.variables)
            return f"{name} = {self.value(NUMBER, scope, 2, False)}"
        if not scope.variables:
            return None
        name, kind = self.random.choice(scope.variables)
        sign = self.random.choice(["=", "+=", "-="] if kind == NUMBER else ["=", "++="])
        return f"{name} {sign} {self.value(kind, scope, 2, may_else)}"

    def choice(self, scope, depth):
        line = f"if {self.condition(scope, 2)} "
        block, end = self.block(scope.inner(), depth - 1, 3)
        if block == "{  }":
            end = None
        line += block
        if not self.chance(50):
            return line, None
        if self.chance(30):
            other, other_end = self.choice(scope.inner(), depth - 1)
        else:
            other, other_end = self.block(scope.inner(), depth - 1, 3)
            if other == "{  }":
                other_end = None
        ends = {end, other_end}
        joined = None if None in ends else "aborts" if ends == {"aborts"} else "leaves"
        return f"{line} else {other}", joined

    def count(self, scope, depth):
        inner = scope.inner("count")
        name = f"v{self.random.randrange(16)}" if self.numbered else scope.fresh()
        if name is None:
            return None
        count = self.random.choice(["0", "1", "3", "2", "times", *scope.counts])
        if self.chance(40):
            count = f"{self.value(NUMBER, scope, 2, not self.numbered)} max {self.random.choice([3, 5, 1000])}"
        inner.variables.append((name, NUMBER))
        if self.numbered:
            inner.variables = [it for it in inner.variables if it[0] != name] + [(name, NUMBER)]
        block, _ = self.block(inner, depth - 1, 3)
        return f"for {name} in 0..{count} {block}"

    def copies(self, scope, depth):
        inner = scope.inner("copies")
        name = scope.fresh()
        if name is None:
            return None
        kind = self.random.choice([TEXT, NUMBER])
        items = []
        for _ in range(self.random.randrange(1, 4)):
            lists = [it for it, its in scope.lists + self.lists if its == kind]
            items.append(self.random.choice(lists) if lists and self.chance(35) else self.leaf_item(kind, scope))
        inner.parameters.append((name, kind))
        block, _ = self.block(inner, depth - 1, 3)
        return f"for {name} in {', '.join(items)} {block}"

    def leaf_item(self, kind, scope):
        names = [name for name, its in scope.parameters + self.constants if its == kind]
        if names and self.chance(40):
            return self.random.choice(names)
        return quoted(self.random.choice(TEXTS)) if kind == TEXT else str(self.random.choice([0, 1, 4, -2]))

    def leave(self, scope):
        loops = scope.loops
        words = ["continue"] * 2 if loops else []
        if "count" not in loops:
            words.append("return")
        if loops and loops[-1] == "copies":
            words += ["break"] * 3
        if self.chance(20) or not words:
            return f"abort({self.value(TEXT, scope, 1, not self.numbered)})", "aborts"
        return self.random.choice(words), "leaves"

    # ---- definitions and programs

    def define(self):
        name = f"f{len(self.taken)}"
        scope = Scope(self)
        match self.random.randrange(4):
            case 0:
                kind = self.random.choice([TEXT, NUMBER])
                line = f"let {name} = {self.leaf_item(kind, scope)}"
                self.constants.append((name, kind))
            case 1:
                kind = self.random.choice([TEXT, NUMBER])
                items = [self.leaf_item(kind, scope) for _ in range(self.random.randrange(2, 5))]
                line = f"let {name} = {', '.join(items)}"
                self.lists.append((name, kind))
            case _:
                kinds = [self.random.choice([TEXT, NUMBER]) for _ in range(self.random.randrange(3))]
                scope.parameters = [(f"p{i}", kind) for i, kind in enumerate(kinds)]
                kind, has_else = self.random.choice([TEXT, NUMBER]), self.chance(50)
                value = self.value(kind, scope, 2, has_else)
                if not kinds and " " not in value:
                    value = f'get("a") ++ {value}' if kind == TEXT else f'rev("b") + {value}'
                line = f"let {name}{'(' + ', '.join(it for it, _ in scope.parameters) + ')' if kinds else ''} = {value}"
                has_else = "else" in value or any(it[3] and it[0] in value for it in self.definitions)
                self.definitions.append((name, kinds, kind, has_else))
        self.taken.append(name)
        self.lines.append(line)

    def program(self, number):
        """Adds a program, and its start."""
        self.numbered = self.chance(10)
        scope = Scope(self)
        scope.parameters = [(f"q{i}", self.random.choice([TEXT, NUMBER])) for i in range(self.random.randrange(4))]
        arguments = [self.argument(kind) for _, kind in scope.parameters]
        if self.chance(25):
            scope.slots = ["slot"]
            scope.parameters.append(("slot", TEXT))
            arguments.append(quoted(self.random.choice(["s/1", "s/2"])))
        if self.chance(25):
            scope.counts = ["turns"]
            scope.parameters.append(("turns", NUMBER))
            arguments.append(str(self.random.randrange(4)))
        parameters = ", ".join(name for name, _ in scope.parameters)
        if self.chance(30):
            kind = self.random.choice([TEXT, NUMBER])
            scope.lists.append(("rest", kind))
            parameters += (", " if parameters else "") + "rest.."
            arguments += [self.argument(kind) for _ in range(self.random.randrange(4))]
        self.lines.append(f"program t{number}({parameters}) {self.body(scope)}")
        self.start(f"t{number}({', '.join(arguments)})", number)
        if self.chance(10):
            self.lines.append(f"rule again{number}{self.weakest()} = t{number}({', '.join(arguments)})")

    def body(self, scope):
        """Returns the body of a program."""
        if self.numbered:
            scope.variables = [(f"v{i}", NUMBER) for i in self.random.sample(range(16), 4)]
        block, _ = self.block(scope, 3, 7)
        if not self.chance(15):
            return block
        keys = [quoted(it) for it in self.random.sample(KEYS, self.random.randrange(1, 4))]
        keys += [it for it in ["gate", *scope.slots] if self.chance(30)]
        return block.replace("{", "{ prefetch(" + ", ".join(keys) + ")", 1)

    def in_place(self, number):
        """Adds a start that has its program in place, whose kinds are not looked at."""
        self.numbered, self.mixes = self.chance(40), self.chance(50)
        self.start(self.body(Scope(self)), number)
        self.mixes = False

    def start(self, program, number):
        """Adds a start, of one runner or of two, and its steps."""
        names = [f"r{number}", f"s{number}"][: 2 if self.chance(10) else 1]
        runners = names
        options = [f"at {self.random.choice(LEVELS)}"] if self.chance(80) else []
        if len(names) == 2 or self.chance(70):
            options.append("as " + ", ".join(names))
        else:
            runners = [str(len(self.runners) + 1)]
        if self.chance(20):
            options.append(f"limit {self.random.randrange(1, 4)}")
        self.random.shuffle(options)
        self.lines.append(" ".join(["start", program, *options]))
        self.lines.append("step " + " ".join(f"{it}*{STEPS}" for it in runners))
        self.runners += runners

    def weakest(self):
        return f" from {self.random.choice(LEVELS)}" if self.chance(30) else ""

    def rule(self, number):
        """Adds a rule, or a final, which may ask how the runners ended."""
        self.numbered, self.asks = False, self.chance(50)
        word = "finally" if self.asks else "rule"
        self.lines.append(f"{word} asked{number}{self.weakest()} {self.body(Scope(self))}")
        self.asks = False

    def argument(self, kind):
        if kind == TEXT:
            return quoted(self.random.choice(TEXTS))
        return str(self.random.choice([0, 1, 2, 5, -3, 1000]))

    # ---- the text

    def whole_text(self):
        """Returns the text, in which comments stand and lines are broken here and there."""
        found = ""
        for line in self.lines:
            if self.chance(20):
                line = line.replace("{ ", "{\n\t")
            found += line + (self.random.choice([" // a comment, \"{\n", "\r\n", "\n\n"]) if self.chance(15) else "\n")
        return found + "// without an end" if self.chance(10) else found


def source(seed, programs=1):
    """Returns a source of so many programs, each run to its end before the next one starts."""
    maker = Maker(seed)
    for number in range(programs):
        while maker.chance(50):
            maker.define()
        if maker.chance(15):
            maker.in_place(number)
        else:
            maker.program(number)
    if maker.chance(25):
        maker.rule(programs)
    return maker.whole_text()

"""A plain interpreter of a source's statements. It knows nothing of the programs that they stand for."""
import re
import sys
from dataclasses import dataclass, field

from kinds import given_by, items_of
from tree import (
    Assignment, Called, Choice, Comparison, Connective, Copies, Count, Leave, Literal, LookUp, Named, Negation, Operation, Put, Simple,
    Use, Variable,
)

LEAST, MOST = -(2**63), 2**63 - 1
MOST_TEXT = 65536
MOST_TURNS = 10000
NUMBER = re.compile(r"-?[0-9]+")
# A text of 65536 digits is read, too.
sys.set_int_max_str_digits(0)


class Left(Exception):
    """A statement was left: by return, break or continue."""

    def __init__(self, word):
        super().__init__(word)
        self.word = word


class Aborted(Exception):
    pass


class Faulted(Exception):
    """A run came to a fault. `at` is where the statement begins that it came to it in."""
    at = None


@dataclass
class Run:
    """What a run came to: how it ended, and what it read, wrote and put out until then."""
    end: str = "done"
    text: str = ""
    at: int | None = None
    fetched: list = field(default_factory=list)
    written: dict = field(default_factory=dict)
    output: list = field(default_factory=list)


class Interpreter:
    """Runs one program over the values of a store, each with the revision of its last change, and its lease."""

    def __init__(self, program, arguments, store):
        self.store, self.run = store, Run()
        self.given = given_by(program, arguments)
        self.variables, self.turns, self.bound = {}, 0, {}
        self.program = program

    # ---- values

    def fetch(self, key):
        if not isinstance(key, str):
            raise Faulted("Kind")
        if not key:
            raise Faulted("EmptyKey")
        if key not in self.run.fetched:
            self.run.fetched.append(key)
        return self.store.get(key, ("", 0, 0))

    def get(self, key):
        if isinstance(key, str) and key in self.run.written:
            return (self.run.written[key] or [""])[0]
        return self.fetch(key)[0]

    def named(self, binding):
        if isinstance(binding, int | Variable):
            return self.variables.get(binding, 0)
        for names in (self.bound, self.given):
            if binding in names:
                found = names[binding]
                return self.value(found) if not callable(found) else found()
        raise KeyError(binding.name)

    def use(self, node):
        """The value of a definition: an argument is evaluated where it is named, with the names of its place."""
        outer = self.bound

        def argument(node):
            def value():
                kept, self.bound = self.bound, outer
                try:
                    return self.value(node)
                finally:
                    self.bound = kept

            return value

        self.bound = {it: argument(value) for it, value in zip(node.definition.parameters, node.arguments)}
        try:
            return self.value(node.definition.value)
        finally:
            self.bound = outer

    def value(self, node):
        match node:
            case Literal():
                return node.value
            case Named():
                return self.named(node.binding)
            case Use():
                return self.use(node)
            case LookUp():
                key = self.value(node.key)
                if node.word == "rev":
                    return self.fetch(key)[1]
                found = self.get(key)
                return self.value(node.other) if found == "" and node.other is not None else found
            case Called():
                return self.called(node.word, self.value(node.value))
            case Operation():
                return operated(node.sign, self.value(node.left), self.value(node.right))
        raise TypeError(node)

    @staticmethod
    def called(word, value):
        if isinstance(value, str) != (word == "num_of"):
            raise Faulted("Kind")
        if word == "text_of":
            return str(value)
        if not NUMBER.fullmatch(value) or not LEAST <= int(value) <= MOST:
            raise Faulted("NotANumber")
        return int(value)

    def holds(self, node):
        match node:
            case Negation():
                return not self.holds(node.condition)
            case Connective(sign="&&"):
                return self.holds(node.left) and self.holds(node.right)
            case Connective():
                return self.holds(node.left) or self.holds(node.right)
            case Comparison():
                return compared(node.sign, self.value(node.left), self.value(node.right))
        raise TypeError(node)

    # ---- statements

    def statements(self, statements):
        for it in statements:
            try:
                self.statement(it)
            except Faulted as faulted:
                faulted.at = it.at if faulted.at is None else faulted.at
                raise

    def statement(self, node):
        match node:
            case Assignment():
                value = self.value(node.value) if node.sign == "=" else self.changed(node)
                self.variables[node.binding] = value
            case Put():
                key, value = self.value(node.key), self.value(node.value)
                if not isinstance(key, str) or not isinstance(value, str):
                    raise Faulted("Kind")
                self.write(key, (value, self.value(node.lease) if node.lease is not None else 0))
            case Simple():
                self.simple(node.word, self.value(node.value))
            case Choice():
                self.statements(node.yes if self.holds(node.condition) else node.no or [])
            case Count():
                self.count(node)
            case Copies():
                self.copies(node)
            case Leave():
                raise Left(node.word)

    def changed(self, node):
        before = self.variables.get(node.binding, 0)
        return operated(node.sign[:-1], before, self.value(node.value))

    def write(self, key, value):
        if not key:
            raise Faulted("EmptyKey")
        self.run.written.pop(key, None)
        self.run.written[key] = value

    def simple(self, word, value):
        if word == "emit":
            self.run.output.append(value)
            return
        if not isinstance(value, str):
            raise Faulted("Kind")
        if word == "abort":
            raise Aborted(value)
        self.write(value, None)

    def count(self, node):
        count = self.value(node.count)
        if not isinstance(count, int):
            raise Faulted("Kind")
        most = self.value(node.most) if node.most is not None else count
        if count > most:
            raise Faulted("LoopTooLong")
        for turn in range(count):
            self.turns += 1
            if self.turns > MOST_TURNS:
                raise Faulted("TurnLimit")
            self.variables[node.binding] = turn
            try:
                self.statements(node.body)
            except Left as left:
                if left.word != "continue":
                    raise

    def copies(self, node):
        kept = self.given.get(node.parameter)
        for item in items_of(node.items, self.given):
            value = self.value(item)
            self.given[node.parameter] = lambda value=value: value
            try:
                self.statements(node.body)
            except Left as left:
                if left.word == "break":
                    break
                if left.word == "return":
                    raise
        self.given[node.parameter] = kept

    def all(self):
        for key in self.program.body.keys:
            self.run.fetched.append(self.value(key))
        try:
            self.statements(self.program.body.statements)
        except Left:
            pass
        except Aborted as aborted:
            self.run.end, self.run.text = "aborted", aborted.args[0]
        except Faulted as faulted:
            self.run.end, self.run.text, self.run.at = "faulted", faulted.args[0], faulted.at
        return self.run


def operated(sign, left, right):
    if sign == "++":
        if not isinstance(left, str) or not isinstance(right, str):
            raise Faulted("Kind")
        if len((left + right).encode()) > MOST_TEXT:
            raise Faulted("TextTooLong")
        return left + right
    if not isinstance(left, int) or not isinstance(right, int):
        raise Faulted("Kind")
    if sign in "/%" and right == 0:
        raise Faulted("ZeroDivisor")
    if sign in "/%" and (left, right) == (LEAST, -1):
        raise Faulted("Overflow")
    match sign:
        case "+":
            result = left + right
        case "-":
            result = left - right
        case "*":
            result = left * right
        case _:
            quotient = abs(left) // abs(right) * (1 if (left < 0) == (right < 0) else -1)
            result = quotient if sign == "/" else left - quotient * right
    if not LEAST <= result <= MOST:
        raise Faulted("Overflow")
    return result


def compared(sign, left, right):
    if isinstance(left, str) != isinstance(right, str):
        raise Faulted("Kind")
    if isinstance(left, str):
        left, right = left.encode(), right.encode()
    return {"==": left == right, "!=": left != right, "<": left < right, "<=": left <= right, ">": left > right, ">=": left >= right}[sign]


def run(program, arguments, store):
    """Runs a program with these arguments over a store: each key with its value, the revision of its last change, and its lease."""
    return Interpreter(program, arguments, store).all()

"""Reading values and conditions."""
from contextlib import contextmanager

from cursor import Cursor, is_numbered
from kinds import KindFault, check_value, kind_of
from tokens import KEYWORDS, Fault
from tree import (
    NUMBER, TEXT, Called, Comparison, Connective, Definition, Literal, LookUp, Named, Negation, Operation, Parameter, Use, Variable,
)

COMPARISONS = ("==", "!=", "<", "<=", ">", ">=")
MOST_TEXT = 65536
MOST_VARIABLES = 16


class Values(Cursor):
    # ---- values

    def want(self, node, kind):
        """Refuses a value of another kind, where kinds are looked at."""
        if self.looks_at_kinds and kind_of(node, {}) not in (None, kind):
            raise Fault(node.at, "Kind")

    def sum(self):
        """Takes a value."""
        return self.joined(None)

    def joined(self, first, rank=0):
        """Takes a value whose first operand was taken already, or was not: operators of this rank and above."""
        signs = (("++",), ("+", "-"), ("*", "/", "%"))[rank]
        kind = TEXT if rank == 0 else NUMBER
        left = self.joined(first, rank + 1) if rank < 2 else first or self.operand()
        while self.token.is_sign(*signs):
            self.want(left, kind)
            sign = self.take().value
            right = self.joined(None, rank + 1) if rank < 2 else self.operand()
            self.want(right, kind)
            left = Operation(left.at, sign, left, right)
        return left

    def operand(self):
        token = self.token
        if token.kind == "text":
            if len(token.value.encode()) > MOST_TEXT:
                raise self.wrong("TooLong")
            self.take()
            return Literal(token.at, token.value)
        if token.kind == "number" or token.is_sign("-"):
            return self.whole_number()
        if token.is_sign("("):
            self.sign("(")
            inner = self.sum()
            self.sign(")")
            return self.at(inner, token.at)
        if token.is_sign("!"):
            raise self.wrong("Sort")
        if token.is_word("get", "rev", "num_of", "text_of"):
            return self.call()
        if token.kind == "name" and token.value not in KEYWORDS:
            return self.named_operand()
        raise self.wrong()

    @staticmethod
    def at(node, at):
        """Returns the same value, which begins at its bracket."""
        copy = object.__new__(type(node))
        copy.__dict__.update(node.__dict__)
        copy.at = at
        return copy

    def call(self):
        token = self.take()
        self.sign("(")
        inner = self.sum()
        self.want(inner, NUMBER if token.value == "text_of" else TEXT)
        self.sign(")")
        if token.value not in ("get", "rev"):
            return Called(token.at, token.value, inner)
        node = LookUp(token.at, token.value, inner)
        self.looks_up(token.at)
        if token.value == "get" and self.token.is_word("else"):
            self.refuse_else(self.token)
            self.take()
            # A look-up with an else is set in front, and so are those before it.
            self.lift()
            base = self.names.base + len(self.names.looked_up) if self.names else 0
            with self.inner(base):
                node.other = self.operand()
            self.want(node.other, TEXT)
        return node

    @contextmanager
    def inner(self, base):
        if not self.names:
            yield
            return
        allowed = self.names.else_allowed
        with self.names.statement(base):
            self.names.else_allowed = allowed
            yield

    def looks_up(self, at):
        if self.names:
            self.names.looked_up.append(at)

    def refuse_else(self, token):
        """Refuses an else where there may be none."""
        if self.names and (not self.names.else_allowed or self.names.numbered):
            raise self.wrong("Syntax", token)
        if self.names:
            self.names.numbered = False

    def lift(self):
        """Gives a variable to each look-up so far."""
        if self.names:
            room = MOST_VARIABLES - self.names.base
            if len(self.names.looked_up) > room:
                raise Fault(self.names.looked_up[room], "TooMany")

    def named_operand(self):
        token = self.take()
        if self.names and self.names.is_final and token.value in ("end", "why", "out") and self.token.is_sign("("):
            return self.ending(token)
        if is_numbered(token.value):
            return self.numbered_variable(token)
        meant = self.meant_by(token)
        if isinstance(meant, Variable) or isinstance(meant, Parameter) and not meant.is_list:
            return Named(token.at, meant)
        if not isinstance(meant, Definition):
            raise self.wrong("Name", token)
        return self.use(token, meant)

    def numbered_variable(self, token):
        """One of the variables themselves."""
        if not self.names or self.names.numbered is False:
            raise self.wrong("Name", token)
        self.names.numbered = True
        return Named(token.at, int(token.value[1:]))

    def use(self, token, definition):
        """Takes a definition and its arguments."""
        has_else = any(it.other is not None for it in look_ups_of(definition.value))
        if has_else:
            self.refuse_else(token)
        arguments = []
        kept = self.names.looked_up if self.names else None
        if self.names:
            self.names.looked_up = list(kept)
        if self.has_sign("("):
            arguments.append(self.sum())
            while self.has_sign(","):
                arguments.append(self.sum())
            self.sign(")")
        if self.names:
            self.names.looked_up = kept
        if len(arguments) != len(definition.parameters):
            raise self.wrong("Arguments", token)
        node = Use(token.at, definition, arguments)
        if self.looks_at_kinds:
            try:
                check_value(node, {})
            except KindFault:
                raise self.wrong("Kind", token) from None
        self.copy_look_ups(node)
        return node

    def copy_look_ups(self, use):
        """Counts what a definition looks up where it is copied in."""
        def walk(node, bound, at):
            if isinstance(node, Named) and node.binding in bound:
                return walk(*bound[node.binding])
            if isinstance(node, Use):
                inside = {it: (argument, bound, at) for it, argument in zip(node.definition.parameters, node.arguments)}
                return walk(node.definition.value, inside, node.at if at is None else at)
            for part in parts_of(node):
                walk(part, bound, at)
            if isinstance(node, LookUp):
                self.looks_up(node.at if at is None else at)
                if node.other is not None:
                    self.lift()
                    base = self.names.base + len(self.names.looked_up) if self.names else 0
                    with self.inner(base):
                        walk(node.other, bound, at)

        # An argument stands at its own place.
        inside = {it: (argument, {}, None) for it, argument in zip(use.definition.parameters, use.arguments)}
        walk(use.definition.value, inside, use.at)

    def ending(self, token):
        """Takes how a runner ended."""
        self.sign("(")
        runner = self.runner()
        key = f"#{token.value}/{runner}"
        if token.value == "out":
            self.sign(",")
            key += f"/{self.number()}"
        self.sign(")")
        self.looks_up(token.at)
        return LookUp(token.at, "get", Literal(token.at, key))

    # ---- conditions

    def condition(self):
        """Takes a condition."""
        node, is_condition = self.mixed_or()
        if not is_condition:
            raise Fault(node.at, "Sort")
        return node

    def mixed_or(self):
        return self.connected("||", self.mixed_and)

    def mixed_and(self):
        return self.connected("&&", self.mixed_not)

    def connected(self, sign, part):
        """Takes conditions with this sign between them, or a value."""
        left, is_condition = part()
        while self.token.is_sign(sign):
            if not is_condition:
                raise Fault(left.at, "Sort")
            self.take()
            if self.names:
                self.names.else_allowed = False
            right, is_condition = part()
            if not is_condition:
                raise Fault(right.at, "Sort")
            left = Connective(left.at, sign, left, right)
        return left, is_condition

    def mixed_not(self):
        token = self.token
        if token.is_sign("!"):
            turned = 0
            while self.has_sign("!"):
                turned += 1
            self.sign("(")
            node = self.condition()
            self.sign(")")
            for _ in range(turned):
                node = Negation(token.at, node)
            return node, True
        first = None
        if token.is_sign("("):
            self.sign("(")
            inner, is_condition = self.mixed_or()
            self.sign(")")
            inner = self.at(inner, token.at)
            if is_condition:
                return inner, True
            first = inner
        left = self.joined(first)
        if not self.token.is_sign(*COMPARISONS):
            return left, False
        sign = self.take().value
        right = self.sum()
        if self.looks_at_kinds and {kind_of(left, {}), kind_of(right, {})} == {TEXT, NUMBER}:
            raise Fault(right.at, "Kind")
        return Comparison(left.at, sign, left, right), True


def parts_of(node):
    """Returns the values that a value is of, in the order of evaluation; the else of a look-up is none of them."""
    match node:
        case Operation():
            return [node.left, node.right]
        case LookUp():
            return [node.key]
        case Called():
            return [node.value]
        case Use():
            return node.arguments
    return []


def look_ups_of(node):
    """Returns the look-ups of a value, those of the definitions in it too."""
    found = [it for part in parts_of(node) for it in look_ups_of(part)]
    if isinstance(node, Use):
        found += look_ups_of(node.definition.value)
    if isinstance(node, LookUp):
        found += [node] + (look_ups_of(node.other) if node.other is not None else [])
    return found

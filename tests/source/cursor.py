"""Going through the tokens of a source, and what its names mean."""
import re
from contextlib import contextmanager

from kinds import kind_of
from tokens import EVENTS, KEYWORDS, Fault, tokens_of
from tree import NUMBER, TEXT, Definition, Listed, Literal, Named, Parameter, Source, Use

HIGHEST = 2**63 - 1
MOST_BRACKETS = 127
NUMBERED = re.compile(r"v(?:[0-9]|1[0-5])")


def is_numbered(name):
    """Whether a name is one of the variables themselves."""
    return NUMBERED.fullmatch(name) is not None


class Names:
    """The names in sight of a program, and what is known of its variables."""

    def __init__(self, is_final=False):
        self.in_sight, self.variables = {}, 0
        self.is_final = is_final
        # None until the first variable, or look-up with an else, says which it is: numbered or named
        self.numbered = None
        # what a statement has looked up so far, in the order of evaluation; None where there is no statement
        self.looked_up = []
        self.base = 0
        self.else_allowed = True
        self.loops = []

    @contextmanager
    def block(self):
        """What is named inside is out of sight behind."""
        names, variables = dict(self.in_sight), self.variables
        yield
        self.in_sight, self.variables = names, variables

    @contextmanager
    def statement(self, base):
        """What is looked up inside is a statement's own."""
        kept = self.looked_up, self.base, self.else_allowed
        self.looked_up, self.base, self.else_allowed = [], base, True
        yield
        self.looked_up, self.base, self.else_allowed = kept


class Cursor:
    def __init__(self, text):
        self.tokens, self.next, self.open = tokens_of(text), 0, 0
        self.source, self.named, self.runners = Source(), {}, {}
        self.runner_count = 0
        self.names = None
        self.definition = None

    # ---- tokens

    @property
    def token(self):
        return self.tokens[self.next]

    @property
    def behind(self):
        return self.tokens[min(self.next + 1, len(self.tokens) - 1)]

    def wrong(self, cause="Syntax", token=None):
        token = token or self.token
        return Fault(token.at, "Token" if token.kind == "bad" and cause == "Syntax" else cause)

    def take(self):
        token = self.token
        self.next += 1
        return token

    def sign(self, sign):
        """Takes a sign that has to be there."""
        if not self.token.is_sign(sign):
            raise self.wrong()
        if sign in "({":
            self.open += 1
            if self.open > MOST_BRACKETS:
                raise self.wrong()
        if sign in ")}":
            self.open -= 1
        return self.take()

    def has_sign(self, sign):
        """Takes a sign where it is there."""
        if not self.token.is_sign(sign):
            return False
        self.sign(sign)
        return True

    def word(self, *words):
        """Takes a word that has to be there."""
        if not self.token.is_word(*words):
            raise self.wrong()
        return self.take()

    def has_word(self, word):
        if not self.token.is_word(word):
            return False
        self.take()
        return True

    def name(self):
        """Takes a name."""
        if self.token.kind != "name" or self.token.value in KEYWORDS:
            raise self.wrong()
        return self.take()

    def number(self, least=0, most=HIGHEST):
        """Takes a number as it is written, in its range."""
        if self.token.kind != "number":
            raise self.wrong()
        token = self.take()
        if not least <= token.value <= most:
            raise self.wrong("Range", token)
        return token.value

    # ---- what is named

    def meant_by(self, token):
        """Returns what a name means here."""
        names = self.names.in_sight if self.names else {}
        found = names.get(token.value) or self.named.get(token.value)
        if found is None:
            raise self.wrong("Name", token)
        return found

    def give(self, token, is_top=False):
        """Refuses a name that cannot be given here."""
        if is_numbered(token.value):
            raise self.wrong("Name", token)
        found = self.named.get(token.value)
        if is_top:
            taken = found is not None
        else:
            taken = token.value in self.names.in_sight or isinstance(found, Definition | Listed)
        if taken:
            raise self.wrong("Name", token)

    def literal(self, kind=None, most=HIGHEST, longest=None):
        """Takes a text or a number, or a name that stands for one: a constant, or in a program a parameter."""
        token = self.token
        if token.kind == "name" and token.value not in KEYWORDS:
            node = self.constant(kind)
            if isinstance(node, Named):
                return node
        elif token.kind == "text" and kind != NUMBER:
            node = Literal(self.take().at, token.value)
        elif token.kind == "number" and kind != TEXT or token.is_sign("-") and kind is None:
            node = self.whole_number()
        else:
            raise self.wrong()
        if isinstance(node.value, int):
            if kind == NUMBER and not 0 <= node.value <= most:
                raise self.wrong("Range", token)
        elif longest is not None and len(node.value.encode()) > longest:
            raise self.wrong("TooLong", token)
        return node

    def constant(self, kind):
        """Takes a name that stands for a text or a number."""
        token = self.take()
        meant = self.meant_by(token)
        if isinstance(meant, Parameter) and not meant.is_list:
            return Named(token.at, meant)
        if not isinstance(meant, Definition):
            raise self.wrong("Name", token)
        if meant.parameters:
            raise self.wrong("Arguments", token)
        value = meant.value
        while isinstance(value, Use) and not value.definition.parameters:
            value = value.definition.value
        if not isinstance(value, Literal):
            raise self.wrong("Name", token)
        node = Literal(token.at, value.value)
        if kind and kind_of(node, {}) != kind:
            raise self.wrong("Kind", token)
        return node

    def whole_number(self):
        """Takes a number of 64 bits, with a `-` before it or not."""
        token = self.token
        negative = self.has_sign("-")
        if self.token.kind != "number":
            raise self.wrong()
        digits = self.take()
        value = -digits.value if negative else digits.value
        if not -(2**63) <= value < 2**63:
            raise self.wrong("Range", digits)
        node = Literal(token.at, value)
        node.digits = digits.at
        return node

    def text(self, longest=None):
        return self.literal(TEXT, longest=longest).value

    def whole(self, most=HIGHEST):
        return self.literal(NUMBER, most=most).value

    def runner(self, started=False):
        """Takes the number of a runner, or its name."""
        if self.token.kind == "number":
            if started and not 1 <= self.token.value <= self.runner_count:
                raise self.wrong("Name")
            return self.number()
        token = self.name()
        if token.value in EVENTS:
            raise self.wrong("Syntax", token)
        number = self.runners.get(token.value)
        if number is None:
            raise self.wrong("Name", token)
        return number

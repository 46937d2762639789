"""A second judge of scenarios beside the program, written from docs/FORMATS.md alone.

judge(data) answers a Verdict of the bytes of a scenario: the place and the cause of its first fault in reading order, None for both
where it is a scenario; the value that was read, None where it is no JSON; and the number of its events where it has no fault.
"""
import collections
import re

MOST_BYTES = 16777216
MOST_EVENTS = 100000
MOST_NESTING = 127
MOST_NODES = 4096
MOST_DEPTH = 32
MOST_TEXT = 65536
MOST_LISTED = 128
MOST_OPERATIONS = 128
LEAST_SIGNED = -(2**63)
MOST_SIGNED = 2**63 - 1
MOST_UNSIGNED = 2**64 - 1

CAUSES = ("TooLong", "NotJson", "Shape", "Range", "TooMany", "TooDeep", "TooManyNodes")

Verdict = collections.namedtuple("Verdict", "place cause value events")


class Fault(Exception):
    """The first fault: the indices that lead to it, and its cause."""

    def __init__(self, path, cause):
        super().__init__(path, cause)
        self.path = path
        self.cause = cause


def pointer(path):
    """The JSON Pointer of some indices."""
    return "".join(f"/{index}" for index in path)


def judge(data):
    if len(data) > MOST_BYTES:
        return Verdict("", "TooLong", None, None)
    value = None
    try:
        value = read(data)
        return Verdict(None, None, value, events_of(value))
    except Fault as fault:
        return Verdict(pointer(fault.path), fault.cause, value, None)


# JSON


class Number:
    """A number as it is spelled."""

    SPELLING = re.compile(r"-?(?:0|[1-9][0-9]*)(?:\.[0-9]+)?(?:[eE][+-]?[0-9]+)?")

    def __init__(self, spelling):
        self.spelling = spelling

    def is_finite(self):
        """Whether the nearest floating-point number of 64 bits is finite."""
        return abs(float(self.spelling)) != float("inf")

    def whole(self):
        """The whole number of 64 bits that is spelled, None where none is."""
        digits = self.spelling.removeprefix("-")
        if not digits.isdecimal() or len(digits) > 20 or self.spelling == "-0":
            return None
        number = int(self.spelling)
        return number if LEAST_SIGNED <= number <= MOST_UNSIGNED else None


def read(data):
    """The value of a JSON text: arrays as lists, objects as dictionaries, texts as strings, numbers as Numbers."""
    try:
        text = data.decode("utf-8")
    except UnicodeDecodeError:
        raise Fault((), "NotJson") from None
    return Reader(text).whole()


class Reader:
    """Reads a JSON text from the front to the end."""

    WHITE = re.compile(r"[ \t\n\r]*")
    PLAIN = re.compile(r'[^"\\\x00-\x1f]*')
    UNIT = re.compile(r"\\u([0-9a-fA-F]{4})")
    SHORT = {'"': '"', "\\": "\\", "/": "/", "b": "\b", "f": "\f", "n": "\n", "r": "\r", "t": "\t"}
    NAMES = {"n": ("null", None), "t": ("true", True), "f": ("false", False)}

    def __init__(self, text):
        self.text = text
        self.at = 0

    def whole(self):
        value = self.value(0)
        if self.next() != "":
            raise Fault((), "NotJson")
        return value

    def here(self):
        """The character at the place, "" at the end."""
        return self.text[self.at:self.at + 1]

    def next(self):
        """The next character that is no white space."""
        self.at = self.WHITE.match(self.text, self.at).end()
        return self.here()

    def take(self, wanted):
        """Goes over what has to stand here."""
        if not self.text.startswith(wanted, self.at):
            raise Fault((), "NotJson")
        self.at += len(wanted)

    def takes(self, wanted):
        """Goes over a character where it comes next, and says whether it did."""
        if self.next() != wanted:
            return False
        self.at += 1
        return True

    def value(self, nesting):
        first = self.next()
        if first in ("[", "{"):
            if nesting == MOST_NESTING:
                raise Fault((), "NotJson")
            return self.array(nesting + 1) if first == "[" else self.object(nesting + 1)
        if first == '"':
            return self.string()
        if first in self.NAMES:
            spelling, value = self.NAMES[first]
            self.take(spelling)
            return value
        return self.number()

    def array(self, nesting):
        self.take("[")
        elements = []
        if self.takes("]"):
            return elements
        elements.append(self.value(nesting))
        while self.takes(","):
            elements.append(self.value(nesting))
        self.take("]")
        return elements

    def object(self, nesting):
        self.take("{")
        members = {}
        if self.takes("}"):
            return members
        self.member(members, nesting)
        while self.takes(","):
            self.member(members, nesting)
        self.take("}")
        return members

    def member(self, members, nesting):
        self.next()
        name = self.string()
        self.next()
        self.take(":")
        members[name] = self.value(nesting)

    def number(self):
        found = Number.SPELLING.match(self.text, self.at)
        if found is None:
            raise Fault((), "NotJson")
        self.at = found.end()
        number = Number(found.group())
        if not number.is_finite():
            raise Fault((), "NotJson")
        return number

    def string(self):
        self.take('"')
        pieces = [self.plain()]
        while self.here() == "\\":
            pieces.append(self.escape())
            pieces.append(self.plain())
        self.take('"')
        return "".join(pieces)

    def plain(self):
        found = self.PLAIN.match(self.text, self.at)
        self.at = found.end()
        return found.group()

    def escape(self):
        letter = self.text[self.at + 1:self.at + 2]
        if letter in self.SHORT:
            self.at += 2
            return self.SHORT[letter]
        unit = self.unit()
        if 0xD800 <= unit < 0xDC00:
            low = self.unit()
            if not 0xDC00 <= low < 0xE000:
                raise Fault((), "NotJson")
            return chr(0x10000 + ((unit - 0xD800) << 10) + (low - 0xDC00))
        if 0xDC00 <= unit < 0xE000:
            raise Fault((), "NotJson")
        return chr(unit)

    def unit(self):
        """The sixteen bits of an escape by number, which has to stand here."""
        found = self.UNIT.match(self.text, self.at)
        if found is None:
            raise Fault((), "NotJson")
        self.at = found.end()
        return int(found.group(1), 16)


# parts that are no nodes: each looks at a value that stands at some indices


def ranged(low, high):
    """Looks at a whole number from low to high."""

    def look(value, path):
        number = value.whole() if isinstance(value, Number) else None
        if number is None:
            raise Fault(path, "Shape")
        if not low <= number <= high:
            raise Fault(path, "Range")

    return look


def one_of(*words):
    """Looks at one of some words."""

    def look(value, path):
        if not isinstance(value, str) or value not in words:
            raise Fault(path, "Shape")

    return look


def any_text(value, path):
    if not isinstance(value, str):
        raise Fault(path, "Shape")


def list_of(forms):
    """Looks at a list of arrays of some forms."""

    def look(value, path):
        if not isinstance(value, list):
            raise Fault(path, "Shape")
        for index, element in enumerate(value):
            array(element, path + (index,), forms)

    return look


def form_of(value, path, forms):
    """The parts that the form of an array's word has; the array has as many elements after the word."""
    word = value[0] if isinstance(value, list) and value else None
    parts = forms.get(word) if isinstance(word, str) else None
    if parts is None or len(value) != len(parts) + 1:
        raise Fault(path, "Shape")
    return parts


def array(value, path, forms):
    """Looks at an array that begins with a word of the forms."""
    for index, look in enumerate(form_of(value, path, forms), 1):
        look(value[index], path + (index,))


# programs

NODES = {
    "statement": {
        "set": ("variable", "expression"),
        "put": ("expression", "expression", "lease"),
        "del": ("expression",),
        "if": ("condition", "statements", "statements"),
        "for": ("variable", "expression", "turns", "statements"),
        "emit": ("expression",),
        "abort": ("expression",),
    },
    "expression": {
        "var": ("variable",),
        "get": ("expression",),
        "rev": ("expression",),
        "add": ("expression", "expression"),
        "sub": ("expression", "expression"),
        "mul": ("expression", "expression"),
        "div": ("expression", "expression"),
        "rem": ("expression", "expression"),
        "cat": ("expression", "expression"),
        "text_of": ("expression",),
        "num_of": ("expression",),
    },
    "condition": {
        "eq": ("expression", "expression"),
        "less": ("expression", "expression"),
        "not": ("condition",),
        "and": ("condition", "condition"),
        "or": ("condition", "condition"),
    },
}

PLAIN_PARTS = {"variable": ranged(0, 15), "lease": ranged(0, MOST_SIGNED), "turns": ranged(0, 1000)}

signed = ranged(LEAST_SIGNED, MOST_SIGNED)


class Program:
    """Looks at a program, and counts its nodes."""

    def __init__(self):
        self.nodes = 0

    def statements(self, value, path, depth, front=0):
        """Looks at a list of statements of a depth, after this many other elements."""
        if not isinstance(value, list):
            raise Fault(path, "Shape")
        for index in range(front, len(value)):
            self.node(value[index], path + (index,), depth, "statement")

    def node(self, value, path, depth, kind):
        if depth > MOST_DEPTH:
            raise Fault(path, "TooDeep")
        self.nodes += 1
        if self.nodes > MOST_NODES:
            raise Fault(path, "TooManyNodes")
        if kind == "expression" and isinstance(value, Number):
            signed(value, path)
        elif kind == "expression" and isinstance(value, str):
            self.text(value, path)
        else:
            self.array(value, path, depth, kind)

    def text(self, value, path):
        if len(value.encode("utf-8")) > MOST_TEXT:
            raise Fault(path, "TooLong")

    def array(self, value, path, depth, kind):
        for index, part in enumerate(form_of(value, path, NODES[kind]), 1):
            self.part(value[index], path + (index,), depth + 1, part)

    def part(self, value, path, depth, part):
        if part in PLAIN_PARTS:
            PLAIN_PARTS[part](value, path)
        elif part == "statements":
            self.statements(value, path, depth)
        else:
            self.node(value, path, depth, part)


def keys(value, path):
    """Looks at the keys of a program's list."""
    if not isinstance(value, list):
        raise Fault(path, "Shape")
    for index, key in enumerate(value):
        if index == MOST_LISTED:
            raise Fault(path + (index,), "TooMany")
        if not isinstance(key, str) or not key or key in value[:index]:
            raise Fault(path + (index,), "Shape")
        if len(key.encode("utf-8")) > MOST_TEXT:
            raise Fault(path + (index,), "TooLong")


LIST = {"prefetch": (keys,)}


def begins_with(value, forms):
    """Whether the first element of an array is one that begins with a word of the forms."""
    word = value[0][0] if isinstance(value, list) and value and isinstance(value[0], list) and value[0] else None
    return isinstance(word, str) and word in forms


def program(value, path):
    front = 1 if begins_with(value, LIST) else 0
    if front:
        array(value[0], path + (0,), LIST)
    Program().statements(value, path, 1, front)


# events

number = ranged(0, MOST_SIGNED)
order = one_of("=", "!=", ">", "<")
level = one_of("SerializableSnapshot", "Serializable", "RepeatableReads", "ReadCommitted")

COMPARES = {
    "version": (any_text, order, number),
    "create": (any_text, order, number),
    "mod": (any_text, order, number),
    "lease": (any_text, order, number),
    "value": (any_text, order, any_text),
}

OPERATIONS = {
    "get": (any_text, number),
    "put": (any_text, any_text, number),
    "del": (any_text,),
}

EVENTS = {
    "start": (level, ranged(0, 4294967295), program),
    "step": (number,),
    "txn": (list_of(COMPARES), list_of(OPERATIONS), list_of(OPERATIONS)),
    "grant": (number, number),
    "keep": (number,),
    "revoke": (number,),
    "advance": (number,),
    "compact": (number,),
    "watch_key": (any_text, number),
    "watch_range": (any_text, any_text, number),
    "poll": (number, number),
    "cancel": (number,),
}

BEGIN = {"begin": (ranged(1, MOST_SIGNED - 1),)}
BEGIN_WITH_LIMIT = {"begin": (ranged(1, MOST_SIGNED - 1), ranged(1, MOST_OPERATIONS))}


def events_of(value):
    """Looks at a scenario, and answers how many events it has."""
    if not isinstance(value, list):
        raise Fault((), "Shape")
    front = 1 if begins_with(value, BEGIN) else 0
    if front:
        array(value[0], (0,), BEGIN_WITH_LIMIT if len(value[0]) == 3 else BEGIN)
    for index in range(front, len(value)):
        if index - front == MOST_EVENTS:
            raise Fault((index,), "TooMany")
        array(value[index], (index,), EVENTS)
    return len(value) - front

"""The tokens of a source."""
import re
from dataclasses import dataclass

KEYWORDS = frozenset(
    "program rule finally let if else for in return break continue put del emit abort prefetch get rev num_of text_of".split()
)
EVENTS = frozenset("begin start step txn grant keep revoke advance watch poll cancel compact".split())
MOST_BYTES = 16777216

SPACE = re.compile(r"(?:[ \t\r\n]|//[^\n]*)*")
TOKEN = re.compile(
    r'(?P<name>[A-Za-z_][A-Za-z_0-9]*)|(?P<number>0|[1-9][0-9]*)|(?P<text>"(?:[^"\\\x00-\x1f]|\\.)*")'
    r"|(?P<sign>\+\+=|\+\+|\+=|-=|==|!=|<=|>=|&&|\|\||\.\.|[(){},;=<>+\-*/%!])",
    re.DOTALL,
)
ESCAPE = re.compile(r"\\(?:u([0-9a-fA-F]{4})|(.))", re.DOTALL)
SHORT = {'"': '"', "\\": "\\", "/": "/", "b": "\b", "f": "\f", "n": "\n", "r": "\r", "t": "\t"}


class Fault(Exception):
    """The first fault of a source: where it is, and the cause."""

    def __init__(self, at, cause):
        super().__init__(at, cause)
        self.at, self.cause = at, cause

    def place(self, text):
        """Returns the line and the column, both from 1."""
        before = text[: self.at]
        return before.count("\n") + 1, self.at - (before.rfind("\n") + 1) + 1


@dataclass
class Token:
    """A token; its kind is name, number, text, sign, bad or end."""
    at: int
    kind: str
    value: object

    def is_word(self, *words):
        return self.kind == "name" and self.value in words

    def is_sign(self, *signs):
        return self.kind == "sign" and self.value in signs


def content_of(written):
    """Returns what a text says between its quotes, or None where an escape is wrong."""
    halves, wrong = [], False

    def meant(found):
        nonlocal wrong
        if found[1]:
            return chr(int(found[1], 16))
        if found[2] not in SHORT:
            wrong = True
            return ""
        return SHORT[found[2]]

    # Each piece as written is a character; halves of surrogate pairs come only from escapes, since the source is UTF-8.
    text = ESCAPE.sub(meant, written)
    if wrong:
        return None
    for character in text:
        code = ord(character)
        if halves and 0xDC00 <= code < 0xE000 and 0xD800 <= ord(halves[-1]) < 0xDC00 and len(halves[-1]) == 1:
            halves[-1] = chr(0x10000 + ((ord(halves[-1]) - 0xD800) << 10) + (code - 0xDC00))
        else:
            halves.append(character)
    return None if any(0xD800 <= ord(it) < 0xE000 for it in halves) else "".join(halves)


def decoded(source):
    """Returns the text of the bytes of a source."""
    if len(source) > MOST_BYTES:
        raise Fault(0, "TooLong")
    try:
        return source.decode()
    except UnicodeDecodeError as error:
        before = source[: error.start].decode()
        fault = Fault(len(before), "NotUtf8")
        fault.text = before
        raise fault from error


def tokens_of(text):
    """Returns the tokens of a text. What begins no token is a bad one, and the last."""
    tokens, at = [], 0
    while True:
        at = SPACE.match(text, at).end()
        if at == len(text):
            tokens.append(Token(at, "end", None))
            return tokens
        found = TOKEN.match(text, at)
        if not found:
            tokens.append(Token(at, "bad", None))
            return tokens
        kind, value = found.lastgroup, found[0]
        if kind == "text":
            value = content_of(value[1:-1])
            if value is None:
                tokens.append(Token(at, "bad", None))
                return tokens
        elif kind == "number":
            value = int(value) if len(value) < 40 else 10**40
        tokens.append(Token(at, kind, value))
        at = found.end()

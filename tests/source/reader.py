"""A reader of sources, from front to back: what a source is, or its first fault."""
from cursor import HIGHEST, Names, is_numbered
from kinds import KindFault, check_body, kind_of
from lowering import ArgumentFault, lowered_program, measured_program, value_nodes
from statements import Statements
from tokens import EVENTS, KEYWORDS, Fault, decoded
from tree import TEXT, Asked, Body, Definition, Listed, Literal, Named, Parameter, Program, Use
from values import MOST_TEXT

LEVELS = ("SerializableSnapshot", "Serializable", "RepeatableReads", "ReadCommitted")
ORDERS = {"==": "=", "!=": "!=", "<": "<", ">": ">"}
MOST_KEYS = 128
MOST_NODES = 4096
MOST_EVENTS = 100000


class Reader(Statements):
    # ---- programs

    def body(self, parameters=(), looked_at=True, is_final=False):
        """Takes the body of a program."""
        self.names, self.looks_at_kinds = Names(is_final), looked_at
        for it in parameters:
            self.names.in_sight[it.name] = it
        at = self.sign("{").at
        keys = []
        if self.has_word("prefetch"):
            keys = self.list_of_keys()
            self.has_sign(";")
        statements = self.statements()
        self.sign("}")
        self.names = None
        return Body(at, keys, statements)

    def list_of_keys(self):
        self.sign("(")
        keys, known = [], set()
        while True:
            token = self.token
            if len(keys) == MOST_KEYS and token.kind in ("text", "name"):
                raise self.wrong("TooMany")
            node = self.literal(TEXT, longest=MOST_TEXT)
            if isinstance(node, Literal):
                if node.value in known or not node.value:
                    raise self.wrong("Key", token)
                known.add(node.value)
            elif node.binding in known:
                raise self.wrong("Key", token)
            else:
                known.add(node.binding)
            keys.append(node)
            if not self.has_sign(","):
                break
        self.sign(")")
        return keys

    def program(self):
        self.take()
        given = self.name()
        self.give(given, is_top=True)
        self.sign("(")
        parameters = []
        self.names = Names()
        while self.token.kind == "name" and not parameters or parameters and self.has_sign(","):
            parameters.append(self.parameter())
            if self.has_sign(".."):
                parameters[-1].is_list = True
                break
        self.sign(")")
        body = self.body(parameters)
        program = Program(given.value, parameters, body)
        self.fits(program, [Named(given.at, it) for it in parameters if not it.is_list], given)
        self.named[given.value] = program
        self.source.programs[given.value] = program

    def fits(self, program, arguments, token):
        """Returns the program of these arguments, where it is within the limits."""
        statements, cause = measured_program(program, arguments)
        if cause:
            raise self.wrong(cause, token)
        return statements

    def rule(self):
        is_final = self.take().value == "finally"
        given = self.name()
        self.give(given, is_top=True)
        level = self.word(*LEVELS).value if self.has_word("from") else None
        if self.has_sign("="):
            program, arguments = self.started()
        else:
            body = self.body(is_final=is_final)
            program, arguments = Program(given.value, [], body), []
            self.fits(program, [], given)
        asked = Asked(given.value, program, arguments, is_final, level)
        self.named[given.value] = asked
        self.source.programs[given.value] = program
        self.source.asked.append(asked)

    def started(self):
        """Takes the name of a program and its arguments."""
        token = self.name()
        program = self.meant_by(token)
        if not isinstance(program, Program):
            raise self.wrong("Name", token)
        self.sign("(")
        arguments = []
        if not self.token.is_sign(")"):
            arguments.append(self.literal())
            while self.has_sign(","):
                arguments.append(self.literal())
        self.sign(")")
        fixed = [it for it in program.parameters if not it.is_list]
        if len(arguments) < len(fixed) or len(arguments) > len(fixed) and len(fixed) == len(program.parameters):
            raise self.wrong("Arguments", token)
        self.agree(program, arguments, token)
        return program, arguments

    def agree(self, program, arguments, token):
        """Refuses arguments that alone make the program wrong."""
        try:
            _, cause = measured_program(program, arguments)
        except ArgumentFault as fault:
            raise Fault(fault.at, fault.cause) from None
        if program.is_looked_at:
            try:
                check_body(program, arguments)
            except KindFault:
                raise self.wrong("Kind", token) from None
        if cause:
            raise self.wrong(cause, token)

    # ---- definitions

    def define(self):
        self.take()
        given = self.name()
        self.give(given, is_top=True)
        self.looks_at_kinds = True
        parameters = self.parameters_of_definition()
        self.names = Names()
        self.names.in_sight = {it.name: it for it in parameters}
        self.names.numbered = False
        # What a definition looks up is counted where it is used.
        self.names.base = -(10**9)
        self.sign("=")
        value = self.sum()
        self.names = None
        if not parameters and self.token.is_sign(","):
            if not self.is_item(value):
                raise self.wrong()
            self.named[given.value] = self.list_from(given.value, value)
            return
        if value_nodes(value) > MOST_NODES:
            raise self.wrong("TooManyNodes", given)
        self.named[given.value] = Definition(given.value, parameters, value)

    def parameters_of_definition(self):
        if not self.token.is_sign("("):
            return []
        self.sign("(")
        self.names, parameters = Names(), []
        while True:
            parameters.append(self.parameter())
            if not self.has_sign(","):
                break
        self.sign(")")
        return parameters

    def parameter(self):
        """Takes the name of a parameter."""
        token = self.name()
        self.give(token)
        parameter = Parameter(token.value)
        parameter.kind = None
        self.names.in_sight[token.value] = parameter
        return parameter

    @staticmethod
    def is_item(value):
        return isinstance(value, Literal) or isinstance(value, Use) and not value.definition.parameters

    def list_from(self, name, value):
        """Takes the items of a list that follow its first one."""
        while isinstance(value, Use):
            value = value.definition.value
        if not isinstance(value, Literal):
            raise self.wrong()
        items = [value]
        self.item_kind = kind_of(value, {})
        while self.has_sign(","):
            token = self.token
            node = self.literal(longest=MOST_TEXT)
            if kind_of(node, {}) != self.item_kind:
                raise self.wrong("Kind", token)
            items.append(node)
        return Listed(name, items)

    # ---- events

    def event(self, token, event):
        """Adds an event."""
        if len(self.source.events) >= MOST_EVENTS + (self.source.events[:1] != [] and self.source.events[0][0] == "begin"):
            raise self.wrong("TooMany", token)
        self.source.events.append(event)

    def begin(self, token):
        if self.source.events:
            raise self.wrong("Syntax", token)
        event = ["begin", self.number(1, HIGHEST - 1)]
        if self.has_word("limit"):
            event.append(self.number(1, 128))
        self.source.events.append(event)

    def start(self, token):
        if self.token.is_sign("{"):
            at = self.token
            program, arguments = Program(None, [], self.body(looked_at=False), is_looked_at=False), []
            self.fits(program, [], at)
        else:
            program, arguments = self.started()
        said, names = {}, []
        while self.token.is_word("as", "at", "limit", "after") and self.token.value not in said:
            option = self.take().value
            said[option] = True
            match option:
                case "as":
                    names = self.runner_names()
                case "at":
                    said["at"] = self.word(*LEVELS).value
                case "limit":
                    said["limit"] = self.number(0, 2**32 - 1)
                case "after":
                    runner = self.runner(started=True)
                    said["after"] = (runner, self.has_word("committed"))
        if self.token.is_word("as", "at", "limit", "after"):
            raise self.wrong()
        limit = said.get("limit", 2)
        statements = lowered_program(program, arguments)
        for name in names or [None]:
            self.event(token, ["start", said.get("at", "SerializableSnapshot"), limit, statements])
            self.source.starts.append((program, arguments))
            if limit:
                self.runner_count += 1
            if name:
                self.runners[name] = self.runner_count if limit else None
            if "after" in said:
                self.source.after.append((len(self.source.starts), *said["after"]))

    def runner_names(self):
        names = []
        while True:
            token = self.name()
            if token.value in EVENTS:
                raise self.wrong("Syntax", token)
            if token.value in self.runners or token.value in names or is_numbered(token.value):
                raise self.wrong("Name", token)
            names.append(token.value)
            if not self.has_sign(","):
                return names

    def step(self, _):
        while True:
            token = self.token
            runner = self.runner()
            count = self.number() if self.has_sign("*") else 1
            for _ in range(count):
                self.event(token, ["step", runner])
            more = self.token.kind == "number" or self.token.kind == "name" and self.token.value not in KEYWORDS | EVENTS
            if not more:
                return

    def txn(self, token):
        compares = []
        if self.has_word("if"):
            compares.append(self.compare())
            while self.has_sign("&&"):
                compares.append(self.compare())
        success = self.operations()
        failure = self.operations() if self.has_word("else") else []
        self.event(token, ["txn", compares, success, failure])

    def compare(self):
        target = self.word("mod", "create", "version", "lease", "value").value
        self.sign("(")
        key = self.text()
        self.sign(")")
        if not self.token.is_sign(*ORDERS):
            raise self.wrong()
        order = ORDERS[self.take().value]
        return [target, key, order, self.text() if target == "value" else self.whole()]

    def operations(self):
        self.sign("{")
        operations = []
        while not self.token.is_sign("}"):
            operations.append(self.transaction_operation())
            self.has_sign(";")
        self.sign("}")
        return operations

    def transaction_operation(self):
        word = self.word("put", "get", "del").value
        self.sign("(")
        operation = [word, self.text()]
        if word == "put":
            self.sign(",")
            operation.append(self.text())
        if word != "del":
            operation.append(self.whole() if self.has_sign(",") else 0)
        self.sign(")")
        return operation

    def watch(self, token):
        first = self.text()
        end = self.text() if self.has_sign("..") else None
        since = self.whole() if self.has_word("from") else 0
        self.event(token, ["watch_key", first, since] if end is None else ["watch_range", first, end, since])

    def numbered(self, token, *words):
        """An event of numbers, with these words before all but the first."""
        event = [token.value]
        for word in words:
            if word:
                self.word(word)
            event.append(self.whole())
        self.event(token, event)

    def other_event(self, token):
        words = {"grant": ("", "ttl"), "keep": ("",), "revoke": ("",), "advance": ("to",), "poll": ("", "max"), "cancel": ("",), "compact": ("",)}
        self.numbered(token, *words[token.value])

    def read(self):
        self.looks_at_kinds, self.item_kind = True, None
        while self.token.kind != "end":
            token = self.token
            if token.is_word("let"):
                self.define()
            elif token.is_word("program"):
                self.program()
            elif token.is_word("rule", "finally"):
                self.rule()
            elif token.is_word(*EVENTS):
                self.take()
                getattr(self, token.value, self.other_event)(token)
            else:
                raise self.wrong()
        self.source.runners = self.runners
        return self.source


def read(source):
    """Returns what the bytes of a source are. Raises a Fault, whose `text` is that of the source."""
    text = decoded(source)
    try:
        return Reader(text).read()
    except Fault as fault:
        fault.text = text
        raise

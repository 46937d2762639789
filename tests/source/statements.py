"""Reading statements."""
from cursor import HIGHEST, is_numbered
from kinds import items_of, kind_of
from tokens import KEYWORDS, Fault
from tree import (
    NUMBER, TEXT, Assignment, Choice, Copies, Count, Leave, Listed, Literal, Named, Parameter, Put, Simple, Use, Variable,
)
from values import MOST_TEXT, MOST_VARIABLES, Values


class Statements(Values):
    # ---- statements

    def braces(self):
        """Takes a block, and returns its statements."""
        self.sign("{")
        with self.names.block():
            statements = self.statements()
        self.sign("}")
        return statements

    def statements(self):
        statements = []
        while not self.token.is_sign("}"):
            if statements and ends_by(statements[-1]) == "leaves":
                raise self.wrong()
            statements.append(self.statement())
            self.has_sign(";")
        return statements

    def statement(self):
        token = self.token
        if token.kind != "name":
            raise self.wrong()
        with self.names.statement(self.names.variables):
            match token.value:
                case "let":
                    return self.let()
                case "put":
                    return self.put()
                case "del" | "emit" | "abort":
                    return self.simple()
                case "if":
                    return self.choice()
                case "for":
                    return self.loop()
                case "return" | "break" | "continue":
                    return self.leave()
            if token.value in KEYWORDS or not self.behind.is_sign("=", "+=", "-=", "++="):
                raise self.wrong()
            return self.assignment()

    def take_variable(self, token):
        """Refuses a variable too many, and a name in a program of numbers."""
        if self.names.variables >= MOST_VARIABLES:
            raise self.wrong("TooMany", token)

    def let(self):
        token = self.token
        if not self.names.numbered:
            self.take_variable(token)
        self.take()
        given = self.name()
        if self.names.numbered:
            raise self.wrong("Name", given)
        self.give(given)
        self.names.numbered = False
        self.sign("=")
        value = self.sum()
        variable = Variable(given.value, self.names.variables)
        variable.kind = kind_of(value, {}) if self.looks_at_kinds else None
        self.names.in_sight[given.value] = variable
        self.names.variables += 1
        return Assignment(token.at, variable, "=", value, is_let=True)

    def assignment(self):
        token = self.take()
        if is_numbered(token.value):
            if self.names.numbered is False:
                raise self.wrong("Name", token)
            self.names.numbered = True
            binding = int(token.value[1:])
        else:
            binding = self.meant_by(token)
            if not isinstance(binding, Variable):
                raise self.wrong("Name", token)
        sign = self.take().value
        wanted = {"+=": NUMBER, "-=": NUMBER, "++=": TEXT}.get(sign)
        own = kind_of(Named(token.at, binding), {}) if self.looks_at_kinds else None
        if wanted and own not in (None, wanted):
            raise self.wrong("Kind", token)
        value = self.sum()
        if wanted or own:
            self.want(value, wanted or own)
        return Assignment(token.at, binding, sign, value)

    def put(self):
        at = self.take().at
        self.sign("(")
        key = self.sum()
        self.want(key, TEXT)
        self.sign(",")
        value = self.sum()
        self.want(value, TEXT)
        lease = self.literal(NUMBER) if self.has_sign(",") else None
        self.refuse_item(lease, 0, HIGHEST)
        self.sign(")")
        return Put(at, key, value, lease)

    def refuse_item(self, node, least, most):
        """Refuses the name of an item that is no number, or is out of range, where a number is wanted."""
        if isinstance(node, Named) and node.binding.is_item:
            for it in node.binding.known:
                if not isinstance(it, int):
                    raise Fault(node.at, "Kind")
                if not least <= it <= most:
                    raise Fault(node.at, "Range")

    def simple(self):
        token = self.take()
        self.sign("(")
        value = self.sum()
        if token.value != "emit":
            self.want(value, TEXT)
        self.sign(")")
        return Simple(token.at, token.value, value)

    def choice(self):
        at = self.take().at
        condition = self.condition()
        yes = self.braces()
        no = None
        if self.has_word("else"):
            if self.token.is_word("if"):
                with self.names.statement(self.names.variables):
                    no = [self.choice()]
            else:
                no = self.braces()
        return Choice(at, condition, yes, no)

    def loop(self):
        at = self.take().at
        given = self.name()
        if not (is_numbered(given.value)):
            self.give(given)
        self.word("in")
        if self.token.kind == "number" and self.token.value == 0 and self.behind.is_sign(".."):
            return self.count(at, given)
        if is_numbered(given.value) and (self.token.kind in ("text", "number", "name") or self.token.is_sign("-")):
            raise self.wrong("Name", given)
        return self.copies(at, given)

    def count(self, at, given):
        numbered = is_numbered(given.value)
        if self.names.numbered is not None and self.names.numbered != numbered:
            raise self.wrong("Name", given)
        self.names.numbered = numbered
        if not numbered:
            self.take_variable(given)
        self.take()
        self.take()
        count = self.sum()
        self.want(count, NUMBER)
        most = None
        if self.has_word("max"):
            most = self.literal(NUMBER, most=1000)
            self.refuse_item(most, 0, 1000)
        else:
            self.own_limit(count)
        self.names.loops.append("count")
        with self.names.block():
            variable = int(given.value[1:]) if numbered else Variable(given.value, self.names.variables, is_counted=True)
            if not numbered:
                variable.kind = NUMBER
                self.names.in_sight[given.value] = variable
                self.names.variables += 1
            body = self.braces()
        self.names.loops.pop()
        return Count(at, variable, count, most, body)

    def own_limit(self, count):
        """Refuses a count that can be no limit: it is a number, a parameter or a constant."""
        value = count
        while isinstance(value, Use) and not value.definition.parameters:
            value = value.definition.value
        if isinstance(value, Named) and isinstance(value.binding, Parameter):
            self.refuse_item(value, 0, 1000)
            return
        if not isinstance(value, Literal) or value is count and isinstance(value.value, str):
            raise self.wrong()
        if isinstance(value.value, str):
            raise Fault(count.at, "Kind")
        if not 0 <= value.value <= 1000:
            raise Fault(getattr(count, "digits", count.at), "Range")

    def copies(self, at, given):
        self.item_kind = None
        items = [self.item()]
        while self.has_sign(","):
            items.append(self.item())
        parameter = Parameter(given.value, is_item=True)
        known = [it.value for it in items_of(items, {}) if isinstance(it, Literal)]
        kinds = {kind_of(it, {}) for it in items_of(items, {})} - {None}
        parameter.known = known
        parameter.kind = kinds.pop() if kinds and self.looks_at_kinds else None
        self.names.loops.append("copies")
        with self.names.block():
            self.names.in_sight[given.value] = parameter
            body = self.braces()
        self.names.loops.pop()
        return Copies(at, parameter, items, body)

    def item(self):
        """Takes an item: a text, a number, or a name that stands for one or for a list."""
        token = self.token
        if token.kind == "name" and token.value not in KEYWORDS:
            meant = self.meant_by(token)
            if isinstance(meant, Listed) or isinstance(meant, Parameter) and meant.is_list:
                self.take()
                node = Named(token.at, meant)
            else:
                node = self.literal(longest=MOST_TEXT)
        else:
            node = self.literal(longest=MOST_TEXT)
        self.same_kind(node)
        return node

    def same_kind(self, node):
        if not self.looks_at_kinds:
            return
        for it in items_of([node], {}):
            kind = kind_of(it, {})
            if kind and self.item_kind and kind != self.item_kind:
                raise Fault(node.at, "Kind")
            self.item_kind = self.item_kind or kind

    def leave(self):
        token = self.take()
        loops = self.names.loops
        match token.value:
            case "return":
                if "count" in loops:
                    raise self.wrong("Return", token)
            case "break":
                if not loops:
                    raise self.wrong("Syntax", token)
                if loops[-1] == "count":
                    raise self.wrong("Return", token)
            case "continue":
                if not loops:
                    raise self.wrong("Syntax", token)
        return Leave(token.at, token.value)


def ends_by(statement):
    """Returns how a statement keeps what follows from being come to: "leaves", "aborts" or not at all."""
    match statement:
        case Leave():
            return "leaves"
        case Simple(word="abort"):
            return "aborts"
        case Choice(no=[_, *_], yes=[_, *_]):
            ends = {ends_by(statement.yes[-1]), ends_by(statement.no[-1])}
            if None in ends:
                return None
            return "aborts" if ends == {"aborts"} else "leaves"
    return None

"""The program that a source's statements stand for, in the JSON of programs."""
from dataclasses import dataclass, field

from kinds import given_by, items_of
from tree import (
    Assignment, Called, Choice, Comparison, Connective, Copies, Count, Leave, Literal, LookUp, Named, Negation, Operation, Parameter, Put, Simple, Use,
)

WORDS = {"+": "add", "-": "sub", "*": "mul", "/": "div", "%": "rem", "++": "cat", "+=": "add", "-=": "sub", "++=": "cat"}
MOST_TEXT = 65536
MOST_DEPTH, MOST_NODES = 32, 4096
HIGHEST = 2**63 - 1


class ArgumentFault(Exception):
    """An argument that is wrong where it stands: its place, and the cause."""

    def __init__(self, at, cause):
        super().__init__(at, cause)
        self.at, self.cause = at, cause


@dataclass
class Fronts:
    """What is set in front of a statement: so many look-ups, each in a variable of its own, from `next` on."""
    count: int
    next: int
    statements: list = field(default_factory=list)


@dataclass
class Follow:
    """What follows, by way of leaving."""
    next: list
    broken: list
    continued: list


NOTHING = Follow([], [], [])


class Lowering:
    """What the parameters of one start stand for, and which of its arguments are wrong."""

    def __init__(self, program, arguments):
        self.given = given_by(program, arguments)
        self.wrong = []

    def blame(self, node, cause):
        self.wrong.append((node.at, cause))

    # ---- values

    def meant(self, node, bound):
        """Returns what a parameter stands for, and where the names of that stand for something."""
        while isinstance(node, Named) and isinstance(node.binding, Parameter):
            if node.binding in bound:
                node, bound = bound[node.binding]
            elif node.binding in self.given and self.given[node.binding] is not None:
                found = self.given[node.binding]
                if isinstance(found, Named) and found.binding is node.binding:
                    return None, bound
                node, bound = found, {}
            else:
                return None, bound
        return node, bound

    def inside(self, use, bound):
        return {it: (argument, bound) for it, argument in zip(use.definition.parameters, use.arguments)}

    def look_ups(self, node, bound):
        """Returns for each look-up of a value, in the order of evaluation, whether it has an else."""
        node, bound = self.meant(node, bound)
        match node:
            case Use():
                return self.look_ups(node.definition.value, self.inside(node, bound))
            case LookUp():
                return [*self.look_ups(node.key, bound), node.other is not None]
            case Called():
                return self.look_ups(node.value, bound)
            case Operation() | Comparison() | Connective():
                return self.look_ups(node.left, bound) + self.look_ups(node.right, bound)
            case Negation():
                return self.look_ups(node.condition, bound)
        return []

    def fronts(self, values, bound, next_variable):
        found = [it for value in values for it in self.look_ups(value, bound)]
        count = len(found) - found[::-1].index(True) if True in found else 0
        return Fronts(count, next_variable)

    def value(self, node, bound, fronts):
        asked = node
        node, bound = self.meant(node, bound)
        match node:
            case None:
                return 0
            case Literal():
                if node is not asked and isinstance(node.value, str) and len(node.value.encode()) > MOST_TEXT:
                    self.blame(node, "TooLong")
                return node.value
            case Named():
                binding = node.binding
                return ["var", binding if isinstance(binding, int) else binding.number]
            case Use():
                return self.value(node.definition.value, self.inside(node, bound), fronts)
            case LookUp():
                return self.look_up(node, bound, fronts)
            case Called():
                return [node.word, self.value(node.value, bound, fronts)]
            case Operation():
                left = self.value(node.left, bound, fronts)
                return [WORDS[node.sign], left, self.value(node.right, bound, fronts)]
        raise TypeError(node)

    def look_up(self, node, bound, fronts):
        found = [node.word, self.value(node.key, bound, fronts)]
        if not fronts.count:
            return found
        fronts.count -= 1
        variable, fronts.next = fronts.next, fronts.next + 1
        fronts.statements.append(["set", variable, found])
        if node.other is not None:
            inner = self.set(variable, node.other, bound, fronts.next)
            fronts.statements.append(["if", ["eq", ["var", variable], ""], inner, []])
        return ["var", variable]

    def set(self, variable, value, bound, next_variable, is_let=False):
        fronts = self.fronts([value], bound, next_variable)
        expression = self.value(value, bound, fronts)
        if is_let and expression == ["var", variable]:
            return fronts.statements
        return [*fronts.statements, ["set", variable, expression]]

    def condition(self, node, bound, fronts):
        match node:
            case Negation():
                return ["not", self.condition(node.condition, bound, fronts)]
            case Connective():
                left = self.condition(node.left, bound, fronts)
                return ["and" if node.sign == "&&" else "or", left, self.condition(node.right, bound, fronts)]
        left = self.value(node.left, bound, fronts)
        right = self.value(node.right, bound, fronts)
        match node.sign:
            case "==":
                return ["eq", left, right]
            case "!=":
                return ["not", ["eq", left, right]]
            case "<":
                return ["less", left, right]
            case ">=":
                return ["not", ["less", left, right]]
        turned = ["less", right, left]
        if looks_up(left) and looks_up(right):
            turned = ["not", ["or", ["less", left, right], ["eq", left, right]]]
        if node.sign == ">":
            return turned
        return turned[1] if turned[0] == "not" else ["not", turned]

    # ---- statements

    def number(self, node, most):
        """Returns a lease or a limit."""
        asked = node
        node, _ = self.meant(node, {})
        if node is None:
            return 0
        if node is not asked:
            if isinstance(node.value, str):
                self.blame(node, "Kind")
                return 0
            if not 0 <= node.value <= most:
                self.blame(node, "Range")
        return node.value

    def statements(self, statements, names):
        """Returns the parts of statements: in sight are so many names."""
        parts = []
        for it in statements:
            parts += self.statement(it, names)
            names += isinstance(it, Assignment) and it.is_let
        return parts

    def statement(self, node, names):
        match node:
            case Assignment():
                return self.assignment(node, names)
            case Put():
                fronts = self.fronts([node.key, node.value], {}, names)
                key = self.value(node.key, {}, fronts)
                value = self.value(node.value, {}, fronts)
                lease = 0 if node.lease is None else self.number(node.lease, HIGHEST)
                return [*fronts.statements, ["put", key, value, lease]]
            case Simple():
                fronts = self.fronts([node.value], {}, names)
                value = self.value(node.value, {}, fronts)
                return [*fronts.statements, [node.word, value]]
            case Choice():
                fronts = self.fronts([node.condition], {}, names)
                condition = self.condition(node.condition, {}, fronts)
                yes, no = self.statements(node.yes, names), self.statements(node.no or [], names)
                return [*fronts.statements, ("if", condition, yes, no)]
            case Count():
                return self.count(node, names)
            case Copies():
                return [("copies", self.copies(node, names))]
            case Leave():
                return [(node.word,)]
        raise TypeError(node)

    def assignment(self, node, names):
        variable = node.binding if isinstance(node.binding, int) else node.binding.number
        value = node.value
        if node.sign != "=":
            value = Operation(node.at, node.sign, Named(node.at, node.binding), value)
        return self.set(variable, value, {}, variable if node.is_let else names, node.is_let)

    def count(self, node, names):
        fronts = self.fronts([node.count], {}, names)
        count = self.value(node.count, {}, fronts)
        limit = self.limit(node)
        named = not isinstance(node.binding, int)
        variable = node.binding.number if named else node.binding
        return [*fronts.statements, ("for", variable, count, limit, self.statements(node.body, names + named))]

    def limit(self, node):
        if node.most is not None:
            return self.number(node.most, 1000)
        value = node.count
        while isinstance(value, Use):
            value = value.definition.value
        return self.number(value, 1000)

    def copies(self, node, names):
        copies = []
        for item in items_of(node.items, self.given):
            kept = self.given.get(node.parameter)
            self.given[node.parameter] = item
            copies.append(self.statements(node.body, names))
            self.given[node.parameter] = kept
        return copies

    # ---- programs

    def keys(self, keys):
        """Returns the keys of a program's list."""
        texts, owners = [], []
        for it in keys:
            asked = it
            it, _ = self.meant(it, {})
            if it is None:
                texts.append(None)
                owners.append(None)
                continue
            owner = it if it is not asked else None
            if isinstance(it.value, int):
                self.blame(it, "Kind")
            elif not it.value or it.value in texts:
                self.blame(owner or owners[texts.index(it.value)], "Key")
            elif len(it.value.encode()) > MOST_TEXT:
                self.blame(it, "TooLong")
            texts.append(it.value)
            owners.append(owner)
        return texts


def looks_up(written):
    """Whether a value looks a key up."""
    return isinstance(written, list) and (written[0] in ("get", "rev") or any(looks_up(it) for it in written[1:]))


def ways(parts):
    """Returns the ways in which statements may leave."""
    found = set()
    for part in parts:
        match part:
            case ("if", _, yes, no):
                found |= ways(yes) | ways(no)
            case ("copies", copies):
                found |= {"return"} & {it for copy in copies for it in ways(copy)}
            case ("for", *_, body):
                found |= {"return"} & ways(body)
            case ("return" | "break" | "continue" as word,):
                found.add(word)
    return found


def closed(parts, follow):
    """Returns the program that comes to `follow` by the way in which these statements are left. Nothing follows the list of an abort."""
    first = next((place for place, part in enumerate(parts) if part[0] == "abort"), len(parts))
    after = follow.next if first == len(parts) else []
    for place in reversed(range(len(parts))):
        behind = NOTHING if place > first else follow
        after = closed_one(parts[place], Follow(after, behind.broken, behind.continued))
    return after


def closed_one(part, follow):
    match part:
        case list():
            return [part, *follow.next]
        case ("if", condition, yes, no):
            if ways(yes) | ways(no):
                return [["if", condition, closed(yes, follow), closed(no, follow)]]
            return [["if", condition, closed(yes, NOTHING), closed(no, NOTHING)], *follow.next]
        case ("copies", copies):
            if any("return" in ways(copy) for copy in copies):
                return closed_copies(copies, follow.next)
            return [*closed_copies(copies, []), *follow.next]
        case ("for", variable, count, limit, body):
            return [["for", variable, count, limit, closed(body, NOTHING)], *follow.next]
        case ("return",):
            return []
        case ("break",):
            return follow.broken
        case ("continue",):
            return follow.continued
    raise TypeError(part)


def closed_copies(copies, after):
    if not copies:
        return after
    later = closed_copies(copies[1:], after)
    return closed(copies[0], Follow(later, after, later))


def lowered_program(program, arguments):
    """Returns the program of these arguments. A parameter that stands for itself is a number."""
    return measured_program(program, arguments)[0]


def measured_program(program, arguments):
    """Returns the same, and why it is refused for its size, or None."""
    lowering = Lowering(program, arguments)
    keys = lowering.keys(program.body.keys)
    parts = lowering.statements(program.body.statements, 0)
    statements = closed(parts, NOTHING)
    if lowering.wrong:
        raise ArgumentFault(*min(lowering.wrong, key=lambda it: it[0]))
    cause = node_fault(statements) or ("TooManyNodes" if written_nodes(parts) > MOST_NODES else None)
    return ([["prefetch", keys]] if keys else []) + statements, cause


# ---- limits

STATEMENTS = {"set": (2,), "put": (1, 2), "del": (1,), "emit": (1,), "abort": (1,), "if": (1,), "for": (2,)}
BLOCKS = {"if": (2, 3), "for": (4,)}
CONDITIONS = {"eq", "less", "not", "and", "or"}


def nodes_of(statements, depth=1):
    """Yields the depth of each node, in the order in which the program is read."""
    for it in statements:
        if it[0] == "prefetch":
            continue
        yield depth
        for place in STATEMENTS[it[0]]:
            yield from nodes_in(it[place], depth + 1)
        for place in BLOCKS.get(it[0], ()):
            yield from nodes_of(it[place], depth + 1)


def nodes_in(written, depth):
    yield depth
    if isinstance(written, list) and written[0] != "var":
        for it in written[1:]:
            yield from nodes_in(it, depth + 1)


def node_fault(statements):
    """Returns why a program is refused for its size, or None."""
    count = 0
    for depth in nodes_of(statements):
        count += 1
        if depth > MOST_DEPTH:
            return "TooDeep"
        if count > MOST_NODES:
            return "TooManyNodes"
    return None


def written_nodes(parts):
    """Returns how many nodes statements have where they stand, whether they are reached or not."""
    count = 0
    for part in parts:
        match part:
            case list():
                count += sum(1 for _ in nodes_of([part]))
            case ("if", condition, yes, no):
                count += 1 + sum(1 for _ in nodes_in(condition, 1)) + written_nodes(yes) + written_nodes(no)
            case ("copies", copies):
                count += sum(written_nodes(it) for it in copies)
            case ("for", _, number, _, body):
                count += 1 + sum(1 for _ in nodes_in(number, 1)) + written_nodes(body)
    return count


def value_nodes(node, bound=None):
    """Returns how many nodes the value of a definition has."""
    bound = bound or {}
    match node:
        case Use():
            inside = {it: value_nodes(argument, bound) for it, argument in zip(node.definition.parameters, node.arguments)}
            return value_nodes(node.definition.value, inside)
        case Named():
            return bound.get(node.binding, 1)
        case LookUp():
            own = 1 + value_nodes(node.key, bound)
            return own + (value_nodes(node.other, bound) if node.other is not None else 0)
        case Called():
            return 1 + value_nodes(node.value, bound)
        case Operation():
            return 1 + value_nodes(node.left, bound) + value_nodes(node.right, bound)
    return 1

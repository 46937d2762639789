"""Which values are texts and which are numbers."""
from tree import (
    NUMBER, TEXT, Assignment, Called, Choice, Comparison, Connective, Copies, Count, Listed, Literal, LookUp, Named, Negation, Operation, Put, Simple,
    Use,
)


class KindFault(Exception):
    """A value has another kind than is wanted."""


def kind_of(node, known):
    """Returns the kind of a value, None where it may be either. `known` has those of variables and parameters."""
    match node:
        case Literal():
            return TEXT if isinstance(node.value, str) else NUMBER
        case Named():
            return known.get(node.binding, getattr(node.binding, "kind", None))
        case Use():
            return kind_of(node.definition.value, inside(node, known))
        case LookUp():
            return TEXT if node.word == "get" else NUMBER
        case Called():
            return TEXT if node.word == "text_of" else NUMBER
        case Operation():
            return TEXT if node.sign == "++" else NUMBER
    raise TypeError(node)


def inside(use, known):
    """Returns the kinds of the parameters of a definition where it is used."""
    return {it: kind_of(argument, known) for it, argument in zip(use.definition.parameters, use.arguments)}


def want(node, kind, known):
    check_value(node, known)
    if kind_of(node, known) not in (None, kind):
        raise KindFault(node.at)


def check_value(node, known):
    match node:
        case Use():
            for it in node.arguments:
                check_value(it, known)
            check_value(node.definition.value, inside(node, known))
        case LookUp():
            want(node.key, TEXT, known)
            if node.other is not None:
                want(node.other, TEXT, known)
        case Called():
            want(node.value, NUMBER if node.word == "text_of" else TEXT, known)
        case Operation():
            wanted = TEXT if node.sign == "++" else NUMBER
            want(node.left, wanted, known)
            want(node.right, wanted, known)


def check_condition(node, known):
    match node:
        case Comparison():
            check_value(node.left, known)
            check_value(node.right, known)
            if {kind_of(node.left, known), kind_of(node.right, known)} == {TEXT, NUMBER}:
                raise KindFault(node.at)
        case Negation():
            check_condition(node.condition, known)
        case Connective():
            check_condition(node.left, known)
            check_condition(node.right, known)


def check_statements(statements, known, given):
    for it in statements:
        check_statement(it, known, given)


def check_statement(node, known, given):
    match node:
        case Assignment():
            check_value(node.value, known)
            wanted = {"+=": NUMBER, "-=": NUMBER, "++=": TEXT}.get(node.sign)
            if node.is_let:
                known[node.binding] = kind_of(node.value, known)
                return
            own = None if isinstance(node.binding, int) else known.get(node.binding, node.binding.kind)
            kinds = {wanted, own, kind_of(node.value, known)} - {None}
            if len(kinds) > 1:
                raise KindFault(node.at)
        case Put():
            want(node.key, TEXT, known)
            want(node.value, TEXT, known)
        case Simple():
            check_value(node.value, known)
            if node.word != "emit":
                want(node.value, TEXT, known)
        case Choice():
            check_condition(node.condition, known)
            check_statements(node.yes, known, given)
            check_statements(node.no or [], known, given)
        case Count():
            want(node.count, NUMBER, known)
            if not isinstance(node.binding, int):
                known[node.binding] = NUMBER
            check_statements(node.body, known, given)
        case Copies():
            kinds = [kind_of(it, known) for it in items_of(node.items, given)]
            if len(set(kinds) - {None}) > 1:
                raise KindFault(node.at)
            for kind in kinds:
                check_statements(node.body, {**known, node.parameter: kind}, given)


def items_of(items, given):
    """Returns items with those of their lists in place of these."""
    found = []
    for it in items:
        if isinstance(it, Named) and isinstance(it.binding, Listed):
            found += it.binding.items
        elif isinstance(it, Named) and it.binding.is_list:
            found += given.get(it.binding, [])
        else:
            found.append(it)
    return found


def given_by(program, arguments):
    """Returns what each parameter of a program stands for: an argument, or those that are left."""
    given = dict(zip(program.parameters, arguments))
    if program.parameters and program.parameters[-1].is_list:
        given[program.parameters[-1]] = arguments[len(program.parameters) - 1 :]
    return given


def check_body(program, arguments):
    """Refuses a program whose arguments make a value of another kind than is wanted."""
    given = given_by(program, arguments)
    known = {it: kind_of(value, {}) for it, value in given.items() if not it.is_list}
    check_statements(program.body.statements, known, given)

"""The one form in which a scenario is printed as a source."""
import json

SIGNS = {"cat": "++", "add": "+", "sub": "-", "mul": "*", "div": "/", "rem": "%", "eq": "==", "less": "<", "and": "&&", "or": "||"}
RANKS = {"cat": 1, "add": 2, "sub": 2, "mul": 3, "div": 3, "rem": 3, "or": 1, "and": 2}
NEGATED = {"eq": "!=", "less": ">="}
OPERAND = 4
STEPS = 16


def text(value):
    return json.dumps(value, ensure_ascii=False) if isinstance(value, str) else str(value)


def rank(node):
    return RANKS.get(node[0], OPERAND) if isinstance(node, list) else OPERAND


def bracketed(node, needed):
    return f"({shown(node)})" if needed else shown(node)


def shown(node):
    """Returns an expression or a condition."""
    if not isinstance(node, list):
        return text(node)
    word, *parts = node
    if word == "var":
        return f"v{parts[0]}"
    if word == "not":
        inner = parts[0]
        if inner[0] in NEGATED:
            return f"{shown(inner[1])} {NEGATED[inner[0]]} {shown(inner[2])}"
        return f"!({shown(inner)})"
    if word in ("eq", "less"):
        return f"{shown(parts[0])} {SIGNS[word]} {shown(parts[1])}"
    if word in SIGNS:
        own = RANKS[word]
        return f"{bracketed(parts[0], rank(parts[0]) < own)} {SIGNS[word]} {bracketed(parts[1], rank(parts[1]) <= own)}"
    return f"{word}({shown(parts[0])})"


def block(lines, blocks):
    """Returns statements in braces, in a line around which stand so many blocks."""
    if not lines:
        return "{}"
    return "{" + "".join(f"\n{'    ' * (blocks + 1)}{it}" for it in lines) + f"\n{'    ' * blocks}}}"


def statements(program, blocks):
    return [statement(it, blocks) for it in program]


def statement(node, blocks):
    match node:
        case ["set", variable, value]:
            return f"v{variable} = {shown(value)}"
        case ["put", key, value, lease]:
            return f"put({shown(key)}, {shown(value)}{f', {lease}' if lease else ''})"
        case ["if", condition, yes, no]:
            line = f"if {shown(condition)} {block(statements(yes, blocks + 1), blocks)}"
            if len(no) == 1 and no[0][0] == "if":
                return f"{line} else {statement(no[0], blocks)}"
            return line + (f" else {block(statements(no, blocks + 1), blocks)}" if no else "")
        case ["for", variable, count, most, body]:
            return f"for v{variable} in 0..{shown(count)} max {most} {block(statements(body, blocks + 1), blocks)}"
        case ["prefetch", keys]:
            return f"prefetch({', '.join(map(text, keys))})"
        case [word, value]:
            return f"{word}({shown(value)})"
    raise ValueError(node)


def body(program):
    return block(statements([it for it in program if it != ["prefetch", []]], 1), 0)


def operation(node):
    word, *parts = node
    if word != "del" and not parts[-1]:
        parts.pop()
    return f"{word}({', '.join(map(text, parts))})"


def compare(node):
    target, key, order, side = node
    return f"{target}({text(key)}) {'==' if order == '=' else order} {text(side)}"


def since(revision):
    return f" from {revision}" if revision else ""


def event(node):
    match node:
        case ["start", level, limit, program]:
            return f"start {body(program)} at {level} limit {limit}"
        case ["txn", compares, success, failure]:
            condition = f"if {' && '.join(map(compare, compares))} " if compares else ""
            other = f" else {block(list(map(operation, failure)), 0)}" if failure else ""
            return f"txn {condition}{block(list(map(operation, success)), 0)}{other}"
        case ["grant", lease, ttl]:
            return f"grant {lease} ttl {ttl}"
        case ["advance", now]:
            return f"advance to {now}"
        case ["watch_key", key, revision]:
            return f"watch {text(key)}{since(revision)}"
        case ["watch_range", first, end, revision]:
            return f"watch {text(first)}..{text(end)}{since(revision)}"
        case ["poll", watcher, most]:
            return f"poll {watcher} max {most}"
        case ["begin", revision, operations] if operations != 128:
            return f"begin {revision} limit {operations}"
        case ["begin", revision, *_]:
            return f"begin {revision}"
        case [word, number]:
            return f"{word} {number}"
    raise ValueError(node)


def source(scenario):
    """Returns the source of a scenario."""
    lines, steps = [], []
    for it in [*scenario, None]:
        if steps and (it is None or it[0] != "step" or len(steps) == STEPS):
            lines.append(f"step {' '.join(steps)}")
            steps = []
        if it and it[0] == "step":
            steps.append(str(it[1]))
        elif it:
            lines.append(event(it))
    return "".join(f"{it}\n" for it in lines)

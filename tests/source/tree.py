"""What a source is made of, as it is written. Each part has `at`, the offset of its first character."""
from dataclasses import dataclass, field

TEXT, NUMBER = "text", "number"


@dataclass(eq=False)
class Variable:
    """A name that a `let` or a counted `for` gave; `number` is that of the program's variable."""
    name: str
    number: int
    is_counted: bool = False


@dataclass(eq=False)
class Parameter:
    """A parameter of a program or of a definition, or the name of a `for` over items. One with `is_list` takes all arguments that are left."""
    name: str
    is_list: bool = False
    is_item: bool = False


@dataclass(eq=False)
class Definition:
    name: str
    parameters: list
    value: object


@dataclass(eq=False)
class Listed:
    """A list that is defined."""
    name: str
    items: list


@dataclass(eq=False)
class Program:
    """A program, a rule or a final. `is_looked_at` says whether the kinds of its values are."""
    name: str
    parameters: list
    body: object
    is_looked_at: bool = True


@dataclass(eq=False)
class Asked:
    """A rule or a final: a program and its arguments."""
    name: str
    program: Program
    arguments: list
    is_final: bool
    level: str | None


# ---- values

@dataclass(eq=False)
class Literal:
    at: int
    value: object


@dataclass(eq=False)
class Named:
    """The value of a variable or of a parameter."""
    at: int
    binding: object


@dataclass(eq=False)
class Use:
    """A definition, copied in."""
    at: int
    definition: Definition
    arguments: list


@dataclass(eq=False)
class LookUp:
    """`get` or `rev` of a key; `other` is the value where `get` finds nothing."""
    at: int
    word: str
    key: object
    other: object = None


@dataclass(eq=False)
class Called:
    """`num_of` or `text_of`."""
    at: int
    word: str
    value: object


@dataclass(eq=False)
class Operation:
    at: int
    sign: str
    left: object
    right: object


# ---- conditions

@dataclass(eq=False)
class Comparison:
    at: int
    sign: str
    left: object
    right: object


@dataclass(eq=False)
class Negation:
    at: int
    condition: object


@dataclass(eq=False)
class Connective:
    at: int
    sign: str
    left: object
    right: object


# ---- statements

@dataclass(eq=False)
class Assignment:
    """`binding` is a Variable, or the number of one of v0 to v15. The sign is that of `=`, `+=`, `-=` or `++=`."""
    at: int
    binding: object
    sign: str
    value: object
    is_let: bool = False


@dataclass(eq=False)
class Simple:
    """`del`, `emit` or `abort`."""
    at: int
    word: str
    value: object


@dataclass(eq=False)
class Put:
    at: int
    key: object
    value: object
    lease: object = None


@dataclass(eq=False)
class Choice:
    at: int
    condition: object
    yes: list
    no: list | None


@dataclass(eq=False)
class Count:
    """A loop of the program; `most` is None where the count is its own limit."""
    at: int
    binding: object
    count: object
    most: object
    body: list


@dataclass(eq=False)
class Copies:
    """A block once for each item."""
    at: int
    parameter: Parameter
    items: list
    body: list


@dataclass(eq=False)
class Leave:
    """`return`, `break` or `continue`."""
    at: int
    word: str


@dataclass(eq=False)
class Body:
    """The keys of a program's list, and its statements."""
    at: int
    keys: list
    statements: list
    takes_numbers: bool = False


@dataclass(eq=False)
class Source:
    events: list = field(default_factory=list)
    # (program, arguments) of each start, in order; for the interpreter
    starts: list = field(default_factory=list)
    programs: dict = field(default_factory=dict)
    asked: list = field(default_factory=list)
    # what only explore knows: pairs of a start's index and (runner, committed)
    after: list = field(default_factory=list)
    runners: dict = field(default_factory=dict)

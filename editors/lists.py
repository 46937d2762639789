"""The lists in which the words of the language stand beside the table of editors/make, and which of them lacks a word, or has one that is none."""
import ast
import json
import pathlib
import re

TOP = pathlib.Path(__file__).resolve().parent.parent


def read(file):
    return (TOP / file).read_text(encoding="utf-8")


def said(file):
    """The words of a text."""
    return set(re.findall(r"\w+", read(file)))


def quoted(*files):
    """The words that stand in quotes."""
    return {word for file in files for word in re.findall(r'"(\w+)"', read(file))}


def arms(file, what):
    """The words of which a function of Rust makes one of these."""
    return set(re.findall(rf'"(\w+)" (?:=> )?\{{?\s*Some\({what}::', read(file)))


def cases(file):
    """The words that a function of Rust has cases for."""
    return set(re.findall(r'"(\w+)" =>', read(file)))


def spelled(file, what):
    """The words as which a function of Rust spells the variants of this enum."""
    return set(re.findall(rf'\b{what}::\w+ => "(\w+)"', read(file)))


def table(file, name):
    """The words of a table of Rust."""
    return set(re.findall(r'"(\w+)"', re.search(rf"const {name}: [^=]*= &?\[(.*?)\];", read(file), re.DOTALL)[1]))


def script(file, name):
    """The words of a value that a script names."""
    given = [it.value for it in ast.parse(read(file)).body if isinstance(it, ast.Assign) and ast.unparse(it.targets[0]) == name]
    return {word for it in ast.walk(given[0]) if isinstance(it, ast.Constant) and isinstance(it.value, str) for word in it.value.split()}


def forms(file, name):
    """The words of a map of Go."""
    return set(re.findall(r'"(\w+)":', re.search(rf"{name}\s*=\s*map.*?\{{(.*?)\}}", read(file), re.DOTALL)[1]))


def schema(name):
    """The words that begin such an array, by the schema of scenarios."""
    return set(json.loads(read("docs/scenario.schema.json"))["$defs"][name]["prefixItems"][0]["enum"])


def lists_of_sources(of):
    """Where the words of sources stand: what that is, its words, and those that it has to have."""
    reserved, levels, events = of("declaration control statement function"), of("level"), of("event")
    compares = of("target") - {"end", "why", "out"}
    spoken = "crates/stm_compiling/src/wanted.rt"
    yield "the reader's words (stm_tokens, names.rt)", arms("crates/stm_tokens/src/names.rt", "Word"), reserved
    yield "the reader's events (stm_source, words.rt)", arms("crates/stm_source/src/words.rt", "EventWord"), events
    yield "the reader's levels (stm_source, words.rt)", arms("crates/stm_source/src/words.rt", "Level"), levels
    yield "the reader's compares (stm_source, words.rt)", arms("crates/stm_source/src/words.rt", "TargetWord"), compares
    yield f"EVENTS of {spoken}", table(spoken, "EVENTS"), of("declaration event")
    yield f"OPTIONS of {spoken}", table(spoken, "OPTIONS"), of("declaration event") - {"begin"} | {"as", "at", "limit", "after"}
    yield f"STATEMENTS of {spoken}", table(spoken, "STATEMENTS"), of("statement") - {"prefetch"} | {"let", "if", "for", "return"}
    yield f"COMPARES of {spoken}", table(spoken, "COMPARES"), compares
    yield f"LEVELS of {spoken}", table(spoken, "LEVELS"), levels
    yield "the forms of crates/stm_compiling/src/forms.rt", cases("crates/stm_compiling/src/forms.rt"), of("statement function")
    yield "the words of crates/stm_compiling/src/spots.rt", spelled("crates/stm_compiling/src/spots.rt", "Word"), reserved
    yield "LEVELS of crates/stm_arguments/src/levels.rt", table("crates/stm_arguments/src/levels.rt", "LEVELS"), levels
    yield "KEYWORDS of tests/source/tokens.py", script("tests/source/tokens.py", "KEYWORDS"), reserved
    yield "EVENTS of tests/source/tokens.py", script("tests/source/tokens.py", "EVENTS"), events
    yield "LEVELS of tests/source/reader.py", script("tests/source/reader.py", "LEVELS"), levels
    yield "what is no name, by docs/LANGUAGE.md", set(re.search(r"none of `([^`]*)`", read("docs/LANGUAGE.md"))[1].split()), reserved


def lists_of_json():
    """The same of the words of JSON."""
    words = "crates/stm_program_json/src/words.rt"
    operators = set(re.findall(r'Operator::\w+ => "(\w+)"', read("crates/stm_program/src/operator.rt")))
    statements, conditions, expressions = arms(words, "StmtWord"), arms(words, "CondWord"), arms(words, "ExprWord") | operators
    for kind, wanted in (("statement", statements), ("condition", conditions), ("expression", expressions)):
        yield f"the {kind}s of docs/scenario.schema.json", schema(kind), wanted
        yield f"{kind}Forms of etcd/stmprogram/program.go", forms("etcd/stmprogram/program.go", f"{kind}Forms"), wanted
    for kind, wanted in (("CONDITIONS", conditions), ("EXPRESSIONS", expressions)):
        yield f"{kind} of crates/stm_explain/src/forms.rt", table("crates/stm_explain/src/forms.rt", kind), wanted
    for kind in ("event", "compare", "operation"):
        yield f"the {kind}s of docs/scenario.schema.json", schema(kind), table("crates/stm_explain/src/forms.rt", f"{kind.upper()}S")
    for kind, wanted in (("STATEMENTS", statements), ("CONDITIONS", conditions)):
        yield f"{kind} of tests/source/lowering.py", script("tests/source/lowering.py", kind), wanted
    for file, found in (("docs/FORMATS.md", said), ("tests/source/random_scenarios.py", quoted), ("etcd/same", quoted), ("etcd/generate.py", quoted)):
        has = found(file)
        yield file, has, has | statements | conditions | expressions


def texts_of_sources(of, kinds):
    """Texts that have to have each word of sources, or those that are no names, and may have others."""
    reserved = of("declaration control statement function")
    reader = [f"tests/source/{name}.py" for name in ("reader", "statements", "values")]
    for name, has, wanted in (
        ("crates/stm_arguments/src/language.rt", said("crates/stm_arguments/src/language.rt"), of(kinds)),
        ("docs/LANGUAGE.md", said("docs/LANGUAGE.md"), of(kinds)),
        (", ".join(reader), quoted(*reader), reserved),
        ("tests/source/changed_sources.py", quoted("tests/source/changed_sources.py"), reserved),
    ):
        yield name, has, has | wanted


def lists_of_signs():
    """Where the signs of operators stand: each has to be one that a pattern matches."""
    signs = set(re.findall(r'Operator::\w+ => "(\W+)"', read("crates/stm_program/src/operator.rt")))
    grammar = json.loads(read("editors/stm.tmLanguage.json"))["patterns"]
    (token,) = [it for it in ast.walk(ast.parse(read("tests/source/tokens.py"))) if isinstance(it, ast.Constant) and "(?P<sign>" in str(it.value)]
    for name, pattern in (("editors/make", next(it["match"] for it in grammar if "operator" in it["name"])), ("TOKEN of tests/source/tokens.py", token.value)):
        yield f"the signs of {name}", {sign for sign in signs if re.fullmatch(pattern, sign)}, signs


def wrong_lists(words):
    """Says of each list which words of the table of editors/make it lacks, and which others it has."""

    def of(kinds):
        return {word for kind in kinds.split() for word in words[kind].split()}

    for name, has, wanted in [*lists_of_sources(of), *texts_of_sources(of, " ".join(words)), *lists_of_json(), *lists_of_signs()]:
        yield from (f"{name}: {word} is missing" for word in sorted(wanted - has))
        yield from (f"{name}: {word} is none of the words" for word in sorted(has - wanted))

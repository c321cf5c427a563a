"""The first words of the lines that Python says to a host, by its sources.

A line goes to a host by few calls, the tellers. What these are given is followed to where its text stands: through names, attributes, lists and what
functions give back. A function that hands on what it was given is a teller, too. A form that is not understood is a fault, so no line is missed.
"""

from __future__ import annotations

import ast
import re
from collections import defaultdict
from collections.abc import Iterator
from pathlib import Path
from typing import NamedTuple

# where a text is in what holds it: in each item of a list, or at a place of a tuple
Step = int | str
Steps = tuple[Step, ...]
EACH = "each"

# calls that give what they are given, or what a method of it gives
SAME = {"encode", "list", "tuple", "reversed", "sorted"}
COMPREHENSION = (ast.ListComp, ast.SetComp, ast.GeneratorExp)
FUNCTION = (ast.FunctionDef, ast.AsyncFunctionDef)


class NotUnderstood(Exception):
    """A line is made in a form that is not known here."""


class Teller(NamedTuple):
    """A function that hands a line to a host: the class that has it, in small letters, its name, which of its parameters has the line, and where."""

    owner: str
    name: str
    place: int
    steps: Steps


Value = tuple[ast.expr, Steps]


def first_word(text: str, is_whole: bool) -> str:
    """The first word of a line, by all of its text, or by its beginning."""
    found = re.match(r"[a-z-]+(?= |$)" if is_whole else r"[a-z-]+(?= )", text)
    if not found:
        raise NotUnderstood(f"no line begins with {text!r}")
    return found[0]


def targets(target: ast.expr, steps: Steps = ()) -> Iterator[tuple[ast.expr, Steps]]:
    """What is bound to a value, each with its place there."""
    if isinstance(target, ast.Tuple | ast.List):
        for place, each in enumerate(target.elts):
            yield from targets(each, (*steps, place))
    elif not isinstance(target, ast.Starred):
        yield target, steps


class Tree:
    """The syntax of some files: of each node the one above it, and what stands under a name."""

    def __init__(self, files: dict[str, str]) -> None:
        self.above: dict[ast.AST, ast.AST] = {}
        self.file: dict[ast.AST, str] = {}
        self.functions: dict[str, list[ast.FunctionDef]] = defaultdict(list)
        self.classes: dict[str, ast.ClassDef] = {}
        self.attributes: dict[str, list[Value]] = defaultdict(list)
        self.constants: dict[str, list[Value]] = defaultdict(list)
        self.calls: list[ast.Call] = []
        for name, text in files.items():
            self.take(name, ast.parse(text))

    def take(self, file: str, module: ast.Module) -> None:
        self.file[module] = file
        for node in ast.walk(module):
            self.above.update((child, node) for child in ast.iter_child_nodes(node))
            if isinstance(node, ast.FunctionDef):
                self.functions[node.name].append(node)
            elif isinstance(node, ast.ClassDef):
                self.classes[node.name] = node
            elif isinstance(node, ast.Call):
                self.calls.append(node)
                self.note_append(node)
            for target, value in bindings(node):
                if isinstance(target, ast.Attribute):
                    self.attributes[target.attr].append(value)
                elif isinstance(target, ast.Name) and self.above.get(node) is module:
                    self.constants[target.id].append(value)

    def note_append(self, call: ast.Call) -> None:
        """What is put at the end of a list is an item of it."""
        if isinstance(call.func, ast.Attribute) and call.func.attr == "append" and isinstance(call.func.value, ast.Attribute):
            self.attributes[call.func.value.attr].append((ast.List([call.args[0]], ast.Load()), ()))
            self.above.setdefault(call.args[0], call)

    def up(self, node: ast.AST) -> Iterator[ast.AST]:
        while node in self.above:
            node = self.above[node]
            yield node

    def class_of(self, node: ast.AST) -> list[str]:
        """The class in which a node stands, and those below it, in small letters."""
        found = [each.name for each in self.up(node) if isinstance(each, ast.ClassDef)][:1]
        for name in found:
            found += [base.id for base in self.classes[name].bases if isinstance(base, ast.Name) and base.id in self.classes]
        return [name.lower() for name in found]

    def place(self, node: ast.AST) -> str:
        file = next((self.file[each] for each in self.up(node) if each in self.file), "")
        return f"{file}:{getattr(node, 'lineno', 0)}"


def bindings(node: ast.AST) -> list[tuple[ast.expr, Value]]:
    """What a statement binds, each with its value."""
    if isinstance(node, ast.Assign):
        return [(each, (node.value, steps)) for target in node.targets for each, steps in targets(target)]
    if isinstance(node, ast.AnnAssign | ast.AugAssign | ast.NamedExpr):
        return [(node.target, (node.value, ()))] if node.value else []
    if isinstance(node, ast.For | ast.comprehension):
        return [(each, (node.iter, (EACH, *steps))) for each, steps in targets(node.target)]
    return []


class Said:
    """What is said by these tellers. `kept` has the lines that are read from a record, by the file and the expression that holds them; `named`
    says under which other names an object of a class is known."""

    def __init__(self, files: dict[str, str], tellers: list[Teller], kept: dict[str, str], named: dict[str, set[str]]) -> None:
        self.tree = Tree(files)
        self.tellers = list(tellers)
        self.kept, self.named = kept, named
        self.used: set[str] = set()  # what of `kept` was met
        self.words: set[str] = set()
        self.looked: set[tuple[ast.AST, Steps]] = set()
        for teller in self.tellers:  # grows while it is gone through
            for call in self.tree.calls:
                if self.is_by(call, teller):
                    self.words |= self.given(call, teller)

    # ---- who tells

    def is_by(self, call: ast.Call, teller: Teller) -> bool:
        """Whether a call is one of this teller."""
        owners = {teller.owner, *self.named.get(teller.owner, ())}
        match call.func:
            case ast.Attribute(attr=teller.name, value=ast.Name("self")):
                return bool(owners & set(self.tree.class_of(call)))
            case ast.Attribute(attr=teller.name, value=ast.Call(ast.Name("super"))):
                return bool(owners & set(self.tree.class_of(call)[1:]))
            case ast.Attribute(attr=teller.name, value=ast.Name(holder) | ast.Attribute(attr=holder)):
                return holder in owners
            case ast.Name(name):
                return name.lower() in owners if teller.name == "__init__" else not teller.owner and name == teller.name
        return False

    def given(self, call: ast.Call, teller: Teller) -> set[str]:
        if len(call.args) <= teller.place or any(isinstance(each, ast.Starred) for each in call.args[:teller.place + 1]):
            raise NotUnderstood(f"{self.tree.place(call)}: no line in {ast.unparse(call)}")
        return self.texts(call.args[teller.place], teller.steps)

    def hand_on(self, function: ast.FunctionDef, name: str, steps: Steps) -> None:
        """The function is given the line, and so tells it."""
        owner = next(iter(self.tree.class_of(function)), "")
        names = [each.arg for each in function.args.args][bool(owner):]
        if name not in names:
            raise NotUnderstood(f"{self.tree.place(function)}: {name} is not a parameter by its place")
        teller = Teller(owner, function.name, names.index(name), steps)
        if teller not in self.tellers:
            self.tellers.append(teller)

    # ---- the lines

    def texts(self, node: ast.expr, steps: Steps) -> set[str]:
        """The first words of the lines that an expression has there."""
        expression = ast.unparse(node)
        if expression in self.kept:
            self.used.add(expression)
            return {self.kept[expression]}
        if (node, steps) in self.looked:
            return set()
        self.looked.add((node, steps))
        try:
            return self.alone(node) if not steps else self.inside(node, steps[0], steps[1:])
        except NotUnderstood as fault:
            raise NotUnderstood(f"{self.tree.place(node)}: {expression}\n{fault}") from None

    def all(self, values: list[Value]) -> set[str]:
        return {word for value, steps in values for word in self.texts(value, steps)}

    def alone(self, node: ast.expr) -> set[str]:
        match node:
            case ast.Constant(str() as text):
                return {first_word(text, is_whole=True)}
            case ast.JoinedStr([ast.Constant(text), *_]) | ast.BinOp(ast.Constant(text), ast.Add()):
                return {first_word(text, is_whole=False)}
            case ast.BinOp(left, ast.Mod()) | ast.Call(ast.Attribute(left, "encode")):
                return self.texts(left, ())
            case ast.Call(ast.Attribute(ast.Constant(""), "join"), [parts]):
                return self.texts(parts, (EACH,))
            case ast.Subscript(value, index) if not isinstance(index, ast.Slice):
                return self.texts(value, (EACH,))
        return self.either(node, ())

    def inside(self, node: ast.expr, step: Step, rest: Steps) -> set[str]:
        match node:
            case ast.ListComp(item) | ast.SetComp(item) | ast.GeneratorExp(item) if step == EACH:
                return self.texts(item, rest)
            case ast.List(items) | ast.Tuple(items) if step == EACH:
                return self.all([(each.value, (step, *rest)) if isinstance(each, ast.Starred) else (each, rest) for each in items])
            case ast.Tuple(items) if isinstance(step, int):
                return self.texts(items[step], rest)
            case ast.BinOp(left, ast.Add(), right):
                return self.all([(left, (step, *rest)), (right, (step, *rest))])
            case ast.Subscript(value, ast.Slice()):
                return self.texts(value, (step, *rest))
        return self.either(node, (step, *rest))

    def either(self, node: ast.expr, steps: Steps) -> set[str]:
        """What holds a line as a whole holds its parts: a choice, a name, and what a function gives."""
        match node:
            case ast.IfExp(_, one, other):
                return self.all([(one, steps), (other, steps)])
            case ast.Name(name):
                return self.named_here(node, name, steps)
            case ast.Attribute(attr=name) if name in self.tree.attributes:
                return self.all([(value, (*inner, *steps)) for value, inner in self.tree.attributes[name]])
            case ast.Call(ast.Name(name) | ast.Attribute(attr=name)) if name in self.tree.functions:
                return self.all([each for function in self.tree.functions[name] for each in answers(function, steps)])
        raise NotUnderstood(f"{ast.dump(node)[:100]} at {steps}")

    def named_here(self, node: ast.AST, name: str, steps: Steps) -> set[str]:
        """What a name stands for, in the comprehension, the function or the file round it."""
        for scope in self.tree.up(node):
            inner = scope.generators if isinstance(scope, COMPREHENSION) else ast.walk(scope) if isinstance(scope, FUNCTION) else []
            found = [value for each in inner for target, value in bindings(each) if isinstance(target, ast.Name) and target.id == name]
            is_given = isinstance(scope, ast.FunctionDef) and name in [each.arg for each in scope.args.args]
            if is_given and isinstance(scope, ast.FunctionDef):
                self.hand_on(scope, name, steps)
            if found or is_given:
                return self.all([(value, (*inside, *steps)) for value, inside in found])
        if name not in self.tree.constants:
            raise NotUnderstood(f"nothing here is named {name}")
        return self.all([(value, (*inside, *steps)) for value, inside in self.tree.constants[name]])


def answers(function: ast.FunctionDef, steps: Steps) -> list[Value]:
    """What a function gives back, or one after another."""
    found: list[Value] = []
    for node in ast.walk(function):
        if isinstance(node, ast.Return | ast.YieldFrom) and node.value and not (isinstance(node.value, ast.Constant) and node.value.value is None):
            found.append((node.value, steps))
        elif isinstance(node, ast.Yield) and node.value and steps[:1] == (EACH,):
            found.append((node.value, steps[1:]))
    return found


def files_of(top: Path, *patterns: str) -> dict[str, str]:
    return {str(path.relative_to(top)): path.read_text() for pattern in patterns for path in sorted(top.glob(pattern))}

"""Written trees, made without the program: how they are printed and read, which of them a grammar admits, and by which moves a parser
makes them. For the scripts of this folder."""
import json
import re
from typing import NamedTuple

from written import LOOKS, SPAN, as_argument, inner

STRING = re.compile(r'"(?:[^"\\]|\\.)*"')


class Tree(NamedTuple):
    """A tree of a closed symbol, which names and choices don't stand around: of a call the place of its alternative, of a literal the
    text of the token."""

    symbol: tuple
    place: int
    children: tuple
    text: str


class Misfit(Exception):
    """A text or a JSON value is no tree of the symbol."""


def quoted(text):
    """The text between quotes, as a literal is printed."""
    named = {"\\": "\\\\", '"': '\\"', "\n": "\\n", "\r": "\\r", "\t": "\\t"}
    return '"' + "".join(named.get(it) or (it if it >= " " else f"\\u{{{ord(it):x}}}") for it in text) + '"'


def terminal_text(symbol):
    _, kind, text = symbol
    return {"quoted": lambda: quoted(text), "regex": lambda: f"r#{quoted(text)}#", "bare": lambda: text, "error": lambda: "!"}[kind]()


def symbol_text(symbol):
    """A closed symbol as an argument is printed, without its level."""
    kind = symbol[0]
    if kind == "call":
        return symbol[1] + (f"<{', '.join(map(symbol_text, symbol[2]))}>" if symbol[2] else "")
    if kind == "repeat":
        return symbol_text(symbol[2]) + symbol[1]
    if kind == "group":
        return f"({' '.join(map(symbol_text, symbol[1]))})"
    if kind == "choose":
        return f"<{symbol_text(symbol[1])}>"
    if kind == "named":
        return f"<{'mut ' if symbol[1] else ''}{symbol[2]}:{symbol_text(symbol[3])}>"
    return {"lookahead": "@L", "lookbehind": "@R"}.get(kind) or terminal_text(symbol)


def json_text(text):
    return json.dumps(text, ensure_ascii=False)


def printed(tree):
    kind = tree.symbol[0]
    if kind == "terminal":
        return json_text(tree.text)
    if kind in ("lookahead", "lookbehind"):
        return "@"
    inside = ", ".join(map(printed, tree.children))
    if kind == "call":
        return f"{symbol_text(tree.symbol)}#{tree.place}({inside})"
    return f"({inside})" if kind == "group" else f"?({inside})" if tree.symbol[1] == "?" else f"[{inside}]"


def leaves(tree):
    if tree.symbol[0] == "terminal":
        return [tree]
    return [leaf for it in tree.children for leaf in leaves(it)]


def value(tree, spans):
    """The tree as JSON; each leaf takes the next of the spans."""
    kind = tree.symbol[0]
    if kind == "terminal":
        return {"span": next(spans, SPAN), "terminal": {tree.symbol[1]: tree.symbol[2]}, "text": tree.text}
    if tree.symbol in LOOKS:
        return {"look": None}
    children = [value(it, spans) for it in tree.children]
    if kind == "call":
        return {"args": [as_argument(it) for it in tree.symbol[2]], "children": children, "place": tree.place, "rule": tree.symbol[1]}
    if kind == "group":
        return {"group": children}
    return {"opt": children[0] if children else None} if tree.symbol[1] == "?" else {"list": children}


class Reader:
    """Reads a printed tree of a symbol, or says where it is none."""

    def __init__(self, language, text):
        self.language, self.text, self.at = language, text, 0

    def takes(self, word):
        found = self.text.startswith(word, self.at)
        self.at += len(word) if found else 0
        return found

    def needs(self, word):
        if not self.takes(word):
            raise Misfit(f"{word} is missing at {self.at} of {self.text}")

    def matched(self, pattern):
        found = re.compile(pattern).match(self.text, self.at)
        if not found:
            raise Misfit(f"{pattern} is missing at {self.at} of {self.text}")
        self.at = found.end()
        return found[0]

    def whole(self, symbol):
        found = self.tree(symbol)
        if self.at < len(self.text):
            raise Misfit(f"more stands at {self.at} of {self.text}")
        return found

    def tree(self, symbol):
        symbol = inner(symbol)
        kind = symbol[0]
        if kind == "terminal":
            return Tree(symbol, None, (), json.loads(self.matched(STRING)))
        if symbol in LOOKS:
            self.needs("@")
            return Tree(symbol, None, (), None)
        if kind == "call":
            return self.node(symbol)
        if kind == "group":
            return Tree(symbol, None, self.between("(", symbol[1]), None)
        if kind == "repeat":
            return self.option(symbol) if symbol[1] == "?" else self.items(symbol)
        raise Misfit(f"no tree of {symbol} may stand at {self.at} of {self.text}")

    def node(self, symbol):
        self.needs(symbol_text(symbol) + "#")
        place = int(self.matched("[0-9]+"))
        found = next((it for it in self.language.productions(symbol) if it.place == place), None)
        if not found:
            raise Misfit(f"{symbol_text(symbol)} has no such alternative before {self.at} of {self.text}")
        return Tree(symbol, place, self.between("(", found.symbols), None)

    def between(self, opening, symbols):
        """A tree of each symbol, between brackets."""
        self.needs(opening)
        found = []
        for it in symbols:
            if found:
                self.needs(", ")
            found.append(self.tree(it))
        self.needs(")")
        return tuple(found)

    def option(self, symbol):
        if self.takes("?()"):
            return Tree(symbol, None, (), None)
        return Tree(symbol, None, self.between("?(", symbol[2:]), None)

    def items(self, symbol):
        self.needs("[")
        found = []
        while not self.takes("]"):
            if found:
                self.needs(", ")
            found.append(self.tree(symbol[2]))
        if symbol[1] == "+" and not found:
            raise Misfit(f"a list without an element ends at {self.at} of {self.text}")
        return Tree(symbol, None, tuple(found), None)


def without_spans(symbol):
    if isinstance(symbol, dict):
        return {key: without_spans(it) for key, it in symbol.items() if key != "span"}
    return [*map(without_spans, symbol)] if isinstance(symbol, list) else symbol


class Judge:
    """Whether the grammar admits a tree that is given as JSON, for a symbol, over the tokens at its leaves."""

    def __init__(self, language):
        self.language = language

    def admits(self, symbol, tree):
        symbol = inner(symbol)
        kind = symbol[0]
        if kind == "terminal":
            return symbol[1] != "error" and tree.get("terminal") == {symbol[1]: symbol[2]}
        if symbol in LOOKS:
            return "look" in tree
        if kind == "call":
            return "rule" in tree and self.admits_node(symbol, tree)
        if kind == "group":
            return "group" in tree and self.admits_all(symbol[1], tree["group"])
        return kind == "repeat" and self.admits_repeat(symbol, tree)

    def admits_node(self, symbol, tree):
        if tree["rule"] != symbol[1] or without_spans(tree["args"]) != without_spans([*map(as_argument, symbol[2])]):
            return False
        return any(it.place == tree["place"] and self.admits_all(it.symbols, tree["children"]) for it in self.language.productions(symbol))

    def admits_all(self, symbols, trees):
        return len(symbols) == len(trees) and all(map(self.admits, symbols, trees))

    def admits_repeat(self, symbol, tree):
        if symbol[1] == "?":
            return "opt" in tree and (tree["opt"] is None or self.admits(symbol[2], tree["opt"]))
        items = tree.get("list")
        return items is not None and (symbol[1] == "*" or items != []) and all(self.admits(symbol[2], it) for it in items)


class Part(NamedTuple):
    """What stands for a child once it is made: its label where it is inlined, and how many trees it leaves."""

    label: tuple
    count: int


KEPT = Part(None, 1)


class Move(NamedTuple):
    """A shift of a terminal or a reduction by a label; how many trees and leaves came before it."""

    kind: str
    what: tuple
    trees: int
    leaves: int


class Moves:
    """The moves that make a tree from a start, by productions after inlining."""

    def __init__(self, language, tree):
        self.language, self.made, self.trees, self.leaves = language, [], 0, 0
        part = self.part(tree)
        self.reduce(("start", tree.symbol, part.label), part.count)

    def shift(self, symbol):
        self.made.append(Move("shift", symbol, self.trees, self.leaves))
        self.trees, self.leaves = self.trees + 1, self.leaves + 1

    def reduce(self, label, count):
        self.made.append(Move("reduce", label, self.trees, self.leaves))
        self.trees += 1 - count

    def part(self, tree):
        symbol = tree.symbol
        if symbol[0] == "terminal":
            self.shift(symbol)
            return KEPT
        if symbol[0] == "call":
            return self.call(tree)
        if symbol[0] == "repeat" and symbol[1] != "?":
            return self.items(tree)
        parts = [self.part(it) for it in tree.children]
        return Part((symbol, len(parts), tuple(it.label for it in parts)), sum(it.count for it in parts))

    def items(self, tree):
        _, sign, symbol = tree.symbol
        if not tree.children:
            return Part((tree.symbol, "none"), 0)
        key = ("repeat", "+", symbol)
        for at, it in enumerate(tree.children):
            part = self.part(it)
            self.reduce((key, "more" if at else "one", part.label), part.count + (at > 0))
        return KEPT if sign == "+" else Part((tree.symbol, "some"), 1)

    def call(self, tree):
        parts = [self.part(it) for it in tree.children]
        _, name, arguments, top = tree.symbol
        rule, found = self.language.rule(name), next(it for it in self.language.productions(tree.symbol) if it.place == tree.place)
        label = (name, arguments, found.level, tree.place, tuple(it.label for it in parts))
        part = self.closed(rule, label, sum(it.count for it in parts))
        for level in [it for it in rule.levels() if top is not None and found.level < it <= top]:
            part = self.closed(rule, (name, arguments, level, "pass down", part.label), part.count)
        return part

    def closed(self, rule, label, count):
        """What a node of the rule leaves, which is no move where the rule is inlined."""
        if rule.is_inlined:
            return Part(label, count)
        self.reduce(label, count)
        return KEPT

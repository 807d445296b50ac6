"""What a written grammar means, made without the program after docs/SPECIFICATION.md, so that answers can be compared: its enabled
rules, their levels, closed symbols, and the choices that a call has. For the scripts of this folder.

A closed symbol is a tuple: ("terminal", "quoted" or "regex" or "bare" or "error", text), ("call", name, arguments, level or None),
("repeat", sign, symbol), ("group", symbols), ("choose", symbol), ("named", whether it is mutable, name, symbol), ("lookahead",),
("lookbehind",), and ("faulty",) for what names nothing.
"""
import collections
import re
from typing import NamedTuple

FAULTY = ("faulty",)
LOOKS = ("lookahead",), ("lookbehind",)
SPAN = [0, 0]


class Choice(NamedTuple):
    """An enabled alternative, with the place at which it is written; its level and side where its rule has levels."""

    place: int
    symbols: list
    condition: dict
    level: int
    side: str


class Rule(NamedTuple):
    name: str
    parameters: list
    is_public: bool
    is_inlined: bool
    has_levels: bool
    choices: list

    def levels(self):
        """Those present, tightest first."""
        return sorted({it.level for it in self.choices if it.level is not None})

    def loosest(self):
        return max(self.levels(), default=None)

    def tighter(self, level):
        """The next tighter level present."""
        return max((it for it in self.levels() if it < level), default=None)


class Production(NamedTuple):
    """A choice that a call has: the place of the alternative, its level, and the closed symbols on its right side."""

    place: int
    level: int
    symbols: list


class TooManyKeys(Exception):
    """The expansion is larger than anyone asked for."""


def predicate(attribute, features):
    """Whether a predicate of `cfg` holds; None where it is none."""
    parts = (attribute["arg"] or {}).get("paren")
    if parts is None:
        is_feature = attribute["id"] == "feature" and attribute["arg"] is not None
        return attribute["arg"]["equal"] in features if is_feature else None
    values = [predicate(it, features) for it in parts]
    if None in values or attribute["id"] == "not" and len(values) != 1:
        return None
    return {"not": lambda: not values[0], "all": lambda: all(values), "any": lambda: any(values)}.get(attribute["id"], lambda: None)()


def is_enabled(attributes, features):
    found = [it for it in attributes if it["id"] == "cfg"]
    parts = [(it["arg"] or {}).get("paren") or [] for it in found]
    return all(len(it) == 1 and predicate(it[0], features) is True for it in parts)


def value_of(attribute, key):
    """The text in an attribute of the form id(key = "text")."""
    parts = (attribute["arg"] or {}).get("paren") or []
    is_one = len(parts) == 1 and parts[0]["id"] == key and "equal" in (parts[0]["arg"] or {})
    return parts[0]["arg"]["equal"] if is_one else None


def first(attributes, name):
    return next((it for it in attributes if it["id"] == name), None)


def level_in(attribute):
    text = value_of(attribute, "level") or ""
    return int(text) if re.fullmatch("[0-9]+", text) and int(text) < 2**32 else None


def side_in(attribute):
    side = value_of(attribute, "side")
    return side if side in ("left", "right", "all") else "none"


def ranks(alternatives):
    """The level and the side of each alternative of a rule with levels; none where its level can't be read."""
    found, level, side = [], None, None
    for it in alternatives:
        written, of_side = first(it["attributes"], "precedence"), first(it["attributes"], "assoc")
        if written:
            level, side = level_in(written), "all"
        if of_side:
            side = side_in(of_side)
        found.append((level, side if level is not None else None))
    return found


def enabled_rule(item, features):
    kept = [(place, it) for place, it in enumerate(item["alternatives"]) if is_enabled(it["attributes"], features)]
    alternatives = [it for _, it in kept]
    has_levels = any(first(it["attributes"], "precedence") for it in alternatives)
    found = ranks(alternatives) if has_levels else [(None, None)] * len(kept)
    choices = [Choice(place, it["expr"], it["condition"], *rank) for (place, it), rank in zip(kept, found)]
    is_inlined = first(item["attributes"], "inline") is not None
    return Rule(item["name"], item["args"], item["visibility"] != "priv", is_inlined, has_levels, choices)


def entries_of(items):
    """The groups of a grammar's match blocks."""
    return [group for it in items if it["kind"] == "match" for group in it["contents"]]


def inner(symbol):
    """The symbol without the names and choices around it."""
    while symbol[0] in ("choose", "named"):
        symbol = symbol[-1]
    return symbol


def is_sound(symbol):
    """Whether no part of the symbol names what isn't there."""
    if symbol[0] == "call":
        return all(map(is_sound, symbol[2]))
    if symbol[0] == "group":
        return all(map(is_sound, symbol[1]))
    return is_sound(symbol[-1]) if symbol[0] in ("repeat", "choose", "named") else symbol != FAULTY


def as_argument(symbol):
    """A closed symbol as the JSON of an argument, without its level."""
    kind = symbol[0]
    if kind == "terminal":
        if symbol[1] == "bare":
            return {"kind": "id", "name": symbol[2], "span": SPAN}
        return {"kind": "terminal", "span": SPAN, "terminal": {symbol[1]: symbol[2]}} if symbol[1] != "error" else {"kind": "error", "span": SPAN}
    if kind == "call":
        made = {"args": [as_argument(it) for it in symbol[2]], "kind": "macro"} if symbol[2] else {"kind": "id"}
        return made | {"name": symbol[1], "span": SPAN}
    if kind == "repeat":
        return {"kind": kind, "op": symbol[1], "span": SPAN, "symbol": as_argument(symbol[2])}
    if kind == "group":
        return {"expr": [as_argument(it) for it in symbol[1]], "kind": kind, "span": SPAN}
    if kind == "choose":
        return {"kind": kind, "span": SPAN, "symbol": as_argument(symbol[1])}
    if kind == "named":
        return {"kind": kind, "mutable": symbol[1], "name": symbol[2], "span": SPAN, "symbol": as_argument(symbol[3])}
    return {"kind": kind if kind != "faulty" else "error", "span": SPAN}


class Closing:
    """Closes the symbols of one alternative, in reading order: the occurrences of the rule itself are counted."""

    def __init__(self, language, rule, choice, binding):
        self.language, self.rule, self.choice, self.binding = language, rule, choice, binding
        self.count, self.total = 0, 0
        closed = [self.close(it) for it in choice.symbols]  # which counts them all
        self.count, self.total = 0, self.count
        if self.total:
            closed = [self.close(it) for it in choice.symbols]
        self.closed = [it if is_sound(it) else FAULTY for it in closed]

    def level_at(self, at):
        """The greatest level that this occurrence of the rule may have."""
        rule, level, side = self.rule, self.choice.level, self.choice.side
        tighter = rule.tighter(level) if level is not None else None
        if tighter is None:
            return rule.loosest()
        is_reached = {"left": at == 0, "right": at + 1 == self.total, "all": True, "none": False}[side]
        return level if is_reached else tighter

    def named(self, name, written):
        """What the name of a rule stands for, alone (where no arguments are written) or called."""
        is_owner = name == self.rule.name
        at, self.count = self.count, self.count + is_owner
        arguments = None if written is None else tuple(self.close(it) for it in written)
        found = self.language.rules.get(name, [])
        if not found and written is None and name in self.language.bares:
            return ("terminal", "bare", name)
        if len(found) != 1 or len(found[0].parameters) != len(arguments or ()) or (written is not None) != bool(found[0].parameters):
            return FAULTY
        return ("call", name, arguments or (), self.level_at(at) if is_owner else found[0].loosest())

    def close(self, symbol):
        kind = symbol["kind"]
        if kind in ("id", "macro") and symbol["name"] in self.binding:
            for it in symbol.get("args", []):
                self.close(it)
            return self.binding[symbol["name"]] if kind == "id" else FAULTY
        if kind in ("id", "macro"):
            return self.named(symbol["name"], symbol.get("args"))
        if kind == "terminal":
            return ("terminal", *next(iter(symbol["terminal"].items())))
        if kind == "group":
            return (kind, tuple(self.close(it) for it in symbol["expr"]))
        if kind == "repeat":
            return (kind, symbol["op"], self.close(symbol["symbol"]))
        if kind == "choose":
            return (kind, self.close(symbol["symbol"]))
        if kind == "named":
            return (kind, symbol["mutable"], symbol["name"], self.close(symbol["symbol"]))
        return ("terminal", "error", "") if kind == "error" else (kind,)


class Language:
    """A written grammar's enabled rules, and what its symbols stand for, under features."""

    def __init__(self, grammar, features):
        self.rules, self.known = {}, {}
        for item in grammar["items"]:
            if item["kind"] == "rule" and is_enabled(item["attributes"], features):
                self.rules.setdefault(item["name"], []).append(enabled_rule(item, features))
        self.groups = entries_of(grammar["items"])
        self.has_block = any(it["kind"] == "match" for it in grammar["items"])
        maps = [it["map"] for group in self.groups for it in group if isinstance(it.get("map"), dict)]
        self.bares = {it["bare"] for it in maps if "bare" in it}

    def rule(self, name):
        """The only rule of the name."""
        found = self.rules.get(name, [])
        return found[0] if len(found) == 1 else None

    def start(self, name):
        """The symbol of the start, where it names a rule that is no macro."""
        rule = self.rule(name)
        return ("call", name, (), rule.loosest()) if rule and not rule.parameters else None

    def productions(self, call):
        """The choices that a call has, of all levels up to its own."""
        if call not in self.known:
            self.known[call] = [*self.made_productions(call)]
        return self.known[call]

    def made_productions(self, call):
        _, name, arguments, level = call
        rule = self.rule(name)
        if rule is None or len(rule.parameters) != len(arguments):
            return
        twice = {it for it in rule.parameters if rule.parameters.count(it) > 1}
        binding = {it: FAULTY if it in twice else argument for it, argument in zip(rule.parameters, arguments)}
        for it in rule.choices:
            is_low = level is not None and it.level is not None and it.level <= level if rule.has_levels else level is None
            if is_low and holds(it.condition, binding):
                yield Production(it.place, it.level, Closing(self, rule, it, binding).closed)

    def roots(self):
        """The calls of all rules that are no macros, at each level."""
        plain = [it[0] for it in self.rules.values() if len(it) == 1 and not it[0].parameters]
        return [("call", it.name, (), level) for it in plain for level in (it.levels() if it.has_levels else [None])]

    def keys(self, most, deepest):
        """The closed symbols of the expansion that have nonterminals; and the terminals on right sides. Not where there are more than `most`,
        or macros that call each other deeper than `deepest`."""
        ahead = collections.deque((it, 0) for it in self.roots())
        keys, terminals = {it for it, _ in ahead}, set()
        while ahead:
            above, depth = ahead.popleft()
            for symbol in map(inner, self.parts(above)):
                if symbol[0] == "terminal":
                    terminals.add(symbol)
                elif symbol not in keys:
                    keys.add(symbol)
                    ahead.append((symbol, depth + (symbol[0] == "call" and symbol[2] != ())))
            if len(keys) > most or depth > deepest:
                raise TooManyKeys
        return keys, terminals

    def parts(self, symbol):
        """What stands on the right sides of a key."""
        if symbol[0] == "call":
            return [it for production in self.productions(symbol) for it in production.symbols]
        return {"repeat": symbol[2:], "group": (symbol[1] if symbol[0] == "group" else ())}.get(symbol[0], ())


def holds(condition, binding):
    """Whether an alternative's condition holds; it does where there is none."""
    if condition is None:
        return True
    bound = binding.get(condition["lhs"], FAULTY)
    if bound[:2] != ("terminal", "quoted"):
        return False
    if condition["op"] in ("==", "!="):
        return (bound[2] == condition["rhs"]) == (condition["op"] == "==")
    try:
        return (re.search(condition["rhs"], bound[2]) is not None) == (condition["op"] == "~~")
    except (re.error, OverflowError):
        return False


class Inlining:
    """How many productions a language has after inlining."""

    def __init__(self, language):
        self.language, self.known = language, {}

    def is_inlined(self, key):
        if key[0] == "call":
            rule = self.language.rule(key[1])
            return rule is not None and rule.is_inlined
        return key[0] == "repeat" and key[1] != "+" or key[0] in ("group", "lookahead", "lookbehind")

    def side(self, symbols):
        """How many right sides come of one."""
        made = 1
        for it in map(inner, symbols):
            made *= self.count(it) if self.is_inlined(it) else 1
        return made

    def count(self, key):
        """How many productions a key has; one that is inlined into itself counts as one inside."""
        if key not in self.known:
            self.known[key] = 1
            if key[0] == "call":
                self.known[key] = sum(self.side(it.symbols) for it in self.language.productions(key))
            elif key[0] == "repeat":
                self.known[key] = 2 if key[1] == "*" else 1 + self.side(key[2:])
            elif key[0] == "group":
                self.known[key] = self.side(key[1])
        return self.known[key]

"""Random grammars of the written language, small ones over small alphabets, for the script random_grammars: rules, macros with parameters
and conditions on them, levels with sides, inlined rules, repeats in repeats, groups, names, choices and places, match blocks, and `cfg`
with features. One in four is spoiled in a way of its own, so that each refusal comes up."""
import copy
import json
from typing import NamedTuple

import spoiled_grammars
from grammars import SPAN, alternative, call, grammar, group, literal, name, pattern, rule
from written import Inlining, Language, TooManyKeys

QUOTED = ["a", "b", "c", "d", "e", "(", ")", "[", "]", "+", "-", "*", ",", ";", ":", "if", "ab", "é", '"', "\\"]
# Patterns that mean the same to Python, with some of their words.
PATTERNS = {
    "[0-9]+": ["0", "17"],
    "[a-z]+": ["q", "zz", "abc"],
    "x[0-9]*": ["x", "x1"],
    "[&]{2}|%": ["&&", "%"],
    "(u|v)w?": ["u", "vw"],
    "[é-ü]+": ["ê", "éé"],
}
SKIPS = {r"[ \n\t]+": [" ", "\n", "  "], "_": ["_"], "#[0-9]*": ["#", "#12"]}
# Searches of conditions that mean the same to Python.
SEARCHES = ["a", "^a", "[ab]$", "^(a|if)$", "b|c", "[^a]"]
FEATURES = "f", "g"
# How many keys are looked at of an expansion, and how deep macro calls; and how many productions a grammar has after inlining.
KEYS, DEEPEST_MACRO, LARGEST = 1000, 8, 3000


class Made(NamedTuple):
    """A grammar, None where its bytes are no grammar; the bytes; how it is asked for; and how it was spoiled, where it was."""

    grammar: dict
    source: bytes
    start: str
    features: list
    options: list
    spoiled: str


def repeat(symbol, op):
    return {"kind": "repeat", "op": op, "symbol": symbol} | SPAN


def choose(symbol):
    return {"kind": "choose", "symbol": symbol} | SPAN


def named(symbol, label, is_mutable):
    return {"kind": "named", "mutable": is_mutable, "name": label, "symbol": symbol} | SPAN


def attribute(word, *parts):
    """`word(part, ..)`, where a part is an attribute or a key with its text."""
    made = [{"arg": {"equal": it[1]}, "id": it[0]} | SPAN if isinstance(it, tuple) else it for it in parts]
    return {"arg": {"paren": made} if made else None, "id": word} | SPAN


def condition(parameter, op, text):
    return {"lhs": parameter, "op": op, "rhs": text} | SPAN


class Maker:
    """Makes one grammar by what is drawn. Ordered ones begin alternatives with different literals, and so have parsers more often."""

    def __init__(self, draw):
        self.draw = draw
        self.is_ordered = draw.random() < 0.7
        self.literals = [literal(it) for it in draw.sample(QUOTED, draw.randint(3, 9))]
        self.literals += [pattern(it) for it in draw.sample([*PATTERNS], draw.choice([0, 0, 1, 1, 2]))]
        self.rules = "SABCD"[: draw.randint(1, 4 + self.is_ordered)]
        self.macros = {it: count for it, count in (("M", 1), ("N", 1), ("P", 2), ("F", 1)) if draw.random() < (0.1 if it == "F" else 0.25)}
        self.has_levels, self.has_features = draw.random() < 0.25, draw.random() < 0.2
        self.bares, self.first, self.parameters = [], [], []
        self.names = [*self.rules, *(["E"] if self.has_levels else [])]

    def is_drawn(self, share):
        return self.draw.random() < share

    def terminal(self):
        if self.bares and self.is_drawn(0.2):
            return name(self.draw.choice(self.bares))
        return copy.deepcopy(self.draw.choice(self.literals))

    def beginning(self):
        """A literal with which no alternative of the rule begins so far, where there is one."""
        left = [it for it in self.literals if it not in self.first]
        found = self.draw.choice(left) if left else self.terminal()
        self.first.append(found)
        return copy.deepcopy(found)

    def argument(self, macro):
        """An argument of a macro; `N` has conditions, which want a quoted literal."""
        if macro == "N" and not self.is_drawn(0.05):
            return copy.deepcopy(self.draw.choice([it for it in self.literals if "quoted" in it["terminal"]]))
        if self.parameters and self.is_drawn(0.3):
            return name(self.draw.choice(self.parameters))
        return self.terminal() if self.is_drawn(0.6) else self.symbol(2)

    def reference(self):
        """A parameter, a rule, or a macro's call."""
        if self.parameters and self.is_drawn(0.5):
            return name(self.draw.choice(self.parameters))
        if self.macros and self.is_drawn(0.35):
            macro = self.draw.choice([*self.macros])
            return call(macro, *[self.argument(macro) for _ in range(self.macros[macro])])
        return name(self.draw.choice(self.names))

    def symbol(self, depth=0):
        kinds = {"terminal": 9, "reference": 6, "repeat": 3 - depth, "group": 2 - depth, "choose": 1 - depth, "look": 0.4}
        kind = self.draw.choices([*kinds], [max(it, 0) for it in kinds.values()])[0]
        if kind == "repeat":
            return repeat(self.symbol(depth + 1), self.draw.choice("*+?"))
        if kind == "group":
            return group(self.symbols(self.draw.randint(1, 2), depth + 1))
        if kind == "choose":
            return choose(self.symbol(depth + 1))
        if kind == "look":
            return {"kind": self.draw.choice(["lookahead", "lookbehind"])} | SPAN
        return self.terminal() if kind == "terminal" else self.reference()

    def symbols(self, count, depth=0):
        return [self.symbol(depth) for _ in range(count)]

    def with_labels(self, symbols, action):
        """The symbols, of which some are named or chosen where they may be."""
        if action and self.is_drawn(0.3) and not any(it["kind"] == "choose" for it in symbols):
            label = lambda: (self.draw.choice("xyz"), self.is_drawn(0.3))
            return [named(it, *label()) if it["kind"] != "choose" and self.is_drawn(0.5) else it for it in symbols]
        return symbols

    def action(self):
        return self.draw.choice([None, None, {"user": "()"}, {"user": "()"}, {"fallible": "Ok(())"}])

    def features(self):
        """A `cfg` of a drawn predicate."""
        one = lambda: ("feature", self.draw.choice(FEATURES))
        word = self.draw.choice(["feature", "not", "any", "all"])
        if word == "feature":
            return attribute("cfg", one())
        return attribute("cfg", attribute(word, *[one() for _ in range(1 if word == "not" else 2)]))

    def alternative(self, count):
        symbols = self.symbols(count)
        if self.is_ordered and symbols and not self.is_drawn(0.1):
            symbols[0] = self.beginning()
        action = self.action()
        made = alternative(self.with_labels(symbols, action), [self.features()] if self.has_features and self.is_drawn(0.2) else [])
        return made | {"action": action}

    def alternatives(self):
        self.first = []
        lengths = self.draw.choices([0, 1, 2, 3, 4], [0.4, 3, 4, 3, 1], k=self.draw.choice([1, 2, 2, 3, 3, 4]))
        return [self.alternative(it) for it in lengths]

    def typed(self):
        """Alternatives whose types agree: of each the type is that of one literal."""
        self.first = []
        made = []
        for _ in range(self.draw.randint(1, 3)):
            behind = [it for it in (repeat(self.terminal(), "?"), self.reference()) if self.is_drawn(0.5)]
            made.append(alternative([choose(self.beginning()), *behind]))
        return made

    def plain(self, letter):
        """A rule without parameters."""
        is_typed = letter != "S" and self.is_drawn(0.2)
        made = rule(letter, self.typed() if is_typed else self.alternatives())
        made["visibility"] = "pub" if letter == "S" or self.is_drawn(0.1) else {"pub_in": "crate"} if self.is_drawn(0.05) else "priv"
        made["attributes"] = [attribute("inline")] if made["visibility"] == "priv" and self.is_drawn(0.15) else []
        made["type"] = None if is_typed else self.declared()
        return made

    def declared(self):
        """A declared type; now and then none, or one that names a symbol."""
        others = [None, None, {"id": "usize"}, {"args": [{"tuple": []}], "path": "Vec"}, {"text": "fn() -> u8"}]
        others += [{"lifetime": "'input", "mutable": False, "ref": {"id": "str"}}, {"symbol": self.symbol()}]
        return self.draw.choice(others) if self.is_drawn(0.15) else {"tuple": []}

    def rules_of(self, letter):
        """The rule, or two of its name of which one is enabled."""
        if not self.has_features or letter == "S" or self.is_drawn(0.8):
            return [self.plain(letter)]
        one = ("feature", self.draw.choice(FEATURES))
        made = self.plain(letter), self.plain(letter)
        made[0]["attributes"].append(attribute("cfg", one))
        made[1]["attributes"].append(attribute("cfg", attribute("not", one)))
        return [*made]

    def macro(self, letter, parameters):
        """A macro: a list, a list between literals, or anything; `N` has conditions."""
        self.parameters = parameters
        first = name(parameters[0])
        shapes = [
            lambda: [alternative([first]), alternative([call(letter, *map(name, parameters)), self.terminal(), copy.deepcopy(first)])],
            lambda: [alternative([repeat(group([first, self.terminal()]), "*"), repeat(copy.deepcopy(first), "?")])],
            self.alternatives,
            self.alternatives,
        ]
        made = rule(letter, self.draw.choice(shapes)(), parameters) | {"visibility": "priv"}
        if letter == "N":
            for it in made["alternatives"][1:]:
                it["condition"] = self.condition(parameters[0])
        made["attributes"] = [attribute("inline")] if self.is_drawn(0.15) else []
        if self.is_drawn(0.1):
            made["type"] = None
        self.parameters = []
        return made

    def condition(self, parameter):
        op = self.draw.choice(["==", "!=", "~~", "!~"])
        quoted = [it["terminal"]["quoted"] for it in self.literals if "quoted" in it["terminal"]]
        return condition(parameter, op, self.draw.choice(quoted if op in ("==", "!=") else SEARCHES))

    def leveled(self, letter, parameters=()):
        """A rule or a macro with levels: operands at the tightest level, then operators."""
        self.first, self.parameters = [], [*parameters]
        inside = lambda: call(letter, *map(name, parameters)) if parameters else name(letter)
        operand = name(parameters[0]) if parameters else self.beginning()
        made = [alternative([operand], [attribute("precedence", ("level", "1"))])]
        if self.is_drawn(0.5):
            made.append(alternative([self.beginning(), inside(), self.beginning()]))
        for number in range(2, self.draw.randint(3, 5)):
            made += self.operators(str(number * self.draw.choice([1, 10]) if number > 2 else number), inside)
        if self.has_features and self.is_drawn(0.3):
            self.draw.choice(made)["attributes"].append(self.features())
        self.parameters = []
        return rule(letter, made, parameters) | {"visibility": "priv"}

    def operators(self, number, inside):
        """Alternatives of one level: operators between, before and behind operands, to one side or none."""
        attributes = [attribute("precedence", ("level", number))]
        if self.is_drawn(0.7):
            attributes.append(attribute("assoc", ("side", self.draw.choice(["left", "right", "left", "right", "none", "all"]))))
        made = []
        for _ in range(self.draw.randint(1, 2)):
            operator = self.beginning()
            shape = self.draw.choice([[inside(), operator, inside()], [inside(), operator, inside()], [operator, inside()], [inside(), operator]])
            if self.is_drawn(0.1):
                shape = [inside(), operator, inside(), self.beginning(), inside()]
            made.append(alternative(shape, attributes if not made else []))
        return made

    def block(self):
        """A match block that lists some literals, maps some to bare names, and takes what is left."""
        entries = [{"literal": copy.deepcopy(it["terminal"]), "map": None} | SPAN for it in self.literals if self.is_drawn(0.5)]
        for it in entries:
            if self.is_drawn(0.2):
                self.bares.append(f"T{len(self.bares)}")
                it["map"] = {"bare": self.bares[-1]}
        if self.is_drawn(0.4):
            entries.append({"literal": {"regex": self.draw.choice([*SKIPS])}, "map": "skip"} | SPAN)
        self.draw.shuffle(entries)
        cut = self.draw.randint(0, len(entries))
        groups = [it for it in (entries[:cut], entries[cut:]) if it] or [[]]
        if not self.is_drawn(0.05):
            self.draw.choice(groups).append({"catch_all": [0, 0]})
        mapped = [it["literal"] for it in entries if it["map"]]
        kept = [it for it in self.literals if it["terminal"] not in mapped]
        self.literals = kept if any("quoted" in it["terminal"] for it in kept) else self.literals
        return {"contents": groups, "kind": "match"} | SPAN

    def contexts(self):
        """Alternatives and rules that only what came before tells apart: they may be LR(1), and aren't LALR(1)."""
        self.first = []
        before, behind = [[self.beginning() for _ in range(2)] for _ in range(2)]
        right = self.symbols(self.draw.randint(1, 2))
        pairs = [(before[0], "K", behind[0]), (before[0], "L", behind[1]), (before[1], "K", behind[1]), (before[1], "L", behind[0])]
        made = [alternative(copy.deepcopy([one, name(letter), other])) for one, letter, other in pairs]
        return made, [rule(it, [alternative(copy.deepcopy(right))]) | {"visibility": "priv"} for it in "KL"]

    def items(self):
        made = [self.block()] if self.is_drawn(0.25) else []
        for letter in self.rules:
            made += self.rules_of(letter)
        made += [self.macro(letter, ["T", "U"][:count]) for letter, count in self.macros.items() if letter != "F"]
        made += [self.leveled("F", ["T"])] if "F" in self.macros else []
        made += [self.leveled("E")] if self.has_levels else []
        first = made.index(next(it for it in made if it.get("name") == "S"))
        if self.has_levels and self.is_drawn(0.6):
            made[first]["alternatives"] = [alternative([name("E")])]
        elif self.is_drawn(0.1):
            made[first]["alternatives"], more = self.contexts()
            made += more
        if self.is_drawn(0.1):
            made.append({"kind": "use", "text": "crate::x"})
        return made


def numbered(value, count):
    """The same value, with a span of its own for each that it has."""
    if isinstance(value, list):
        return [numbered(it, count) for it in value]
    if not isinstance(value, dict):
        return value
    made = {}
    for key, it in value.items():
        if key in ("span", "catch_all"):
            at = next(count)
            made[key] = [at, at + 1]
        else:
            made[key] = numbered(it, count)
    return made


def start_of(names, draw):
    return "S" if draw.random() < 0.93 else draw.choice([*names, "Z"])


def options_of(draw, is_growing):
    """Words for what tables take beside the start. Macros that call themselves with more and more are held back."""
    limits = ["2", "8"] if is_growing else ["0", "1", "2", "5"]
    made = ["--macro-limit", draw.choice(limits)] if is_growing or draw.random() < 0.1 else []
    return made + (["--copies", draw.choice(["0", "1", "3", "18446744073709551615"])] if draw.random() < 0.2 else [])


def size(made, features):
    """How many productions a grammar has after inlining; none where its macros call themselves with more and more."""
    language = Language(made, features)
    try:
        keys, _ = language.keys(KEYS, DEEPEST_MACRO)
    except TooManyKeys:
        return None
    inlining = Inlining(language)
    return sum(map(inlining.count, keys))


def drawn_grammar(draw):
    """A grammar, the names of its rules, its macros and the features, of which the tables aren't large by their meaning."""
    while True:
        maker = Maker(draw)
        made = grammar(maker.items())
        features = [it for it in FEATURES if draw.random() < 0.5] if maker.has_features or draw.random() < 0.1 else []
        if (size(made, features) or 0) <= LARGEST:
            return made, [*maker.names, *maker.macros], features


def made_by(draw):
    """A grammar."""
    (made, names, features), spoiled = drawn_grammar(draw), None
    if draw.random() < 0.25:
        spoiled = draw.choice([*spoiled_grammars.WAYS])
        spoiled_grammars.WAYS[spoiled](made, draw)
    is_growing = spoiled != "N23" and size(made, features) is None
    made = numbered(made, iter(range(1 << 30)))
    source = json.dumps(made, ensure_ascii=draw.random() < 0.5).encode()
    if draw.random() < 0.03:
        made, source, spoiled = None, *spoiled_grammars.broken(made, source, draw)
    return Made(made, source, start_of(names, draw), features, options_of(draw, is_growing), spoiled)

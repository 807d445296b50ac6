"""Grammars, texts and trees that are made to harm, for the script hostile: each call gives the grammar and what is asked of it, a text or a
tree, or nothing. Sizes are arguments."""
import json
import math
import random
import string

from grammars import SPAN, alternative, call, grammar, group, level, literal, name, rule

INLINE = {"arg": None, "id": "inline"} | SPAN


def compact(value):
    return json.dumps(value, separators=(",", ":"))


def lexer(*terminals):
    """A grammar with these terminals, each an alternative of `S`."""
    return grammar([rule("S", [alternative([it]) for it in terminals])])


def listed(*terminals):
    """A grammar with these terminals, any number of them in any order."""
    return grammar([rule("S", [alternative([repeat(name("X"), "*")])]), private("X", [alternative([it]) for it in terminals])])


def private(letter, alternatives, parameters=(), **changed):
    return rule(letter, alternatives, parameters) | {"visibility": "priv"} | changed


def repeat(symbol, op):
    return {"kind": "repeat", "op": op, "symbol": symbol} | SPAN


def choose(symbol):
    return {"kind": "choose", "symbol": symbol} | SPAN


def nested(symbol, times, around):
    for _ in range(times):
        symbol = around(symbol)
    return symbol


def leaf(text):
    return {"span": [0, len(text)], "terminal": {"quoted": text}, "text": text}


def node(name, children, arguments=(), place=0):
    return {"args": [*arguments], "children": children, "place": place, "rule": name}


def deep_groups():
    """Groups as deep as patterns nest, with a row of stars behind each."""
    return nested("a", 250, lambda it: f"({it}){'*' * 20}")


def many_characters():
    """A class of 50,000 characters with gaps between them, in no order."""
    chance = random.Random(1)
    found = [chr(it) for it in range(0x10000, 0x10000 + 100_000, 2)]
    chance.shuffle(found)
    return "[" + "".join(found) + "]"


def keywords():
    """5,000 words of three characters of many scripts."""
    chance = random.Random(2)
    letters = [chr(it) for start in (0x61, 0x391, 0x410, 0x5D0, 0x904, 0xE01, 0x30A1) for it in range(start, start + 20)]
    words = set()
    while len(words) < 5000:
        words.add("".join(chance.choice(letters) for _ in range(3)))
    return [literal(it) for it in sorted(words)]


def whole_case():
    chance = random.Random(3)
    return "(?i)" + "".join(chance.choice("abcdefghijklmnopqrstuvwxyzåäöéßσΩдж") for _ in range(400))


def shared_arguments():
    """A call with an argument of 2,200 symbols, as many as a tree's word allows, which the rule calls another with 3,800 times over."""
    argument = group([literal("x")] * 2200)
    repeated = group([name("T")] * 3800)
    rules = [rule("S", [alternative([call("A", argument)])]), rule("A", [alternative([call("B", repeated)])], ["T"])]
    made = grammar([*rules, rule("B", [alternative([literal("b")])], ["U"])])
    return made, node("S", [node("A", [node("B", [leaf("b")], [literal("y")])], [group([literal("x")] * 2200)])])


def searched():
    """A rule under a search, as often as a tree's word allows."""
    condition = {"lhs": "T", "op": "~~", "rhs": r"(\p{L}|x){20}|x"} | SPAN
    items = repeat(call("L", literal("x")), "*")
    made = grammar([rule("S", [alternative([items])]), rule("L", [alternative([], (), condition)], ["T"])])
    return made, node("S", [{"list": [node("L", [], [literal("x")])] * 1200}])


def leveled():
    return grammar([rule("S", [alternative([literal("a")], [level(it + 1)]) for it in range(37_000)])]), node("S", [leaf("a")])


def long_rule():
    """A grammar of 16 MB: one alternative of many names."""
    one = len(compact(name("S"))) + 1
    made = grammar([rule("S", [alternative([literal("a")]), alternative([name("S")] * (16_700_000 // one))])])
    return made, node("S", [leaf("a")])


def repeats(op, times):
    """`a?` under signs; with it there are so many."""
    return grammar([rule("S", [alternative([nested(repeat(literal("a"), "?"), times - 1, lambda it: repeat(it, op))])])]), None


def doubled(count):
    """Inlined rules, each of which the one above has twice: `A = { B, B "x" }`."""
    rules = [private(f"A{at}", [alternative([name(f"A{at + 1}")]), alternative([name(f"A{at + 1}"), literal("x")])]) for at in range(count)]
    rules = [it | {"attributes": [INLINE]} for it in rules]
    return grammar([rule("S", [alternative([name("A0")])]), *rules, private(f"A{count}", [alternative([literal("a")])])]), None


def grown(*arguments):
    """`A<T> = "b" A<x> ..`, where the arguments x are made of T."""
    calls = [call("A", it) for it in arguments]
    return grammar([rule("S", [alternative([call("A", literal("a"))])]), private("A", [alternative([literal("b"), *calls])], ["T"])]), None


def with_text(text):
    return group([name("T"), literal(text)])


def chain(count, right, last, **changed):
    """Rules in a chain: what stands on each right side is made of the next one's name."""
    rules = [private(f"A{at}", [alternative(right(name(f"A{at + 1}")))], **changed) for at in range(count)]
    return grammar([rule("S", [alternative([name("A0")])]), *rules, private(f"A{count}", [alternative(last)], **changed)]), None


def plain_chain(count):
    return chain(count, lambda it: [it], [literal("a")])


def pairs(count):
    """Rules whose types aren't declared, each the pair of the next one's."""
    return chain(count, lambda it: [it, it], [literal("a")], type=None)


def inlined_chain(count):
    return chain(count, lambda it: [it], [literal("a")], attributes=[INLINE])


def options(count):
    """Rules with one option each, which no other has."""
    rules = [private(f"A{at}", [alternative([literal("b"), repeat(name(f"A{at + 1}"), "?")])]) for at in range(count)]
    return grammar([rule("S", [alternative([name("A0")])]), *rules, private(f"A{count}", [alternative([literal("b")])])]), None


def nested_types(count):
    """Rules whose types aren't declared, each an option of the next one's."""
    return chain(count, lambda it: [literal("b"), choose(repeat(it, "?"))], [literal("b")], type=None)


def handed_on(count, around):
    """Macros, each of which calls the next with its argument in something."""
    rules = [private(f"A{at}", [alternative([literal("b"), call(f"A{at + 1}", around(name("T")))])], ["T"]) for at in range(count)]
    last = private(f"A{count}", [alternative([literal("c")])], ["T"])
    return grammar([rule("S", [alternative([call("A0", literal("a"))])]), *rules, last]), None


def in_groups(times):
    return lambda symbol: nested(symbol, times, lambda it: group([it]))


def plain(*alternatives):
    """The one rule `S`."""
    return grammar([rule("S", [alternative(it) for it in alternatives])]), None


def many_states(count):
    """Some count x 2^count states: of each number whether it came has to be remembered until the end."""
    numbers = range(1, count + 1)
    first, last = [literal(f"a{it}") for it in numbers], [literal(f"b{it}") for it in numbers]
    rules = [rule("S", [alternative([name(f"A{it}")]) for it in numbers])]
    for at in numbers:
        before, behind = name(f"A{at}"), name(f"B{at}")
        steps = [[it, behind if it is first[at - 1] else before] for it in first]
        rules.append(private(f"A{at}", [*map(alternative, steps), alternative([last[at - 1]])]))
        rules.append(private(f"B{at}", [alternative([it, behind]) for it in first] + [alternative([last[at - 1]])]))
    return grammar(rules), None


def conditions(patterns, text):
    """A macro with an alternative under each search, and a tree by the last."""
    tests = [{"lhs": "T", "op": "~~", "rhs": it} | SPAN for it in patterns]
    tested = [alternative([literal(f"x{at}")], (), it) for at, it in enumerate(tests)]
    made = grammar([rule("S", [alternative([call("A", literal(text))])]), private("A", [*tested, alternative([literal("y")])], ["T"])])
    last = len(patterns) - 1
    return made, node("S", [node("A", [leaf(f"x{last}")], [literal(text)], last)])


def brackets(count):
    return plain([literal("("), name("S"), literal(")")], [])[0], "(" * count + ")" * count


def left_list(count):
    return plain([literal("a")], [name("S"), literal("a")])[0], "a" * count


def right_list(count):
    return plain([literal("a")], [literal("a"), name("S")])[0], "a" * count


def deep_tree():
    """A tree as deep as JSON may be: four nodes, and options under them."""
    below = {"S": "A", "A": "B", "B": "C"}
    rules = [rule("S", [alternative([name("A")])]), *[private(it, [alternative([name(below[it])])]) for it in "AB"]]
    made = grammar([*rules, private("C", [alternative([nested(literal("a"), 119, lambda it: repeat(it, "?"))])])])
    tree = nested({"opt": None}, 118, lambda it: {"opt": it})
    for it in "CBAS":
        tree = node(it, [tree])
    return made, tree


def deep_arguments():
    """An argument that is 120 deep: another macro has it in 100 options, and hands it on in 19 more."""
    in_options = lambda symbol, times: nested(symbol, times, lambda it: repeat(it, "?"))
    rules = [rule("S", [alternative([call("A", in_options(literal("a"), 100))])]), private("A", [alternative([call("B", in_options(name("T"), 19))])], ["T"])]
    made = grammar([*rules, private("B", [alternative([literal("b")])], ["T"])])
    inner = node("B", [leaf("b")], [in_options(literal("a"), 119)])
    return made, node("S", [node("A", [inner], [in_options(literal("a"), 100)])])


def broad_tree(count):
    """A list of so many places, which takes no token, and its tree."""
    made = grammar([rule("S", [alternative([repeat(group([{"kind": "lookahead"} | SPAN]), "*")])])])
    return made, node("S", [{"list": [{"group": [{"look": None}]}] * count}])


def as_case(made, tree):
    """A case that asks of a tree that is longer than a word may be."""
    case = {"name": "tree", "words": ["judge", "--start", "S"], "grammar": made, "tree": tree, "output": "yes\n", "status": 0}
    return [case], None


def long_name(size):
    return grammar([rule("S", [alternative([name("A" * size)])]), private("A" * size, [alternative([literal("a")])])]), None


def longer_names(size):
    """Rules in a chain whose names have one letter more each, as many as so many bytes hold."""
    one = len(compact(private("", [alternative([name("")])]))) + 1
    count = int((math.sqrt(one * one + 4 * size) - one) / 2) - 2
    letters = string.ascii_lowercase * (count // 26 + 1)
    rules = [private(letters[:at], [alternative([name(letters[: at + 1])])]) for at in range(1, count + 1)]
    last = private(letters[: count + 1], [alternative([literal("a")])])
    return grammar([rule("S", [alternative([name("a")])]), *rules, last]), None

"""Ways to spoil a random grammar, each so that it is refused for a reason of its own: for the script random_grammars. Some reasons come
before others, so a grammar that is spoiled may be refused for what was wrong with it already."""
import copy
import json

from grammars import SPAN, alternative, call, group, literal, name, pattern, rule


def some_alternative(made, draw):
    rules = [it for it in made["items"] if it["kind"] == "rule" and it["alternatives"]]
    return draw.choice(draw.choice(rules)["alternatives"])


def start_rule(made):
    return next(it for it in made["items"] if it.get("name") == "S")


def put(made, draw, *items):
    """Puts items anywhere among the others."""
    for it in items:
        made["items"].insert(draw.randint(0, len(made["items"])), it)


def private(letter, alternatives, parameters=(), **changed):
    return rule(letter, alternatives, parameters) | {"visibility": "priv"} | changed


def attribute(word, text=None):
    return {"arg": None if text is None else {"paren": [text]}, "id": word} | SPAN


def key(word, text):
    return {"arg": {"equal": text}, "id": word} | SPAN


def ranked(symbols, level=None, side=None):
    attributes = [attribute("precedence", key("level", level))] if level is not None else []
    return alternative(symbols, attributes + ([attribute("assoc", key("side", side))] if side is not None else []))


def block(*entries):
    return {"contents": [[*entries]], "kind": "match"} | SPAN


def entry(literal, mapped=None):
    return {"literal": literal, "map": mapped} | SPAN


def duplicate(made, draw):
    if draw.random() < 0.3:
        return put(made, draw, private("X", [alternative([literal("a")])], ["T", "T"]))
    return put(made, draw, copy.deepcopy(draw.choice([it for it in made["items"] if it["kind"] == "rule"])))


def second_block(made, draw):
    put(made, draw, block({"catch_all": [0, 0]}), block({"catch_all": [0, 0]}))


def unknown_attribute(made, draw):
    """An attribute that nothing has, or that another thing has."""
    places = [(made, ["foo", "inline"]), (start_rule(made), ["foo", "LALR", "precedence"]), (some_alternative(made, draw), ["foo", "inline", "LALR"])]
    place, words = draw.choice(places)
    place["attributes"].insert(0, attribute(draw.choice(words)))


def public_inline(made, draw):
    start_rule(made)["attributes"].append(attribute("inline"))


def first_without_level(made, draw):
    put(made, draw, private("X", [ranked([literal("a")]), ranked([literal("b")], "1")]))


def level_no_number(made, draw):
    put(made, draw, private("X", [ranked([literal("a")], "1"), ranked([literal("b")], draw.choice(["x", "", "-1", "4294967296", "1.5"]))]))


def side_on_tightest(made, draw):
    put(made, draw, private("X", [ranked([literal("a")], "1", "left"), ranked([literal("b"), name("X")], "2")]))


def unknown_side(made, draw):
    put(made, draw, private("X", [ranked([literal("a")], "1"), ranked([literal("b"), name("X")], "2", draw.choice(["up", "", "Left"]))]))


def misplaced_name(made, draw):
    named = {"kind": "named", "mutable": False, "name": "n", "symbol": literal("a")} | SPAN
    beside = [named, {"kind": "choose", "symbol": literal("b")} | SPAN]
    symbols = draw.choice([beside, [named], [group([named])]])
    put(made, draw, private("X", [alternative(symbols) | {"action": {"user": "()"} if symbols is beside else None}]))


def entry_twice(made, draw):
    made["items"] = [it for it in made["items"] if it["kind"] != "match"]
    twice = draw.choice([{"catch_all": [0, 0]}, entry({"quoted": "a"}), entry({"regex": "[0-9]+"}, "skip")])
    put(made, draw, block(twice, copy.deepcopy(twice)))


def unknown_name(made, draw):
    some_alternative(made, draw)["expr"].append(draw.choice([name("Nowhere"), call("Nowhere", literal("a")), group([name("Nowhere")])]))


def wrong_count(made, draw):
    put(made, draw, private("Y", [alternative([name("T")])], ["T"]))
    some_alternative(made, draw)["expr"].append(call("Y", literal("a"), literal("b")))


def misused(made, draw):
    put(made, draw, private("Y", [alternative([name("T")])], ["T"]))
    some_alternative(made, draw)["expr"].append(draw.choice([name("Y"), call("S", literal("a"))]))


def too_deep(made, draw):
    """A macro that calls itself with more and more, and one that calls itself twice."""
    grown = draw.choice([lambda: group([name("T"), literal("x")]), lambda: group([name("T"), name("T")]), lambda: call("Y", name("T"))])
    put(made, draw, private("Y", [alternative([literal("a")]), alternative([literal("b"), call("Y", grown())])], ["T"]))
    start_rule(made)["alternatives"].append(alternative([literal("b"), call("Y", literal("a"))]))


def conditioned(made, draw, pattern, argument):
    condition = {"lhs": "T", "op": draw.choice(["~~", "!~"]), "rhs": pattern} | SPAN
    put(made, draw, private("Y", [alternative([literal("a")]), alternative([literal("b")], (), condition)], ["T"]))
    start_rule(made)["alternatives"].append(alternative([literal("c"), call("Y", argument)]))


def condition_on_other(made, draw):
    conditioned(made, draw, "a", draw.choice([pattern("[0-9]+"), group([literal("a")]), name("S")]))


def condition_not_read(made, draw):
    conditioned(made, draw, draw.choice(["(", "[a", "a{2,1}", "*"]), literal("a"))


def condition_too_large(made, draw):
    conditioned(made, draw, r"(\w{500}){500}", literal("a"))


def lacking(made, draw):
    made["items"] = [it for it in made["items"] if it["kind"] != "match"]
    put(made, draw, block(entry({"quoted": "a"})))
    start_rule(made)["alternatives"].append(alternative([literal("lacking")]))


def refused_pattern(made, draw):
    put(made, draw, private("X", [alternative([pattern(draw.choice(["(", "[b-a]", "^a", r"a\b", "a*?", "(?<n>a)", "a{1001}", "[a"]))])]))


def tied(made, draw):
    put(made, draw, private("X", [alternative([pattern("k[a-z]+")]), alternative([pattern("k[a-z_]+")])]))


def disagreeing(made, draw):
    put(made, draw, private("X", [alternative([literal("a")]), alternative([literal("b"), literal("c")])], type=None))


def untyped(made, draw):
    put(made, draw, private("X", [alternative([draw.choice([name("X"), literal("a")])]) | {"action": {"user": "()"}}], type=None))


def doubled(made, draw):
    """33 inlined rules, each of which doubles the next: more actions than there are numbers."""
    inlined = [attribute("inline")]
    symbols = lambda at: [name(f"D{at + 1}") if at < 32 else literal("a")]
    for at in range(33):
        put(made, draw, private(f"D{at}", [alternative(symbols(at)), alternative([*symbols(at), literal("x")])], attributes=inlined))
    start_rule(made)["alternatives"].append(alternative([name("D0")]))


def inlined_cycle(made, draw):
    inlined = [attribute("inline")]
    there = private("X", [alternative([literal("a")]), alternative([literal("b"), name("Y")])], attributes=inlined)
    put(made, draw, there, private("Y", [alternative([draw.choice([name("X"), name("Y")])])], attributes=inlined))


def external(made, draw):
    associated = [{"name": "Error", "type": "()"}] if draw.random() < 0.5 else []
    conversions = {"conversions": [{"from": {"quoted": "a"}, "to": "A"}], "type": "Tok"}
    put(made, draw, {"associated": associated, "enum": draw.choice([None, conversions]), "kind": "extern"} | SPAN)


def recovery(made, draw):
    error = {"kind": "error"} | SPAN
    some_alternative(made, draw)["expr"].append(draw.choice([error, {"kind": "repeat", "op": "?", "symbol": error} | SPAN]))


def barren(made, draw):
    put(made, draw, private("X", [alternative([literal("a"), name("X")])] if draw.random() < 0.7 else []))
    start_rule(made)["alternatives"].append(alternative([literal("b"), name("X")]))


def private_start(made, draw):
    start_rule(made)["visibility"] = "priv"


def renamed_start(made, draw):
    start_rule(made)["name"] = draw.choice(["S_", "__S", "Start"])


def ambiguous(made, draw):
    """The start twice over, or an alternative twice."""
    found = start_rule(made)["alternatives"]
    found += [alternative([name("S"), name("S")])] if draw.random() < 0.5 else copy.deepcopy(found[:1])


WAYS = {
    "N1": duplicate,
    "N2": second_block,
    "N3": unknown_attribute,
    "N4": public_inline,
    "N5": first_without_level,
    "N6": level_no_number,
    "N7": side_on_tightest,
    "N8": unknown_side,
    "N10": misplaced_name,
    "N11": entry_twice,
    "N12": unknown_name,
    "N13": wrong_count,
    "N14": misused,
    "N15": too_deep,
    "N16": condition_on_other,
    "N17": condition_not_read,
    "N18": lacking,
    "N19": refused_pattern,
    "N20": tied,
    "N21": disagreeing,
    "N22": untyped,
    "N23": doubled,
    "N24": inlined_cycle,
    "condition limit": condition_too_large,
    "extern": external,
    "error recovery": recovery,
    "barren": barren,
    "private start": private_start,
    "unknown start": renamed_start,
    "conflicts": ambiguous,
}


def places(value):
    """Each object and list inside a JSON value, the value among them."""
    if isinstance(value, (dict, list)):
        yield value
        for it in value.values() if isinstance(value, dict) else value:
            yield from places(it)


def broken(made, source, draw):
    """Bytes that are no grammar's, and how they came about."""
    if draw.random() < 0.4:
        return draw.choice([source[: draw.randrange(len(source))], source + b"]", b"\xff" + source, b""]), "not JSON"
    found = draw.choice([it for it in places(made) if it])
    at = draw.choice([*found] if isinstance(found, dict) else range(len(found)))
    if isinstance(found, dict) and draw.random() < 0.4:
        del found[at]
    else:
        found[at] = draw.choice([-1, 1.5, "9", [1], {"kind": "id"}, True, 2**32])
    return json.dumps(made).encode(), "grammar value"

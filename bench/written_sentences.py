"""Which tokens are a sentence of a written grammar, or begin one, made without the program and without tables (Earley, 1970). For the
scripts of this folder."""
from typing import NamedTuple

from written import inner


class Item(NamedTuple):
    """A right side of a key, how much of it is seen, and where that began."""

    key: tuple
    side: tuple
    dot: int
    origin: int

    def next(self):
        return self.side[self.dot] if self.dot < len(self.side) else None

    def moved(self):
        return self._replace(dot=self.dot + 1)


class Sentences:
    """The sentences of a symbol, of which no part that it reaches is barren."""

    def __init__(self, language, start):
        self.language, self.start = language, start
        self.known = {}
        ahead = [start]
        while ahead:
            key = ahead.pop()
            if key not in self.known:
                self.known[key] = [*self.sides(key)]
                ahead += [it for side in self.known[key] for it in side if it[0] != "terminal"]
        self.empty = self.empty_keys()

    def sides(self, key):
        """The right sides of a key."""
        if key[0] == "call":
            found = [it.symbols for it in self.language.productions(key)]
        elif key[0] == "repeat":
            found = {"+": [key[2:], (key, key[2])], "*": [(), (("repeat", "+", key[2]),)], "?": [(), key[2:]]}[key[1]]
        else:
            found = [key[1] if key[0] == "group" else ()]
        return (tuple(map(inner, it)) for it in found)

    def empty_keys(self):
        """The keys of which the empty word comes."""
        found, count = set(), -1
        while count < len(found):
            count = len(found)
            found |= {key for key, sides in self.known.items() if any(all(it in found for it in side) for side in sides)}
        return found

    def closed(self, items, sets, at):
        """The items with all that they lead to without a token."""
        ahead, found = [*items], set(items)
        while ahead:
            it = ahead.pop()
            for more in self.led_to(it, found, sets, at):
                if more not in found:
                    found.add(more)
                    ahead.append(more)
        return found

    def led_to(self, item, here, sets, at):
        symbol = item.next()
        if symbol is None:
            before = here if item.origin == at else sets[item.origin]
            return [it.moved() for it in before if it.next() == item.key]
        if symbol[0] == "terminal":
            return []
        asked = [Item(symbol, side, 0, at) for side in self.known[symbol]]
        return asked + ([item.moved()] if symbol in self.empty else [])

    def front(self, terminals):
        """With how many of the terminals a sentence begins, and whether all of them are one."""
        sets = [self.closed([Item(self.start, side, 0, 0) for side in self.known[self.start]], [], 0)]
        for at, terminal in enumerate(terminals):
            taken = [it.moved() for it in sets[-1] if it.next() == terminal]
            if not taken:
                return at, False
            sets.append(self.closed(taken, sets, at + 1))
        return len(terminals), any((it.key, it.origin, it.next()) == (self.start, 0, None) for it in sets[-1])

"""The tokens of a text under a written grammar, made without the program: the entries, and the longest match at each place. For the
scripts of this folder. Patterns have to mean the same to `re`, and white space is blanks, tabs and line feeds."""
import re
from typing import NamedTuple

from written_trees import json_text, terminal_text

SPACE = " \t\n"


class Entry(NamedTuple):
    """What an entry matches, the terminal that it gives (none where it skips), and which of several wins."""

    kind: str
    text: str
    gives: tuple
    precedence: int

    def longest(self, text, at):
        """How long the longest match at the place is; none where nothing but the empty word is matched."""
        if self.kind == "quoted":
            return len(self.text) if text.startswith(self.text, at) else 0
        pattern = re.compile(self.text)
        return next((end - at for end in range(len(text), at, -1) if pattern.fullmatch(text, at, end)), 0)


class Token(NamedTuple):
    terminal: tuple
    text: str
    span: list  # in bytes

    def line(self):
        return f"{self.span[0]}..{self.span[1]} {terminal_text(self.terminal)} {json_text(self.text)}"


def terminal_of(literal):
    return ("terminal", *next(iter(literal.items())))


def given_by(entry):
    """The terminal that an entry of a match block gives; none where it skips."""
    if entry["map"] == "skip":
        return None
    return terminal_of(entry["map"] or entry["literal"])


def in_order(terminals):
    """Quoted texts by their bytes, then patterns by theirs."""
    return sorted((it for it in terminals if it[1] in ("quoted", "regex")), key=lambda it: (it[1], it[2].encode()))


def entries(language, used):
    """The entries of the grammar's tokenizer, where these literals are in use."""
    if not language.has_block:
        return [Entry(*it[1:], it, 2 + (it[1] == "quoted")) for it in in_order(used)]
    found = []
    listed = {terminal_of(it["literal"]) for group in language.groups for it in group if "literal" in it}
    for at, group in enumerate(language.groups):
        precedence = 2 * (len(language.groups) - at)
        for it in group:
            written = [(terminal_of(it["literal"]), given_by(it))] if "literal" in it else [(it, it) for it in in_order(used - listed)]
            found += [Entry(*literal[1:], gives, precedence + (literal[1] == "quoted")) for literal, gives in written]
    return found


def space_at(text, at):
    return len(text[at:]) - len(text[at:].lstrip(SPACE))


def cut(found, text):
    """The tokens of a text by the entries; and the byte at which there is none, where the text has such a place."""
    skips_space = all(it.gives for it in found)
    tokens, at, byte = [], 0, 0
    while at < len(text):
        lengths = [(it.longest(text, at), it) for it in found]
        longest = max((length for length, _ in lengths), default=0)
        space = space_at(text, at) if skips_space else 0
        if not longest and not space:
            return tokens, byte
        word = text[at : at + max(longest, space)]
        if space < longest:
            winner = max((it for length, it in lengths if length == longest), key=lambda it: it.precedence)
            if winner.gives:
                tokens.append(Token(winner.gives, word, [byte, byte + len(word.encode())]))
        at, byte = at + len(word), byte + len(word.encode())
    return tokens, None

"""Plain productions: how they are read, written for our programs, bison and menhir, and how programs are run over them and tell their
times. For the scripts of this folder."""
import ctypes
import hashlib
import json
import os
import re
import subprocess
import sys
from pathlib import Path
from typing import NamedTuple

from grammars import alternative, grammar as written, literal, name, rule

TOP = Path(__file__).resolve().parent.parent
GRAMMARS = TOP / "bench" / "grammars"

RUNS = 3

# what bison and menhir say of how long their parts took, and LALRPOP of its states
PHASE = re.compile(r"^ (\S.*?) +([\d.]+)(?: \([^)]*\))? +([\d.]+)(?: \([^)]*\))? +[\d.]+(?: \([^)]*\))?$", re.M)
TABLES_OF_MENHIR = r"^(?:Analysis of the grammar|Running loop detection|Construction of the LR\([01]\) automaton): ([\d.]+)s$"
LALRPOP_PHASE = r"^Phase `LR\(1\) state construction.*` completed in ([\d.]+) seconds$"

NAME, STRING = r"[A-Za-z0-9_]+", r'"(?:[^"\\]|\\.)*"'
LINE = re.compile(rf"({NAME}):((?: +(?:{NAME}|{STRING}))*) *")
SYMBOL = re.compile(rf"{NAME}|{STRING}")


class Fault(Exception):
    """A program failed, or didn't say what it should."""


class Grammar(NamedTuple):
    name: str
    file: Path
    productions: list
    terminals: dict  # the terminal's name in the other notations, by its JSON string

    def start(self):
        """The nonterminal of sentences, in the other notations' names."""
        return f"n_{self.productions[0][1][0]}"

    def rules(self):
        """By each nonterminal its right sides, in the other notations' names. The first production isn't there: each program adds
        its own."""
        found = {}
        for left, right in self.productions[1:]:
            found.setdefault(f"n_{left}", []).append([self.terminals.get(it, f"n_{it}") for it in right])
        return found.items()

    def digest(self):
        return hashlib.sha256(self.file.read_bytes()).hexdigest()


class Row(NamedTuple):
    states: int
    milliseconds: float  # of the tables alone, as the program tells
    seconds: float
    memory: float
    note: str = ""


class Run(NamedTuple):
    seconds: float  # of processor time
    memory: float  # the greatest, in MB
    out: str
    err: str


def production(line):
    """The left and the right side in a line, each terminal as JSON writes it; none where the line isn't a production."""
    found = LINE.fullmatch(line)
    try:
        return found and (found[1], [json.dumps(json.loads(it)) if it.startswith('"') else it for it in SYMBOL.findall(found[2])])
    except json.JSONDecodeError:
        return None


def read(file):
    """The grammar in a file; ends the script where it isn't one."""
    productions = [production(it) for it in file.read_text(encoding="utf-8").splitlines()]
    if None in productions:
        sys.exit(f"{file}:{productions.index(None) + 1}: not a production")
    if not productions or len(productions[0][1]) != 1 or productions[0][0] != f"__{productions[0][1][0]}":
        sys.exit(f"{file}: the first production isn't `__X: X`")
    lefts, symbols = {left for left, _ in productions}, [it for _, right in productions for it in right]
    lacking = [it for it in symbols if it not in lefts and not it.startswith('"')]
    if lacking:
        sys.exit(f"{file}: {lacking[0]} has no production")
    terminals = dict.fromkeys(it for it in symbols if it.startswith('"'))
    return Grammar(file.stem, file, productions, {it: f"T{at}" for at, it in enumerate(terminals, 1)})


def json_text(grammar, classes=None):
    """The grammar as written, for our program: a rule for each nonterminal. A terminal that stands for a class of tokens is the symbol that
    classes have for it."""
    rules, found = {}, classes or {}
    for left, right in grammar.productions[1:]:
        texts = [json.loads(it) if it.startswith('"') else None for it in right]
        symbols = [name(it) if text is None else found.get(text, literal(text)) for it, text in zip(right, texts)]
        rules.setdefault(left, []).append(alternative(symbols))
    return json.dumps(written([rule(left, alternatives) for left, alternatives in rules.items()]))


def bison_text(grammar):
    """The grammar for bison."""
    text = f"%token {' '.join(grammar.terminals.values())}\n%start {grammar.start()}\n%%\n"
    for left, rights in grammar.rules():
        text += f"{left}: " + "\n| ".join(" ".join(it) or "%empty" for it in rights) + ";\n"
    return text


def menhir_text(grammar):
    """The grammar for menhir."""
    text = f"%token {' '.join(grammar.terminals.values())}\n%start <unit> {grammar.start()}\n%%\n"
    for left, rights in grammar.rules():
        text += f"{left}:\n" + "".join(f"| {' '.join(it)} {{}}\n" for it in rights)
    return text


def lalrpop_text(grammar):
    """The grammar for LALRPOP."""
    tokens = "".join(f'"{it}" => Token::{it}, ' for it in grammar.terminals.values())
    text = f"grammar;\nextern {{ type Location = usize; type Error = (); enum Token {{ {tokens}}} }}\n"
    for left, rights in grammar.rules():
        shown = [" ".join(it if it.startswith("n_") else f'"{it}"' for it in right) for right in rights]
        text += ("pub " if left == grammar.start() else "") + f"{left}: () = {{\n"
        text += "".join(f"{it} => (),\n" for it in shown) + "};\n"
    return text


def bison_states(room, kind):
    """The number of states of one kind, and what bison says of them."""
    told = run(room, ["bison", "-D", f"lr.type={kind}", "-o", "parser.c", "grammar.y"])
    return number(r"^#define YYNSTATES +(\d+)$", (room / "parser.c").read_text()), told.err


def lalrpop_states(room):
    """The number of states in the parser that LALRPOP wrote."""
    parser = (room / "grammar.rs").read_text()
    return parser.partition("const __EOF_ACTION")[2].partition("];")[0].count("// State ")


def best(row):
    return min((row() for _ in range(RUNS)), key=lambda it: it.milliseconds)


def run(room, command, source=os.devnull, **environment):
    """One run of a program, in the folder room. What a child of ours has taken at most is never told below what we take, so a shell
    starts the program and leaves it to us (see `adopt`)."""
    words = ["sh", "-c", '"$@" <"$0" >out 2>err & echo $!', str(source), *command]
    shell = subprocess.run(words, cwd=room, env={**os.environ, "LC_ALL": "C", **environment}, stdout=subprocess.PIPE, check=True)
    _, status, used = os.wait4(int(shell.stdout), 0)
    out, err = ((room / it).read_text(encoding="utf-8") for it in ("out", "err"))
    if status:
        raise Fault(f"status {os.waitstatus_to_exitcode(status)}: {' '.join((err or out).split())[-160:]}")
    return Run(used.ru_utime + used.ru_stime, used.ru_maxrss / 1024, out, err)


def number(pattern, text, kind=int):
    """What stands in the pattern's group, where it is found first."""
    found = re.search(pattern, text, re.M)
    if not found:
        raise Fault(f"it doesn't say {pattern}")
    return kind(found[1])


def adopt():
    """So that a program whose shell has ended becomes our child, and `run` tells its own time and memory."""
    subreaper = 36
    if ctypes.CDLL(None, use_errno=True).prctl(subreaper, 1, 0, 0, 0):
        sys.exit("prctl failed")

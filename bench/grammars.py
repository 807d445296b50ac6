"""Written grammars as JSON values, and programs that are timed: for the scripts of this folder."""
import os
import subprocess
import time
from typing import NamedTuple

HERE = os.path.dirname(os.path.abspath(__file__))
PROGRAM = os.path.join(HERE, "..", "crates", "lalrpop", "out", "lalrpop")
TEXT_PROGRAM = os.path.join(HERE, "..", "crates", "lalrpop_cases", "out", "lalrpop_cases")
SPAN = {"span": [0, 0]}


def literal(text):
    return {"kind": "terminal", "terminal": {"quoted": text}} | SPAN


def pattern(text):
    return {"kind": "terminal", "terminal": {"regex": text}} | SPAN


def name(text):
    return {"kind": "id", "name": text} | SPAN


def call(name, *arguments):
    return {"args": [*arguments], "kind": "macro", "name": name} | SPAN


def group(symbols):
    return {"expr": symbols, "kind": "group"} | SPAN


def alternative(symbols, attributes=(), condition=None):
    return {"action": None, "attributes": [*attributes], "condition": condition, "expr": symbols} | SPAN


def rule(name, alternatives, parameters=()):
    made = {"alternatives": alternatives, "args": [*parameters], "attributes": [], "kind": "rule", "name": name, "type": {"tuple": []}}
    return made | {"visibility": "pub"} | SPAN


def grammar(items):
    return {"attributes": [], "items": items, "parameters": "", "type_parameters": "", "where_clauses": ""} | SPAN


def level(number):
    return {"arg": {"paren": [{"arg": {"equal": str(number)}, "id": "level"} | SPAN]}, "id": "precedence"} | SPAN


def entry(number):
    return {"literal": {"quoted": f"a{number}"}, "map": None} | SPAN


class Run(NamedTuple):
    """What a run took, printed and ended with. Of two runs the lesser is the faster one."""

    seconds: float
    memory: float  # the greatest, in MB
    printed: str
    status: int  # of a run that was killed, the number of the signal below 0

    def fault(self, statuses=(0,)):
        """What is wrong with a run that ended with another status, which is no fast answer; nothing where none is wrong."""
        return None if self.status in statuses else f"failed: status {self.status}"


def timed(command, source):
    """One run over a file as standard input."""
    with open(source, "rb") as standard_input:
        start = time.monotonic()
        child = subprocess.Popen(command, stdin=standard_input, stdout=subprocess.PIPE)
        printed = child.stdout.read().decode()
        _, status, used = os.wait4(child.pid, 0)
        seconds = time.monotonic() - start
    return Run(seconds, used.ru_maxrss / 1024, printed.strip(), os.waitstatus_to_exitcode(status))


def better(command, source, statuses=(0,)):
    """The better of two runs; one that failed, where one did."""
    runs = [timed(command, source) for _ in range(2)]
    return min([it for it in runs if it.fault(statuses)] or runs)

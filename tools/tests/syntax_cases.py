"""Tests of tools/syntax: that both files know each word of scripts and reports."""
import json
import os
import re

from formats.reports import ANSWERS, EVENTS, MOVES
from tests.harness import TOOLS, Tally

WORDS = {*MOVES, *ANSWERS, *EVENTS, "auto", "input", "output", "event"}
VIM = os.path.join(TOOLS, "syntax", "vim", "syntax", "autarky.vim")
CODE = os.path.join(TOOLS, "syntax", "vscode")


def words_of(path: str) -> "set[str]":
    with open(path, encoding="ascii") as file:
        return set(re.findall("[a-z]+", file.read()))


def test(tally: Tally) -> None:
    grammar = os.path.join(CODE, "syntaxes", "autarky.tmLanguage.json")
    for name, path in (("vim", VIM), ("VS Code", grammar)):
        tally.equal(f"syntax of {name}: words that are not known", sorted(WORDS - words_of(path)), [])
    for path in (grammar, os.path.join(CODE, "package.json"), os.path.join(CODE, "language-configuration.json")):
        with open(path, encoding="ascii") as file:
            tally.holds(f"syntax: {os.path.basename(path)} is a document", isinstance(json.load(file), dict))
    with open(grammar, encoding="ascii") as file:
        patterns = json.load(file)["patterns"]
    move = next(re.compile(pattern["match"]) for pattern in patterns if "setpte" in pattern["match"])
    answer = next(re.compile(pattern["match"]) for pattern in patterns if "nopage" in pattern["match"])
    for word in MOVES:
        tally.holds(f"syntax: {word} in a script and in a report", move.match(f"{word} 1") and move.match(f"12 {word}"))
    for word in ANSWERS:
        tally.holds(f"syntax: the answer {word}", answer.search(f"3 run 0 1 -> {word}"))

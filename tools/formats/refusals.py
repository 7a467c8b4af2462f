"""Refusals as the program tells them, with what it leaves out."""
import os
from typing import List, Optional

from formats.toml_document import TomlFault, Value, check_utf8, place_of, read_document, shown

LONGEST_FILE = 8_388_608
ARTICLES = {"integer": "an integer", "array": "an array"}


class Refusal(Exception):
    """Why the program refuses: its line and status, and details."""

    def __init__(self, line: str, status: int, details: Optional[List[str]] = None):
        super().__init__(line)
        self.line = line
        self.status = status
        self.details = details or []


def read_file(name: str) -> bytes:
    """The bytes of a file, where it can be read and is not too long."""
    try:
        with open(name, "rb") as file:
            data = file.read(LONGEST_FILE + 1)
    except OSError as why:
        raise Refusal(f"read failed: {name}", 5, [os.strerror(why.errno)]) from why
    if len(data) > LONGEST_FILE:
        raise Refusal(f"file too long: {name}", 8, [f"more than {LONGEST_FILE} bytes"])
    return data


def at(text: str, offset: int, what: str) -> str:
    line, column = place_of(text, offset)
    return f"line {line}, column {column}: {what}"


def counted(number: int, noun: str) -> str:
    return f"{number} {noun}" if number == 1 else f"{number} {noun}s"


def typed(value: Value) -> str:
    """A value's type, as a message names it."""
    return ARTICLES.get(value.kind, f"a {value.kind}")


def hex_fault(text: str, value: Value, digits_wanted: str) -> str:
    """Where a string has a character that is no hexadecimal digit, or that their number is wrong."""
    digits = value.data
    for place, character in enumerate(digits):
        if character not in "0123456789abcdefABCDEF":
            offset = value.offset if value.verbatim is None else value.verbatim + place
            return at(text, offset, f"{shown(character)}, number {place + 1} of the string, is no hexadecimal digit")
    return at(text, value.offset, f"{len(digits)} digits, {digits_wanted}")


def document_of(data: bytes, subject: str) -> "tuple[str, Value]":
    """The text and the root table of a document, of an image or of signers."""
    text = data.decode("utf-8", "replace")
    try:
        check_utf8(data)
        return text, read_document(text)
    except TomlFault as why:
        raise Refusal(f"{subject} refused: 1 nottoml", 3, [at(text, why.offset, why.reason)]) from why

"""Documents of TOML 1.1, with the place of each key and value.

Python's own reader knows TOML 1.0 and tells no places. This one keeps the grammar of the program's reader: newlines, comments and
a last comma in inline tables, `\\e` and `\\x`, times without seconds, integers of 64 bits, and 80 levels at most.
"""
import re
from dataclasses import dataclass
from typing import Dict, List, NoReturn, Optional, Tuple

DEEPEST = 80
WORD = re.compile(r"[A-Za-z0-9_+.:-]*")
BARE = re.compile(r"[A-Za-z0-9_-]+")
BLANKS = re.compile(r"[ \t]*")
BLANK_LINES = re.compile(r"[ \t\n]*(?:\r\n[ \t\n]*)*")
COMMENT = re.compile(r"#[\t\x20-\x7e\x80-\U0010ffff]*")
DECIMAL = re.compile(r"(?P<whole>0|[1-9][0-9]*)(?P<point>\.[0-9]+)?(?P<exponent>[eE][+-]?[0-9]+)?")
LOOKS_LIKE_DATE = re.compile(r"[0-9]+[-:]")
DATE = r"(?P<year>[0-9]{4})-(?P<month>[0-9]{2})-(?P<day>[0-9]{2})"
TIME = r"(?P<hour>[0-9]{2}):(?P<minute>[0-9]{2})(?::(?P<second>[0-9]{2})(?:\.[0-9]+)?)?"
OFFSET = r"(?:[Zz]|[+-](?P<hours>[0-9]{2}):(?P<minutes>[0-9]{2}))"
DATE_TIME = re.compile(rf"{DATE}(?:[Tt ]{TIME}(?:{OFFSET})?)?")
LOCAL_TIME = re.compile(TIME)
PREFIXED = {"0x": (16, "[0-9A-Fa-f]+"), "0o": (8, "[0-7]+"), "0b": (2, "[01]+")}
ESCAPES = {"b": "\b", "e": "\x1b", "f": "\f", "n": "\n", "r": "\r", "t": "\t", '"': '"', "\\": "\\"}
HEX_LENGTHS = {"x": 2, "u": 4, "U": 8}
PLAIN = {
    ('"', False): re.compile(r'[^"\\\x00-\x08\x0a-\x1f\x7f]+'),
    ("'", False): re.compile(r"[^'\x00-\x08\x0a-\x1f\x7f]+"),
    ('"', True): re.compile(r'[^"\\\x00-\x08\x0b-\x1f\x7f]+'),
    ("'", True): re.compile(r"[^'\x00-\x08\x0b-\x1f\x7f]+"),
}
QUOTES = {'"': re.compile('"*'), "'": re.compile("'*")}


@dataclass
class Value:
    """A value. Of a string that stands in the text as it is, `verbatim` is where it begins."""

    kind: str
    data: object
    offset: int
    verbatim: Optional[int] = None
    origin: str = "value"


@dataclass
class Entry:
    """What a key holds, and where the key stands."""

    offset: int
    value: Value


class TomlFault(Exception):
    """Why a text is no document, and where."""

    def __init__(self, offset: int, reason: str):
        super().__init__(reason)
        self.offset = offset
        self.reason = reason


def place_of(text: str, offset: int) -> Tuple[int, int]:
    """The line and the column of an offset, from 1, in characters."""
    start = text.rfind("\n", 0, offset) + 1
    return text.count("\n", 0, offset) + 1, offset - start + 1


def shown(character: str) -> str:
    """A character as a message names it."""
    if not character:
        return "the end of the file"
    return f"`{character}`" if character.isprintable() else f"the character U+{ord(character):04X}"


# ---- Numbers and dates


def is_date(year: int, month: int, day: int) -> bool:
    leap = year % 4 == 0 and (year % 100 != 0 or year % 400 == 0)
    days = (31, 29 if leap else 28, 31, 30, 31, 30, 31, 31, 30, 31, 30, 31)
    return 1 <= month <= 12 and 1 <= day <= days[month - 1]


def is_time(parts: Dict[str, Optional[str]]) -> bool:
    bounds = {"hour": 24, "minute": 60, "second": 61, "hours": 24, "minutes": 60}
    return all(parts.get(name) is None or int(parts[name]) < bound for name, bound in bounds.items())


def is_date_time(word: str) -> bool:
    found = (LOCAL_TIME if word[2:3] == ":" else DATE_TIME).fullmatch(word)
    if not found:
        return False
    parts = found.groupdict()
    if "year" in parts and not is_date(int(parts["year"]), int(parts["month"]), int(parts["day"])):
        return False
    return is_time(parts)


def underscores_fit(word: str) -> bool:
    """Each underscore stands between two digits."""
    digit = "[0-9A-Fa-f]" if word.startswith("0x") else "[0-9]"
    return len(re.findall(rf"(?<={digit})_(?={digit})", word)) == word.count("_")


def integer_value(number: int, word: str) -> Tuple[str, object]:
    if not -(2**63) <= number < 2**63:
        raise ValueError(f"the integer `{word}` does not fit 64 bits with a sign")
    return "integer", number


def number_value(word: str) -> Tuple[str, object]:
    """An integer or a float; a ValueError tells why it is none."""
    if not underscores_fit(word):
        raise ValueError(f"`{word}` has an underscore that is not between two digits")
    plain = word.replace("_", "")
    if plain[:2] in PREFIXED:
        radix, digits = PREFIXED[plain[:2]]
        if not re.fullmatch(digits, plain[2:]):
            raise ValueError(f"`{word}` is no number")
        return integer_value(int(plain[2:], radix), word)
    unsigned = plain[1:] if plain[:1] in ("+", "-") else plain
    if unsigned in ("inf", "nan"):
        return "float", float(plain)
    parts = DECIMAL.fullmatch(unsigned)
    if not parts:
        raise ValueError(f"`{word}` is no value: no number, date, time, `true` or `false`, and no text in quotes")
    if not parts["point"] and not parts["exponent"]:
        return integer_value(integer_of(plain), word)
    if float(plain) in (float("inf"), float("-inf")):
        raise ValueError(f"the number `{word}` is too large")
    return "float", float(plain)


def integer_of(digits: str) -> int:
    """The number; of more digits than 64 bits can have, one that is too large."""
    sign = -1 if digits.startswith("-") else 1
    digits = digits.lstrip("+-")
    return sign * (int(digits) if len(digits) <= 19 else 2**64)


def word_value(word: str) -> Tuple[str, object]:
    """A boolean, a date or a time, or a number."""
    if word in ("true", "false"):
        return "boolean", word == "true"
    if LOOKS_LIKE_DATE.match(word):
        if is_date_time(word):
            return "date", word
        raise ValueError(f"`{word}` is no date and no time")
    return number_value(word)


# ---- The rules by which keys and headers define tables


def new_table(offset: int, origin: str) -> Value:
    return Value("table", {}, offset, origin=origin)


def inner_by_header(value: Value) -> Optional[Value]:
    """The table that a header goes on in: no inline table, and of an array of tables the last."""
    if value.kind == "table" and value.origin != "value":
        return value
    if value.kind == "array" and value.origin == "tables":
        return value.data[-1]
    return None


def inner_by_dot(value: Value) -> Optional[Value]:
    """The table that a dotted key goes on in, which becomes its own: none that a header of its own, or braces, made."""
    if value.kind == "table" and value.origin in ("implicit", "dotted"):
        value.origin = "dotted"
        return value
    return None


class Reader:
    """Reads a text from its front."""

    def __init__(self, text: str):
        self.text = text
        self.at = 1 if text.startswith("\ufeff") else 0

    def fail(self, reason: str, offset: Optional[int] = None) -> NoReturn:
        raise TomlFault(self.at if offset is None else offset, reason)

    def peek(self, length: int = 1) -> str:
        return self.text[self.at : self.at + length]

    def take(self, pattern: "re.Pattern[str]") -> str:
        found = pattern.match(self.text, self.at)
        self.at = found.end() if found else self.at
        return found.group() if found else ""

    def take_text(self, wanted: str) -> bool:
        if not self.text.startswith(wanted, self.at):
            return False
        self.at += len(wanted)
        return True

    def skip_blank(self) -> None:
        """Passes over blanks, newlines and comments."""
        self.take(BLANK_LINES)
        while self.take(COMMENT):
            self.take(BLANK_LINES)

    def want(self, wanted: str, where: str) -> None:
        if not self.take_text(wanted):
            self.fail(f"{shown(self.peek())} where `{wanted}` should be, {where}")

    # ---- Strings and keys

    def escaped(self) -> str:
        """What an escape after its backslash stands for."""
        letter = self.peek()
        if letter in HEX_LENGTHS:
            digits = self.text[self.at + 1 : self.at + 1 + HEX_LENGTHS[letter]]
            if not re.fullmatch(f"[0-9A-Fa-f]{{{HEX_LENGTHS[letter]}}}", digits):
                self.fail(f"`\\{letter}` wants {HEX_LENGTHS[letter]} hexadecimal digits")
            number = int(digits, 16)
            if 0xD800 <= number < 0xE000 or number > 0x10FFFF:
                self.fail(f"`\\{letter}{digits}` is no character")
            self.at += 1 + len(digits)
            return chr(number)
        if letter not in ESCAPES:
            self.fail(f"a backslash before {shown(letter)}; a text in single quotes has no escapes")
        self.at += 1
        return ESCAPES[letter]

    def special(self, quote: str, multi: bool) -> Optional[str]:
        """What stands at a character that is not plain; nothing at the end of the string."""
        if self.take_text(quote):
            if not multi:
                return None
            more = len(QUOTES[quote].match(self.text, self.at).group())
            if more == 2:
                self.at += 2
                return None
            if more > 4:
                self.fail(f"more than five of {quote} in a row")
            return quote
        if quote == '"' and self.take_text("\\"):
            start = self.at
            self.take(BLANKS)
            if multi and (self.peek() == "\n" or self.peek(2) == "\r\n"):
                self.take(BLANK_LINES)
                return ""
            self.at = start
            return self.escaped()
        if multi and self.take_text("\r\n"):
            return "\r\n"
        self.fail(f"{shown(self.peek())} in a text in quotes" + ("" if multi else ", which ends on its line"))

    def string(self, multi_allowed: bool) -> Value:
        start, quote = self.at, self.peek()
        multi = multi_allowed and self.peek(3) == 3 * quote
        self.at += 3 if multi else 1
        if multi:
            self.take_text("\n") or self.take_text("\r\n")
        content, pieces = self.at, []
        while True:
            plain = self.take(PLAIN[quote, multi])
            piece = plain or self.special(quote, multi)
            if piece is None:
                break
            pieces.append(piece)
        data = "".join(pieces)
        return Value("string", data, start, content if self.text.startswith(data, content) else None)

    def key(self) -> List[Tuple[str, int]]:
        """The parts of a key, each with its offset, and the blanks after them."""
        parts = []
        while True:
            offset = self.at
            name = self.string(False).data if self.peek() in QUOTES else self.take(BARE)
            if self.at == offset:
                self.fail(f"{shown(self.peek())} where a key should be")
            parts.append((name, offset))
            self.take(BLANKS)
            if not self.take_text("."):
                return parts
            if len(parts) == DEEPEST:
                self.fail(f"a key of more than {DEEPEST} parts", offset)
            self.take(BLANKS)

    # ---- Values

    def unquoted(self) -> Value:
        start = self.at
        word = self.take(WORD)
        if self.peek() == " " and self.text[self.at + 1 : self.at + 2] in tuple("0123456789"):
            self.at += 1
            word += " " + self.take(WORD)
        if not word:
            self.fail(f"{shown(self.peek())} where a value should be")
        try:
            kind, data = word_value(word)
        except ValueError as why:
            self.fail(str(why), start)
        return Value(kind, data, start)

    def value(self, depth: int) -> Value:
        """A value with so many levels of arrays and inline tables at most."""
        if self.peek() in ("[", "{"):
            if depth == 0:
                self.fail(f"arrays and tables nest more than {DEEPEST} deep")
            return self.array(depth - 1) if self.peek() == "[" else self.inline_table(depth - 1)
        return self.string(True) if self.peek() in QUOTES else self.unquoted()

    def ends(self, closing: str, opened: int) -> bool:
        """Whether the array or inline table ends here."""
        self.skip_blank()
        if not self.peek():
            line, column = place_of(self.text, opened)
            self.fail(f"the file ends before the `{closing}` of line {line}, column {column}")
        return self.take_text(closing)

    def after_element(self, closing: str, opened: int) -> bool:
        """Whether another element may follow: after a comma."""
        if self.ends(closing, opened):
            return False
        if not self.take_text(","):
            self.fail(f"{shown(self.peek())} where `,` or `{closing}` should be")
        return True

    def array(self, depth: int) -> Value:
        start, items = self.at, []
        self.at += 1
        while not self.ends("]", start):
            items.append(self.value(depth))
            if not self.after_element("]", start):
                break
        return Value("array", items, start)

    def inline_table(self, depth: int) -> Value:
        start = self.at
        table = new_table(start, "header")
        self.at += 1
        while not self.ends("}", start):
            self.pair(table, depth)
            if not self.after_element("}", start):
                break
        return closed(table)

    def pair(self, table: Value, depth: int) -> None:
        """A key, `=` and a value, put into the table."""
        parts = self.key()
        self.want("=", "after a key")
        self.take(BLANKS)
        value = self.value(depth)
        for name, offset in parts[:-1]:
            entry = table.data.setdefault(name, Entry(offset, new_table(offset, "dotted")))
            inner = inner_by_dot(entry.value)
            table = inner or self.fail(self.twice(name, entry), offset)
        name, offset = parts[-1]
        if name in table.data:
            self.fail(self.twice(name, table.data[name]), offset)
        table.data[name] = Entry(offset, value)

    def twice(self, name: str, first: Entry) -> str:
        line, column = place_of(self.text, first.offset)
        return f"the key `{name}` stands already at line {line}, column {column}"

    # ---- Lines

    def header(self, root: Value) -> Value:
        """The table of a header, in single or double brackets."""
        opening = self.at
        many = self.take_text("[[") or not self.take_text("[")
        self.take(BLANKS)
        parts = self.key()
        self.want("]]" if many else "]", "after the name of a table")
        table = root
        for name, offset in parts[:-1]:
            entry = table.data.setdefault(name, Entry(offset, new_table(opening, "implicit")))
            table = inner_by_header(entry.value) or self.fail(self.twice(name, entry), offset)
        name, offset = parts[-1]
        found = table.data.get(name)
        if many:
            return self.one_more(table, name, offset, opening, found)
        if found is None:
            table.data[name] = Entry(offset, new_table(opening, "header"))
        elif found.value.kind == "table" and found.value.origin == "implicit":
            found.value.origin, found.value.offset = "header", opening
        else:
            self.fail(self.twice(name, found), offset)
        return table.data[name].value

    def one_more(self, table: Value, name: str, offset: int, opening: int, found: Optional[Entry]) -> Value:
        """One more table of an array of tables."""
        if found is None:
            found = table.data[name] = Entry(offset, Value("array", [], opening, origin="tables"))
        elif found.value.origin != "tables":
            self.fail(self.twice(name, found), offset)
        found.value.data.append(new_table(opening, "header"))
        return found.value.data[-1]

    def document(self) -> Value:
        root = table = new_table(0, "header")
        while True:
            self.skip_blank()
            if self.at == len(self.text):
                return closed(root)
            if self.peek() == "[":
                table = self.header(root)
            else:
                self.pair(table, DEEPEST)
            self.take(BLANKS)
            if self.peek() not in ("", "#", "\n", "\r"):
                self.fail(f"{shown(self.peek())} where the line should end")


def closed(table: Value) -> Value:
    """The table, to which nothing more is added."""
    table.origin = "value"
    return table


def check_utf8(data: bytes) -> None:
    """A TomlFault tells the first byte that is no UTF-8."""
    try:
        data.decode("utf-8")
    except UnicodeDecodeError as why:
        raise TomlFault(len(data[: why.start].decode("utf-8")), f"the byte {data[why.start]:02x} is no UTF-8") from why


def read_document(text: str) -> Value:
    """The root table of a document; a TomlFault tells why it is none."""
    return Reader(text).document()

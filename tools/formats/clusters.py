"""Which cluster each page of a linked program is in: by section, by page, by symbol, or as a map file tells."""
import re
from typing import Dict, List, NamedTuple, NoReturn, Optional

from formats.elf import Program, Section, Symbol
from formats.images import PAGE_SIZE

KINDS = ("section", "page", "symbol", "one")


class MapFault(Exception):
    """Why a map file is refused."""


class Reach(NamedTuple):
    """The pages that a symbol reaches over, from the program's first page on."""

    name: str
    first: int
    last: int

    def pages(self) -> range:
        return range(self.first, self.last + 1)


def end_of(symbol: Symbol, program: Program) -> int:
    """Where a symbol ends: as it says, or at the next one of its section, or with the section."""
    if symbol.size:
        return symbol.address + symbol.size
    section = next((section for section in program.sections if section.address <= symbol.address < section.address + section.size), None)
    if section is None:
        return symbol.address + 1
    later = [other.address for other in program.symbols.values() if other.address > symbol.address]
    return min([*later, section.address + section.size])


def reaches_of(program: Program, base: int) -> List[Reach]:
    """The symbols in the program's pages, by their addresses. Of two at one address the one whose size is told goes."""
    reaches = []
    last = max(section.address + section.size for section in program.sections)
    sized = {symbol.address for symbol in program.symbols.values() if symbol.size}
    for symbol in sorted(program.symbols.values(), key=lambda symbol: (symbol.address, symbol.name)):
        if base <= symbol.address < last and (symbol.size or symbol.address not in sized):
            first, end = (symbol.address - base) // PAGE_SIZE, (end_of(symbol, program) - 1 - base) // PAGE_SIZE
            reaches.append(Reach(symbol.name, first, max(first, end)))
    return reaches


def by_symbol(reaches: List[Reach], names: List[str]) -> List[str]:
    """Pages that one symbol reaches over are together, and pages of each group have the name of its first symbol; others those given."""
    first = list(range(len(names)))
    for reach in reaches:
        together = {first[page] for page in reach.pages()}
        first = [min(together) if page in together else page for page in first]
    symbols: Dict[int, str] = {}
    for reach in reaches:
        symbols.setdefault(first[reach.first], reach.name)
    return [symbols.get(first[page], name) for page, name in enumerate(names)]


def names_by(kind: str, sections: List[List[Section]], reaches: List[Reach]) -> List[str]:
    """The cluster of each page, where the sections of each are these."""
    by_section = [of_page[0].name.lstrip(".") if of_page else "gap" for of_page in sections]
    if kind == "page":
        return [f"page{page}" for page in range(len(sections))]
    if kind == "symbol":
        return by_symbol(reaches, by_section)
    return by_section if kind == "section" else len(sections) * ["program"]


class Map:
    """A map file: lines `CLUSTER: NAME NAME ..`, of symbols, sections, and pages `N` or `N-M` from 0."""

    def __init__(self, path: str, text: str):
        self.path = path
        self.lines: "List[tuple[int, str, List[str]]]" = []
        for number, line in enumerate(text.split("\n"), 1):
            words = line.split("#")[0].strip()
            if not words:
                continue
            cluster, colon, names = words.partition(":")
            if not colon or not cluster.strip() or not names.split():
                self.fail(number, "a line is `CLUSTER: NAME NAME ..`")
            self.lines.append((number, cluster.strip(), names.split()))

    def fail(self, line: int, why: str) -> NoReturn:
        raise MapFault(f"{self.path}: line {line}: {why}")

    def pages(self, line: int, name: str, sections: List[List[Section]], reaches: List[Reach]) -> List[int]:
        """The pages that a name stands for."""
        numbers = re.fullmatch("([0-9]+)(?:-([0-9]+))?", name)
        if numbers:
            first, last = int(numbers[1]), int(numbers[2] or numbers[1])
            if not first <= last < len(sections):
                self.fail(line, f"no pages `{name}`: the program has {len(sections)}, from 0 on")
            return list(range(first, last + 1))
        if name.startswith("."):
            pages = [page for page, of_page in enumerate(sections) if any(section.name == name for section in of_page)]
        else:
            pages = [page for reach in reaches if reach.name == name for page in reach.pages()]
        if not pages:
            self.fail(line, f"no {'section' if name.startswith('.') else 'symbol'} `{name}`")
        return pages

    def applied(self, names: List[str], sections: List[List[Section]], reaches: List[Reach]) -> List[str]:
        """The clusters, and those given where the map tells none. A symbol or a page goes before a section."""
        told: Dict[int, "tuple[bool, str, str]"] = {}
        for line, cluster, words in self.lines:
            for word in words:
                for page in self.pages(line, word, sections, reaches):
                    other = told.get(page)
                    weak = word.startswith(".")
                    if other and other[0] == weak and other[1] != cluster:
                        self.fail(line, f"page {page} has `{word}`, and is in the cluster `{other[1]}` for `{other[2]}`")
                    if not other or other[0] >= weak:
                        told[page] = (weak, cluster, word)
        return [told[page][1] if page in told else name for page, name in enumerate(names)]


def clusters_of(kind: str, mapped: Optional[Map], sections: List[List[Section]], reaches: List[Reach]) -> List[str]:
    """The cluster of each page, of which these are the sections."""
    names = names_by(kind, sections, reaches)
    return mapped.applied(names, sections, reaches) if mapped else names

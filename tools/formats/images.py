"""Images: what a document spells, why it is refused, and the measurement of its enclave."""
import hashlib
from collections import Counter
from dataclasses import dataclass
from typing import Dict, List, NoReturn, Optional

from formats.refusals import Refusal, at, counted, document_of, hex_fault, typed
from formats.toml_document import Entry, Value

PAGE_SIZE = 4096
RUNTIME_PAGES = 6
MOST_PAGES = 512
FIRST_FRAME = 8
ADDRESSES = 2**47
TOP_TYPES = {"version": "integer", "base": "integer", "entry": "integer", "budget": "integer", "signer": "string", "page": "array"}
PAGE_KEYS = ("perms", "cluster", "bytes")
PERMS = {"r": 0, "rw": 1, "rx": 2}
SECINFO = {"r": 513, "rw": 515, "rx": 517, "tcs": 256}
NUMBERS = {
    word: number
    for number, word in enumerate(
        "nottoml unknownkey missingkey wrongtype version basealign pagecount pageperm pagebytes entry budget"
        " unknownsigner notsigned".split(),
        1,
    )
}


@dataclass
class Page:
    """A page of the program."""

    perms: str
    cluster: str
    data: bytes


@dataclass
class Image:
    """An image that the program takes."""

    base: int
    entry: int
    budget: int
    signer: str
    pages: List[Page]

    def cluster_numbers(self) -> Dict[str, int]:
        """The clusters by name, numbered by their first appearance."""
        return {name: number for number, name in enumerate(dict.fromkeys(page.cluster for page in self.pages))}

    def least_budget(self) -> int:
        """The pages of the four largest clusters."""
        return sum(size for _, size in Counter(page.cluster for page in self.pages).most_common(4))


def refuse(word: str, *details: str, page: Optional[int] = None) -> NoReturn:
    of_page = "" if page is None else f" page {page}"
    raise Refusal(f"image refused: {NUMBERS[word]} {word}{of_page}", 3, list(details))


def enclave_size(pages: int) -> int:
    """The least power of two that holds so many pages of the program and those of the runtime."""
    return 1 << (PAGE_SIZE * (pages + RUNTIME_PAGES) - 1).bit_length()


class Reading:
    """One document on its way to an image. The stages come in the program's order."""

    def __init__(self, data: bytes):
        self.text, self.root = document_of(data, "image")

    def top(self, key: str) -> Value:
        return self.root.data[key].value

    def items(self) -> List[Value]:
        """The elements of the array `page`; none where it is no array."""
        entry = self.root.data.get("page")
        return entry.value.data if entry and entry.value.kind == "array" else []

    def tables(self) -> "list[tuple[int, Value]]":
        return [(number, item) for number, item in enumerate(self.items()) if item.kind == "table"]

    def known_keys(self) -> None:
        for table, known, where in [(self.root, tuple(TOP_TYPES), "an image")] + [
            (table, PAGE_KEYS, "a page") for _, table in self.tables()
        ]:
            for name, entry in table.data.items():
                if name not in known:
                    refuse("unknownkey", at(self.text, entry.offset, f"`{name}` is no key of {where}: {', '.join(known)}"))

    def all_keys(self) -> None:
        lacking = [key for key in TOP_TYPES if key not in self.root.data]
        if lacking:
            refuse("missingkey", f"the document lacks {named(lacking)}")
        for number, table in self.tables():
            lacking = [key for key in PAGE_KEYS if key not in table.data]
            if lacking:
                refuse("missingkey", at(self.text, table.offset, f"page {number} lacks {named(lacking)}"))

    def want_type(self, value: Value, wanted: str, what: str) -> None:
        if value.kind != wanted:
            article = "an" if wanted in ("integer", "array") else "a"
            refuse("wrongtype", at(self.text, value.offset, f"{what} is {typed(value)} and must be {article} {wanted}"))

    def right_types(self) -> None:
        for key, wanted in TOP_TYPES.items():
            self.want_type(self.top(key), wanted, f"`{key}`")
        for number, item in enumerate(self.items()):
            self.want_type(item, "table", f"page {number}")
            for key in PAGE_KEYS:
                self.want_type(item.data[key].value, "string", f"`{key}` of page {number}")

    def version(self) -> None:
        version = self.top("version")
        if version.data != 1:
            refuse("version", at(self.text, version.offset, f"the version is {version.data} and must be 1"))

    def base(self) -> None:
        value, pages = self.top("base"), len(self.items())
        size = enclave_size(pages)
        if value.data >= 0 and value.data % size == 0 and value.data + size <= ADDRESSES:
            return
        largest = ADDRESSES - size
        below = min(max(value.data // size * size, 0), largest)
        nearest = sorted({below, min(below + size, largest)}) if 0 <= value.data <= largest else [below]
        refuse(
            "basealign",
            at(self.text, value.offset, f"the base {value.data} must be a multiple of {size}, from 0 to {largest}"),
            f"{size} is the size of an enclave with {counted(pages, 'page')} of the program and {RUNTIME_PAGES} of the runtime",
            f"nearest: {' or '.join(map(str, nearest))}",
        )

    def page_count(self) -> None:
        if not 1 <= len(self.items()) <= MOST_PAGES:
            refuse("pagecount", at(self.text, self.top("page").offset, f"{len(self.items())} pages, where 1 to {MOST_PAGES} may be"))

    def permissions(self) -> None:
        for number, item in enumerate(self.items()):
            perms = item.data["perms"].value
            if perms.data not in PERMS:
                refuse("pageperm", at(self.text, perms.offset, f"`{perms.data}` is none of `r`, `rw`, `rx`"), page=number)

    def page_bytes(self) -> None:
        for number, item in enumerate(self.items()):
            value = item.data["bytes"].value
            digits = value.data
            if len(digits) <= 2 * PAGE_SIZE and len(digits) % 2 == 0 and is_hex(digits):
                continue
            wanted = "an odd number, where each byte has two" if len(digits) % 2 else f"where a page has {2 * PAGE_SIZE} at most"
            refuse("pagebytes", hex_fault(self.text, value, wanted), page=number)

    def entry(self) -> None:
        value, bytes_of_program = self.top("entry"), PAGE_SIZE * len(self.items())
        if not 0 <= value.data < bytes_of_program:
            last = bytes_of_program - 1
            refuse("entry", at(self.text, value.offset, f"the entry {value.data} is an offset from the base and must be 0 to {last}"))

    def budget(self) -> None:
        value = self.top("budget")
        sizes = Counter(item.data["cluster"].value.data for item in self.items())
        largest = sizes.most_common(4)
        least = sum(size for _, size in largest)
        if not least <= value.data <= MOST_PAGES:
            shares = ", ".join(f"`{name}` {size}" for name, size in largest)
            what = "the four largest clusters" if len(sizes) > 4 else "all clusters"
            refuse(
                "budget",
                at(self.text, value.offset, f"the budget {value.data} must be {least} to {MOST_PAGES}"),
                f"{least} is the number of pages of {what}: {shares}",
            )

    def image(self) -> Image:
        for stage in (self.known_keys, self.all_keys, self.right_types, self.version, self.base, self.page_count,
                      self.permissions, self.page_bytes, self.entry, self.budget):
            stage()
        pages = [page_of(item.data) for item in self.items()]
        return Image(self.top("base").data, self.top("entry").data, self.top("budget").data, self.top("signer").data, pages)


def named(keys: List[str]) -> str:
    return ("the key " if len(keys) == 1 else "the keys ") + ", ".join(f"`{key}`" for key in keys)


def is_hex(digits: str) -> bool:
    return all(character in "0123456789abcdefABCDEF" for character in digits)


def page_of(keys: Dict[str, Entry]) -> Page:
    data = bytes.fromhex(keys["bytes"].value.data)
    return Page(keys["perms"].value.data, keys["cluster"].value.data, data)


def read_image(data: bytes) -> Image:
    """The image that the bytes spell; a Refusal tells why there is none."""
    return Reading(data).image()


# ---- The measurement (docs/FORMATS.md, "Measurement")


def number(value: int, length: int) -> bytes:
    return value.to_bytes(length, "little")


def placed(parts: Dict[int, bytes], length: int = PAGE_SIZE) -> bytes:
    """Zeros with these bytes at their places."""
    page = bytearray(length)
    for place, data in parts.items():
        page[place : place + len(data)] = data
    return bytes(page)


def code_page(image: Image) -> bytes:
    clusters = image.cluster_numbers()
    parts = {1024 + 4 * i: number(clusters[page.cluster], 2) + number(PERMS[page.perms], 1) for i, page in enumerate(image.pages)}
    return placed({**parts, 3072: number(image.budget, 4), 3076: number(image.entry, 4)})


def enclave_pages(image: Image) -> "list[tuple[str, bytes]]":
    """The pages of the enclave in order, each with its kind."""
    n = len(image.pages)
    tcs = placed({16: number(PAGE_SIZE * (n + 1), 8), 28: number(3, 4), 32: number(PAGE_SIZE * (n + 5), 8)})
    program = [(page.perms, placed({0: page.data})) for page in image.pages]
    return program + [("tcs", tcs)] + 4 * [("rw", bytes(PAGE_SIZE))] + [("rx", code_page(image))]


def measurement(image: Image) -> str:
    """The measurement of the image's enclave, in hexadecimal digits."""
    digest = hashlib.sha256(placed({0: b"ECREATE\0" + number(1, 4) + number(enclave_size(len(image.pages)), 8)}, 64))
    for i, (kind, page) in enumerate(enclave_pages(image)):
        digest.update(placed({0: b"EADD\0\0\0\0" + number(PAGE_SIZE * i, 8) + number(SECINFO[kind], 8)}, 64))
        for chunk in range(0, PAGE_SIZE, 256):
            digest.update(placed({0: b"EEXTEND\0" + number(PAGE_SIZE * i + chunk, 8)}, 64) + page[chunk : chunk + 256])
    return digest.hexdigest()

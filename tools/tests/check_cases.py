"""Tests of tools/check: the program's line for each file of the tables, and what is told below it."""
import tempfile

from formats.images import read_image
from formats.refusals import LONGEST_FILE, Refusal
from formats.scripts import read_script
from formats.signers import read_signers
from tests.harness import Tally, call, examples, written
from tests.tables import all_cases, document, page

READERS = {"image": read_image, "signers": read_signers, "script": read_script}
ONE = page("rx", "90", "a")
ZEROS = 64 * "0"

# A kind, a file, and the lines that are told: the program's, and the details.
DETAILS = [
    ("image", "version = 1\nbase 0\n", ["image refused: 1 nottoml", "line 2, column 6: `0` where `=` should be, after a key"]),
    ("image", "version = 1\nversion = 1\n", ["image refused: 1 nottoml", "line 2, column 1: the key `version` stands already at line 1, column 1"]),
    ("image", "page = [\n1", ["image refused: 1 nottoml", "line 2, column 2: the file ends before the `]` of line 1, column 8"]),
    ("image", "signer = \"é\\q\"\n", ["image refused: 1 nottoml", "line 1, column 13: a backslash before `q`; a text in single quotes has no escapes"]),
    ("image", "base = 9223372036854775808\n",
     ["image refused: 1 nottoml", "line 1, column 8: the integer `9223372036854775808` does not fit 64 bits with a sign"]),
    ("image", b"version = 1\nsigner = '\xff'\n", ["image refused: 1 nottoml", "line 2, column 11: the byte ff is no UTF-8"]),
    ("image", document() + "frames = 9\n" + ONE,
     ["image refused: 2 unknownkey", "line 6, column 1: `frames` is no key of an image: version, base, entry, budget, signer, page"]),
    ("image", document() + ONE + "\n  rights = 'r'\n",
     ["image refused: 2 unknownkey", "line 11, column 3: `rights` is no key of a page: perms, cluster, bytes"]),
    ("image", "entry = 0\n" + ONE, ["image refused: 3 missingkey", "the document lacks the keys `version`, `base`, `budget`, `signer`"]),
    ("image", document() + ONE + "[[page]]\nperms = 'r'\nbytes = ''\n",
     ["image refused: 3 missingkey", "line 10, column 1: page 1 lacks the key `cluster`"]),
    ("image", document(budget="'1'") + ONE, ["image refused: 4 wrongtype", "line 4, column 10: `budget` is a string and must be an integer"]),
    ("image", document() + "page = {}\n", ["image refused: 4 wrongtype", "line 6, column 8: `page` is a table and must be an array"]),
    ("image", document() + ONE.replace("'90'", "90"),
     ["image refused: 4 wrongtype", "line 8, column 9: `bytes` of page 0 is an integer and must be a string"]),
    ("image", document(version="2") + ONE, ["image refused: 5 version", "line 1, column 11: the version is 2 and must be 1"]),
    ("image", document(base="40000") + ONE,
     ["image refused: 6 basealign", "line 2, column 8: the base 40000 must be a multiple of 32768, from 0 to 140737488322560",
      "32768 is the size of an enclave with 1 page of the program and 6 of the runtime", "nearest: 32768 or 65536"]),
    ("image", document(base="-1") + ONE + ONE + ONE,
     ["image refused: 6 basealign", "line 2, column 8: the base -1 must be a multiple of 65536, from 0 to 140737488289792",
      "65536 is the size of an enclave with 3 pages of the program and 6 of the runtime", "nearest: 0"]),
    ("image", document() + "page = []\n", ["image refused: 7 pagecount", "line 6, column 8: 0 pages, where 1 to 512 may be"]),
    ("image", document() + ONE + page("rwx", "", "a"),
     ["image refused: 8 pageperm page 1", "line 11, column 9: `rwx` is none of `r`, `rw`, `rx`"]),
    ("image", document() + page("r", "00zz", "a"),
     ["image refused: 9 pagebytes page 0", "line 8, column 12: `z`, number 3 of the string, is no hexadecimal digit"]),
    ("image", document() + page("r", "000", "a"),
     ["image refused: 9 pagebytes page 0", "line 8, column 9: 3 digits, an odd number, where each byte has two"]),
    ("image", document() + page("r", 8194 * "0", "a"),
     ["image refused: 9 pagebytes page 0", "line 8, column 9: 8194 digits, where a page has 8192 at most"]),
    ("image", document() + "[[page]]\nperms = 'r'\nbytes = '''\n0000\n'''\ncluster = 'a'\n",
     ["image refused: 9 pagebytes page 0", "line 9, column 5: the character U+000A, number 5 of the string, is no hexadecimal digit"]),
    ("image", document(entry="4096") + ONE,
     ["image refused: 10 entry", "line 3, column 9: the entry 4096 is an offset from the base and must be 0 to 4095"]),
    ("image", document(budget="3") + "".join(page("r", "", cluster) for cluster in "aabcdde"),
     ["image refused: 11 budget", "line 4, column 10: the budget 3 must be 6 to 512",
      "6 is the number of pages of the four largest clusters: `a` 2, `d` 2, `b` 1, `c` 1"]),
    ("signers", "lab = ['00']\n", ["signers refused: 3 baddigest", "line 1, column 8: 2 digits, where a measurement has 64", "the name is `lab`"]),
    ("signers", f"lab = ['{63 * '0'}O']\n",
     ["signers refused: 3 baddigest", "line 1, column 72: `O`, number 64 of the string, is no hexadecimal digit", "the name is `lab`"]),
    ("signers", "lab = 'x'\n", ["signers refused: 2 badkey", "line 1, column 7: `lab` is a string and must be an array of strings"]),
    ("signers", "lab = [\n 1]\n", ["signers refused: 2 badkey", "line 2, column 2: `lab` has an integer among its strings"]),
    ("signers", f"lab = [\n'{ZEROS}',\n'{ZEROS}']\n",
     ["signers refused: 4 repeated", "line 3, column 1: this digest of `lab` stands already", "line 2, column 1: here"]),
    ("script", "run 0 é\n", ["script refused: line 1: 1 notascii", "line 1, column 7: the byte c3 is no ASCII"]),
    ("script", "# x\n  etracks\n", [
        "script refused: line 2: 2 unknown",
        "line 2, column 3: `etracks` is none of setpte, readpte, eblock, etrack, ewb, eldu, eldb, eremove, epa, drop, eenter, eresume, run,"
        " interrupt, auto, input"]),
    ("script", "run 0\n", ["script refused: line 1: 3 words", "line 1, column 6: 1 word after `run`, where `run LP N` has 2"]),
    ("script", "readpte 0 1\n", ["script refused: line 1: 3 words", "line 1, column 11: 2 words after `readpte`, where `readpte PAGE` has 1"]),
    ("script", "run 0 0x1\n", ["script refused: line 1: 4 number", "line 1, column 7: N is `0x1`: it is no decimal digits"]),
    ("script", "run 0 1\r", ["script refused: line 1: 4 number", "line 1, column 7: N is `1\\x0d`: it is no decimal digits, but a carriage return ends it"]),
    ("script", "run 00 1\n", ["script refused: line 1: 4 number", "line 1, column 5: LP is `00`: a number has no zero before it"]),
    ("script", "run 4 1\n", ["script refused: line 1: 5 range", "line 1, column 5: LP is `4` and must be 0 to 3"]),
    ("script", f"run 0 {5000 * '1'}\n",
     ["script refused: line 1: 5 range", f"line 1, column 7: N is `{40 * '1'}..` of 5000 characters and must be 1 to 1000000"]),
    ("script", "setpte 0 8 wp\n", ["script refused: line 1: 7 flags", "line 1, column 12: FLAGS is `wp`: the letters come in the order `pwxad`"]),
    ("script", "setpte 0 8 pp\n", ["script refused: line 1: 7 flags", "line 1, column 12: FLAGS is `pp`: `p` stands twice"]),
    ("script", "setpte 0 8 p-\n", ["script refused: line 1: 7 flags", "line 1, column 12: FLAGS is `p-`: `-` is none of `pwxad`, and `-` stands alone"]),
    ("script", 20 * "run 0 1000000\n" + "run 0 1\n",
     ["script refused: line 21: 6 toomany", "line 21, column 1: 20000001 turns so far, where 20000000 may be"]),
    ("script", 20001 * "readpte 0\n", ["script refused: line 20001: 6 toomany", "line 20001, column 1: 20001 moves so far, where 20000 may be"]),
]

# Words, what is written to either stream, and the status; the files are those of the examples.
CALLS = [
    (["image", "calls.toml"], "image accepted: 1 page, budget 1, clusters `a` 1, measurement"
     " 81f1c6072e43803617cc2c3f80323b5ae505ee1cec1d94374ef6c34e6da9f718\n", "", 0),
    (["signers", "nobody.toml"], "signers accepted: `other` 0\n", "", 0),
    (["script", "by_hand.script"], "script accepted: 12 moves, 5000 turns\n", "", 0),
    (["script", "input.script"], "script accepted: 20 moves, 20000 turns\n", "", 0),
    (["run", "calls.toml", "signers.toml", "by_hand.script"], "run accepted: 1 page, 12 moves, signed by `lab`\n", "", 0),
    (["run", "calls.toml", "nobody.toml", "auto.script"], "", "image refused: 12 unknownsigner\n  the image names `lab`; the signers file has `other`\n", 3),
    (["run", "calls.toml", "zeros.toml", "auto.script"], "", "image refused: 13 notsigned\n  the measurement of the image is"
     " 81f1c6072e43803617cc2c3f80323b5ae505ee1cec1d94374ef6c34e6da9f718\n  `lab` signs 1 other, and no name has it\n", 3),
    (["run", "calls.toml", "nobody.toml", "bad.script"], "", "script refused: line 2: 5 range\n  line 2, column 7: N is `0` and must be 1 to 1000000\n", 4),
    (["run", "calls.toml", "none", "bad.script"], "", "read failed: none\n  No such file or directory\n", 5),
]


def fault_lines(kind: str, data: bytes) -> "list[str]":
    try:
        READERS[kind](data)
    except Refusal as why:
        return [why.line, *why.details]
    return []


def test_tables(tally: Tally) -> None:
    for case in all_cases():
        tally.equal(f"check {case.kind}: {case.name[:80]}", fault_lines(case.kind, case.data)[:1], [case.line] if case.line else [])


def test_details(tally: Tally) -> None:
    for kind, text, lines in DETAILS:
        data = text if isinstance(text, bytes) else text.encode()
        tally.equal(f"check {kind}, details: {lines[0]}: {lines[1][:60]}", fault_lines(kind, data), lines)


def test_calls(tally: Tally) -> None:
    for words, out, err, status in CALLS:
        tally.equal(f"check {' '.join(words)}", tuple(call("check", *words)), (out, err, status))
    with tempfile.TemporaryDirectory() as folder:
        long_file = written(folder, "long", LONGEST_FILE * b"\n" + b"\n")
        told = call("check", "script", long_file)
        tally.equal("check script of a file that is too long", (told.err.split("\n")[0], told.status), (f"file too long: {long_file}", 8))
        told = call("check", "script", written(folder, "full", LONGEST_FILE * b"\n"))
        tally.equal("check script of the longest file", (told.out, told.status), ("script accepted: 0 moves, 0 turns\n", 0))
    told = call("check", "picture", "calls.toml")
    tally.equal("check of no kind", (told.out, told.status), ("", 2))


def test_examples(tally: Tally) -> None:
    """The tool accepts and refuses the examples as the program did, and measures as it did."""
    for words, text, status in examples():
        if status == 2:
            continue
        if words[0] == "run":
            told = call("check", *words[:4])
            wanted = (text, status) if status in (3, 4) else ("", 0)
            tally.equal(f"check as the program: {' '.join(words)}", (told.err[: len(wanted[0])], told.status), wanted)
        else:
            told = call("check", "image", words[1])
            tally.equal(f"check as the program: {' '.join(words)}", told.out.split(" ")[-1], text)


def test(tally: Tally) -> None:
    test_tables(tally)
    test_details(tally)
    test_calls(tally)
    test_examples(tally)

"""Files that the program takes or refuses, each with the first line that it tells: the tables of its own tests, and more.

A case is its kind (image, signers or script), the bytes of the file, and the program's line; none where the file is accepted.
"""
from typing import Iterator, List, NamedTuple, Optional


class Case(NamedTuple):
    """A file, and what the program tells of it."""

    kind: str
    name: str
    data: bytes
    line: Optional[str]


# A script, and after the last `=` what comes of it. Each character is a byte, and `;` is a newline. Before `%` stands how often a line
# comes first, and that line.
SCRIPTS = """\
=accepted
;;=accepted
 \t ;\t=accepted
\r;=accepted
#;# eblock \xff\x00;  #run\r;=accepted
eenter 0 0;=accepted
eenter 1 0;=accepted
eenter 3 18446744073709551615=accepted
run 0 1;=accepted
run 3 1000000;=accepted
readpte 0;=accepted
readpte 4294967295;=accepted
setpte 0 4294967295 -;=accepted
setpte 4294967295 0 pwxad;=accepted
setpte 1 2 p;=accepted
setpte 1 2 w;=accepted
setpte 1 2 x;=accepted
setpte 1 2 a;=accepted
setpte 1 2 d;=accepted
setpte 1 2 pxad;=accepted
run 0 1=accepted
run 0 1\r;=accepted
run 0 1 \r;=accepted
 \trun\t 0  1\t ;=accepted
eenter 0 7;;#;run 0 9=accepted
readpte 10;readpte 10;=accepted
run 0 \xb1;=1: 1 notascii
\xffrun 0 1;=1: 1 notascii
\x80# no comment;=1: 1 notascii
run 0 1 # \x80;=1: 1 notascii
eblock 0;eremove 4294967295;epa 1;drop 0;=accepted
etrack;  etrack\t;=accepted
ewb 8 4294967295 511;=accepted
eldu 8 0 4294967295 1 511;eldb 0 0 0 0 0;=accepted
eresume 3;interrupt 0;=accepted
auto 1;input 18446744073709551615;auto 19999=accepted
input 0;input 0;input 0;=accepted
19999 etrack;%input 9;auto 1;input 9=accepted
etrack\r=1: 2 unknown
autos 1;=1: 2 unknown
discard 0;=1: 2 unknown
miss 0 0;=1: 2 unknown
RUN 0 1;=1: 2 unknown
runs 0 1;=1: 2 unknown
ru 0 1;=1: 2 unknown
run\x0b 0 1;=1: 2 unknown
\r=1: 2 unknown
\r\r;=1: 2 unknown
\rrun 0 1;=1: 2 unknown
\x00;=1: 2 unknown
run;=1: 3 words
run 0;=1: 3 words
run 0 1 1;=1: 3 words
run 0 1 # turns;=1: 3 words
eenter 0;=1: 3 words
eenter 0 0 0;=1: 3 words
readpte;=1: 3 words
readpte 0 0;=1: 3 words
setpte;=1: 3 words
setpte 0 8;=1: 3 words
setpte 0 8 - -;=1: 3 words
run 0 1\r=1: 4 number
run 0 1\r\r;=1: 4 number
run 0 +1;=1: 4 number
run 0 -1;=1: 4 number
run 0 01;=1: 4 number
run 00 1;=1: 4 number
run 0 1x;=1: 4 number
run 0 0x1;=1: 4 number
run 0 1_0;=1: 4 number
run 0 :;=1: 4 number
run 0 /;=1: 4 number
readpte -;=1: 4 number
setpte 0 p p;=1: 4 number
eenter 0 000000000000000000000000000001;=1: 4 number
eenter 0 99999999999999999999999999999x;=1: 4 number
eenter 4 0;=1: 5 range
eenter 256 0;=1: 5 range
eenter 0 18446744073709551616;=1: 5 range
eenter 0 18446744073709551620;=1: 5 range
eenter 0 100000000000000000000000000000;=1: 5 range
run 4 1;=1: 5 range
run 0 0;=1: 5 range
run 0 1000001;=1: 5 range
run 0 4294967297;=1: 5 range
readpte 4294967296;=1: 5 range
setpte 4294967296 8 p;=1: 5 range
setpte 0 4294967296 p;=1: 5 range
setpte 0 8 wp;=1: 7 flags
setpte 0 8 pp;=1: 7 flags
setpte 0 8 p-;=1: 7 flags
setpte 0 8 --;=1: 7 flags
setpte 0 8 P;=1: 7 flags
setpte 0 8 r;=1: 7 flags
setpte 0 8 pwxadp;=1: 7 flags
eblock \xff;=1: 1 notascii
eblock;=1: 3 words
etrack 0;=1: 3 words
ewb 8 1;=1: 3 words
eldu 8 0 0 1;=1: 3 words
eldb 8 0 0 1 0 0;=1: 3 words
auto;=1: 3 words
input 1 2;=1: 3 words
interrupt;=1: 3 words
auto 01;=1: 4 number
drop a;=1: 4 number
ewb 8 x 512;=1: 4 number
auto 0;=1: 5 range
auto 20001;=1: 5 range
input 18446744073709551616;=1: 5 range
ewb 8 1 512;=1: 5 range
eldu 8 0 0 1 512;=1: 5 range
eldb 8 4294967296 0 1 0;=1: 5 range
eremove 4294967296;=1: 5 range
eresume 4;=1: 5 range
auto 20000;etrack;=2: 6 toomany
auto 19000;run 0 1000000;etrack;run 0 1;=4: 6 toomany
19999 etrack;%auto 2;=20000: 6 toomany
run x;=1: 3 words
run 4 x;=1: 5 range
setpte x 4294967296 r;=1: 4 number
setpte 0 4294967296 r;=1: 5 range
setpte 0 x r;=1: 4 number
;# \xff;\t\r;run 0 1;run 0 0;eblock 8=5: 5 range
eenter 0 1;run 0 1;autos 1=3: 2 unknown
19999 readpte 0;%readpte 1=accepted
20000 readpte 0;%;# \xff;=accepted
20000 readpte 0;%;# \xff;readpte 1;=20003: 6 toomany
20000 readpte 0;%readpte;=20001: 3 words
20 #;run 0 1000000;%eenter 0 0;=accepted
20 #;run 0 1000000;%run 0 1;run 0 0;=41: 6 toomany
20 #;run 0 1000000;%run 0 0;run 0 1;=41: 5 range
20000 run 0 1000;%\r=20001: 2 unknown\
"""

# Version, base, entry, budget, the cluster of each page, and the program's line. Pages are empty, but one of the cluster `?` has half
# a byte, and one of `!` an unknown permission.
NUMBERS = """\
1 0x10000000 0 1 a accepted
1 0 4095 512 a accepted
1 140737488322560 0 1 a accepted
2 4096 0 1 a 5 version
-1 0 0 1 a 5 version
1.0 4096 0 1 a 4 wrongtype
'2' 0 0 1 a 4 wrongtype
true 0 0 1 a 4 wrongtype
1979-05-27 0 0 1 a 4 wrongtype
1 140737488326656 0 1 a 6 basealign
1 140737488355328 0 1 a 6 basealign
1 -32768 0 1 a 6 basealign
1 0x10001000 0 1 a 6 basealign
1 32768 0 2 ab accepted
1 32768 0 6 abcbdee 6 basealign
1 9223372036854775808 0 1 a 1 nottoml
1 9223372036854775807 0 1 a 6 basealign
1 0 0 1 ?!! 8 pageperm page 1
1 0 -1 1 a?? 9 pagebytes page 1
1 0 -1 1 a 10 entry
1 0 4096 0 a 10 entry
1 0 8191 2 ab accepted
1 0 28671 6 abcbdee accepted
1 0 28672 6 abcbdee 10 entry
1 0 0 1 ab 11 budget
1 0 0 513 a 11 budget
1 0 0 -1 a 11 budget
1 0 0 6 abcbdee accepted
1 0 0 5 abcbdee 11 budget
1 +0 -0 0x1 a accepted
1 01 0 1 a 1 nottoml
1 0 0 1_ a 1 nottoml
"""

# The first lines of a document, at which its numbers follow, and the program's line.
DOCUMENTS = [
    ("page = [{bytes = '', cluster = 'a', perms = 'r'}]", None),
    ("\ufeff# A page.\r\npage = [{bytes = '', # None.\r\n cluster = 'a', perms = 'r'}]\r", None),
    ("page = [{bytes = '', cluster = 'a', perms = 'r',},\n]", None),
    ("page = [{bytes = '', cluster = \"\\e\\x41\", perms = 'r'}]", None),
    ("page = [{bytes = '''\n00''', cluster = \"\"\"a\\\n  b\"\"\", perms = \"r\"}]", None),
    ("page = {", "1 nottoml"),
    ("x = 1\npage = {", "1 nottoml"),
    ("version = 1", "1 nottoml"),
    ("page = [{bytes = '', cluster = 'a', perms = 'r', perms = 'r'}]", "1 nottoml"),
    ("page = [{bytes = '', cluster = 'a', perms\n= 'r'}]", "1 nottoml"),
    ("page = [{bytes = '', cluster = 'a' perms = 'r'}]", "1 nottoml"),
    ("x = 1", "2 unknownkey"),
    ("Version = 1", "2 unknownkey"),
    ("page = [1, {x = 1}]", "2 unknownkey"),
    ("[[page]]", "2 unknownkey"),
    ("page = {x = 1}", "4 wrongtype"),
    ("", "3 missingkey"),
    ("page = [1, {perms = 'r', bytes = ''}]", "3 missingkey"),
    ("page = 1", "4 wrongtype"),
    ("page = [1]", "4 wrongtype"),
    ("page = [[]]", "4 wrongtype"),
    ("page = []", "7 pagecount"),
    ("page = [{bytes = '', cluster = 1, perms = 'w'}]", "4 wrongtype"),
    ("page = [{bytes.x = '', cluster = 'a', perms = 'r'}]", "4 wrongtype"),
]

# A page's permission and bytes, and the program's line.
PAGES = [
    ("rw", "eeeeAfF0", None),
    ("rx", "e" * 8192, None),
    ("rx", "e" * 8193, "9 pagebytes page 0"),
    ("rx", "e" * 8194, "9 pagebytes page 0"),
    ("rw", "ee 00", "9 pagebytes page 0"),
    ("rw", "0x00", "9 pagebytes page 0"),
    ("rw", ":0", "9 pagebytes page 0"),
    ("rw", "G0", "9 pagebytes page 0"),
    ("rw", "0g", "9 pagebytes page 0"),
    ("rw", "\u0660\u0660", "9 pagebytes page 0"),
    ("rw", "\u00e90", "9 pagebytes page 0"),
    ("rwx", "", "8 pageperm page 0"),
    ("wx", "e", "8 pageperm page 0"),
    ("R", "", "8 pageperm page 0"),
    ("r ", "", "8 pageperm page 0"),
    ("", "", "8 pageperm page 0"),
]

# So many pages with this permission, at this base, each in a cluster of its own, with a budget of 4, and the program's line.
COUNTS = [
    (512, "rw", 0x1000_0000, None),
    (512, "w", 0, "8 pageperm page 0"),
    (513, "w", 0, "7 pagecount"),
    (513, "w", 4096, "6 basealign"),
]

ZEROS = "0" * 64
SIGNERS = [
    (b"", None),
    (b"\xef\xbb\xbf# nothing signed yet\r\nlab = [ ]\r\n", None),
    (f"lab = [\n'{ZEROS}', # none\n\"{'aB' * 32}\",\n]\n'other lab' = ['{ZEROS}']\n".encode(), None),
    (b"lab = [", "1 nottoml"),
    (b"lab = []\nlab = []\n", "1 nottoml"),
    (b'lab = []\n"l\\u0061b" = []\n', "1 nottoml"),
    (b"# \xff\n", "1 nottoml"),
    (b"lab = []\n# \xc3", "1 nottoml"),
    (b"\xef\xbb\xbf\xef\xbb\xbflab = []", "1 nottoml"),
    (b"lab = [] other = []", "1 nottoml"),
    (b"lab = [\r]", "1 nottoml"),
    (b"lab = []\r", "1 nottoml"),
    (b"# \x7f\n", "1 nottoml"),
    (b"lab = ['\n']", "1 nottoml"),
    (b"lab = " + 81 * b"[" + 81 * b"]", "1 nottoml"),
    (b"lab = " + 80 * b"[" + 80 * b"]", "2 badkey"),
    (b".".join([b"a"] * 81) + b" = 1", "1 nottoml"),
    (b".".join([b"a"] * 80) + b" = 1", "2 badkey"),
    (b"[a]\n[a]\n", "1 nottoml"),
    (b"[a.b]\n[a]\n", "2 badkey"),
    (b"[[a]]\n[[a]]\n[a.b]\n", "2 badkey"),
    (b"a = []\n[[a]]\n", "1 nottoml"),
    (b"a.b = 1\n[a]\n", "1 nottoml"),
    (b"a = {b = 1}\na.c = 2\n", "1 nottoml"),
    (b"a = 2024-02-29\n", "2 badkey"),
    (b"a = 2023-02-29\n", "1 nottoml"),
    (b"a = 23:59:60.5\n", "2 badkey"),
    (b"a = 24:00\n", "1 nottoml"),
    (b"a = 2024-01-01 00:00-23:59\n", "2 badkey"),
    (b"a = 1e308\n", "2 badkey"),
    (b"a = 1e309\n", "1 nottoml"),
    (b"a = 0x7fffffffffffffff\n", "2 badkey"),
    (b"a = 0x8000000000000000\n", "1 nottoml"),
    (b"a = -9223372036854775808\n", "2 badkey"),
    (b"a = -9223372036854775809\n", "1 nottoml"),
    (b'a = """"""""\n', "2 badkey"),
    (b'a = """""""""\n', "1 nottoml"),
    (b"lab = ''\n", "2 badkey"),
    (b"lab = 3\n", "2 badkey"),
    (b"lab = [1]\n", "2 badkey"),
    (b"lab = [[]]\n", "2 badkey"),
    (b"lab = {}\n", "2 badkey"),
    (b"[lab]\n", "2 badkey"),
    (b"[[lab]]\n", "2 badkey"),
    (b"lab.other = []\n", "2 badkey"),
    (b"lab = ['']\n", "3 baddigest"),
    (b"lab = ['" + 63 * b"0" + b"g']\n", "3 baddigest"),
    (b"lab = ['" + 62 * b"0" + b"']\n", "3 baddigest"),
    (b"lab = ['" + 65 * b"0" + b"']\n", "3 baddigest"),
    (b"lab = ['" + 32 * b"ab" + b"', '" + 32 * b"AB" + b"']\n", "4 repeated"),
    (b"a = 1\nb = [\n", "1 nottoml"),
    (b"a = ['']\nb = 1\n", "2 badkey"),
    (f"a = ['{ZEROS}', '{ZEROS}']\nb = ['']\n".encode(), "3 baddigest"),
]


def document(version: str = "1", base: str = "0", entry: str = "0", budget: str = "1") -> str:
    """A document of these numbers, without pages."""
    return f'version = {version}\nbase = {base}\nentry = {entry}\nbudget = {budget}\nsigner = "lab"\n'


def page(perms: str, digits: str, cluster: str) -> str:
    return f"[[page]]\nperms = '{perms}'\nbytes = '{digits}'\ncluster = '{cluster}'\n"


def refused(kind: str, what: Optional[str]) -> Optional[str]:
    return None if what is None else f"{kind} refused: {what}"


def script_cases() -> Iterator[Case]:
    for row in SCRIPTS.split("\n")[:-1]:
        script, what = row.rsplit("=", 1)
        first, percent, rest = script.partition("%")
        times, _, line = first.partition(" ") if percent else ("0", "", "")
        text = int(times) * line + (rest if percent else script)
        told = None if what == "accepted" else f"line {what}"
        yield Case("script", repr(script), text.replace(";", "\n").encode("latin-1"), refused("script", told))


def number_cases() -> Iterator[Case]:
    for row in NUMBERS.split("\n")[:-1]:
        version, base, entry, budget, clusters, what = row.split(" ", 5)
        text = document(version, base, entry, budget)
        for cluster in clusters:
            text += page("w" if cluster == "!" else "rx", "0" if cluster == "?" else "", cluster)
        yield Case("image", row, text.encode(), refused("image", None if what == "accepted" else what))


def image_cases() -> Iterator[Case]:
    yield from number_cases()
    for start, what in DOCUMENTS:
        yield Case("image", repr(start), f"{start}\n{document()}".encode(), refused("image", what))
    for perms, digits, what in PAGES:
        name = f"perms {perms!r}, bytes {digits[:8]!r} of {len(digits)}"
        yield Case("image", name, (document() + page(perms, digits, "a")).encode(), refused("image", what))
    for count, perms, base, what in COUNTS:
        text = document(base=str(base), budget="4") + "".join(page(perms, "7f", chr(256 + i)) for i in range(count))
        yield Case("image", f"{count} pages of {perms}, base {base}", text.encode(), refused("image", what))


def signers_cases() -> Iterator[Case]:
    for data, what in SIGNERS:
        yield Case("signers", repr(data[:60]), data, refused("signers", what))


def all_cases() -> List[Case]:
    return [*image_cases(), *signers_cases(), *script_cases()]

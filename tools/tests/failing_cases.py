"""Tests of the words of tools/failing.py. What it tells of the program stands in docs/FAILING.md."""
from tests.harness import Tally, call

# Words that are a faulty use, and the end of the line that is told.
FAULTY = [
    ([], "the following arguments are required: PROGRAM"),
    (["none"], "none is no program"),
    (["calls.toml"], "calls.toml is no program"),
    (["calls.toml", "--twice"], "unrecognized arguments: --twice"),
]


def test(tally: Tally) -> None:
    told = call("failing.py", "--help")
    tally.equal("failing.py --help", (told.out.startswith("usage: failing.py "), told.err, told.status), (True, "", 0))
    for words, why in FAULTY:
        told = call("failing.py", *words)
        tally.equal(f"failing.py {' '.join(words)}: {why}", (told.out, told.err.splitlines()[-1], told.status), ("", f"failing.py: error: {why}", 2))

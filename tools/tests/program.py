"""The program, for the tests that compare the tools with it."""
import os
import re
import subprocess
import tempfile
from typing import Dict, List, NamedTuple, Sequence

from tests.harness import TOP, written

CRATE = os.path.join(TOP, "crates", "autarky")
MOST_SECONDS = 900  # for a case of what `rt try` builds, which is slow


class Given(NamedTuple):
    """A file, and the words of a call, of which `{}` is that file and the others may be files that are shared."""

    data: bytes
    words: Sequence[str]


def told_by(words: List[str], folder: str) -> str:
    """What a call writes to its output and its errors."""
    done = subprocess.run(words, cwd=folder, stdout=subprocess.PIPE, stderr=subprocess.STDOUT, check=False)
    return done.stdout.decode("latin-1")


class Program:
    """The program at a path; or, where it is empty, what `rt try` builds without proofs."""

    def __init__(self, path: str):
        self.path = os.path.abspath(path) if path else ""

    def calls(self, cases: Dict[str, Given], shared: Dict[str, bytes]) -> Dict[str, str]:
        """What it writes of each case."""
        with tempfile.TemporaryDirectory() as folder, tempfile.TemporaryDirectory() as own:
            for name, data in shared.items():
                written(folder, name, data)
            for name, given in cases.items():
                written(own, name, given.data)
            if not self.path:
                return self.calls_at_once(folder, own, cases, list(shared))
            words = {name: [os.path.join(own, name) if word == "{}" else word for word in given.words] for name, given in cases.items()}
            return {name: told_by([self.path, *of_case], folder) for name, of_case in words.items()}

    def calls_at_once(self, folder: str, own: str, cases: Dict[str, Given], shared: List[str]) -> Dict[str, str]:
        """The same by one call of `rt try`, which builds the program once."""
        for name, given in cases.items():
            written(own, f"{name}.args", "".join(f"{word}\n" for word in given.words))
        data = [word for name in shared for word in ("--data", f"{name}={os.path.join(folder, name)}")]
        text = told_by(["rt", "try", "--seconds", str(MOST_SECONDS), *data, "--cases", own], CRATE)
        return {name: body for name, body in re.findall(r"^== (\S+)\n(.*?)^case=\1 ", text, re.DOTALL | re.MULTILINE)}

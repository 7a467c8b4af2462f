#!/usr/bin/env python3
"""Puts wrong bodies in the place of right ones, and asks the prover whether it refuses them.

The bodies of CRATE stand in bench/wrong_bodies/CRATE.txt, each with a remark of what is wrong:

    # The entry of another page is set.
    == entry_of_another_page
    file: src/table.rt
    old: self.entries[i] = entry;
    new: self.entries[0] = entry;

The old text stands in the file just once. A body may have several such changes. In a text `\\n` is a new line and `\\\\` a backslash.
A body whose name ends in `_with_its_clause` changes a function and its clause too, so that it is proved: a caller has to refuse it.

Bodies of different functions are tried in one check. A line for each says what came of it:

    refused      with the goals that are not proved, or the function that calls it
    let-through  all is proved
    own-clause   one with its clause, of which the function itself is not proved: it says nothing of the callers
    no-body      the text does not stand there, the body does not compile, or the prover does not cover its form

The status is 0 where each was refused, or is not proved with its own clause. The first check of a crate takes as long as `rt check`.
"""
import argparse
import os
import re
import shutil
import subprocess
import sys
import tempfile
from typing import Dict, List, NamedTuple, Optional, Tuple

HERE = os.path.dirname(os.path.abspath(__file__))
FUNCTION = re.compile(r"^ *(?:pub(?:\([a-z]+\))? )?(?:const )?fn (\w+)", re.M)
FAILURE = re.compile(r"^(?:fn|impl|struct|enum|trait) (\S+): (?!proved)(.*)", re.M)
ERROR = re.compile(r"^(?:\./)?((?:src|specs|proofs)/\S+?):(\d+):\d+: error\S* (.*)", re.M)
VERDICTS = ("refused", "let-through", "own-clause", "no-body")

Texts = Dict[str, str]
Failures = Dict[str, str]


class Change(NamedTuple):
    """A text of a file, and what stands in its place."""

    file: str
    old: str
    new: str


class Body:
    """A wrong body, and what came of it."""

    def __init__(self, name: str) -> None:
        self.name = name
        self.changes: List[Change] = []
        self.functions: List[Tuple[List[str], str]] = []
        self.has_clause = name.endswith("_with_its_clause")
        self.is_alone = False
        self.verdict: Optional[str] = None
        self.why = ""

    def judge(self, verdict: str, why: str) -> None:
        self.verdict, self.why = verdict, why
        print(f"{verdict:<11} {self.name}  {why}", flush=True)

    def put(self, texts: Texts) -> Optional[Texts]:
        """The texts with the body in place; none where an old text does not stand there once."""
        texts = dict(texts)
        for file, old, new in self.changes:
            if texts.get(file, "").count(old) != 1:
                return None
            texts[file] = texts[file].replace(old, new)
        return texts

    def find_functions(self, texts: Texts) -> None:
        """The functions that the body changes: their modules and names."""
        for file, old, _ in self.changes:
            place = texts.get(file, "").find(old)
            if place >= 0 and file.endswith(".rt"):
                line = texts[file].find("\n", place)
                names = FUNCTION.findall(texts[file][:line])
                if names and (module_of(file), names[-1]) not in self.functions:
                    self.functions.append((module_of(file), names[-1]))

    def has(self, path: str) -> bool:
        """The function with this path, as a check prints it, is one that the body changes, or a closure in it."""
        parts = re.split(r"::|[+]", path)[1:]
        return any(parts[: len(module)] == module and name in parts[len(module) :] for module, name in self.functions)

    def is_near(self, texts: Texts, file: str, line: int) -> bool:
        """The body changes a text within a dozen lines of this one."""
        for changed, old, _ in self.changes:
            place = texts.get(changed, "").find(old)
            if changed == file and place >= 0 and abs(texts[file].count("\n", 0, place) + 1 - line) <= 12 + old.count("\n"):
                return True
        return False


# ---- Files


def unescaped(text: str) -> str:
    return re.sub(r"\\([n\\])", lambda found: "\n" if found.group(1) == "n" else "\\", text)


def read_bodies(path: str) -> List[Body]:
    bodies: List[Body] = []
    part: Dict[str, str] = {}
    with open(path, encoding="utf-8") as lines:
        for number, line in enumerate(lines, 1):
            line = line.rstrip("\n")
            key, _, text = line.partition(": ") if ": " in line else line.partition(":")
            if line.startswith("== "):
                bodies.append(Body(line[3:]))
            elif bodies and key in ("file", "old", "new"):
                part[key] = text if key == "file" else unescaped(text)
                if key == "new":
                    bodies[-1].changes.append(Change(part["file"], part["old"], part["new"]))
            elif line and not line.startswith("#"):
                sys.exit(f"{path}:{number}: what is this line?")
    return bodies


def module_of(file: str) -> List[str]:
    parts = os.path.splitext(file)[0].split("/")[1:]
    return [] if parts in (["lib"], ["main"]) else parts


def read_texts(root: str) -> Texts:
    texts = {}
    for part in ("src", "specs", "proofs"):
        for folder, _, names in os.walk(os.path.join(root, part)):
            for path in (os.path.join(folder, name) for name in names if name.endswith((".rt", ".antt"))):
                with open(path, encoding="utf-8") as file:
                    texts[os.path.relpath(path, root)] = file.read()
    return texts


def write_texts(root: str, texts: Texts) -> None:
    """Writes what differs, so that nothing else is checked again."""
    for name, text in texts.items():
        path = os.path.join(root, name)
        with open(path, encoding="utf-8") as file:
            is_same = file.read() == text
        if not is_same:
            with open(path, "w", encoding="utf-8") as file:
                file.write(text)


# ---- What a check says


def goals(path: str, why: str, output: str) -> str:
    """What of this function is not proved."""
    found = re.findall(r"`([^`]+)`", why.partition("did not prove")[2])
    if not found:
        folder = "/".join(re.split(r"::|[+]", path)[1:])
        found = re.findall(rf"proofs/{re.escape(folder)}/\w+[.]antt:\d+:\d+: error: (.{{1,160}})", output)[:1]
    return f"{path.partition('::')[2]}: {', '.join(found) or why[:160]}"


def is_masked(why: str) -> bool:
    """It is not proved for a function that it calls alone."""
    return "did not prove" not in why and ("it calls" in why or "is not made yet: a call of" in why)


def is_uncovered(why: str) -> bool:
    """The prover does not cover code of this form, so that nothing is said of its contract."""
    return "the borrow checker does not cover" in why


def text_of(texts: Texts, path: str) -> str:
    """The source of the function with this path."""
    parts = re.split(r"::|[+]", path)[1:]
    for file, text in texts.items():
        module = module_of(file)
        if file.endswith(".rt") and parts[: len(module)] == module:
            places = [*FUNCTION.finditer(text)]
            for place, after in zip(places, [*places[1:], None]):
                if place.group(1) in parts[len(module) :]:
                    return text[place.start() : after.start() if after else len(text)]
    return ""


def judge_own(placed: List[Body], failed: Failures, output: str) -> None:
    """Each body is refused by the clauses of its own function; one alone by whatever is not proved."""
    for body in placed:
        direct = [path for path, why in failed.items() if body.has(path) and not is_masked(why)]
        if not direct and len(placed) == 1:
            direct = list(failed)
        if direct:
            is_form = is_uncovered(failed[direct[0]])
            body.judge("no-body" if is_form else "refused", goals(direct[0], failed[direct[0]], output))


def judge_callers(texts: Texts, placed: List[Body], failed: Failures, output: str) -> None:
    """Each body with its clause is refused by a function that calls it, and no other of these."""
    for body in placed:
        direct = [path for path, why in failed.items() if not is_masked(why)]
        callers = [path for path in direct if not any(other.has(path) for other in placed) and called(texts, path, placed) in ([body], [])]
        callers = [path for path in callers if called(texts, path, placed) or len(placed) == 1]
        own = [path for path in direct if body.has(path)]
        if callers:
            body.judge("refused", goals(callers[0], failed[callers[0]], output))
        elif own or len(placed) == 1:
            path = own[0] if own else next(iter(failed))
            body.judge("own-clause", goals(path, failed[path], output))


def called(texts: Texts, path: str, placed: List[Body]) -> List[Body]:
    """The bodies whose functions the one with this path calls."""
    text = text_of(texts, path)
    return [body for body in placed if any(re.search(rf"\b{name}\b", text) for _, name in body.functions)]


def judge_errors(texts: Texts, placed: List[Body], output: str) -> None:
    """Something does not compile: what stands there is no body, or all are tried alone."""
    where = ERROR.findall(output)
    guilty = [body for body in placed if any(body.is_near(texts, file, int(line)) for file, line, _ in where)]
    if len(placed) == 1 or len(guilty) == 1:
        (guilty or placed)[0].judge("no-body", where[0][2][:160] if where else output.strip().split("\n")[-1][:160])
    else:
        for body in guilty or placed:
            body.is_alone = True


# ---- Rounds


def next_round(bodies: List[Body]) -> List[Body]:
    """Bodies of different functions; or one alone."""
    first = next((body for body in bodies if body.is_alone), bodies[0])
    chosen = [first]
    for body in bodies:
        functions = [function for other in chosen for function in other.functions]
        if not (first.is_alone or body.is_alone) and body.has_clause == first.has_clause and not any(each in functions for each in body.functions):
            chosen.append(body)
    return chosen


def try_round(root: str, texts: Texts, chosen: List[Body], command: List[str]) -> None:
    changed, placed = texts, []
    for body in chosen:
        after = body.put(changed)
        if after is not None:
            changed = after
            placed.append(body)
    write_texts(root, changed)
    done = subprocess.run(command, cwd=root, capture_output=True, text=True, check=False)
    write_texts(root, texts)
    output = done.stdout + done.stderr
    failed = dict(FAILURE.findall(output))
    if done.returncode == 0:
        for body in placed:
            body.judge("let-through", "all is proved")
    elif not failed:
        judge_errors(texts, placed, output)
    elif placed[0].has_clause:
        judge_callers(texts, placed, failed, output)
    else:
        judge_own(placed, failed, output)
    if all(body.verdict is None for body in placed):
        for body in placed:
            body.is_alone = True


def try_all(root: str, bodies: List[Body], command: List[str]) -> None:
    texts = read_texts(root)
    for body in bodies:
        body.find_functions(texts)
        if body.put(texts) is None:
            body.judge("no-body", "its text does not stand there once")
    done = subprocess.run(command, cwd=root, capture_output=True, text=True, check=False)
    if done.returncode != 0:
        sys.exit("the crate as it stands is not proved:\n" + (done.stdout + done.stderr)[-2000:])
    for has_clause in (False, True):
        while True:
            left = [body for body in bodies if body.verdict is None and body.has_clause == has_clause]
            if not left:
                break
            try_round(root, texts, next_round(left), command)


def main() -> int:
    words = argparse.ArgumentParser(description=__doc__, formatter_class=argparse.RawDescriptionHelpFormatter)
    words.add_argument("--list", action="store_true", help="only say whether each text stands where it must")
    words.add_argument("--folder", default=os.path.dirname(HERE), help="the repository; it works on a copy of it")
    words.add_argument("--check", default="rt check", help="the command that checks the crate, in its folder")
    words.add_argument("crate", metavar="CRATE")
    words.add_argument("names", metavar="NAME", nargs="*", help="these bodies alone")
    given = words.parse_args()
    bodies = read_bodies(os.path.join(HERE, "wrong_bodies", f"{given.crate}.txt"))
    bodies = [body for body in bodies if not given.names or body.name in given.names]
    if given.list:
        texts = read_texts(os.path.join(given.folder, "crates", given.crate))
        missing = [body for body in bodies if body.put(texts) is None]
        for body in missing:
            body.judge("no-body", "its text does not stand there once")
        print(f"{len(bodies)} bodies, {len(missing)} do not stand")
        return 1 if missing else 0
    with tempfile.TemporaryDirectory() as folder:
        copy = os.path.join(folder, "copy")
        shutil.copytree(given.folder, copy, symlinks=True, ignore=shutil.ignore_patterns(".git"))
        try_all(os.path.join(copy, "crates", given.crate), bodies, given.check.format(folder=copy).split())
    counts = {verdict: sum(body.verdict == verdict for body in bodies) for verdict in VERDICTS}
    print(", ".join(f"{verdict}={count}" for verdict, count in counts.items()))
    return 1 if counts["let-through"] or counts["no-body"] else 0


if __name__ == "__main__":
    sys.exit(main())

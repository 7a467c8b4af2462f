"""Stands in for the program in the commands of a page: `stand_in.py FOLDER WORD ..` answers by the emulation, and keeps the words and
the files of the call in the folder, so that the program can be asked afterwards, at once for all calls."""
import json
import os
import shutil
import subprocess
import sys
from typing import Dict, List, NamedTuple

sys.dont_write_bytecode = True
TOOLS = os.path.dirname(os.path.dirname(os.path.abspath(__file__)))
sys.path.insert(0, TOOLS)
from formats.images import measurement, read_image
from formats.refusals import read_file
from yardstick.generated import summary


class Kept(NamedTuple):
    """A call: its words, with the names under which its files are kept, the bytes of those, and what was answered."""

    words: List[str]
    files: Dict[str, bytes]
    answer: str


def answered(words: List[str]) -> str:
    if words[0] == "measure":
        return measurement(read_image(read_file(words[1]))) + "\n"
    if words[0] == "demo":
        return summary(int(words[1]))
    predict = [sys.executable, os.path.join(TOOLS, "predict"), *words[1:]]
    return subprocess.run(predict, stdout=subprocess.PIPE, stderr=subprocess.STDOUT, text=True, check=False).stdout


def keep(folder: str, words: List[str], answer: str) -> None:
    number = len(os.listdir(folder))
    own = os.path.join(folder, str(number))
    os.mkdir(own)
    names = [f"call_{number}_{place}" if os.path.isfile(word) else word for place, word in enumerate(words)]
    for name, word in zip(names, words):
        if name != word:
            shutil.copyfile(word, os.path.join(own, name))
    with open(os.path.join(own, "call"), "w", encoding="utf-8") as file:
        json.dump([names, answer], file)


def kept(folder: str) -> List[Kept]:
    """The calls that were kept, in order."""
    calls = []
    for number in range(len(os.listdir(folder))):
        own = os.path.join(folder, str(number))
        with open(os.path.join(own, "call"), encoding="utf-8") as file:
            names, answer = json.load(file)
        calls.append(Kept(names, {name: read_file(os.path.join(own, name)) for name in os.listdir(own) if name != "call"}, answer))
    return calls


def main() -> None:
    folder, *words = sys.argv[1:]
    answer = answered(words)
    keep(folder, words, answer)
    sys.stdout.write(answer)


if __name__ == "__main__":
    main()

"""Tests of tools/draw: what the pictures say, that they are well formed, and that no text is cut or lies on another."""
import os
import re
import tempfile
from typing import List, NamedTuple
from xml.etree import ElementTree

from tests.harness import DATA, Tally, call, written
from tests.reports import PF, example_reports, long_reports, report

SVG = "{http://www.w3.org/2000/svg}"
LETTER, HEIGHT = 6.63, 10

# A report, and texts that its picture has, in order.
TEXTS = [
    (report(["eenter 0 0 -> ok", "run 0 9 -> call 1 7"], ["output 7", "event call 3 1 7"]),
     ["2 moves, 1 output, 1 event", "outputs: 7", "kernel", "runtime", "program", "processor 0", "1", "eenter", "0 0", "ok", "2", "run", "0 9",
      "call", "1 7", "enter, leave", "0..3", "call at 3"]),
    (report(["setpte 0 8 - -> ok", "eenter 0 0 -> ok", f"run 0 9 -> {PF}"], ["event break 0"]), ["none", "break at 0"]),
    (report(["setpte 0 8 - -> ok", "eenter 0 0 -> ok", f"run 0 9 -> {PF}", "eenter 0 0 -> ok", "run 0 9 -> stopped"], ["event break 0"],
            "unmapped 0 exec blame 1"), ["none", "break at 0", "enter, stopped", "unmapped 0 exec: move 1 is to blame"]),
    (report([*(f"setpte {p} 9 - -> ok" for p in range(2, 11)), "eenter 0 0 -> ok", f"run 0 9 -> {PF}", "eenter 0 0 -> ok", "run 0 9 -> stopped"],
            ["event break 5"], "unmapped 4 read blame 3"), ["2..10 9 -", "0..4", "break at 5", "unmapped 4 read: move 3 is to blame"]),
    (report(["eenter 0 0 -> ok", f"run 0 9 -> {PF}", "eenter 0 0 -> ok", "run 0 9 -> trapped 14"], ["event trap 2 14"]), ["0..1", "trap 14 at 2", "enter, trapped"]),
    (report(["setpte 5 6 - -> ok", "eenter 0 0 -> ok", f"run 0 1 -> {PF}", "eresume 0 -> pending", "eenter 0 0 -> ok", f"run 0 1 -> {PF}",
             "eenter 0 0 -> ok", f"run 0 1 -> {PF}", "eenter 0 0 -> gp"], [], "stuck 5 write blame 1"), ["fault", "fault", "stuck 5 write: move 1 is to blame"]),
    (report(["eenter 0 0 -> ok", f"run 0 9 -> {PF}", "eenter 0 0 -> ok", "run 0 9 -> ask 0 0", "eresume 0 -> ok", "run 0 1 -> stopped"], ["event miss 0 0"],
            "resumed blame 5"), ["miss 0 at 0", "enter, ask", "guard, stopped", "resumed: move 5 is to blame"]),
    (long_reports()["20000 steps"], ["1", "2", "enter", "3..20000 ×19998", "0..19997"]),
    (long_reports()["calling"], ["100 times", "1..298", "0 0..99", "1 0..9801", "call at 4..499", "inside", "nolp", "trap 13 at 600"]),
    (report(["eenter 0 0 -> ok", f"run 0 9 -> {PF}", "eenter 0 0 -> ok", "run 0 9 -> ask 0 3", "eenter 0 0 -> ok", "run 0 9 -> ready", "eresume 0 -> ok",
             f"run 0 9 -> {PF}", "eenter 0 0 -> ok", "run 0 9 -> ask 1 5", "eenter 0 0 -> ok", "run 0 9 -> ready"], ["event miss 0 3", "event miss 4 5"]),
     ["clusters in", "asks 3", "3", "asks 5", "5"]),
    (long_reports()["a call before its leave"], ["call at 2"]),
    (long_reports()["paging"], ["processor 0", "processor 1", "miss 0 at 0", "ask", "enter, ask", "enter, probe, ready", "35 times", "interrupt", "195..200", "end at 200"]),
    (long_reports()["no paces"], ["turns are not told: line 2: a run, and no processor is inside"]),
]


class Text(NamedTuple):
    """A text of a picture, with its place."""

    left: float
    right: float
    y: float
    words: str


def texts_of(picture: str) -> List[Text]:
    texts = []
    for node in ElementTree.fromstring(picture).iter(f"{SVG}text"):
        x, width = float(node.get("x")), LETTER * len(node.text or "")
        left = x - {"start": 0, "middle": width / 2, "end": width}[node.get("text-anchor")]
        texts.append(Text(left, left + width, float(node.get("y")), node.text or ""))
    return texts


def cut_texts(picture: str) -> List[str]:
    """Texts that are not wholly within the picture."""
    root = ElementTree.fromstring(picture)
    width, height = float(root.get("width")), float(root.get("height"))
    return [text.words for text in texts_of(picture) if text.left < 0 or text.right > width or text.y < HEIGHT or text.y > height]


def crossing_texts(picture: str) -> List[str]:
    """Pairs of texts that lie on each other."""
    texts = sorted((text for text in texts_of(picture) if text.words), key=lambda text: text.y)
    found = []
    for i, a in enumerate(texts):
        for b in texts[i + 1 :]:
            if b.y - a.y >= HEIGHT:
                break
            if a.left < b.right and b.left < a.right:
                found.append(f"{a.words} | {b.words}")
    return found


def crossed_texts(picture: str) -> List[str]:
    """Texts through which a red line goes, of those that join a break to a move."""
    texts, found = texts_of(picture), []
    for way in re.findall(r'<path d="M ([^"]*)" fill="none" stroke="#b3261e"', picture):
        points = [tuple(map(float, point.split(" "))) for point in way.split(" L ")]
        for (ax, ay), (bx, by) in zip(points, points[1:]):
            found += [text.words for text in texts if min(ax, bx) < text.right and max(ax, bx) > text.left
                      and min(ay, by) < text.y + 2 and max(ay, by) > text.y - 8]
    return found


def missing(wanted: List[str], texts: List[str]) -> List[str]:
    """The wanted texts that do not come in this order."""
    found, at = [], 0
    for word in wanted:
        if word in texts[at:]:
            at += texts[at:].index(word) + 1
        else:
            found.append(word)
    return found


def test_picture(tally: Tally, name: str, path: str, *words: str) -> None:
    told = call("draw", path, *words)
    tally.equal(f"draw {name}: written", (told.err, told.status), ("", 0))
    tally.holds(f"draw {name}: the same bytes again", told.out == call("draw", path, *words).out)
    tally.equal(f"draw {name}: texts that are cut", cut_texts(told.out), [])
    tally.equal(f"draw {name}: texts on each other", crossing_texts(told.out), [])
    tally.equal(f"draw {name}: texts under a red line", crossed_texts(told.out), [])


def test_files(tally: Tally, folder: str) -> None:
    path = written(folder, "r", report([], []))
    to_file = call("draw", path, "-o", os.path.join(folder, "r.svg"))
    with open(os.path.join(folder, "r.svg"), encoding="utf-8") as file:
        tally.equal("draw -o FILE", (tuple(to_file), file.read()), (("", "", 0), call("draw", path).out))
    told = call("draw", path, "-o", os.path.join(folder, "none", "r.svg"))
    tally.equal("draw -o into no folder", tuple(told), ("", f"draw: {folder}/none/r.svg: No such file or directory\n", 2))
    told = call("draw", os.path.join(DATA, "auto.script"))
    tally.equal("draw of no report", (told.out, told.err.split(": ", 2)[2], told.status), ("", "line 1: a report begins with the line `autarky 1`\n", 2))


def test(tally: Tally) -> None:
    with tempfile.TemporaryDirectory() as folder:
        for text, wanted in TEXTS:
            told = call("draw", written(folder, "r", text))
            texts = [text.words for text in texts_of(told.out)]
            tally.equal(f"draw: has {', '.join(wanted)[-70:]}", missing(wanted, texts), [])
        for name, text in {**example_reports(), **long_reports()}.items():
            test_picture(tally, name, written(folder, "r", text))
        test_files(tally, folder)

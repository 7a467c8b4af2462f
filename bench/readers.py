#!/usr/bin/env python3
"""Times the readers of the proved program on large files: an image of 512 full pages, and documents of 8 MB of several kinds.

usage: readers.py PROGRAM, with the program that `rt run` leaves in crates/autarky/out. It prints, for each file, its bytes, the
status, the processor's seconds (the least of three calls) and the most memory that a call held.
"""
import os
import subprocess
import sys
import tempfile

LIMIT = 8_388_608
HEAD = 'version = 1\nbase = 268435456\nentry = 0\nbudget = 512\nsigner = "lab"\n'


def page(cluster, digits):
    return f'[[page]]\nperms = "rx"\ncluster = "{cluster}"\nbytes = "{digits}"\n'


def filled(head, piece, tail=""):
    """The pieces of all numbers from 0 that fit a file of the limit, between head and tail."""
    parts, size, number = [head], len(head) + len(tail), 0
    while True:
        text = piece(number)
        if size + len(text) > LIMIT:
            return "".join(parts) + tail
        parts.append(text)
        size += len(text)
        number += 1


def images():
    full = "".join(page(f"c{p % 128}", "0f" * 4096) for p in range(512))
    yield "512 full pages", HEAD + full
    yield "pages without bytes", filled(HEAD, lambda n: page(f"c{n}", ""))
    yield "inline tables", filled(HEAD + "page = [", lambda n: '{perms="r",cluster="a",bytes=""},', "]\n")
    yield "keys", filled("", lambda n: f"k{n}=1\n")
    yield "dotted keys", filled("", lambda n: f"a.b{n}.c=1\n")
    yield "nested arrays", filled("a=[", lambda n: "[" * 70 + "]" * 70 + ",", "]\n")
    yield "escapes", filled('signer = "', lambda n: "\\u0041", '"\n')
    yield "one long string", filled('signer = "', lambda n: "a" * 64, '"\n')
    yield "comments", filled("", lambda n: f"# {n}\n")
    yield "digits", filled("base = ", lambda n: "1" * 64, "\n")
    yield "open brackets", "[" * LIMIT


def signers():
    yield "one name, many digests", filled("lab = [", lambda n: f'"{n:064x}",', "]\n")
    yield "many names", filled("", lambda n: f"n{n} = []\n")


def scripts():
    yield "20,000 moves", "setpte 0 8 pxad\n" * 20_000
    yield "empty lines", "\n" * LIMIT
    yield "a line of words", "readpte " * (LIMIT // 8)
    yield "a long number", "readpte " + "1" * (LIMIT - 9) + "\n"


def call(words):
    """Calls the program from a small process of its own, since a child's memory counts from its parent's."""
    told = subprocess.run([sys.executable, __file__, "--call", *words], capture_output=True, text=True, check=True).stdout.split()
    return int(told[0]), float(told[1]), int(told[2])


def called(words):
    child = subprocess.Popen(words, stdout=subprocess.DEVNULL, stderr=subprocess.DEVNULL)
    _, status, usage = os.wait4(child.pid, 0)
    print(os.waitstatus_to_exitcode(status), usage.ru_utime + usage.ru_stime, usage.ru_maxrss // 1024)


def show(kind, name, size, words):
    calls = [call(words) for _ in range(3)]
    print(f"{kind:8} {name:24} {size:9} {calls[0][0]:3} {min(c[1] for c in calls):7.3f} s {max(c[2] for c in calls):5} MiB", flush=True)


def main():
    if sys.argv[1] == "--call":
        called(sys.argv[2:])
        return
    program = sys.argv[1]
    with tempfile.TemporaryDirectory() as folder:
        def write(name, text):
            path = os.path.join(folder, name)
            with open(path, "w", encoding="ascii") as file:
                file.write(text)
            return path

        image = write("small.toml", HEAD + page("code", "90"))
        nobody = write("nobody.toml", "")
        for name, text in images():
            show("image", name, len(text), [program, "measure", write("image", text)])
        for name, text in signers():
            show("signers", name, len(text), [program, "run", image, write("signers", text), nobody])
        for name, text in scripts():
            show("script", name, len(text), [program, "run", image, nobody, write("script", text)])


if __name__ == "__main__":
    main()

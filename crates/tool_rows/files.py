#!/usr/bin/env python3
"""Writes data/, stdin and stdout from the rows of rows/. Usage: files.py [--check]

With --check nothing is written: each file that is not as this script writes it is named, and then the status is 1.
"""
import os
import sys

sys.dont_write_bytecode = True
from rows import pqinspect, pqscan, table

HERE = os.path.dirname(os.path.abspath(__file__))


def written():
    """The bytes of all files that this script writes, by their paths."""
    files = {"data/" + name: content for name, content in table.FILES.items()}
    files["stdin"] = "".join(line + "\n" for line, _ in table.ROWS).encode()
    files["stdout"] = "".join(answer for _, answer in table.ROWS if answer).encode()
    return files


def content_of(path):
    try:
        with open(os.path.join(HERE, path), "rb") as file:
            return file.read()
    except FileNotFoundError:
        return None


def strays(files):
    """What stands in data/ beside them."""
    folder = os.path.join(HERE, "data")
    names = sorted(os.listdir(folder)) if os.path.isdir(folder) else []
    return ["data/" + name for name in names if "data/" + name not in files]


def check(files):
    wrong = strays(files) + [path for path, content in files.items() if content_of(path) != content]
    for path in wrong:
        print("not as files.py writes it: " + path)
    return 1 if wrong else 0


def write(files):
    os.makedirs(os.path.join(HERE, "data"), exist_ok=True)
    for path in strays(files):
        os.remove(os.path.join(HERE, path))
    for path, content in files.items():
        with open(os.path.join(HERE, path), "wb") as file:
            file.write(content)
    return 0


sys.exit(check(written()) if sys.argv[1:] == ["--check"] else write(written()))

#!/usr/bin/env python3
"""Tests what the documents say of the repository. Prints each place that is wrong, and ends with 1 where there is one. Usage: docs/check.py

  Each link leads to a file that is there.
  Each definition that a document names beside a link to its file stands in that file.
  Each file that CONTRIBUTING names behind a crate is a file of that crate.
  The name of each public function that may refuse, or that may change what it is handed, stands in the table of SECURITY.md of what a refusal leaves.
  (A name is all that is compared: of which type a `new` is, and calls of traits, are for a reader to see.)
  The README has at most 90 lines of at most 160 columns, and each block of code or of definitions in it is the text of a file, but for what `// ..` and `-- ..` stand for.
  Other documents, but those of crates, have lines of at most 200 columns.
  Each edit that SECURITY.md names in its list of wrong programs is one of the crate behind it, and each test a module of program_tests.
  The pictures are those that their scripts draw.
"""
import os, re, subprocess, sys

TOP = os.path.join(os.path.dirname(os.path.abspath(__file__)), "..")
LONGEST_README, WIDEST_README, WIDEST = 90, 160, 200
QUOTED = {"rust": "crates/scan_example/src/lib.rt", "antt": "crates/parquet_scan/specs/Scan.antt"}
PICTURES = ["docs/layers.py", "docs/plots.py"]
REFUSALS = "docs/SECURITY.md"
# crates on whose calls nothing of a user stands
FOR_TESTS = ("files_for_tests", "pages_for_tests")
found = []


def text_of(path):
    with open(path, encoding="utf-8") as file:
        return file.read()


def documents():
    names = sorted(name for name in os.listdir(TOP) if name.endswith(".md"))
    names += sorted("docs/" + name for name in os.listdir(os.path.join(TOP, "docs")) if name.endswith(".md"))
    names += sorted("crates/%s/README.md" % name for name in os.listdir(os.path.join(TOP, "crates")))
    return [name for name in names if os.path.exists(os.path.join(TOP, name))]


def definitions_in(path):
    """The names that a file of definitions has, those of records' fields and of constructors left out."""
    lines = re.findall(r"^ {0,2}(?:abbrev |unfoldable )?pub (?:record |data )?([^ :({]+)", text_of(path), re.M)
    return set(lines)


def links_in(text):
    """The text and the goal of each link, where blocks of code are no links."""
    text = re.sub(r"^```.*?^```", "", text, flags=re.M | re.S)
    goals = dict(re.findall(r"^\[([^\]]+)\]: (\S+)$", text, re.M))
    links = re.findall(r"\[([^\]\n]+)\]\(([^)\s]+)\)", text)
    for shown, label in re.findall(r"\[([^\]\n]+)\]\[([^\]\n]+)\]", text):
        if label in goals:
            links.append((shown, goals[label]))
        else:
            links.append((shown, "?" + label))
    return links


def calls_that_refuse(path):
    """The public functions of a file whose signature has a result or takes a value to change."""
    signatures = re.findall(r"^ *pub fn (\w+)(.*?)\n *(?:\{|ensures|requires|where)", text_of(path), re.M | re.S)
    return [name for name, signature in signatures if "Result<" in signature.split("->")[-1] or "&mut " in signature]


for document in documents():
    for shown, goal in links_in(text_of(os.path.join(TOP, document))):
        if re.match(r"[a-z]+:", goal) or goal.startswith("#"):
            continue
        path = os.path.normpath(os.path.join(TOP, os.path.dirname(document), goal.split("#")[0]))
        if goal.startswith("?") or not os.path.exists(path):
            found.append("%s: %s leads to nothing (%s)" % (document, shown, goal.lstrip("?")))
        elif path.endswith(".antt") and shown.strip("`") not in definitions_in(path):
            found.append("%s: %s does not stand in %s" % (document, shown, goal))

crates = []
for line in text_of(os.path.join(TOP, "CONTRIBUTING.md")).splitlines():
    cells = line.strip("|").split("|")
    if len(cells) != 3 or not line.startswith("|"):
        continue
    crates = re.findall(r"`(\w+)`", cells[0]) or crates
    for path in re.findall(r"`((?:src|specs)/[^`]+)`", cells[1]):
        if path.lower() not in ("src/name.rt", "specs/name.antt") and not any(os.path.exists(os.path.join(TOP, "crates", crate, path)) for crate in crates):
            found.append("CONTRIBUTING.md: %s stands in none of %s" % (path, ", ".join(crates)))

section = text_of(os.path.join(TOP, REFUSALS)).split("\n## What a refusal leaves\n")[1].split("\n## ")[0]
table = " ".join(line for line in section.splitlines() if line.startswith("|"))
named = re.findall(r"\w+(?:\.\.)?", " ".join(re.findall(r"`[^`]*`", table)))
begun = tuple(name[:-2] for name in named if name.endswith(".."))
for crate in sorted(os.listdir(os.path.join(TOP, "crates"))):
    folder = os.path.join(TOP, "crates", crate, "src")
    if crate in FOR_TESTS or crate.endswith("_tests"):
        continue
    for path in sorted(os.path.join(at, name) for at, _, names in os.walk(folder) for name in names if name.endswith(".rt")):
        for name in calls_that_refuse(path):
            if name not in named and not name.startswith(begun):
                found.append("%s: the table of what a refusal leaves does not name %s of %s" % (REFUSALS, name, crate))

programs = re.sub(r"\s+", " ", text_of(os.path.join(TOP, REFUSALS)).split("\n## Programs that would be wrong")[1].split("\n## ")[0])
for name_list, crate in re.findall(r"((?:`\w+`,? ?)+)of `(\w+)`", " ".join(re.findall(r"edits? ([^;)]*)", programs.split("- It ", 1)[1]))):
    for edit in re.findall(r"`(\w+)`", name_list):
        if not os.path.exists(os.path.join(TOP, "crates", crate, "must-fail", edit + ".edit")):
            found.append("%s: %s has no edit %s" % (REFUSALS, crate, edit))
for name_list in re.findall(r"tests? ((?:`\w+`,? ?)+)", programs):
    for test in re.findall(r"`(\w+)`", name_list):
        if not os.path.exists(os.path.join(TOP, "crates/program_tests/src", test + ".rt")):
            found.append("%s: program_tests has no tests %s" % (REFUSALS, test))

readme = text_of(os.path.join(TOP, "README.md"))
if len(readme.splitlines()) > LONGEST_README:
    found.append("README.md has %d lines, at most %d" % (len(readme.splitlines()), LONGEST_README))
for document in documents() + ["docs/pqscan.1", "docs/pqinspect.1", "docs/parquet_put.1"]:
    widest = WIDEST_README if document == "README.md" else WIDEST
    for number, line in enumerate(text_of(os.path.join(TOP, document)).splitlines(), 1):
        if len(line) > widest and not document.startswith("crates/"):
            found.append("%s:%d has %d columns, at most %d" % (document, number, len(line), widest))

for language, block in re.findall(r"^```(\w+)\n(.*?)^```", readme, re.M | re.S):
    left = iter(text_of(os.path.join(TOP, QUOTED[language])).splitlines() if language in QUOTED else [])
    for line in block.splitlines() if language in QUOTED else []:
        if line.strip() not in ("// ..", "-- ..") and line not in left:
            found.append("README.md: the line is not one of %s, or not in this place: %s" % (QUOTED[language], line))
            break

for script in PICTURES:
    drawn = subprocess.run([sys.executable, os.path.join(TOP, script), "--check"], stdout=subprocess.PIPE, text=True)
    found += drawn.stdout.splitlines()

print("\n".join(found), end="\n" if found else "")
sys.exit(1 if found else 0)

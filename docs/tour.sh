#!/bin/sh
# Runs each command of TOUR.md, the first one of each program in README.md and those of the examples of the manual pages, in a folder of its own, and compares what they write, on both streams,
# with what stands there.
# Usage: docs/tour.sh [FOLDER], where the programs stand
set -eu
here=$(CDPATH= cd -- "$(dirname -- "$0")" && pwd)
exec python3 - "$here" "${1:-$here/..}" <<'PY'
import os, re, shlex, shutil, subprocess, sys, tempfile

HERE, PROGRAMS = sys.argv[1], os.path.abspath(sys.argv[2])
NAMES = ("pqscan", "pqinspect", "parquet_put")


def text_of(name):
    with open(os.path.join(HERE, name), encoding="utf-8") as file:
        return file.read()


def of_tour():
    return re.findall(r"```sh\n(.*?)```\n```\n(.*?)```", text_of("TOUR.md"), re.S)


def of_readme():
    text = text_of("../README.md")
    command = re.search(r"^(\./pqscan .*?) +#", text, re.M).group(1)
    wanted = [re.search(r"^```\n(%s .*?)^```" % word, text, re.M | re.S).group(1) for word in ("group", "column")]
    return list(zip([command, "pqinspect f1.parquet"], wanted))


def of_manual(page):
    """Each example is a block of commands, of which the last one prints the next block."""
    examples = text_of(page).replace("\\-", "-").replace("\\e", "\\").split("\n.SH EXAMPLES\n")[1].split("\n.SH ")[0]
    blocks = re.findall(r"^\.nf\n\.RS\n(.*?)^\.RE\n\.fi", examples, re.M | re.S)
    return list(zip(blocks[::2], blocks[1::2]))


def of_low_bits():
    """Two commands have what they print in words."""
    return list(zip(re.findall(r"^\.RS\n\.B (pqscan @sample.*)$", text_of("pqscan.1"), re.M), ["-128\n", "group 0 300 -\n"]))


def make_folder(folder):
    """The programs and the file of the examples."""
    for name in NAMES:
        path = os.path.join(folder, name)
        with open(path, "w", encoding="utf-8") as file:
            file.write('#!/bin/sh\nexec %s "$@"\n' % shlex.quote(os.path.join(PROGRAMS, name)))
        os.chmod(path, 0o755)
    shutil.copy(os.path.join(HERE, "../crates/pqscan/data/f1.parquet"), folder)


def run(lines, folder):
    """What the last of the lines writes."""
    path = folder + os.pathsep + os.environ["PATH"]
    for line in lines:
        ran = subprocess.run(["sh", "-c", line], cwd=folder, env={**os.environ, "PATH": path}, stdout=subprocess.PIPE, stderr=subprocess.STDOUT, text=True, errors="replace")
    return ran.stdout


failed = 0
steps = of_tour() + of_readme() + of_manual("pqscan.1") + of_manual("pqinspect.1") + of_manual("parquet_put.1") + of_low_bits()
with tempfile.TemporaryDirectory() as folder:
    make_folder(folder)
    for commands, wanted in steps:
        wrote = run(commands.splitlines(), folder)
        if wrote != wanted and not (wanted == "-128\n" and wrote.endswith("\n-128\n")):
            failed += 1
            print("%s\nwrote\n%sand not\n%s" % (commands, wrote, wanted))
print("%d commands, %d wrote something else" % (len(steps), failed))
sys.exit(failed != 0)
PY

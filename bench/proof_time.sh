#!/bin/sh
# Prints what proofs cost: in seconds of a processor, which hang less on what else runs than those of the clock, and in units, which hang less on the machine. A unit is what the proof
# of parquet_base took in the same run. Run by hand, at the repository's top.
#
# Usage: bench/proof_time.sh [WORD..]
#            runs `rt ci WORD..`, without a word `rt ci --anew`, the whole gate from nothing, and prints for each crate what its proof, the base of its edits, its edits and
#            its tests took, of all checks that run on the machine meanwhile: first in units, then in seconds. A check that ends between two samples, a second apart, loses what it
#            took since the first. Where parquet_base was not proved in the run, as it was kept, there are no units, and it says so.
#        bench/proof_time.sh --functions CRATE [SECONDS]
#            proves a crate anew by one process (what its checks kept in out/incremental goes), over the libraries below as they are kept, and prints each function that took at
#            least so many seconds (10). Lemmas that are checked between two functions count for the second: the first function behind a file of lemmas seems dear.
exec python3 - "$@" <<'PYTHON'
import collections, os, re, shutil, subprocess, sys, threading, time

TICKS = os.sysconf("SC_CLK_TCK")
KINDS = ("proof", "base", "edits", "tests")
# the crate whose proof is the unit
UNIT = "parquet_base"


def checks():
    """Each process that checks a crate: its number, words, folder and seconds so far. One that has ended is passed over."""
    for number in filter(str.isdigit, os.listdir("/proc")):
        try:
            with open(f"/proc/{number}/cmdline", encoding="utf-8", errors="replace") as file:
                words = file.read().split("\0")
            if os.path.basename(words[0]) != "rattle" or words[1] not in ("check", "build") or "--crate-name" not in words:
                continue
            folder = os.readlink(f"/proc/{number}/cwd")
            with open(f"/proc/{number}/stat", encoding="ascii", errors="replace") as file:
                fields = file.read().rpartition(")")[2].split()
        except (OSError, IndexError):
            continue
        # the name of a process may hold blanks and ends with ")": user and system time are the twelfth and thirteenth behind it
        yield int(number), words, folder, (int(fields[11]) + int(fields[12])) / TICKS


def kind(words, folder):
    if "--test" in words:
        return "tests"
    if words[1] == "build":
        return "proof"
    return "edits" if "/rt-edit-" in folder else "base"


def watch(ended, most):
    while not ended.wait(1):
        for number, words, folder, seconds in checks():
            crate = words[words.index("--crate-name") + 1]
            most[number, crate, kind(words, folder)] = seconds


def gate(words):
    ended, most, begun = threading.Event(), {}, time.time()
    watcher = threading.Thread(target=watch, args=(ended, most))
    watcher.start()
    try:
        # as many proofs side by side as the gate has
        lanes = os.environ.get("RT_JOBS") or subprocess.run([".ci/lanes"], stdout=subprocess.PIPE, check=True, text=True).stdout.strip()
        status = subprocess.run(["rt", "ci", *words], check=False, env={**os.environ, "RT_JOBS": lanes}).returncode
    finally:
        ended.set()
        watcher.join()
    sums = collections.Counter()
    for (_, crate, of_kind), seconds in most.items():
        sums[crate, of_kind] += seconds
    crates = list(dict.fromkeys(crate for _, crate, _ in most))
    unit = max((seconds for (_, *of), seconds in most.items() if of == [UNIT, "proof"]), default=0)
    if unit:
        print(f"units (one is the proof of {UNIT} in this run, {unit:.0f} seconds of a processor)")
        show(crates, lambda crate, it: f"{sums[crate, it] / unit:8.1f}")
        print(f"{sum(sums.values()) / unit:.0f} units in all")
    else:
        print(f"no units: {UNIT} was not proved in this run")
    print("seconds of a processor")
    show(crates, lambda crate, it: f"{sums[crate, it]:8.0f}")
    print(f"{sum(sums.values()) / 60:.0f} processor minutes, {(time.time() - begun) / 60:.0f} minutes of the clock")
    return status


def show(crates, cell):
    print(f"{'crate':20}" + "".join(f"{it:>8}" for it in KINDS))
    for crate in crates:
        print(f"{crate:20}" + "".join(cell(crate, it) for it in KINDS))


def functions(crate, least):
    folder = os.path.join("crates", crate)
    shutil.rmtree(os.path.join(folder, "out/incremental"), ignore_errors=True)
    words = ["rt", "check", "--progress", "--jobs", "1"]
    with subprocess.Popen(words, cwd=folder, stdout=subprocess.PIPE, stderr=subprocess.STDOUT, text=True, errors="replace") as run:
        # some checks go on in a process of their own
        found, last, taken = [], 0.0, {}
        for line in run.stdout:
            checked = re.match(r"checked (\S+), \d+ of \d+", line)
            if not checked:
                continue
            taken.update((it[0], it[3]) for it in checks() if it[2] == os.path.realpath(folder))
            now = sum(taken.values())
            found.append((now - last, checked[1]))
            last = now
    for seconds, name in sorted(found, reverse=True):
        if seconds >= least:
            print(f"{seconds:8.1f} {name}")
    print(f"{last:8.1f} in all, of {len(found)} functions")
    return run.returncode


given = sys.argv[1:]
if given[:1] == ["--functions"]:
    if len(given) not in (2, 3):
        sys.exit("usage: bench/proof_time.sh --functions CRATE [SECONDS]")
    sys.exit(functions(given[1], float(given[2]) if len(given) == 3 else 10.0))
sys.exit(gate(given or ["--anew"]))
PYTHON

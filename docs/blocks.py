#!/usr/bin/env python3
"""Runs the blocks of commands (sh) of a document one after another in the folder that it is started in, and compares what each prints on standard output with the block behind it,
where there is one: what is printed has to end so. Ends with 1 where one printed something else. Usage: docs/blocks.py DOCUMENT"""
import re, subprocess, sys

if len(sys.argv) != 2:
    sys.exit(__doc__)
with open(sys.argv[1], encoding="utf-8") as file:
    steps = re.findall(r"^```sh\n(.*?)^```\n(?:```\n(.*?)^```\n)?", file.read(), re.M | re.S)
failed = 0
for commands, wanted in steps:
    found = subprocess.run(["sh", "-c", commands], stdout=subprocess.PIPE, stderr=subprocess.DEVNULL, text=True).stdout
    if wanted and not found.endswith(wanted):
        failed += 1
        print("%swrote\n%sand not\n%s" % (commands, found, wanted))
print("%d blocks, %d wrote something else" % (len(steps), failed))
sys.exit(failed != 0)

"""Prints the instructions of a program that are executed at least so often, by callgrind: what two builds of it do more, or less.

Usage: hot.py PROGRAM TIMES [ARGUMENTS..]
"""

import os
import re
import subprocess
import sys
import tempfile


def executed(program, arguments):
    """How often each address of the program was executed."""
    with tempfile.NamedTemporaryFile() as out:
        words = ["valgrind", "--tool=callgrind", "--dump-instr=yes", f"--callgrind-out-file={out.name}", program, *arguments]
        subprocess.run(words, stdout=subprocess.DEVNULL, stderr=subprocess.DEVNULL, check=True)
        lines = open(out.name, encoding="utf-8").read().splitlines()
    counts, objects, here, address, is_call = {}, {}, "", 0, False
    for line in lines:
        if named := re.match(r"(c?)ob=(\(\d+\))\s*(.*)", line):
            if named.group(3):
                objects[named.group(2)] = named.group(3)
            if not named.group(1):
                here = objects[named.group(2)]
        elif line.startswith("calls="):
            is_call = True
        elif row := re.match(r"(\+\d+|-\d+|\*|0x[0-9a-f]+)\s+(\S+)\s+(\d+)", line):
            step = row.group(1)
            address = int(step, 16) if step.startswith("0x") else address + (0 if step == "*" else int(step))
            if not is_call and os.path.basename(here) == os.path.basename(program):
                counts[address] = counts.get(address, 0) + int(row.group(3))
            is_call = False
    return counts


def main():
    program, least = sys.argv[1], int(sys.argv[2])
    counts = executed(program, sys.argv[3:])
    text = subprocess.run(["objdump", "-d", "--no-show-raw-insn", program], capture_output=True, text=True, check=True).stdout
    print(f"{sum(counts.values())} in all")
    for line in text.splitlines():
        if re.match(r"[0-9a-f]+ <", line):
            name = line
        elif row := re.match(r"\s*([0-9a-f]+):\t(.*)", line):
            count = counts.get(int(row.group(1), 16), 0)
            if count >= least:
                if name:
                    print(name)
                    name = ""
                print(f"{count:>12} {row.group(1):>8} {row.group(2)}")


if __name__ == "__main__":
    main()

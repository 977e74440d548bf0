#!/usr/bin/env python3
"""Holds listings of compiled code against LLVM's disassembler: what `stackwalk` prints, on standard input. It needs
llvm-mc; the gate does not run it.

    llvm_listing.py < crates/stackwalk/stdout
"""

import re
import subprocess
import sys

LINE = re.compile(r"^  0x([0-9a-f]+):((?: [0-9a-f]{2})+)  +(.*)$")


def disassembled(code, end):
    """LLVM's text of one instruction that ends at an RVA, in the program's spelling."""
    text = subprocess.run(
        ["llvm-mc", "--disassemble", "--triple=x86_64", "--output-asm-variant=1"],
        input=" ".join(f"0x{b:02x}" for b in code), capture_output=True, text=True, check=True).stdout
    lines = [line for line in text.splitlines() if line and not line.strip().startswith(".")]
    if len(lines) != 1:
        return f"{len(lines)} instructions"
    words = " ".join(lines[0].split("#")[0].split()).replace("qword ptr ", "")
    call = re.fullmatch(r"call (-?\d+)", words)
    if call:
        return f"call {end + int(call[1]):#x}"
    return re.sub(r"\br(?:[a-ds][xpi]|[bsd][pi]|\d+)\b", lambda m: m[0].upper(), words)


def main():
    count = 0
    for line in sys.stdin:
        match = LINE.match(line)
        if not match:
            continue
        code = bytes.fromhex(match[2])
        expected = disassembled(code, int(match[1], 16) + len(code))
        if match[3] != expected:
            sys.exit(f"{line.rstrip()}: LLVM writes {expected}")
        count += 1
    print(f"{count} instructions as LLVM writes them")


main()

#!/usr/bin/env python3
"""Unwind data written by LLVM's assembler, with answers built from what llvm-readobj says about them. It needs
llvm-mc and llvm-readobj; the stored results were made with LLVM 14. The gate does not run it.

    llvm_unwind.py write   writes tests/llvm
    llvm_unwind.py check   makes everything again and compares it with tests/llvm

The files: functions.s, the assembly source made from FUNCTIONS below; readobj.txt, what `llvm-readobj --unwind`
prints about the object; text.hex, xdata.hex and pdata.hex, the bytes of the sections after layout; cases.in and
cases.out, requests for the conformance program and their answers.
"""

import re
import struct
import subprocess
import sys
import tempfile
from pathlib import Path

TESTS = Path(__file__).resolve().parent.parent / "tests" / "llvm"
TRIPLE = "x86_64-pc-windows-msvc"
PAGE = 0x1000
BASE = 0x140000000
PRESERVED = "rbx rbp rsi rdi r12 r13 r14 r15".split()

# The functions: a name and steps. `end` ends a prologue; `part` and `over` enclose a chained part; `handler` has
# the kinds, and `data` the words after it, of which a name is the RVA of that function.
FUNCTIONS = {
    "empty": "end",
    **{f"push_{r}": f"push {r}; end" for r in PRESERVED},
    "push_all": "; ".join(f"push {r}" for r in PRESERVED) + "; end",
    "push_volatile": "push rax; push rcx; push rdx; push r8; push r9; push r10; push r11; end",
    "alloc_8": "alloc 8; end",
    "alloc_16": "alloc 16; end",
    "alloc_120": "alloc 120; end",
    "alloc_128": "alloc 128; end",
    "alloc_136": "alloc 136; end",
    "alloc_4096": "alloc 4096; end",
    "alloc_524272": "alloc 524272; end",
    "alloc_524280": "alloc 524280; end",
    "alloc_524288": "alloc 524288; end",
    "alloc_524296": "alloc 524296; end",
    "alloc_2097152": "alloc 2097152; end",
    "alloc_2147483640": "alloc 2147483640; end",
    "alloc_4294967288": "alloc 4294967288; end",
    "alloc_three": "alloc 8; alloc 136; alloc 524288; end",
    "frame_rbp_0": "push rbp; frame rbp 0; end",
    "frame_rbp_16": "push rbp; alloc 64; frame rbp 16; end",
    "frame_rbp_128": "push rbp; alloc 512; frame rbp 128; end",
    "frame_rbp_240": "push rbp; alloc 512; frame rbp 240; end",
    "frame_rbx_48": "push rbx; alloc 96; frame rbx 48; end",
    "frame_rsi_224": "push rsi; alloc 512; frame rsi 224; end",
    "frame_rdi_0": "push rdi; alloc 32; frame rdi 0; end",
    "frame_r12_32": "push r12; alloc 64; frame r12 32; end",
    "frame_r13_64": "push r13; alloc 96; frame r13 64; end",
    "frame_r15_240": "push r15; alloc 524288; frame r15 240; end",
    "frame_rcx_16": "alloc 40; frame rcx 16; end",
    "frame_first": "frame rbp 0; push rbx; alloc 32; end",
    "save_near": "alloc 104; " + "; ".join(f"save {r} {32 + 8 * i}" for i, r in enumerate(PRESERVED)) + "; end",
    "save_0": "alloc 40; save rbx 0; end",
    "save_524280": "alloc 1048576; save rsi 524280; end",
    "save_524288": "alloc 1048576; save rdi 524288; end",
    "save_far": "alloc 2097152; save r14 2097144; save r15 1048584; save rbp 524296; end",
    "save_rax": "alloc 40; save rax 32; end",
    "xmm_0": "alloc 40; savexmm 6 0; end",
    "xmm_near": "alloc 184; " + "; ".join(f"savexmm {6 + i} {16 + 16 * i}" for i in range(10)) + "; end",
    "xmm_4": "alloc 40; savexmm 4 16; end",
    "xmm_524272": "alloc 1048576; savexmm 7 524272; end",
    "xmm_524288": "alloc 1048576; savexmm 15 524288; end",
    "xmm_far": "alloc 2097152; savexmm 8 1048560; savexmm 9 1048576; savexmm 10 2097136; end",
    "worked_example": "push rbp; push rbx; alloc 56; frame rbp 32; save rsi 40; end",
    "all_kinds": "push rbp; push r12; alloc 1048568; frame rbp 128; save rbx 40; save rsi 524288; "
    "savexmm 6 64; savexmm 7 524304; end",
    "except_no_data": "handler except; alloc 40; end",
    "except_data": "handler except; alloc 40; end; data 0x11223344",
    "unwind_data": "handler unwind; push rbx; alloc 32; end; data 2 empty worked_example",
    "both_data": "handler except unwind; push rbp; push rdi; alloc 40; frame rbp 32; end; data 1 both_data 0",
    "both_no_codes": "handler except unwind; end; data 0xffffffff",
    "unwind_save_far": "handler unwind; alloc 1048576; save rbx 524288; end",
    "chained": "push rbx; alloc 32; end; nop; part; save rsi 48; end; nop; over",
    "chained_frame": "push rbp; alloc 64; frame rbp 32; end; part; savexmm 6 16; save rdi 40; end; nop; over",
    "chained_twice": "alloc 40; end; part; save rbx 48; end; nop; over; nop; part; save rbp 56; end; over",
    "chained_in_chained": "push rbx; end; part; alloc 32; end; nop; part; save rsi 48; end; nop; over; over",
    "chained_no_codes": "alloc 40; end; part; end; nop; over",
    "chained_handler": "handler except; alloc 40; end; data 7; part; push rdi; alloc 524288; end; nop; over",
    # What the assembler writes and the rules of this project refuse.
    "machine_frame": "machine; push rbx; alloc 40; end",
    "machine_frame_code": "machine code; alloc 136; end",
    "push_rsp": "push rbx; push rsp; alloc 524288; end",
    "save_rsp": "alloc 136; save rsp 40; end",
    "save_rsp_far": "alloc 8; save rsp 524288; end",
    "frame_rax": "push rbp; frame rax 0; alloc 40; end",
    "frame_rsp": "push rbp; frame rsp 0; end",
    "prologue_without_end": "push rbx; alloc 40",
    "prologue_ends_early": "push rbx; end; alloc 40",
    "except_last": "handler except; push rsi; alloc 32; end",
}


def instruction(kind, *given):
    """The lines of one step, except `data`, `part` and `over`."""
    if kind == "push":
        return [f"pushq %{given[0]}", f".seh_pushreg %{given[0]}"]
    if kind == "alloc" and int(given[0]) < 2**31:
        return [f"subq ${given[0]}, %rsp", f".seh_stackalloc {given[0]}"]
    if kind == "alloc":
        return [f"movl ${given[0]}, %eax", "subq %rax, %rsp", f".seh_stackalloc {given[0]}"]
    if kind == "frame":
        return [f"leaq {given[1]}(%rsp), %{given[0]}", f".seh_setframe %{given[0]}, {given[1]}"]
    if kind == "save":
        return [f"movq %{given[0]}, {given[1]}(%rsp)", f".seh_savereg %{given[0]}, {given[1]}"]
    if kind == "savexmm":
        return [f"movaps %xmm{given[0]}, {given[1]}(%rsp)", f".seh_savexmm %xmm{given[0]}, {given[1]}"]
    if kind == "machine":
        return [" @".join([".seh_pushframe", *given])]
    if kind == "handler":
        return [".seh_handler handle, " + ", ".join("@" + g for g in given)]
    if kind == "data":
        words = [g if g[0].isdigit() else g + "@IMGREL" for g in given]
        return [".seh_handlerdata", *(f".long {w}" for w in words), ".text"]
    return {
        "end": [".seh_endprologue"],
        "nop": ["nop"],
        "part": [".seh_startchained"],
        "over": [".seh_endchained"],
    }[kind]


def assembly():
    lines = ["# Written by scripts/llvm_unwind.py.", "\t.text"]
    for name, steps in FUNCTIONS.items():
        lines += ["", f"\t.globl {name}", f"\t.seh_proc {name}", f"{name}:"]
        for step in steps.split("; "):
            lines += ["\t" + line for line in instruction(*step.split())]
        lines += ["\tnop", "\tret", "\t.seh_endproc"]
    lines += ["", "\t.globl handle", "handle:", "\tret", ""]
    return "\n".join(lines)


# The object: COFF, as in Microsoft's page "PE Format".


class Object:
    def __init__(self, data):
        machine, count, _, symbols, symbol_count, optional, _ = struct.unpack_from("<HHIIIHH", data, 0)
        assert machine == 0x8664 and optional == 0
        strings = symbols + 18 * symbol_count

        def name(raw):
            if raw[:4] == bytes(4):
                at = strings + int.from_bytes(raw[4:], "little")
                return data[at : data.index(b"\0", at)].decode()
            return raw.rstrip(b"\0").decode()

        self.sections, self.relocations, order = {}, {}, []
        for i in range(count):
            head = struct.unpack_from("<8sIIIIIIHHI", data, 20 + 40 * i)
            title, size, at, relocations, relocation_count = name(head[0]), head[3], head[4], head[5], head[7]
            order.append(title)
            self.sections[title] = bytearray(data[at : at + size] if at else bytes(size))
            self.relocations[title] = [
                struct.unpack_from("<IIH", data, relocations + 10 * k) for k in range(relocation_count)
            ]
        assert len(set(order)) == len(order)
        # Name, value and section of each symbol by its index; the places of auxiliary records stay empty.
        self.symbols, i = {}, 0
        while i < symbol_count:
            raw, value, section, _, _, more = struct.unpack_from("<8sIhHBB", data, symbols + 18 * i)
            self.symbols[i] = name(raw), value, order[section - 1] if section > 0 else None
            i += 1 + more

    def lay_out(self):
        """Places .text, .xdata and .pdata, and gives each symbol in them its RVA."""
        self.starts, at = {}, PAGE
        for title in (".text", ".xdata", ".pdata"):
            self.starts[title] = at
            at += -(-len(self.sections[title]) // PAGE) * PAGE
        self.size = at
        self.rvas = {n: self.starts[s] + v for n, v, s in self.symbols.values() if s in self.starts}
        for title in self.starts:
            for at, symbol, kind in self.relocations[title]:
                assert kind == 3, "only ADDR32NB is expected"
                name = self.symbols[symbol][0]
                (addend,) = struct.unpack_from("<I", self.sections[title], at)
                struct.pack_into("<I", self.sections[title], at, self.rvas[name] + addend)


# What llvm-readobj prints.


def blocks(lines):
    """The lines of one block, up to its closing bracket: a list of (key, text) and (key, inner block)."""
    found = []
    for line in lines:
        line = line.strip()
        if line in ("}", "]"):
            return found
        opened = re.fullmatch(r"(\w+) ([\[{])(.*)", line)
        if opened:
            found.append((opened[1], blocks(lines)))
        elif line:
            key, _, text = line.partition(": ")
            found.append((key, text))
    return found


REGISTERS = "RAX RCX RDX RBX RSP RBP RSI RDI R8 R9 R10 R11 R12 R13 R14 R15".split()
OPERATIONS = {
    "PUSH_NONVOL": 0,
    "ALLOC_LARGE": 1,
    "ALLOC_SMALL": 2,
    "SET_FPREG": 3,
    "SAVE_NONVOL": 4,
    "SAVE_NONVOL_FAR": 5,
    "SAVE_XMM128": 8,
    "SAVE_XMM128_FAR": 9,
    "PUSH_MACHFRAME": 10,
}


class Refused(Exception):
    pass


def code_of(name, given, framed):
    """Operation, info, value and number of slots of a printed code."""
    op = OPERATIONS[name]
    if name == "PUSH_MACHFRAME":
        raise Refused(43)
    if name == "SET_FPREG":
        if not framed:
            raise Refused(43)
        return op, 0, 0, 1
    if name == "ALLOC_SMALL":
        size = int(given["size"])
        return op, (size - 8) // 8, size, 1
    if name == "ALLOC_LARGE":
        size = int(given["size"])
        return (op, 0, size, 2) if size <= 8 * 0xFFFF else (op, 1, size, 3)
    if name.startswith("SAVE_XMM128"):
        register = int(given["reg"].removeprefix("XMM"))
    else:
        register = REGISTERS.index(given["reg"])
        if register == 4:
            raise Refused(43)
    if name == "PUSH_NONVOL":
        return op, register, 0, 1
    return op, register, int(given["offset"], 16), 3 if name.endswith("_FAR") else 2


def codes_of(printed, prologue, framed):
    """The codes as the conformance program prints them, or a refusal with the slot index."""
    found, slot, before = [], 0, prologue
    for key, text in printed:
        offset = int(key, 16)
        name, *rest = text.replace(",", "").split()
        try:
            op, extra, value, taken = code_of(name, dict(part.split("=") for part in rest), framed)
            if offset > before:
                raise Refused(45)
        except Refused as e:
            raise Refused(f"{e} {slot}")
        found.append((slot, offset, op, extra, value, taken))
        slot, before = slot + taken, offset
    return found, slot


class Printed:
    """One RuntimeFunction of the text, with its addresses resolved through the layout."""

    def __init__(self, block, linked):
        self.linked = linked
        self.entry = self.entry_of(block)
        self.name = dict(block)["StartAddress"].split(" (")[0].replace(" ", "")
        self.block = dict(block)["UnwindInfo"]
        fields = dict(self.block)
        assert fields["Version"] == "1"
        flags = {"ExceptionHandler (0x1)": 1, "TerminateHandler (0x2)": 2, "ChainInfo (0x4)": 4}
        self.flags = sum(flags[key] for key, _ in fields["Flags"])
        self.prologue = int(fields["PrologSize"])
        self.register, self.offset = 0, 0
        if fields["FrameRegister"] != "-":
            self.register = REGISTERS.index(fields["FrameRegister"].split()[0])
            self.offset = 16 * int(fields["FrameOffset"], 16)
        self.count = int(fields["UnwindCodeCount"])
        self.place = self.entry[2] - linked.starts[".xdata"] + 4
        self.tail = self.place + 2 * (self.count + self.count % 2)

    def address(self, text):
        name, more = re.fullmatch(r"(\S+)(?: \+0x([0-9A-F]+))? \(0x[0-9A-F]+\)", text).groups()
        return self.linked.rvas[name] + int(more or "0", 16)

    def entry_of(self, block):
        fields = dict(block)
        return [self.address(fields[k]) for k in ("StartAddress", "EndAddress", "UnwindInfoAddress")]

    def tail_text(self):
        fields = dict(self.block)
        if self.flags == 0:
            return "none"
        if self.flags == 4:
            return "chained." + entry_text(self.entry_of(fields["Chained"]))
        data = self.linked.sections[".xdata"][self.tail + 4 :]
        return f"handler.{self.address(fields['Handler']):#x}.{data.hex() or '-'}"

    def answer(self, room=None):
        """The answer to `info` with enough records, or with `room` of them; and the number of codes."""
        try:
            if self.register == 4:
                raise Refused("43 65535")
            codes, slots = codes_of(dict(self.block)["UnwindCodes"], self.prologue, self.register != 0)
        except Refused as e:
            return f"refused {e}", len(dict(self.block)["UnwindCodes"])
        assert slots == self.count
        data = self.linked.sections[".xdata"][self.place : self.place + 2 * self.count]
        for slot, offset, op, extra, _, _ in codes:
            assert data[2 * slot : 2 * slot + 2] == bytes([offset, 16 * extra + op]), self.name
        if room is not None and room < len(codes):
            return "refused 22 65535", len(codes)
        header = [self.flags, self.prologue, self.register, self.offset, self.place]
        shown = ",".join(f"{c[0]}." + ".".join(map(hex, c[1:5])) for c in codes)
        return " ".join(["ok", *map(hex, header), data.hex() or "-", self.tail_text(), shown or "-"]), len(codes)


def entry_text(entry):
    return ".".join(map(hex, entry))


def cases(linked, printed):
    """Pairs of a request and its answer; a comment has no answer."""
    area, start = linked.sections[".xdata"].hex(), linked.starts[".xdata"]
    found = [("# One info for each entry; the area is the whole of .xdata.", None)]
    for p in printed:
        expected, count = p.answer()
        found.append((f"# {p.name}", None))
        found.append((f"info {area} {start:#x} {p.entry[2]:#x} {count}", expected))
    for name in ("push_rbx", "all_kinds", "both_data"):
        p = next(p for p in printed if p.name == name)
        room = p.answer()[1] - 1
        found.append((f"# {p.name} with one record too few", None))
        found.append((f"info {area} {start:#x} {p.entry[2]:#x} {room}", p.answer(room)[0]))

    def packed(some):
        return b"".join(struct.pack("<III", *p.entry) for p in some).hex()

    def loads(some, size=linked.size, room=None):
        room = len(some) if room is None else room
        return f"table {packed(some)} {BASE:#x} {size:#x} {room}"

    assert packed(printed) == linked.sections[".pdata"].hex()
    overlaps = [p for before, p in zip(printed, printed[1:]) if p.entry[0] < before.entry[1]]
    assert overlaps and all(p.flags == 4 for p in overlaps)
    plain = [p for p in printed if p.flags != 4]
    assert all(a.entry[1] <= b.entry[0] for a, b in zip(plain, plain[1:]))
    end, all_entries = plain[-1].entry[1], "ok " + ",".join(entry_text(p.entry) for p in plain)
    found += [
        ("# The whole of .pdata: chained parts lie inside the function they belong to.", None),
        (loads(printed), "refused 35"),
        ("# The entries that are not chained parts; then sizes and records on both sides.", None),
        (loads(plain), all_entries),
        (loads(plain, size=end), all_entries),
        (loads(plain, size=end - 1), "refused 35"),
        (loads(plain, room=len(plain) + 1), all_entries),
        (loads(plain, room=len(plain) - 1), "refused 22"),
        (loads(plain[::-1]), "refused 35"),
        ("# A function and its chained part, and the part alone.", None),
    ]
    part = overlaps[0]
    parent = printed[printed.index(part) - 1]
    found += [(loads([parent, part]), "refused 35"), (loads([part]), "ok " + entry_text(part.entry))]
    return found


def hex_lines(data):
    return "".join(data[i : i + 32].hex() + "\n" for i in range(0, len(data), 32))


def made():
    """The files by name."""
    files = {"functions.s": assembly()}
    with tempfile.TemporaryDirectory() as folder:
        (Path(folder) / "functions.s").write_text(files["functions.s"])
        command = ["llvm-mc", "-triple", TRIPLE, "-filetype=obj", "functions.s", "-o", "functions.obj"]
        subprocess.run(command, cwd=folder, check=True)
        command = ["llvm-readobj", "--unwind", "functions.obj"]
        text = subprocess.run(command, cwd=folder, check=True, capture_output=True, text=True).stdout
        linked = Object((Path(folder) / "functions.obj").read_bytes())
    files["readobj.txt"] = text.lstrip("\n")
    linked.lay_out()
    for title in linked.starts:
        files[title[1:] + ".hex"] = hex_lines(linked.sections[title])
    whole = dict(blocks(iter(text.splitlines())))["UnwindInformation"]
    printed = [Printed(block, linked) for key, block in whole if key == "RuntimeFunction"]
    pairs = cases(linked, printed)
    files["cases.in"] = "".join(f"{line}\n" for line, _ in pairs)
    files["cases.out"] = "".join(f"{expected}\n" for _, expected in pairs if expected is not None)
    return files


def main(args):
    if args == ["write"]:
        TESTS.mkdir(parents=True, exist_ok=True)
        for name, text in made().items():
            (TESTS / name).write_text(text)
    elif args == ["check"]:
        different = [name for name, text in made().items() if (TESTS / name).read_text() != text]
        if different:
            sys.exit("different: " + " ".join(different))
    else:
        sys.exit(__doc__)


if __name__ == "__main__":
    main(sys.argv[1:])

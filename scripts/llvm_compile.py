#!/usr/bin/env python3
"""Compiled modules written by LLVM's assembler. Each module's functions are spelled as assembly by the rules of a
function's code; code, infos and table are taken from the object, and are the answer to `compile`. It needs llvm-mc;
the stored results were made with LLVM 14. The gate does not run it.

    llvm_compile.py write   writes tests/llvm/compile.s, compile.in and compile.out
    llvm_compile.py check   makes them again, compares them with those stored, and holds model.py against LLVM
    llvm_compile.py count   prints how many modules, functions, steps and operations of each kind there are

The files: compile.s, the assembly of one module after another; compile.in and compile.out, for each module the
requests `compile` and `readback` with their answers. The answer to `readback` is the description.

Two differences between LLVM and the rules are dealt with here:
- A displacement of 0 takes one byte by the rules. LLVM leaves it out, so the spelling asks for it with {disp8}.
- LLVM pads an info without codes to 8 bytes. By the rules it has 4, so those 4 zero bytes are dropped, and the
  infos after it move down.
"""

import random
import struct
import subprocess
import sys
import tempfile
from pathlib import Path

sys.dont_write_bytecode = True
import model
from descriptions import ALLOCATE, CALL, FRAMES, NOP, PRESERVED, PUSH, RESERVE, SAVE, SET, SET_FRAME, VOLATILE, WORKED
from descriptions import fields, random_module, read_back
from llvm_unwind import REGISTERS, TESTS, TRIPLE, Object

FIRST, PAGE = 0x1000, 0x1000

# The modules.


def framed(frame, offset, block, saves=(), operations=()):
    """A function with a set-frame, by the block's size, or 0 for none, and saves as register and offset."""
    steps = [(PUSH, frame, 0)] + [(ALLOCATE, 0, block)] * (block > 0) + [(SET_FRAME, frame, offset)]
    return steps + [(SAVE, *save) for save in saves], list(operations)


def saving(block, *saves):
    return [(ALLOCATE, 0, block)] + [(SAVE, *save) for save in saves], []


def calling(*called):
    """A function with just enough block for calls."""
    return [(ALLOCATE, 0, 40)], [(CALL, k, 0) for k in called]


def long_function(length):
    """A function of this many bytes, as `set`, nop and ret."""
    sets, nops = divmod(length - 1, 7)
    return [], [(SET, 0, n) for n in range(sets)] + [(NOP, 0, 0)] * nops


def boundaries():
    """Modules by what they are about."""
    yield "worked example", [WORKED]
    yield "no step and no operation", [([], [])]
    yield "nops", [([], [(NOP, 0, 0)] * n) for n in (1, 2, 14, 15, 16)]
    yield "each push", [([(PUSH, r, 0)], []) for r in PRESERVED]
    yield "all pushes, both ways", [([(PUSH, r, 0) for r in some], []) for some in (PRESERVED, PRESERVED[::-1])]
    sizes = (8, 16, 112, 120, 128, 136, 524272, 524280, 524288, 524296, 2097144, 2097152)
    yield "allocates", [([(ALLOCATE, 0, n)], []) for n in sizes]
    yield "allocates after pushes", [([(PUSH, 12, 0), (PUSH, 6, 0), (ALLOCATE, 0, n)], [(NOP, 0, 0)]) for n in sizes]
    yield "each save near", [saving(64, (r, 40)) for r in PRESERVED]
    yield "each save at four bytes", [saving(256, (r, 128)) for r in PRESERVED]
    yield "each save far", [saving(2097152, (r, 524288)) for r in PRESERVED]
    yield "eight saves", [
        saving(64, *((r, 8 * i) for i, r in enumerate(PRESERVED))),
        saving(2097152, *((r, 524288 + 8 * i) for i, r in enumerate(PRESERVED))),
    ]
    places = (0, 8, 112, 120, 128, 136, 524264, 524272, 524280, 524288, 524296, 2097136, 2097144)
    yield "save offsets", [saving(2097152, (3, n)) for n in places]
    yield "save offsets, high register", [saving(2097152, (15, n)) for n in places]
    yield "smallest blocks for a save", [saving(n + 8, (12, n)) for n in places]
    for f in FRAMES:
        others = [r for r in PRESERVED if r != f]
        yield f"frame register {f}", [
            framed(f, 0, 0),
            framed(f, 32, 64, [(others[0], 32), (others[-1], 40)], [(RESERVE, 0, 16)]),
            framed(f, 240, 2097152, [(others[1], 0), (others[-2], 2097144)]),
        ]
    yield "frame offsets without a block", [framed(FRAMES[i % 7], 16 * i, 0) for i in range(16)]
    yield "frame offsets in a block of their size", [framed(FRAMES[i % 7], 16 * i, 16 * i) for i in range(1, 16)]
    around = ((240, 104), (240, 112), (240, 120), (16, 8), (16, 16), (16, 24), (16, 128), (16, 136), (16, 144), (0, 0))
    yield "loads at the frame register", [framed(f, o, 256, [(r, n)]) for f, r in ((5, 6), (14, 15)) for o, n in around]
    ends = ((16, 128), (16, 136), (16, 144), (16, 152), (240, 240), (240, 112), (240, 104), (240, 8), (0, 8))
    ends += ((0, 2097152),)
    yield "the epilogue's lea", [framed(f, o, n) for f in (7, 13) for o, n in ends]
    frame, one, other = (SET_FRAME, 13, 16), (SAVE, 12, 40), (SAVE, 3, 0)
    yield "set-frame before, between and after saves", [
        ([(PUSH, 13, 0), (ALLOCATE, 0, 64), *mixed], [(RESERVE, 0, 128), (NOP, 0, 0)])
        for mixed in ((frame, one, other), (one, frame, other), (one, other, frame))
    ]
    ten = [(PUSH, r, 0) for r in (3, 5, 6, 14)] + [(ALLOCATE, 0, 1048600)]
    ten += [(SAVE, 7, 524280), (SET_FRAME, 14, 208), (SAVE, 12, 524288), (SAVE, 13, 0), (SAVE, 15, 120)]
    yield "ten steps", [(ten, [(SET, 15, 5), (RESERVE, 0, 65520)])]
    numbers = (-(2**31), 1 - 2**31, -129, -128, -1, 0, 1, 127, 128, 2**31 - 1)
    yield "set of volatile registers", [([], [(SET, r, n) for n in numbers]) for r in VOLATILE]
    yield "set of pushed registers", [([(PUSH, r, 0)], [(SET, r, n) for n in numbers[::3]]) for r in PRESERVED]
    yield "set of saved registers", [
        ([(ALLOCATE, 0, 8), (SAVE, r, 0)], [(SET, r, n) for n in numbers[1::3]]) for r in PRESERVED
    ]
    yield "reserves", [framed(5, 0, 32, operations=[(RESERVE, 0, n)]) for n in (16, 32, 112, 128, 144, 65504, 65520)]
    yield "many reserves", [framed(15, 32, 40, [(14, 32)], [(RESERVE, 0, n) for n in (16, 128, 65520, 112)])]
    yield "a call to itself", [calling(0)]
    yield "calls forward, backward and to itself", [calling(0, 1, 2), calling(2, 0, 1), calling(1, 2, 0, 0)]
    yield "the least blocks for calls", [
        ([(PUSH, r, 0) for r in PRESERVED[:n]] + [(ALLOCATE, 0, 40 - 8 * (n % 2))], [(CALL, n, 0)]) for n in range(8)
    ]
    yield "a call and saves from 32 up", [framed(5, 0, 64, [(3, 32), (15, 56)], [(CALL, 0, 0), (RESERVE, 0, 16)])]
    yield "ends around a multiple of 16", [([], [(NOP, 0, 0)] * n) for n in (13, 14, 15, 16, 30, 31, 32)]
    yield "a call across long functions", [calling(2), long_function(1786), calling(0, 1)]
    yield "code of 4095 bytes", [long_function(n) for n in (1786, 1786, 511)]
    yield "code of 4096 bytes", [long_function(n) for n in (1786, 1786, 512)]
    yield "code of 4097 bytes", [long_function(n) for n in (1786, 1786, 513)]
    yield "255 operations", [([], [(NOP, 0, 0)] * 255)]
    yield "64 functions without steps", [([], [])] * 64
    yield "64 functions, each of which calls the next", [calling((k + 1) % 64) for k in range(64)]


def randoms():
    """Random modules of 1 to 64 functions."""
    r = random.Random(20)
    for n in [1] * 30 + [2] * 14 + [3] * 12 + [4, 5, 6, 7, 8] * 4 + [9, 12, 17, 33, 64]:
        yield None, random_module(r, n)


def modules():
    """Pairs of a title and a module; the random modules have a title together."""
    (_, first), *rest = randoms()
    return [*boundaries(), ("random modules", first), *rest]


def check_coverage(all_modules):
    """Stops where a kind, a register or a boundary is not among the modules."""
    steps = {step for module in all_modules for own, _ in module for step in own}
    operations = {operation for module in all_modules for _, body in module for operation in body}

    def numbers(records, kind):
        return {n for k, _, n in records if k == kind}

    for kind, registers in ((PUSH, PRESERVED), (SAVE, PRESERVED), (SET_FRAME, FRAMES)):
        assert {first for k, first, _ in steps if k == kind} == set(registers)
    assert {first for k, first, _ in operations if k == SET} == {*VOLATILE, *PRESERVED}
    assert numbers(steps, ALLOCATE) >= {8, 16, 120, 128, 136, 524272, 524280, 524288, 524296, 2097144, 2097152}
    assert numbers(steps, SAVE) >= {0, 8, 112, 120, 128, 136, 524264, 524272, 524280, 524288, 524296, 2097144}
    assert numbers(steps, SET_FRAME) == set(range(0, 241, 16))
    assert numbers(operations, SET) >= {-(2**31), -1, 0, 2**31 - 1}
    assert numbers(operations, RESERVE) >= {16, 112, 128, 65520}
    # All displacements at a frame register are multiples of 8, so these are the nearest to -128 and 127.
    loads, leas, ways = set(), set(), set()
    for module in all_modules:
        for k, (own, body) in enumerate(module):
            block = sum(numbers(own, ALLOCATE))
            for offset in numbers(own, SET_FRAME):
                leas.add(block - offset)
                loads |= {n - offset for n in numbers(own, SAVE)}
            ways |= {(first > k) - (first < k) for kind, first, _ in body if kind == CALL}
    assert loads >= {-136, -128, -120, -8, 0, 8, 112, 120, 128}
    assert leas >= {-240, -136, -128, 0, 8, 112, 120, 128, 136, 2097152}
    assert ways == {-1, 0, 1}
    assert {len(module) for module in all_modules} >= {1, 2, 3, 64}
    assert sum(len(module) for _, module in randoms()) >= 320


# Assembly.


def name(register):
    return "%" + REGISTERS[register].lower()


def access(text, n, base):
    """An instruction that names a place in memory, which stands in `text` as `@`."""
    place = f"{n}({name(base)})"
    return ("{disp8} " if n == 0 else "") + text.replace("@", place)


RSP = 4


def step_lines(kind, register, n):
    if kind == PUSH:
        return [f"pushq {name(register)}", f".seh_pushreg {name(register)}"]
    if kind == ALLOCATE:
        return [f"subq ${n}, %rsp", f".seh_stackalloc {n}"]
    if kind == SET_FRAME:
        return [access(f"leaq @, {name(register)}", n, RSP), f".seh_setframe {name(register)}, {n}"]
    return [access(f"movq {name(register)}, @", n, RSP), f".seh_savereg {name(register)}, {n}"]


def operation_line(kind, first, n):
    return {
        NOP: "nop",
        SET: f"movq ${n}, {name(first % 16)}",
        RESERVE: f"subq ${n}, %rsp",
        CALL: f"callq f{first}",
    }[kind]


def function_lines(steps, operations):
    lines = [line for step in steps for line in step_lines(*step)] + [".seh_endprologue"]
    lines += [operation_line(*operation) for operation in operations]
    block = [n for kind, _, n in steps if kind == ALLOCATE]
    frame = [(register, n) for kind, register, n in steps if kind == SET_FRAME]
    base, offset = frame[0] if frame else (RSP, 0)
    for kind, register, n in reversed(steps):
        if kind == SAVE:
            lines.append(access(f"movq @, {name(register)}", n - offset, base))
    if frame:
        lines.append(access("leaq @, %rsp", sum(block) - offset, base))
    elif block:
        lines.append(f"addq ${block[0]}, %rsp")
    lines += [f"popq {name(register)}" for kind, register, _ in reversed(steps) if kind == PUSH]
    return lines + ["retq"]


def assembly(module):
    lines = ["\t.text"]
    for k, function in enumerate(module):
        lines += ["\t.p2align 4, 0xCC"] * (k > 0) + [f"\t.seh_proc f{k}", f"f{k}:"]
        lines += ["\t" + line for line in function_lines(*function)] + ["\t.seh_endproc"]
    return "".join(line + "\n" for line in lines)


def assembled(text, folder):
    """Code, infos and table of a module, with the infos at their place by the rules."""
    (folder / "module.s").write_text(text)
    command = ["llvm-mc", "-triple", TRIPLE, "-filetype=obj", "module.s", "-o", "module.obj"]
    subprocess.run(command, cwd=folder, check=True)
    linked = Object((folder / "module.obj").read_bytes())
    # Calls stay inside the section, and LLVM fills them in itself.
    assert not linked.relocations[".text"] and not linked.relocations[".xdata"]
    code = bytes(linked.sections[".text"])
    linked.lay_out()
    start = linked.starts[".xdata"]
    assert start == FIRST + -(-len(code) // PAGE) * PAGE
    area, entries = bytes(linked.sections[".xdata"]), list(struct.iter_unpack("<III", linked.sections[".pdata"]))
    infos, table = b"", b""
    for i, (begin, end, at) in enumerate(entries):
        after = entries[i + 1][2] if i + 1 < len(entries) else start + len(area)
        info = area[at - start : after - start]
        if info[2] == 0:
            assert len(info) == 8 and info[4:] == bytes(4)
            info = info[:4]
        table += struct.pack("<III", begin, end, start + len(infos))
        infos += info
    return code, infos, table, start


# Writing.


def made():
    """The files by name."""
    texts, requests, answers = ["# Written by scripts/llvm_compile.py.\n"], [], []
    all_modules = modules()
    check_coverage([module for _, module in all_modules])
    r = random.Random(21)
    with tempfile.TemporaryDirectory() as folder:
        for title, module in all_modules:
            text = assembly(module)
            code, infos, table, start = assembled(text, Path(folder))
            rooms = " ".join(str(len(part) + r.choice([0, 0, 0, 1, 5])) for part in (code, infos, table))
            heading = [f"# {title}"] if title else []
            texts.append("\n" + "".join(f"{line}\n" for line in heading) + text)
            requests += [*heading, f"compile {fields(module)} {rooms}"]
            requests.append(f"readback {table.hex()} {start:#x} {infos.hex()}")
            answers += [f"ok {code.hex()} {infos.hex()} {table.hex()}", read_back(module)]
    return {
        "compile.s": "".join(texts),
        "compile.in": "".join(f"{line}\n" for line in requests),
        "compile.out": "".join(f"{line}\n" for line in answers),
    }


def check_model(files):
    """Stops where the model answers otherwise."""
    requests = [line for line in files["compile.in"].splitlines() if not line.startswith("#")]
    answers = files["compile.out"].splitlines()
    assert len(requests) == len(answers)
    for request, expected in zip(requests, answers):
        found = model.answer(request.encode())
        if found != expected:
            sys.exit(f"{request}\nLLVM:  {expected}\nmodel: {found}")


def count():
    all_modules = modules()
    functions = [function for _, module in all_modules for function in module]
    steps = [kind for own, _ in functions for kind, _, _ in own]
    operations = [kind for _, body in functions for kind, _, _ in body]
    at_random = sum(len(module) for _, module in randoms())
    print(f"{len(all_modules)} modules, {len(functions)} functions, of which {at_random} are random")
    print("steps:", ", ".join(f"{steps.count(i)} {t}" for i, t in enumerate("push allocate set-frame save".split())))
    print("operations:", ", ".join(f"{operations.count(i)} {t}" for i, t in enumerate("nop set reserve call".split())))


def main(args):
    if args == ["write"]:
        TESTS.mkdir(parents=True, exist_ok=True)
        for title, text in made().items():
            (TESTS / title).write_text(text)
    elif args == ["check"]:
        files = made()
        different = [title for title, text in files.items() if (TESTS / title).read_text() != text]
        if different:
            sys.exit("different: " + " ".join(different))
        check_model(files)
    elif args == ["count"]:
        count()
    else:
        sys.exit(__doc__)


if __name__ == "__main__":
    main(sys.argv[1:])

"""A model of the conformance program: it works out the answer to a line from docs/RULES.md, docs/REFUSALS.md
and docs/CONFORMANCE.md, and not by the library. `answer` is the way in."""

import re
import struct

TOP = 2**64
OUTSIDE = 65535


class Bad(Exception):
    """The line cannot be read."""


class Refused(Exception):
    """A call is refused with a number, and a slot index where it carries one."""

    def __str__(self):
        return " ".join(str(n) for n in self.args)


# The notation, section "Notation" of CONFORMANCE.md.


def number(text):
    if re.fullmatch(rb"0x[0-9a-fA-F]+", text):
        value = int(text[2:], 16)
    elif re.fullmatch(rb"[0-9]+", text):
        value = int(text)
    else:
        raise Bad("not a number")
    if value >= TOP:
        raise Bad("number too large")
    return value


def below(limit):
    """Numbers below the limit."""

    def read(text):
        value = number(text)
        if value >= limit:
            raise Bad("number too large")
        return value

    return read


rva = below(2**32)


def signed(text):
    """A number of 32 bits, negative after `-`."""
    value = -number(text[1:]) if text.startswith(b"-") else number(text)
    if not -(2**31) <= value < 2**31:
        raise Bad("number too large")
    return value


def byte_string(text):
    if text == b"-":
        return b""
    if text == b"":
        raise Bad("missing part")
    if not re.fullmatch(rb"[0-9a-f]+", text):
        raise Bad("not a lower-case hexadecimal digit")
    if len(text) % 2:
        raise Bad("odd count of hexadecimal digits")
    return bytes.fromhex(text.decode())


def a_list(text):
    return [] if text == b"-" else text.split(b",")


def exactly(count, parts, reads):
    """The parts, read from the left; a part that lacks or is left over comes after those before it."""
    values = []
    for i in range(count):
        if i == len(parts):
            raise Bad("missing part")
        values.append(reads[i](parts[i]))
    if len(parts) > count:
        raise Bad("too many parts")
    return values


def records(*reads):
    return lambda text: [exactly(len(reads), part.split(b"."), reads) for part in a_list(text)]


def source(text):
    kind, *rest = text.split(b"@")
    if kind == b"flat":
        return kind, *exactly(2, rest, [number, byte_string])
    if kind == b"sparse":
        return kind, *exactly(2, rest, [records(number, number, number), byte_string])
    raise Bad("unknown source")


def layer(text):
    kind, *rest = text.split(b"@")
    if kind != b"limit":
        raise Bad("unknown layer")
    return exactly(1, rest, [records(number, number)])[0]


def memory_text(text):
    first, *rest = text.split(b"|")
    parsed = source(first)
    layers = []
    for part in rest:
        if len(layers) == 4:
            raise Bad("too many layers")
        layers.append(layer(part))
    return parsed, layers


def listed(parts):
    return ",".join(parts) or "-"


def dotted(*numbers):
    return ".".join(hex(n) for n in numbers)


# Memories, section 3 of RULES.md: a memory is a function from an address to a byte or None.


def ranges_memory(ranges, run):
    for _, length, place in ranges:
        if length == 0 or place + length > len(run):
            raise Refused(20)
    end = 0
    for start, length, _ in ranges:
        if start < end or start + length > TOP:
            raise Refused(21)
        end = start + length

    def show(at):
        for start, length, place in ranges:
            if start <= at < start + length:
                return run[place + at - start]
        return None

    return show


def built_source(parsed):
    if parsed[0] == b"flat":
        _, start, run = parsed
        return ranges_memory([(start, len(run), 0)], run)
    _, ranges, run = parsed
    return ranges_memory(ranges, run)


def built_layer(below, windows):
    held = []
    for first, last in windows:
        if first > last or any(first <= b and a <= last for a, b in held):
            raise Refused(33)
        if len(held) == 16:
            raise Refused(34)
        held.append((first, last))
    if not held:
        return below
    return lambda at: below(at) if any(a <= at <= b for a, b in held) else None


def read(fields):
    (parsed, layers), addresses = exactly(2, fields, [memory_text, lambda t: [number(p) for p in a_list(t)]])
    show = built_source(parsed)
    for windows in layers:
        show = built_layer(show, windows)
    parts = []
    for at in addresses:
        byte = show(at)
        parts.append(f"30.{at:#x}" if byte is None else f"{byte:#x}")
    return listed(parts)


# Function tables, section 5 of RULES.md.


def loaded(data, base, size, room):
    """The entries of a table, each as begin, end and info."""
    if len(data) % 12:
        raise Refused(35)
    entries = list(struct.iter_unpack("<III", data))
    if len(entries) > 65536:
        raise Refused(35)
    before = 0
    for begin, end, _ in entries:
        if begin >= end or begin < before or end > size:
            raise Refused(35)
        before = end
    if size == 0 or base + size > TOP:
        raise Refused(36)
    if room < len(entries):
        raise Refused(22)
    return entries


def table(fields):
    entries = loaded(*exactly(4, fields, [byte_string, number, number, number]))
    return listed(dotted(*entry) for entry in entries)


# Unwind infos, section 6 of RULES.md.

# Operations 0, 4 and 5 name an integer register.
WITH_REGISTER = (0, 4, 5)


def slots_taken(op, extra):
    return {0: 1, 1: 2 + extra, 2: 1, 3: 1, 4: 2, 5: 3, 8: 2, 9: 3}[op]


def value_of(op, extra, further):
    """The size or the offset in bytes, from the bytes after the code's first slot; 0 where there is none."""
    stored = int.from_bytes(further, "little")
    if op == 1:
        return stored if extra else 8 * stored
    return {0: 0, 2: 8 * extra + 8, 3: 0, 4: 8 * stored, 5: stored, 8: 16 * stored, 9: stored}[op]


def decoded(slots, prologue, register):
    """The codes, each as slot index, prologue offset, operation, info and value; step 6 of section 6.3."""
    count = len(slots) // 2
    codes = []
    at, before, framed = 0, prologue, False
    while at < count:
        offset, second = slots[2 * at], slots[2 * at + 1]
        op, extra = second % 16, second // 16
        if (
            op in (6, 7) or op >= 10
            or (op == 1 and extra > 1)
            or (op in WITH_REGISTER and extra == 4)
            or (op == 3 and (framed or register == 0))
        ):
            raise Refused(43, at)
        end = at + slots_taken(op, extra)
        if end > count:
            raise Refused(44, at)
        if offset > before:
            raise Refused(45, at)
        codes.append((at, offset, op, extra, value_of(op, extra, slots[2 * at + 2 : 2 * end])))
        framed = framed or op == 3
        at, before = end, offset
    return codes


def viewed(area, start, at, room):
    """Flags, prologue size, frame register, frame offset, place of the slots, slots, tail and codes."""
    place = at - start
    if at % 4 or place < 0 or len(area) - place < 4:
        raise Refused(40, OUTSIDE)
    first, prologue, count, frame = area[place : place + 4]
    version, flags = first % 8, first // 8
    register, offset = frame % 16, frame // 16 * 16
    if version != 1:
        raise Refused(41, OUTSIDE)
    if flags > 4:
        raise Refused(42, OUTSIDE)
    after = place + 4 + 2 * (count + count % 2)
    fixed = {0: 0, 4: 12}.get(flags, 4)
    if after + fixed > len(area):
        raise Refused(40, OUTSIDE)
    if register == 4:
        raise Refused(43, OUTSIDE)
    slots = area[place + 4 : place + 4 + 2 * count]
    codes = decoded(slots, prologue, register)
    if room < len(codes):
        raise Refused(22, OUTSIDE)
    if flags == 0:
        tail = "none"
    elif flags == 4:
        tail = "chained." + dotted(*struct.unpack_from("<III", area, after))
    else:
        (handler,) = struct.unpack_from("<I", area, after)
        tail = f"handler.{handler:#x}.{area[after + 4 :].hex() or '-'}"
    return flags, prologue, register, offset, place + 4, slots, tail, codes


def info(fields):
    *numbers, slots, tail, codes = viewed(*exactly(4, fields, [byte_string, rva, rva, number]))
    shown = listed(f"{slot}.{dotted(*rest)}" for slot, *rest in codes)
    return " ".join([*map(hex, numbers), slots.hex() or "-", tail, shown])


# Frame descriptions, section 10 of RULES.md: a step is kind, register, number; an operation kind, first, number.

PRESERVED = (3, 5, 6, 7, 12, 13, 14, 15)
VOLATILE = (0, 1, 2, 8, 9, 10, 11)
PUSH, ALLOCATE, SET_FRAME, SAVE = range(4)
NOP, SET, RESERVE, CALL = range(4)


class Steps:
    """What a function's steps say."""

    def __init__(self, steps):
        self.pushed = [register for kind, register, _ in steps if kind == PUSH]
        self.saved = [(register, n) for kind, register, n in steps if kind == SAVE]
        self.allocates = [n for kind, _, n in steps if kind == ALLOCATE]
        self.frames = [(register, n) for kind, register, n in steps if kind == SET_FRAME]
        self.named = self.pushed + [register for register, _ in self.saved]
        self.block = sum(self.allocates)


def check_step(step, before, calls):
    """12 to 15 for a step, by the steps before it and whether the body has a call."""
    kind, register, n = step
    if (
        kind > 3
        or (kind in (PUSH, SAVE) and register not in PRESERVED)
        or (kind == PUSH and n != 0)
        or (kind == ALLOCATE and register != 0)
    ):
        raise Refused(12)
    if kind in (PUSH, SAVE) and register in before.named:
        raise Refused(13)
    if (
        (kind in (PUSH, ALLOCATE) and (before.allocates or before.frames or before.saved))
        or (kind == SET_FRAME and (before.frames or register == 12 or register not in before.pushed))
    ):
        raise Refused(14)
    if (
        (kind == ALLOCATE and not (8 <= n <= 2097152 and n % 8 == 0))
        or (kind == SET_FRAME and not (n <= 240 and n % 16 == 0))
        or (kind == SAVE and (n % 8 or n + 8 > before.block or (calls and n < 32)))
        or (kind == SAVE and n in [at for _, at in before.saved])
    ):
        raise Refused(15)


def check_operation(operation, steps, functions):
    kind, first, n = operation
    framed = [register for register, _ in steps.frames]
    if kind == NOP:
        good = first == 0 and n == 0
    elif kind == SET:
        good = first in VOLATILE or (first in steps.named and first not in framed)
    elif kind == RESERVE:
        good = first == 0 and framed and 16 <= n <= 65520 and n % 16 == 0
    elif kind == CALL:
        good = first < functions and n == 0
    else:
        good = False
    if not good:
        raise Refused(17)


def checked(counts, steps, operations):
    """The functions, each as its steps and its operations."""
    if not 1 <= len(counts) <= 64:
        raise Refused(10)
    if (
        any(s > 10 or o > 255 for s, o in counts)
        or sum(s for s, _ in counts) != len(steps)
        or sum(o for _, o in counts) != len(operations)
    ):
        raise Refused(11)
    functions = []
    for s, o in counts:
        functions.append((steps[:s], operations[:o]))
        steps, operations = steps[s:], operations[o:]
    for own, body in functions:
        calls = any(kind == CALL for kind, _, _ in body)
        for i, step in enumerate(own):
            check_step(step, Steps(own[:i]), calls)
        all_steps = Steps(own)
        if calls and ((8 * len(all_steps.pushed) + all_steps.block) % 16 != 8 or all_steps.block < 32):
            raise Refused(16)
        for operation in body:
            check_operation(operation, all_steps, len(counts))
    return functions


# Compiled modules, section 11 of RULES.md.


def sized(n):
    """The mode and the bytes of a displacement or immediate."""
    return (1, struct.pack("<b", n)) if -128 <= n <= 127 else (2, struct.pack("<i", n))


def push(r):
    return b"\x41" * (r // 8) + bytes([0x50 + r % 8])


def pop(r):
    return b"\x41" * (r // 8) + bytes([0x58 + r % 8])


def move_rsp(byte, n):
    """sub RSP with byte EC, add RSP with byte C4."""
    mode, data = sized(n)
    return bytes([0x48, 0x83 if mode == 1 else 0x81, byte]) + data


def at_rsp(opcode, r, n):
    mode, data = sized(n)
    return bytes([0x48 + 4 * (r // 8), opcode, 64 * mode + 8 * (r % 8) + 4, 0x24]) + data


def at_frame(opcode, r, f, n):
    mode, data = sized(n)
    return bytes([0x48 + 4 * (r // 8) + f // 8, opcode, 64 * mode + 8 * (r % 8) + f % 8]) + data


STORE, LOAD, LEA = 0x89, 0x8B, 0x8D


def step_code(step):
    kind, register, n = step
    if kind == PUSH:
        return push(register)
    if kind == ALLOCATE:
        return move_rsp(0xEC, n)
    return at_rsp(LEA if kind == SET_FRAME else STORE, register, n)


def operation_code(operation, at, begins):
    """The instruction of an operation at an RVA."""
    kind, first, n = operation
    if kind == NOP:
        return b"\x90"
    if kind == SET:
        return bytes([0x48 + first // 8, 0xC7, 0xC0 + first % 8]) + struct.pack("<i", n)
    if kind == RESERVE:
        return move_rsp(0xEC, n)
    return b"\xe8" + struct.pack("<i", begins[first] - (at + 5))


def function_code(steps, operations, begin, begins):
    code = b"".join(map(step_code, steps))
    for operation in operations:
        code += operation_code(operation, begin + len(code), begins)
    all_steps = Steps(steps)
    for register, n in reversed(all_steps.saved):
        if all_steps.frames:
            f, offset = all_steps.frames[0]
            code += at_frame(LOAD, register, f, n - offset)
        else:
            code += at_rsp(LOAD, register, n)
    if all_steps.frames:
        f, offset = all_steps.frames[0]
        code += at_frame(LEA, 4, f, all_steps.block - offset)
    elif all_steps.allocates:
        code += move_rsp(0xC4, all_steps.block)
    return code + b"".join(map(pop, reversed(all_steps.pushed))) + b"\xc3"


def code_slots(step, end):
    kind, register, n = step
    if kind == PUSH:
        return bytes([end, 16 * register])
    if kind == ALLOCATE and n <= 128:
        return bytes([end, 16 * (n // 8 - 1) + 2])
    if kind == ALLOCATE and n <= 524280:
        return bytes([end, 1]) + struct.pack("<H", n // 8)
    if kind == ALLOCATE:
        return bytes([end, 17]) + struct.pack("<I", n)
    if kind == SET_FRAME:
        return bytes([end, 3])
    if n <= 524280:
        return bytes([end, 16 * register + 4]) + struct.pack("<H", n // 8)
    return bytes([end, 16 * register + 5]) + struct.pack("<I", n)


def function_info(steps):
    slots, end = b"", 0
    for step in steps:
        end += len(step_code(step))
        slots = code_slots(step, end) + slots
    f, offset = (Steps(steps).frames or [(0, 0)])[0]
    count = len(slots) // 2
    return bytes([1, end, count, 16 * (offset // 16) + f]) + slots + bytes(2 * (count % 2))


def compiled(functions):
    """Code, infos and table."""
    begins, at = [], 4096
    for steps, operations in functions:
        begins.append(at)
        # A call has the same length wherever it leads.
        at += len(function_code(steps, operations, at, [0] * len(functions)))
        at += -at % 16
    code, infos, entries = b"", b"", []
    for begin, (steps, operations) in zip(begins, functions):
        code += b"\xcc" * (begin - 4096 - len(code)) + function_code(steps, operations, begin, begins)
        entries.append((begin, 4096 + len(code), len(infos)))
        infos += function_info(steps)
    start = 4096 + len(code) + -len(code) % 4096
    return code, infos, b"".join(struct.pack("<III", begin, end, start + place) for begin, end, place in entries)


def compile_module(fields):
    byte, count = below(2**8), below(2**16)
    reads = [records(count, count), records(byte, byte, below(2**32)), records(byte, byte, signed)]
    counts, steps, operations, *rooms = exactly(6, fields, reads + [number] * 3)
    parts = compiled(checked(counts, steps, operations))
    if any(room < len(part) for room, part in zip(rooms, parts)):
        raise Refused(18)
    return " ".join(part.hex() for part in parts)


# Reading back: the steps that an info's codes come from.


def step_of(op, extra, value, register, offset):
    """The step of a code; register and offset are the info's frame register and frame offset."""
    if op == 0:
        return PUSH, extra, 0
    if op in (1, 2):
        return ALLOCATE, 0, value
    if op == 3:
        return SET_FRAME, register, offset
    if op in (4, 5):
        return SAVE, extra, value
    raise Refused(43)


def steps_at(area, start, at):
    try:
        flags, _, register, offset, _, _, _, codes = viewed(area, start, at, 255)
    except Refused as e:
        raise Refused(e.args[0])
    if flags != 0:
        raise Refused(42)
    return [step_of(op, extra, value, register, offset) for _, _, op, extra, value in reversed(codes)]


def readback(fields):
    data, start, area = exactly(3, fields, [byte_string, rva, byte_string])
    entries = loaded(data, 0, start + len(area), 65536)
    functions = [steps_at(area, start, at) for _, _, at in entries]
    counts = listed(f"{len(steps)}.0" for steps in functions)
    return f"{counts} {listed(dotted(*step) for steps in functions for step in steps)}"


REQUESTS = {b"read": read, b"table": table, b"info": info, b"compile": compile_module, b"readback": readback}


def answer(line):
    """The answer to a line without its line end, or None where it is passed over."""
    if line == b"" or line.startswith(b"#"):
        return None
    name, *fields = line.split(b" ")
    try:
        if name not in REQUESTS:
            raise Bad("unknown request")
        return "ok " + REQUESTS[name](fields)
    except Bad as e:
        return f"bad {e}"
    except Refused as e:
        return f"refused {e}"

"""Frame descriptions for tests: how requests and answers write them, and random ones that the rules accept.

A module is a list of functions. A function is its steps, each kind, register, number, and its operations, each
kind, first, number.
"""

PRESERVED = (3, 5, 6, 7, 12, 13, 14, 15)
VOLATILE = (0, 1, 2, 8, 9, 10, 11)
FRAMES = (3, 5, 6, 7, 13, 14, 15)

PUSH, ALLOCATE, SET_FRAME, SAVE = range(4)
NOP, SET, RESERVE, CALL = range(4)

# The function of the worked example in RULES.md.
WORKED = ([(PUSH, 5, 0), (PUSH, 3, 0), (ALLOCATE, 0, 56), (SET_FRAME, 5, 32), (SAVE, 6, 40)], [(NOP, 0, 0)])

# Where a form of an instruction or of a code ends, and the neighbours.
BLOCKS = (8, 16, 24, 32, 40, 56, 64, 112, 120, 128, 136, 144, 240, 248, 256, 4096)
BLOCKS += (524264, 524272, 524280, 524288, 524296, 1048576, 2097136, 2097144, 2097152)
OFFSETS = (0, 8, 24, 32, 40, 112, 120, 128, 136, 524264, 524272, 524280, 524288, 524296, 2097136, 2097144)
NUMBERS = (0, 1, -1, 127, 128, -128, -129, 65536, 2**31 - 1, 2**31 - 2, -(2**31), 1 - 2**31)
RESERVES = (16, 32, 112, 128, 144, 4096, 65504, 65520)


def record_list(records, spell):
    return ",".join(".".join(map(spell, record)) for record in records) or "-"


def fields(module, spell=str):
    """The fields COUNTS, STEPS and OPS."""
    counts = [(len(steps), len(operations)) for steps, operations in module]
    steps = [step for steps, _ in module for step in steps]
    operations = [operation for _, operations in module for operation in operations]
    return " ".join(record_list(records, spell) for records in (counts, steps, operations))


def read_back(module):
    """What `readback` answers for what compile made of this module."""
    counts = ",".join(f"{len(steps)}.0" for steps, _ in module)
    return f"ok {counts} {record_list([step for steps, _ in module for step in steps], hex)}"


# Random functions.


def random_offsets(r, low, block, frame_offset, count):
    """Different slots for saves, from `low` up inside the block; many where some form ends."""
    wanted = [*OFFSETS, *(frame_offset + n for n in (-136, -128, -120, 0, 112, 120, 128)), block - 16, block - 8]
    inside = sorted({n for n in wanted if low <= n <= block - 8})
    inside += [8 * r.randint(low // 8, block // 8 - 1) for _ in range(count)]
    return r.sample(sorted(set(inside)), min(count, len(set(inside))))


def random_operation(r, kind, settable, functions):
    if kind == NOP:
        return NOP, 0, 0
    if kind == SET:
        return SET, r.choice(settable), r.choice([*NUMBERS, r.randint(-(2**31), 2**31 - 1)])
    if kind == RESERVE:
        return RESERVE, 0, r.choice([*RESERVES, 16 * r.randint(1, 4095)])
    return CALL, r.randrange(functions), 0


def random_function(r, functions):
    """A function that the rules accept in a module of this many functions."""
    calls = r.random() < 0.4
    registers = list(PRESERVED)
    r.shuffle(registers)
    count = r.choice([0, 1, 1, 2, 2, 3, 4, 8])
    pushed, rest = registers[:count], registers[count:]
    block = r.choice([0, 0, *BLOCKS, *BLOCKS, 8 * r.randint(1, 60), 8 * r.randint(1, 262144)])
    if calls:
        block = max(block, 32)
        if (8 * count + block) % 16 != 8:
            block += 8 if block < 2097152 else -8
    frames = [(SET_FRAME, f, 16 * r.randrange(16)) for f in pushed if f in FRAMES and r.random() < 0.7][:1]
    low = 32 if calls else 0
    saves = min(len(rest), max(0, block - low) // 8, r.choice([0, 0, 1, 1, 2, 3, 8]))
    offsets = random_offsets(r, low, block, frames[0][2] if frames else 0, saves) if saves else []
    saved = rest[: len(offsets)]
    mixed = frames + [(SAVE, *save) for save in zip(saved, offsets)]
    r.shuffle(mixed)
    steps = [(PUSH, register, 0) for register in pushed] + [(ALLOCATE, 0, block)] * (block > 0) + mixed
    framed = [f for _, f, _ in frames]
    settable = [register for register in (*VOLATILE, *pushed, *saved) if register not in framed]
    kinds = [NOP, SET, SET] + [RESERVE] * len(frames) + [CALL, CALL] * calls
    operations = [
        random_operation(r, r.choice(kinds), settable, functions) for _ in range(r.choice([0, 1, 1, 2, 3, 3, 5, 9]))
    ]
    return steps, operations


def random_module(r, functions):
    return [random_function(r, functions) for _ in range(functions)]

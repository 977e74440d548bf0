#!/usr/bin/env python3
"""Cases for the conformance program. The answers come from model.py and, for the cases under tests/llvm, from
LLVM; never from the program itself.

    stored_cases.py stored              writes crates/conformance/stdin and crates/conformance/stdout
    stored_cases.py random N SEED DIR [REQUEST ..]
                                        writes N random lines to DIR/stdin and their answers to DIR/stdout; they are
                                        of the requests named, or of those in SERVED
    stored_cases.py new DIR [REQUEST ..]
                                        the same for the cases of compile and readback, or of one of them
    stored_cases.py long DIR            the same for tables of 65,536 and 65,537 entries, too long to be stored; and
                                        for the largest module, once compile is in SERVED
    stored_cases.py count               prints how many requests of each kind are stored, and how many are new
"""

import random
import re
import struct
import sys
from pathlib import Path

sys.dont_write_bytecode = True
from descriptions import NUMBERS, PRESERVED, WORKED, fields, random_module, read_back, record_list
from model import TOP, answer

ROOT = Path(__file__).resolve().parent.parent
CRATE = ROOT / "crates" / "conformance"
LLVM = ROOT / "tests" / "llvm"

# The requests that the program serves. `stored` writes the cases of these; the cases of NEW come in once they are here.
SERVED = ("read", "compile", "readback", "table", "info")
NEW = ("compile", "readback")

# Requests for `read`.


def windows(count, step=2, first=0):
    return ",".join(f"{first + step * i}.{first + step * i}" for i in range(count))


LAST = "0xffffffffffffffff"
BEFORE = "0xfffffffffffffffe"

STORED = f"""\
# Flat images.
read flat@0x1000@5548 0xfff,0x1000,0x1001,0x1002
read flat@4096@5508 4097
read flat@4096@5508 -
read flat@0@00 0,1,{LAST}
read flat@0x0000000000001000@00ff 0x1000,0x00001001,4097
read flat@0xABC@7f 0xabc,0xAbC,2748
read flat@0x1000@0001020304050607 0x1007,0x1000,0x1007,0x1000

# Sparse dumps: a hole, ranges that touch, shared bytes of the run, no range, unused bytes of the run.
read sparse@0x1000.2.0,0x1003.3.2@0102030405 0xfff,0x1000,0x1001,0x1002,0x1003,0x1005,0x1006
read sparse@0x1000.2.0,0x1002.2.2@01020304 0x1000,0x1001,0x1002,0x1003,0x1004
read sparse@0x1000.2.0,0x2000.2.1@aabbcc 0x1001,0x2000,0x2001
read sparse@0x1000.3.0,0x2000.3.0,0x3000.3.0@aabbcc 0x1002,0x2000,0x3001,0x3003
read sparse@0x1000.1.2,0x2000.1.0@aabbcc 0x1000,0x2000,0x2001
read sparse@-@- 0
read sparse@-@0102 0,1
read sparse@5.1.1@000102 4,5,6
read sparse@0.1.0,2.1.0,4.1.0,6.1.0,8.1.0,10.1.0,12.1.0@ee 0,1,2,3,4,5,6,7,8,9,10,11,12,13

# Limit layers: no window, one, several, touching, out of order, over everything.
read flat@0x1000@0102030405|limit@- 0xfff,0x1000,0x1004,0x1005
read flat@0x1000@0102030405|limit@0x1001.0x1003 0x1000,0x1001,0x1003,0x1004
read flat@0x1000@0102030405|limit@0x1003.0x1010,0x1001.0x1001 0x1000,0x1001,0x1002,0x1003,0x1004,0x1005
read flat@0x1000@010203|limit@0x1000.0x1000,0x1001.0x1001 0x1000,0x1001,0x1002
read flat@0x1000@0102030405|limit@0x1004.0x1004,0x1000.0x1000,0x1002.0x1002 0x1000,0x1001,0x1002,0x1003,0x1004
read flat@0x1000@01|limit@0.{LAST} 0x1000,0xfff
read flat@0x1000@01|limit@0.0xfff 0x1000,0
read flat@0x1000@01|limit@0x1001.{LAST} 0x1000,0x1001
read sparse@0x1000.2.0,0x1003.3.2@0102030405|limit@0x1001.0x1003 0x1000,0x1001,0x1002,0x1003,0x1004
read sparse@-@-|limit@0.{LAST} 0,1

# Piles.
read flat@0x1000@010203|limit@0x1000.0x1001|limit@0x1001.0x1002 0x1000,0x1001,0x1002
read flat@0x1000@010203|limit@-|limit@0x1001.0x1001 0x1000,0x1001,0x1002
read flat@0x1000@010203|limit@0x1001.0x1001|limit@- 0x1000,0x1001,0x1002
read flat@0@0102030405060708|limit@0.6|limit@1.7|limit@2.5 0,1,2,5,6,7
read sparse@0.4.0,6.2.4@010203040506|limit@1.7|limit@0.3,5.6|limit@- 0,1,3,4,5,6,7
read flat@0@0102030405060708|limit@0.6|limit@1.7|limit@2.5|limit@3.3,5.5 0,1,2,3,4,5,6,7
read flat@0@01|limit@-|limit@-|limit@-|limit@- 0
read flat@0@01|limit@-|limit@-|limit@-|limit@-|limit@- 0
read flat@0@-|limit@-|limit@-|limit@-|limit@-|limit@- 0
read flat@0@01|limit@-|limit@-|limit@-|limit@-|none 0

# The end of the addresses.
read flat@{LAST}@c3 {LAST},{BEFORE},0
read flat@{BEFORE}@c390 {LAST},{BEFORE}
read flat@{LAST}@c390 0
read flat@{BEFORE}@c39090 0
read flat@18446744073709551615@c3 18446744073709551615
read sparse@{BEFORE}.2.0@0102 {BEFORE},{LAST}
read sparse@0.1.0,{LAST}.1.1@0102 0,{LAST},1
read sparse@{BEFORE}.3.0@010203 0
read sparse@{LAST}.1.0,0.1.0@01 0
read flat@{LAST}@c3|limit@{LAST}.{LAST} {LAST}
read flat@{BEFORE}@c390|limit@{LAST}.{LAST},0.{BEFORE} {BEFORE},{LAST}

# Refusal 20 on both sides of its boundaries.
read flat@0x1000@- 0x1000
read sparse@0x1000.0.0@01 0x1000
read sparse@0x1000.0.0@- 0x1000
read sparse@0x1000.1.0@- 0x1000
read sparse@0x1000.5.0@0102030405 0x1004
read sparse@0x1000.6.0@0102030405 0x1000
read sparse@0x1000.1.4@0102030405 0x1000
read sparse@0x1000.2.4@0102030405 0x1000
read sparse@0x1000.1.5@0102030405 0x1000
read sparse@0.2.{LAST}@0102 0
read sparse@0.{LAST}.0@0102 0
read sparse@0.{LAST}.2@0102 0
read sparse@0.1.0,1.0.0@01 0
read sparse@0.1.0,1.1.1@01 0

# Refusal 21 on both sides, and after 20.
read sparse@0x1000.2.0,0x1002.1.2@010203 0x1002
read sparse@0x1000.2.0,0x1001.1.2@010203 0x1000
read sparse@0x2000.1.0,0x1000.1.1@0102 0
read sparse@0x1000.1.0,0x1000.1.1@0102 0
read sparse@1.1.0,2.1.0,1.1.0@01 1
read sparse@0x2000.1.0,0x1000.1.1,0x3000.9.0@0102 0
read sparse@{LAST}.2.0,0.0.0@0102 0
read sparse@0.1.0,{LAST}.2.0@0102 0

# Refusal 33 on both sides: first above last, an overlap at either end, inside, around, the same.
read flat@0@0102030405060708|limit@2.1 0
read flat@0@0102030405060708|limit@2.2 2
read flat@0@0102030405060708|limit@{LAST}.0 0
read flat@0@0102030405060708|limit@0.2,2.3 0
read flat@0@0102030405060708|limit@0.2,3.3 3
read flat@0@0102030405060708|limit@2.3,0.2 0
read flat@0@0102030405060708|limit@2.3,0.1 0
read flat@0@0102030405060708|limit@0.7,3.4 0
read flat@0@0102030405060708|limit@3.4,0.7 0
read flat@0@0102030405060708|limit@3.4,3.4 0
read flat@0@0102030405060708|limit@0.1,4.5,6.7,3.4 0
read flat@0@0102030405060708|limit@0.1,4.5,6.7,2.3 0,3
read flat@0@01|limit@0.{LAST},5.5 0
read flat@0@01|limit@-|limit@0.0|limit@1.0 0

# Refusal 34: sixteen windows, a seventeenth, and 33 before 34.
read flat@0@01|limit@{windows(16)} 0,1,30
read flat@0@01|limit@{windows(17)} 0
read flat@0@01|limit@{windows(16)},30.31 0
read flat@0@01|limit@{windows(16)},40.39 0
read flat@0@01|limit@{windows(16)},31.31 0
read flat@0@01|limit@{windows(18)} 0
read flat@0@01|limit@{windows(16, -2, 30)} 0,1
read flat@0@01|limit@{windows(16, 1)}|limit@{windows(16, 1)} 0,1
read flat@0@01|limit@{windows(16)}|limit@{windows(17)} 0

# What is refused first.
read flat@0@-|limit@2.1 0
read sparse@1.1.0,0.1.0@01|limit@2.1 0
read flat@0@01|limit@2.1|limit@{windows(17)} 0
read flat@0@01|limit@{windows(17)}|limit@2.1 0

# Lines that cannot be read, though a refusal would come too.
read flat@0@- x
read flat@0@-|limit@2.1|limit@1 0
read flat@0@-|none 0

# Lines that cannot be read.
write flat@0@01 0
Read flat@0@01 0
 read flat@0@01 0
reads flat@0@01 0
rea flat@0@01 0
read
read flat@0@01
read flat@0@01 0 0
read flat@0@01 0 
read  flat@0@01 0
read round@0@01 0
read limit@- 0
read flat@0@01|flat@0@01 0
read flat@0@01| 0
read flat@0 0
read flat 0
read flat@0@01@02 0
read sparse@- 0
read sparse@-@-@- 0
read sparse@1.1@01 0
read sparse@1.1.1.1@01 0
read sparse@1@01 0
read sparse@1..0@01 0
read flat@0@01|limit 0
read flat@0@01|limit@ 0
read flat@0@01|limit@-@- 0
read flat@0@01|limit@1 0
read flat@0@01|limit@1.2.3 0
read flat@0@01|limit@1.2, 0
read flat@0@01 0,
read flat@0@01 ,0
read flat@0@01 0,,0
read flat@0@01 0x
read flat@0@01 x
read flat@0@01 0X1
read flat@0@01 -1
read flat@0@01 +1
read flat@0@01 1a
read flat@0@01 0xg
read flat@0@01 0x1_0
read flat@-@01 0
read flat@0@01 18446744073709551616
read flat@0@01 18446744073709551615
read flat@0@01 0x10000000000000000
read flat@0@01 0x0ffffffffffffffff
read flat@0@01 340282366920938463463374607431768211456
read flat@0@01 99999999999999999999999999999999999999999999
read flat@0@01 99999999999999999999999999999999999999999999x
read flat@0@ 0
read flat@0@0 0
read flat@0@012 0
read flat@0@0g 0
read flat@0@0A 0
read flat@0@0x01 0
read flat@0@-- 0
read flat@0@g 0
"""

# Line ends, bytes that are no text, and a last line without an end.
ENDS = [
    b"read flat@0@01 0\r\n",
    b"\r\n",
    b"#\r\n",
    b"read flat@0@01 0\r\r\n",
    b"read flat@0@01 \xff\n",
    b"\xff\xfe\n",
    b"read flat@0@\xc3\xa9 0\n",
    b"read\x00flat@0@01 0\n",
    b"read flat@0@01 0\t\n",
    b"read flat@0@01 0",
]

# Requests for `table` and `info`. After the arrow stands the answer that is meant, or how it begins; the answer
# that is stored comes from the model, and both have to agree.


def table(*entries):
    return b"".join(struct.pack("<III", *entry) for entry in entries).hex()


ONE = table((0x1000, 0x101C, 0x2000))
TWO = table((0x1000, 0x1010, 0x2000), (0x1010, 0x1020, 0x2008))

TABLES = f"""
# No entry, one, several; every number of 32 bits; the info's RVA is not checked.
table - 0 1 0 => ok -
table - 0 1 5 => ok -
table - 0x140000000 0x3000 {LAST} => ok -
table {ONE} 0x140000000 0x2010 1 => ok 0x1000.0x101c.0x2000
table {ONE} 5368709120 8208 2 => ok 0x1000.0x101c.0x2000
table {table((0, 1, 0))} 0 1 1 => ok 0x0.0x1.0x0
table {table((0x01020304, 0x05060708, 0x090A0B0C))} 0 0x05060708 1 => ok 0x1020304.0x5060708.0x90a0b0c
table {table((0xFFFFFFFE, 0xFFFFFFFF, 0xFFFFFFFF))} 0 0xffffffff 1 => ok 0xfffffffe.0xffffffff.0xffffffff
table {table((0, 0xFFFFFFFF, 3))} 0 0x100000000 1 => ok 0x0.0xffffffff.0x3
table {table((1, 2, 0xFFFFFFFF), (2, 3, 1), (9, 11, 0))} 0 0x10000000000 4 => ok 0x1.0x2.0xffffffff,0x2.0x3.0x1,0x9.0xb.0x0
table {table(*((4 * i, 4 * i + 3, 8 * i) for i in range(20)))} 0x10000 0x1000 20 => ok 0x0.0x3.0x0,0x4.0x7.0x8

# 35, the number of bytes.
table 00 0 1 0 => refused 35
table {ONE[:-2]} 0 0x3000 9 => refused 35
table {ONE}00 0 0x3000 9 => refused 35
table {ONE[:8]} 0 0x3000 9 => refused 35
table {ONE[:16]} 0 0x3000 9 => refused 35
table {TWO[:-2]} 0 0x3000 9 => refused 35
table {TWO} 0 0x3000 9 => ok 0x1000.0x1010.0x2000,0x1010.0x1020.0x2008
table {TWO}00 0 0x3000 9 => refused 35

# 35, begin and end of an entry.
table {table((0x1000, 0x1001, 0))} 0 0x3000 1 => ok 0x1000.0x1001.0x0
table {table((0x1000, 0x1000, 0))} 0 0x3000 1 => refused 35
table {table((0x1001, 0x1000, 0))} 0 0x3000 1 => refused 35
table {table((0, 0, 0))} 0 0x3000 1 => refused 35
table {table((0xFFFFFFFF, 0, 0))} 0 0x3000 1 => refused 35
table {table((0, 1, 0), (5, 5, 0), (6, 7, 0))} 0 0x3000 3 => refused 35
table {table((0, 1, 0), (5, 6, 0), (7, 7, 0))} 0 0x3000 3 => refused 35

# 35, two entries: a gap, touching, an overlap of one, inside, the same, out of order.
table {table((0x1000, 0x1010, 0), (0x1011, 0x1020, 0))} 0 0x3000 2 => ok
table {table((0x1000, 0x1010, 0), (0x1010, 0x1020, 0))} 0 0x3000 2 => ok
table {table((0x1000, 0x1010, 0), (0x100F, 0x1020, 0))} 0 0x3000 2 => refused 35
table {table((0x1000, 0x1010, 0), (0x1004, 0x1008, 0))} 0 0x3000 2 => refused 35
table {table((0x1000, 0x1010, 0), (0x1000, 0x1010, 0))} 0 0x3000 2 => refused 35
table {table((0x1010, 0x1020, 0), (0x1000, 0x1010, 0))} 0 0x3000 2 => refused 35
table {table((1, 2, 0), (2, 3, 0), (3, 4, 0), (4, 5, 0))} 0 0x3000 4 => ok
table {table((1, 2, 0), (2, 4, 0), (3, 4, 0), (4, 5, 0))} 0 0x3000 4 => refused 35
table {table((1, 2, 0), (2, 3, 0), (3, 4, 0), (3, 5, 0))} 0 0x3000 4 => refused 35

# 35, the end and the size.
table {table((0x1000, 0x1010, 0))} 0 0x1011 1 => ok
table {table((0x1000, 0x1010, 0))} 0 0x1010 1 => ok
table {table((0x1000, 0x1010, 0))} 0 0x100f 1 => refused 35
table {TWO} 0 0x1020 2 => ok
table {TWO} 0 0x101f 2 => refused 35
table {TWO} 0 0x1010 2 => refused 35
table {table((0, 0xFFFFFFFF, 0))} 0 0xfffffffe 1 => refused 35
table {table((0, 0xFFFFFFFF, 0))} 0 {LAST} 1 => ok

# 36 on both sides.
table - 0 0 0 => refused 36
table - {LAST} 0 0 => refused 36
table - {LAST} 1 0 => ok -
table - {LAST} 2 0 => refused 36
table - 0 {LAST} 0 => ok -
table - 1 {LAST} 0 => ok -
table - 2 {LAST} 0 => refused 36
table - {LAST} {LAST} 0 => refused 36
table {table((0, 0x1000, 0))} 0xfffffffffffff000 0x1000 1 => ok
table {table((0, 0x1000, 0))} 0xfffffffffffff000 0x1001 1 => refused 36

# 22 on both sides.
table {ONE} 0 0x3000 0 => refused 22
table {TWO} 0 0x3000 0 => refused 22
table {TWO} 0 0x3000 1 => refused 22
table {TWO} 0 0x3000 2 => ok
table {TWO} 0 0x3000 3 => ok

# 35 before 36 before 22.
table {ONE} 0 0 1 => refused 35
table 00 {LAST} 2 0 => refused 35
table {table((1, 1, 0))} {LAST} 2 0 => refused 35
table {table((1, 3, 0), (2, 4, 0))} {LAST} 0x3000 0 => refused 35
table {table((1, 3, 0), (2, 4, 0))} 0 0x3000 0 => refused 35
table {ONE} {LAST} 0x3000 0 => refused 36
table {ONE} {LAST} 0x3000 1 => refused 36

# Lines that cannot be read, some though a refusal would come too.
table => bad
table - => bad
table - 0 => bad
table - 0 1 => bad
table - 0 1 0 0 => bad
table  - 0 1 0 => bad
table -  0 1 0 => bad
tables - 0 1 0 => bad
Table - 0 1 0 => bad
table 0 0 1 0 => bad
table {ONE[:-1]} 0 0x3000 1 => bad
table 0x00 0 1 0 => bad
table 0A0000000b00000000000000 0 0x3000 1 => bad
table -- 0 1 0 => bad
table - x 1 0 => bad
table - 0 - 0 => bad
table - 0 1 -1 => bad
table - 0x10000000000000000 1 0 => bad
table - 0 18446744073709551616 0 => bad
table - 0 1 18446744073709551616 => bad
table - 0 1 18446744073709551615 => ok -
table 00 0 0 x => bad
table 00 {LAST} 2 => bad
"""

# The info of the worked example in RULES.md.
EXAMPLE = "01100625106405000b03066202300150"
EXAMPLE_CODES = "0.0x10.0x4.0x6.0x28,2.0xb.0x3.0x0.0x0,3.0x6.0x2.0x6.0x38,4.0x2.0x0.0x3.0x0,5.0x1.0x0.0x5.0x0"
# One code of each kind, the largest values; frame register 13 at 240; 19 slots and a pad.
KINDS = "01ff13fdffe0fe01fffffd11ffffffff" + "fcf2fb03fa64fffff975fffffffff8f8fffff709fffffffff650" + "aabb"
KINDS_CODES = (
    "0.0xff.0x0.0xe.0x0,1.0xfe.0x1.0x0.0x7fff8,3.0xfd.0x1.0x1.0xffffffff,6.0xfc.0x2.0xf.0x80,7.0xfb.0x3.0x0.0x0,"
    "8.0xfa.0x4.0x6.0x7fff8,10.0xf9.0x5.0x7.0xffffffff,13.0xf8.0x8.0xf.0xffff0,15.0xf7.0x9.0x0.0xffffffff,18.0xf6.0x0.0x5.0x0"
)
HANDLED = "19040100044200007856341201020304"
CHAINED = "21050200056801000010000020100000fc200000"

INFOS = f"""
# Good infos: the example of the rules, one code of each kind, a handler, a chained entry, no code.
info {EXAMPLE} 0x2000 0x2000 5 => ok 0x0 0x10 0x5 0x20 0x4 {EXAMPLE[8:]} none {EXAMPLE_CODES}
info {KINDS} 0 0 10 => ok 0x0 0xff 0xd 0xf0 0x4 {KINDS[8:-4]} none {KINDS_CODES}
info {HANDLED} 8192 8192 1 => ok 0x3 0x4 0x0 0x0 0x4 0442 handler.0x12345678.01020304 0.0x4.0x2.0x4.0x28
info {CHAINED} 0x20fc 0x20fc 1 => ok 0x4 0x5 0x0 0x0 0x4 05680100 chained.0x1000.0x1020.0x20fc 0.0x5.0x8.0x6.0x10
info 01000000 0 0 0 => ok 0x0 0x0 0x0 0x0 0x4 - none -
info 01ff00fd 0 0 {LAST} => ok 0x0 0xff 0xd 0xf0 0x4 - none -
info {HANDLED}{CHAINED}{EXAMPLE} 0x2000 0x2000 9 => ok 0x3 0x4 0x0 0x0 0x4 0442 handler.0x12345678.01020304{CHAINED}{EXAMPLE} 0.0x4
info {HANDLED}{CHAINED}{EXAMPLE} 0x2000 0x2010 9 => ok 0x4 0x5 0x0 0x0 0x14 05680100 chained.0x1000.0x1020.0x20fc 0.0x5
info {HANDLED}{CHAINED}{EXAMPLE} 0x2000 0x2024 9 => ok 0x0 0x10 0x5 0x20 0x28 {EXAMPLE[8:]} none 0.0x10

# 40, the place: a multiple of 4, not below the area's start, 4 bytes left.
info 0001000000 0 1 0 => refused 40 65535
info 000001000000 0 2 0 => refused 40 65535
info 00000001000000 0 3 0 => refused 40 65535
info 0000000001000000 0 4 0 => ok 0x0 0x0 0x0 0x0 0x8 - none -
info 01010001010100010101000101010001 0 4 0 => ok 0x0 0x1 0x1 0x0 0x8 - none -
info 01000000010000 2 2 0 => refused 40 65535
info 000001000000 2 4 0 => ok 0x0 0x0 0x0 0x0 0x6 - none -
info 00000001000000 1 4 0 => ok 0x0 0x0 0x0 0x0 0x7 - none -
info 01000000 0x2000 0x1fff 0 => refused 40 65535
info 01000000 0x2000 0x1ffc 0 => refused 40 65535
info 01000000 0x2000 0 0 => refused 40 65535
info 01000000 0x2001 0x2000 0 => refused 40 65535
info 01000000 0x2000 0x2000 0 => ok
info - 0 0 0 => refused 40 65535
info 01 0 0 0 => refused 40 65535
info 0100 0 0 0 => refused 40 65535
info 010000 0 0 0 => refused 40 65535
info 0100000001000000 0x2000 0x2004 0 => ok 0x0 0x0 0x0 0x0 0x8 - none -
info 01000000010000 0x2000 0x2004 0 => refused 40 65535
info 01000000 0x2000 0x2004 0 => refused 40 65535
info 01000000 0x2000 0x2008 0 => refused 40 65535
info 01000000 0 0xfffffffc 0 => refused 40 65535
info 01000000 0xfffffffc 0xfffffffc 0 => ok 0x0 0x0 0x0 0x0 0x4 - none -
info {EXAMPLE} 0xfffffffc 0xfffffffc 5 => ok 0x0 0x10 0x5 0x20 0x4
info 000000{EXAMPLE} 0xfffffff9 0xfffffffc 5 => ok 0x0 0x10 0x5 0x20 0x7
info {EXAMPLE} 0xffffffff 0xffffffff 5 => refused 40 65535
info {EXAMPLE} 0xffffffff 0xfffffffc 5 => refused 40 65535
info {EXAMPLE} 0xffffffff 0 5 => refused 40 65535

# 40, the slots with their pad.
info 0100010000020000 0 0 1 => ok 0x0 0x0 0x0 0x0 0x4 0002 none 0.0x0.0x2.0x0.0x8
info 01000100000200 0 0 1 => refused 40 65535
info 010001000002 0 0 1 => refused 40 65535
info 0100010000 0 0 1 => refused 40 65535
info 0100020000020002 0 0 2 => ok
info 01000200000200 0 0 2 => refused 40 65535
info 010003000002000200020000 0 0 3 => ok
info 0100030000020002000200 0 0 3 => refused 40 65535
info 01000300000200020002 0 0 3 => refused 40 65535
info 00000000010001000002ffff 0 4 1 => ok 0x0 0x0 0x0 0x0 0x8 0002 none
info 00000000010001000002ff 0 4 1 => refused 40 65535
info 0100fe00{"0002" * 254} 0 0 254 => ok
info 0100fe00{"0002" * 254}00 0 0 254 => ok
info 0100fe00{("0002" * 254)[:-2]} 0 0 254 => refused 40 65535
info 0100ff00{"0002" * 256} 0 0 255 => ok
info 0100ff00{("0002" * 256)[:-2]} 0 0 255 => refused 40 65535
info 0100ff00{"0002" * 255} 0 0 255 => refused 40 65535

# 40, the tail.
info 0900000078563412 0 0 0 => ok 0x1 0x0 0x0 0x0 0x4 - handler.0x12345678.- -
info 09000000785634 0 0 0 => refused 40 65535
info 09000000 0 0 0 => refused 40 65535
info 110001000002000078563412 0 0 1 => ok 0x2 0x0 0x0 0x0 0x4 0002 handler.0x12345678.- 0.0x0
info 1100010000020000785634 0 0 1 => refused 40 65535
info 1900020000020002ffffffff 0 0 2 => ok 0x3 0x0 0x0 0x0 0x4 00020002 handler.0xffffffff.- 0.0x0
info 1900020000020002ffffff 0 0 2 => refused 40 65535
info 2100000001000000020000000300000f 0 0 0 => ok 0x4 0x0 0x0 0x0 0x4 - chained.0x1.0x2.0xf000003 -
info 210000000100000002000000030000 0 0 0 => refused 40 65535
info 21000000010000000200 0 0 0 => refused 40 65535
info 2100010000020000010000000200000003000000 0 0 1 => ok 0x4 0x0 0x0 0x0 0x4 0002 chained.0x1.0x2.0x3 0.0x0
info 21000100000200000100000002000000030000 0 0 1 => refused 40 65535
info 2100020000020002010000000200000003000000 0 0 2 => ok
info 21000200000200020100000002000000030000 0 0 2 => refused 40 65535
info 0000000009000000010000 0 4 0 => refused 40 65535
info 000000000900000001000000 0 4 0 => ok 0x1 0x0 0x0 0x0 0x8 - handler.0x1.- -

# The handler's data up to the area's end; begin and end of a chained entry unchecked, bytes after it left out.
info 090000007856341200 0 0 0 => ok 0x1 0x0 0x0 0x0 0x4 - handler.0x12345678.00 -
info 1100000000000000ff00ff 0 0 0 => ok 0x2 0x0 0x0 0x0 0x4 - handler.0x0.ff00ff -
info 1900010000020000010000000102 0 0 1 => ok 0x3 0x0 0x0 0x0 0x4 0002 handler.0x1.0102 0.0x0
info 01000000090000000100000005 0 4 0 => ok 0x1 0x0 0x0 0x0 0x8 - handler.0x1.05 -
info 21000000ffffffff0000000001000000 0 0 0 => ok 0x4 0x0 0x0 0x0 0x4 - chained.0xffffffff.0x0.0x1 -
info 21000000000000000000000000000000 0 0 0 => ok 0x4 0x0 0x0 0x0 0x4 - chained.0x0.0x0.0x0 -
info 2100000001000000020000000300000004 0 0 0 => ok 0x4 0x0 0x0 0x0 0x4 - chained.0x1.0x2.0x3 -
info 0100000001 0 0 0 => ok 0x0 0x0 0x0 0x0 0x4 - none -

# Odd counts: the pad is not checked and is no slot.
info 010001000002ffff 0 0 1 => ok 0x0 0x0 0x0 0x0 0x4 0002 none 0.0x0.0x2.0x0.0x8
info 0100030000e2000200f2ff06 0 0 3 => ok 0x0 0x0 0x0 0x0 0x4 00e2000200f2 none 0.0x0.0x2.0xe.0x78,1.0x0.0x2.0x0.0x8,2.0x0.0x2.0xf.0x80
info 190003000004050000020607ffffffff09 0 0 2 => ok 0x3 0x0 0x0 0x0 0x4 000405000002 handler.0xffffffff.09 0.0x0.0x4.0x0.0x28,2.0x0.0x2.0x0.0x8

# 41, and 40 before it and after it.
info 00000000 0 0 0 => refused 41 65535
info 02000000 0 0 0 => refused 41 65535
info 03000000 0 0 0 => refused 41 65535
info 04000000 0 0 0 => refused 41 65535
info 05000000 0 0 0 => refused 41 65535
info 06000000 0 0 0 => refused 41 65535
info 07000000 0 0 0 => refused 41 65535
info 020000 0 0 0 => refused 40 65535
info 0200ff04 0 0 0 => refused 41 65535
info 0a000000 0 0 0 => refused 41 65535

# 41 before 42 before the second 40 before 43.
info ff000000 0 0 0 => refused 41 65535
info f9000000 0 0 0 => refused 42 65535
info 290000 0 0 0 => refused 40 65535
info 2900ff04 0 0 0 => refused 42 65535
info 0100ff04 0 0 0 => refused 40 65535
info 09000004000000 0 0 0 => refused 40 65535
info 210000040000000000000000000000 0 0 0 => refused 40 65535
info 0100020401060006 0 0 0 => refused 43 65535
info 0100010401060000 0 0 0 => refused 43 65535
info 010001f401020000 0 0 0 => refused 43 65535

# 43 in a code: register 4, a second op 3, op 3 without a frame register; and the slot index.
info 0100010000300000 0 0 1 => ok 0x0 0x0 0x0 0x0 0x4 0030 none 0.0x0.0x0.0x3.0x0
info 0100010000400000 0 0 1 => refused 43 0
info 0100010000500000 0 0 1 => ok
info 0100020000340100 0 0 1 => ok 0x0 0x0 0x0 0x0 0x4 00340100 none 0.0x0.0x4.0x3.0x8
info 0100020000440100 0 0 1 => refused 43 0
info 0100020000540100 0 0 1 => ok
info 010003000035010000000000 0 0 1 => ok 0x0 0x0 0x0 0x0 0x4 003501000000 none 0.0x0.0x5.0x3.0x1
info 010003000045010000000000 0 0 1 => refused 43 0
info 010003000055010000000000 0 0 1 => ok
info 0100020000480100 0 0 1 => ok 0x0 0x0 0x0 0x0 0x4 00480100 none 0.0x0.0x8.0x4.0x10
info 010003000049010000000000 0 0 1 => ok 0x0 0x0 0x0 0x0 0x4 004901000000 none 0.0x0.0x9.0x4.0x1
info 0100010000420000 0 0 1 => ok 0x0 0x0 0x0 0x0 0x4 0042 none 0.0x0.0x2.0x4.0x28
info 0100010500030000 0 0 1 => ok 0x0 0x0 0x5 0x0 0x4 0003 none 0.0x0.0x3.0x0.0x0
info 0100010500430000 0 0 1 => ok 0x0 0x0 0x5 0x0 0x4 0043 none 0.0x0.0x3.0x4.0x0
info 010001f500f30000 0 0 1 => ok 0x0 0x0 0x5 0xf0 0x4 00f3 none 0.0x0.0x3.0xf.0x0
info 0100010000030000 0 0 1 => refused 43 0
info 010001f000030000 0 0 1 => refused 43 0
info 0100020500030003 0 0 2 => refused 43 1
info 010003050003000200130000 0 0 3 => refused 43 2
info 010004050003000400030002 0 0 3 => ok
info 010004050004000300030002 0 0 3 => ok
info 0100040500110300030000030000 0 0 2 => ok 0x0 0x0 0x5 0x0 0x4 0011030003000003 none 0.0x0.0x1.0x1.0x30003,3.0x0.0x3.0x0.0x0
info 0100020000020006 0 0 2 => refused 43 1
info 010003000001010000060000 0 0 2 => refused 43 2
info 01000400001101000000000a 0 0 2 => refused 43 3
info 0100ff00{"0002" * 254}000f0000 0 0 255 => refused 43 254

# 44 on both sides, for each operation of more than one slot; the pad is no slot.
info 0100010000010000 0 0 1 => refused 44 0
info 0100020000010000 0 0 1 => ok
info 0100010000110000 0 0 1 => refused 44 0
info 0100020000110000 0 0 1 => refused 44 0
info 010003000011000000000000 0 0 1 => ok
info 0100010000040000 0 0 1 => refused 44 0
info 0100020000040000 0 0 1 => ok
info 0100010000050000 0 0 1 => refused 44 0
info 0100020000050000 0 0 1 => refused 44 0
info 010003000005000000000000 0 0 1 => ok
info 0100010000080000 0 0 1 => refused 44 0
info 0100020000080000 0 0 1 => ok
info 0100010000090000 0 0 1 => refused 44 0
info 0100020000090000 0 0 1 => refused 44 0
info 010003000009000000000000 0 0 1 => ok
info 0100020000020001 0 0 2 => refused 44 1
info 010003000001000000040000 0 0 2 => refused 44 2
info 01000500000400000004000000050000 0 0 9 => refused 44 4
info 010003000004000000050000 0 0 2 => refused 44 2
info 0100ff00{"0002" * 254}00040000 0 0 255 => refused 44 254

# 45 on both sides: the prologue size, the code before.
info 0110010010020000 0 0 1 => ok 0x0 0x10 0x0 0x0 0x4 1002 none 0.0x10.0x2.0x0.0x8
info 0110010011020000 0 0 1 => refused 45 0
info 011001000f020000 0 0 1 => ok
info 0100010000020000 0 0 1 => ok
info 0100010001020000 0 0 1 => refused 45 0
info 01ff0100ff020000 0 0 1 => ok
info 01fe0100ff020000 0 0 1 => refused 45 0
info 0110020008020702 0 0 2 => ok
info 0110020008020802 0 0 2 => ok
info 0110020008020902 0 0 2 => refused 45 1
info 0110020000020102 0 0 2 => refused 45 1
info 0110020010021102 0 0 2 => refused 45 1
info 011003000802080208020000 0 0 3 => ok
info 011003000802040206020000 0 0 3 => refused 45 2
info 011003000804ff0008020000 0 0 2 => ok 0x0 0x10 0x0 0x0 0x4 0804ff000802 none 0.0x8.0x4.0x0.0x7f8,2.0x8.0x2.0x0.0x8
info 0110030008040100090200ff 0 0 2 => refused 45 2
info 01100400080500000000090200ff 0 0 2 => refused 45 3

# In one code 43 before 44 before 45; and the first bad code.
info 0100010001060000 0 0 1 => refused 43 0
info 0100010001440000 0 0 1 => refused 43 0
info 0100010001210000 0 0 1 => refused 43 0
info 0100010001040000 0 0 1 => refused 44 0
info 0100010001010000 0 0 1 => refused 44 0
info 0100010000010000 0 0 0 => refused 44 0
info 0100020001020006 0 0 2 => refused 45 0
info 0100020001020004 0 0 2 => refused 45 0
info 0100020000060102 0 0 2 => refused 43 0
info 0100030500030003000f0000 0 0 3 => refused 43 1
info 010002050003010300000000 0 0 2 => refused 43 1

# 22 on both sides, and last.
info 01000000 0 0 0 => ok
info 0100010000020000 0 0 0 => refused 22 65535
info 0100010000020000 0 0 1 => ok
info 0100010000020000 0 0 2 => ok
info {EXAMPLE} 0 0 4 => refused 22 65535
info {EXAMPLE} 0 0 5 => ok
info {EXAMPLE} 0 0 0 => refused 22 65535
info 0100020000040000 0 0 1 => ok
info 0100020000040000 0 0 0 => refused 22 65535
info 0100ff00{"0002" * 256} 0 0 254 => refused 22 65535
info 0100ff00{"0002" * 256} 0 0 {LAST} => ok
info 0100020000020102 0 0 0 => refused 45 1
info 0100020000020006 0 0 0 => refused 43 1
info 0100020000020004 0 0 0 => refused 44 1
info 0100000400000000 0 0 0 => refused 43 65535
info {HANDLED} 0 0 0 => refused 22 65535
info {CHAINED} 0 0 0 => refused 22 65535

# Lines that cannot be read, some though a refusal would come too.
info => bad
info - => bad
info - 0 => bad
info - 0 0 => bad
info 01000000 0 0 0 0 => bad
info  01000000 0 0 0 => bad
info 01000000 0 0 0  => bad
infos 01000000 0 0 0 => bad
INFO 01000000 0 0 0 => bad
info 0100000 0 0 0 => bad
info 0100000A 0 0 0 => bad
info 0x01000000 0 0 0 => bad
info 01000000 4294967296 0 0 => bad
info 01000000 0 4294967296 0 => bad
info 01000000 0x100000000 0x100000000 0 => bad
info 01000000 4294967292 4294967292 0 => ok
info 01000000 0xffffffff 0xffffffff 0 => refused 40 65535
info 01000000 0 0 18446744073709551615 => ok
info 01000000 0 0 18446744073709551616 => bad
info 01000000 0 0 - => bad
info 01000000 - 0 0 => bad
info 01000000 0 0x 0 => bad
info - 0 1 x => bad
info - 4294967296 1 0 => bad
"""


# Requests for `compile` and `readback`, in the same way. Those of `readback` that cannot be read are left out as long as the
# program does not serve it.


def many(part, count):
    return ",".join([part] * count)


WORKED_FIELDS = "5.1 0.5.0,0.3.0,1.0.56,2.5.32,3.6.40 0.0.0"
WORKED_CODE = "55534883ec38488d6c2420488974242890488b7508488d65185b5dc3"
PUSHES = ",".join(f"0.{r}.0" for r in PRESERVED)
TEN = "0.3.0,0.5.0,0.6.0,0.7.0,1.0.40,2.7.16,3.12.0,3.13.8,3.14.16,3.15.24"
CALLS = "4883ec28e8070000004883c428c3cccc4883ec28e8e7ffffff4883c428c3"
ROOM = "9999 9999 9999"

COMPILES = f"""
# The worked example: buffers just long enough, longer, the longest; numbers in either notation.
compile {WORKED_FIELDS} 28 16 12 => ok {WORKED_CODE} {EXAMPLE} {ONE}
compile {WORKED_FIELDS} 29 17 13 => ok {WORKED_CODE} {EXAMPLE} {ONE}
compile {WORKED_FIELDS} {LAST} {LAST} {LAST} => ok {WORKED_CODE} {EXAMPLE} {ONE}
compile 0x5.0x1 0x0.0x5.0x0,0.03.0,0x1.0.0x38,0x02.5.0x20,3.0x6.0x28 0x0.0.0x0 0x1c 0x10 0xC => ok {WORKED_CODE} {EXAMPLE} {ONE}

# The four allocates of the rules.
compile 1.0 1.0.120 - 9 8 12 => ok 4883ec784883c478c3 0104010004e20000 {table((0x1000, 0x1009, 0x2000))}
compile 1.0 1.0.128 - 15 8 12 => ok 4881ec800000004881c480000000c3 0107010007f20000 {table((0x1000, 0x100F, 0x2000))}
compile 1.0 1.0.524280 - 15 8 12 => ok 4881ecf8ff07004881c4f8ff0700c3 010702000701ffff {table((0x1000, 0x100F, 0x2000))}
compile 1.0 1.0.524288 - 15 12 12 => ok 4881ec000008004881c400000800c3 010703000711000008000000 {table((0x1000, 0x100F, 0x2000))}

# Set-frame without a block; displacements of 0; high registers.
compile 2.0 0.5.0,2.5.240 - {ROOM} => ok 55488dac24f0000000488da510ffffff5dc3 010902f509030150 {table((0x1000, 0x1012, 0x2000))}
compile 2.0 0.15.0,2.15.0 - {ROOM} => ok 41574c8d7c2400498d6700415fc3 0107020f070302f0 {table((0x1000, 0x100E, 0x2000))}
compile 2.0 1.0.8,3.3.0 - {ROOM} => ok 4883ec0848895c2400488b5c24004883c408c3 010903000934000004020000 {table((0x1000, 0x1013, 0x2000))}
compile 4.0 0.3.0,1.0.8,3.12.0,2.3.0 - {ROOM} => ok 534883ec084c89642400488d5c24004c8b6300488d63085bc3 010f05030f030ac40000050201300000 {table((0x1000, 0x1019, 0x2000))}

# Layout: two functions with a gap, without one, with one of 15 bytes; calls forward and backward.
compile 0.0,0.0 - - 17 8 24 => ok c3{"cc" * 15}c3 0100000001000000 {table((0x1000, 0x1001, 0x2000), (0x1010, 0x1011, 0x2004))}
compile 0.14,0.0 - {many("0.0.0", 14)} 17 8 24 => ok {"90" * 14}c3ccc3 0100000001000000 {table((0x1000, 0x100F, 0x2000), (0x1010, 0x1011, 0x2004))}
compile 0.15,0.0 - {many("0.0.0", 15)} 17 8 24 => ok {"90" * 15}c3c3 0100000001000000 {table((0x1000, 0x1010, 0x2000), (0x1010, 0x1011, 0x2004))}
compile 0.16,0.0 - {many("0.0.0", 16)} 33 8 24 => ok {"90" * 16}c3{"cc" * 15}c3 0100000001000000 {table((0x1000, 0x1011, 0x2000), (0x1020, 0x1021, 0x2004))}
compile 1.1,1.1 1.0.40,1.0.40 3.1.0,3.0.0 30 16 24 => ok {CALLS} {"0104010004420000" * 2} {table((0x1000, 0x100E, 0x2000), (0x1010, 0x101E, 0x2008))}

# 10 on both sides, and before 11 and 18.
compile - - - 0 0 0 => refused 10
compile - - - {ROOM} => refused 10
compile 0.0 - - 1 4 12 => ok c3 01000000 {table((0x1000, 0x1001, 0x2000))}
compile {many("0.0", 64)} - - 1009 256 768 => ok {("c3" + "cc" * 15) * 63}c3 {"01000000" * 64}
compile {many("0.0", 65)} - - {ROOM} => refused 10
compile {many("0.0", 66)} - - {ROOM} => refused 10
compile {many("0.0", 128)} - - {ROOM} => refused 10
compile {many("0.0", 256)} - - {ROOM} => refused 10
compile {many("0.0", 257)} - - {ROOM} => refused 10
compile - 0.3.0 - {ROOM} => refused 10
compile - - 0.0.0 {ROOM} => refused 10
compile - 4.0.0 4.0.0 0 0 0 => refused 10
compile {many("11.0", 65)} - - {ROOM} => refused 10
compile {many("1.0", 65)} 0.3.0 - 0 0 0 => refused 10

# 11, too many steps or operations.
compile 10.0 {TEN} - {ROOM} => ok
compile 11.0 {TEN},3.15.32 - {ROOM} => refused 11
compile 10.0,1.0 {TEN},0.3.0 - {ROOM} => ok
compile 0.0,11.0 {TEN},3.15.32 - {ROOM} => refused 11
compile 11.0,0.0 {TEN},3.15.32 - {ROOM} => refused 11
compile 0.255 - {many("0.0.0", 255)} 256 4 12 => ok {"90" * 255}c3 01000000 {table((0x1000, 0x1100, 0x2000))}
compile 0.256 - {many("0.0.0", 256)} {ROOM} => refused 11
compile 0.255,0.1 - {many("0.0.0", 256)} {ROOM} => ok
compile 0.0,0.256 - {many("0.0.0", 256)} {ROOM} => refused 11
compile 65535.0 - - {ROOM} => refused 11
compile 0.65535 - - {ROOM} => refused 11
compile 65535.65535 0.3.0 0.0.0 {ROOM} => refused 11

# 11, counts and lists in both directions; sums that would wrap in 8 or 16 bits; the two lists are not mixed up.
compile 1.0 - - {ROOM} => refused 11
compile 0.0 0.3.0 - {ROOM} => refused 11
compile 0.1 - - {ROOM} => refused 11
compile 0.0 - 0.0.0 {ROOM} => refused 11
compile 2.0 0.3.0 - {ROOM} => refused 11
compile 2.0 0.3.0,0.5.0 - {ROOM} => ok
compile 2.0 0.3.0,0.5.0,0.6.0 - {ROOM} => refused 11
compile 0.2 - 0.0.0 {ROOM} => refused 11
compile 0.2 - 0.0.0,0.0.0 {ROOM} => ok
compile 0.2 - 0.0.0,0.0.0,0.0.0 {ROOM} => refused 11
compile 1.0,1.0 0.3.0 - {ROOM} => refused 11
compile 1.0,1.0 0.3.0,0.3.0 - {ROOM} => ok
compile 1.0,1.0 0.3.0,0.3.0,0.3.0 - {ROOM} => refused 11
compile 0.1,0.1 - 0.0.0 {ROOM} => refused 11
compile 0.1,0.1 - 0.0.0,0.0.0 {ROOM} => ok
compile 0.1,0.1 - 0.0.0,0.0.0,0.0.0 {ROOM} => refused 11
compile 0.1 0.3.0 - {ROOM} => refused 11
compile 1.0 - 0.0.0 {ROOM} => refused 11
compile 1.1 0.3.0 - {ROOM} => refused 11
compile 1.1 - 0.0.0 {ROOM} => refused 11
compile 1.1 0.3.0 0.0.0 {ROOM} => ok
compile {many("0.4", 64)} - - {ROOM} => refused 11
compile {many("8.0", 32)} - - {ROOM} => refused 11
compile 65535.0,1.0 - - {ROOM} => refused 11
compile 0.65535,0.1 - - {ROOM} => refused 11
compile 0.65535,0.2 - 0.0.0 {ROOM} => refused 11

# 11 before 12 and the others.
compile 2.0 4.0.0 - {ROOM} => refused 11
compile 1.0,11.0 4.0.0,{TEN},3.15.32 - {ROOM} => refused 11
compile 1.0,0.256 4.0.0 {many("0.0.0", 256)} {ROOM} => refused 11
compile 0.1,0.1 - 4.0.0 {ROOM} => refused 11
compile 1.0 - - 0 0 0 => refused 11

# 12: kinds, registers, unused fields.
compile 1.0 4.0.0 - {ROOM} => refused 12
compile 1.0 5.3.8 - {ROOM} => refused 12
compile 1.0 255.0.0 - {ROOM} => refused 12
compile 2.0 1.0.8,4.3.0 - {ROOM} => refused 12
compile 2.0 1.0.8,3.3.0 - {ROOM} => ok
compile 1.0 0.3.0 - {ROOM} => ok
compile 1.0 0.3.1 - {ROOM} => refused 12
compile 1.0 0.3.8 - {ROOM} => refused 12
compile 1.0 0.3.0xffffffff - {ROOM} => refused 12
compile 1.0 1.0.8 - {ROOM} => ok
compile 1.0 1.1.8 - {ROOM} => refused 12
compile 1.0 1.3.8 - {ROOM} => refused 12
compile 1.0 1.255.8 - {ROOM} => refused 12

# 13: pushed or saved before. A set-frame names a register again.
compile 2.0 0.3.0,0.3.0 - {ROOM} => refused 13
compile 2.0 0.3.0,0.5.0 - {ROOM} => ok
compile 3.0 0.3.0,0.5.0,0.3.0 - {ROOM} => refused 13
compile 3.0 0.3.0,0.5.0,0.5.0 - {ROOM} => refused 13
compile 3.0 0.3.0,1.0.8,3.3.0 - {ROOM} => refused 13
compile 3.0 0.3.0,1.0.8,3.5.0 - {ROOM} => ok
compile 3.0 1.0.16,3.3.0,3.3.8 - {ROOM} => refused 13
compile 3.0 1.0.16,3.3.0,3.5.8 - {ROOM} => ok
compile 4.0 1.0.24,3.3.0,3.5.8,3.3.16 - {ROOM} => refused 13
compile 4.0 0.3.0,1.0.16,2.3.0,3.3.8 - {ROOM} => refused 13
compile 4.0 0.3.0,1.0.16,2.3.0,3.5.8 - {ROOM} => ok
compile 2.0 0.3.0,2.3.0 - {ROOM} => ok
compile 8.0 {PUSHES} - {ROOM} => ok
compile 9.0 {PUSHES},0.15.0 - {ROOM} => refused 13
compile 10.0 {PUSHES},1.0.8,3.15.0 - {ROOM} => refused 13

# 14: order.
compile 2.0 1.0.8,0.3.0 - {ROOM} => refused 14
compile 2.0 0.3.0,1.0.8 - {ROOM} => ok
compile 3.0 0.3.0,2.3.0,0.5.0 - {ROOM} => refused 14
compile 3.0 0.3.0,0.5.0,2.3.0 - {ROOM} => ok
compile 3.0 0.3.0,0.5.0,2.5.0 - {ROOM} => ok
compile 3.0 1.0.8,3.3.0,0.5.0 - {ROOM} => refused 14
compile 2.0 1.0.8,1.0.8 - {ROOM} => refused 14
compile 3.0 0.3.0,2.3.0,1.0.8 - {ROOM} => refused 14
compile 3.0 0.3.0,1.0.8,2.3.0 - {ROOM} => ok
compile 3.0 1.0.8,3.3.0,1.0.8 - {ROOM} => refused 14
compile 3.0 0.3.0,2.3.0,2.3.0 - {ROOM} => refused 14
compile 4.0 0.3.0,0.5.0,2.3.0,2.5.0 - {ROOM} => refused 14
compile 5.0 0.3.0,1.0.8,2.3.0,3.5.0,2.3.16 - {ROOM} => refused 14
compile 4.0 0.3.0,1.0.8,3.5.0,2.3.16 - {ROOM} => ok
compile 5.0 0.3.0,1.0.24,3.5.0,2.3.16,3.6.8 - {ROOM} => ok

# 14: the frame register.
compile 1.0 2.5.0 - {ROOM} => refused 14
compile 2.0 0.3.0,2.5.0 - {ROOM} => refused 14
compile 2.0 0.5.0,2.5.0 - {ROOM} => ok
compile 2.0 0.12.0,2.12.0 - {ROOM} => refused 14
compile 2.0 0.13.0,2.13.0 - {ROOM} => ok
compile 3.0 0.12.0,0.13.0,2.12.0 - {ROOM} => refused 14
compile 3.0 0.12.0,0.13.0,2.13.0 - {ROOM} => ok
compile 1.0 2.12.0 - {ROOM} => refused 14
compile 3.0 1.0.8,3.5.0,2.5.0 - {ROOM} => refused 14
compile 2.0 0.3.0,2.0.0 - {ROOM} => refused 14
compile 2.0 0.3.0,2.4.0 - {ROOM} => refused 14
compile 2.0 0.3.0,2.11.0 - {ROOM} => refused 14
compile 2.0 0.3.0,2.19.0 - {ROOM} => refused 14
compile 2.0 0.3.0,2.255.0 - {ROOM} => refused 14
compile 1.0,1.0 0.3.0,2.3.0 - {ROOM} => refused 14
compile 1.0,2.0 0.3.0,0.3.0,2.3.0 - {ROOM} => ok

# 15: a save inside the block.
compile 1.0 3.3.0 - {ROOM} => refused 15
compile 2.0 0.5.0,3.3.0 - {ROOM} => refused 15
compile 3.0 0.5.0,2.5.0,3.3.0 - {ROOM} => refused 15
compile 2.0 1.0.8,3.3.0 - {ROOM} => ok
compile 2.0 1.0.8,3.3.8 - {ROOM} => refused 15
compile 2.0 1.0.16,3.3.8 - {ROOM} => ok
compile 2.0 1.0.16,3.3.16 - {ROOM} => refused 15
compile 2.0 1.0.8,3.3.4 - {ROOM} => refused 15
compile 2.0 1.0.16,3.3.1 - {ROOM} => refused 15
compile 2.0 1.0.16,3.3.4 - {ROOM} => refused 15
compile 2.0 1.0.16,3.3.7 - {ROOM} => refused 15
compile 2.0 1.0.16,3.3.9 - {ROOM} => refused 15
compile 2.0 1.0.128,3.3.120 - {ROOM} => ok
compile 2.0 1.0.128,3.3.124 - {ROOM} => refused 15
compile 2.0 1.0.128,3.3.128 - {ROOM} => refused 15
compile 2.0 1.0.2097152,3.3.2097144 - {ROOM} => ok
compile 2.0 1.0.2097152,3.3.2097152 - {ROOM} => refused 15
compile 2.0 1.0.2097152,3.3.0x80000000 - {ROOM} => refused 15
compile 2.0 1.0.8,3.3.0xfffffff8 - {ROOM} => refused 15
compile 2.0 1.0.8,3.3.0xffffffff - {ROOM} => refused 15
compile 1.0,1.0 1.0.8,3.3.0 - {ROOM} => refused 15

# 15: another's slot.
compile 3.0 1.0.16,3.3.0,3.5.0 - {ROOM} => refused 15
compile 3.0 1.0.16,3.3.0,3.5.8 - {ROOM} => ok
compile 3.0 1.0.16,3.3.8,3.5.0 - {ROOM} => ok
compile 3.0 1.0.16,3.3.8,3.5.8 - {ROOM} => refused 15
compile 4.0 1.0.24,3.3.0,3.5.8,3.6.0 - {ROOM} => refused 15
compile 4.0 1.0.24,3.3.0,3.5.8,3.6.8 - {ROOM} => refused 15
compile 4.0 1.0.24,3.3.0,3.5.8,3.6.16 - {ROOM} => ok
compile 5.0 0.7.0,1.0.16,3.3.8,2.7.0,3.5.8 - {ROOM} => refused 15
compile 2.0,2.0 1.0.8,3.3.0,1.0.8,3.5.0 - {ROOM} => ok

# 15: below 32 where the body has a call, good or not; another function's call does not count.
compile 2.1 1.0.40,3.3.32 3.0.0 {ROOM} => ok
compile 2.1 1.0.40,3.3.24 3.0.0 {ROOM} => refused 15
compile 2.1 1.0.40,3.3.0 3.0.0 {ROOM} => refused 15
compile 2.1 1.0.40,3.3.24 0.0.0 {ROOM} => ok
compile 2.2 1.0.40,3.3.24 0.0.0,3.0.0 {ROOM} => refused 15
compile 2.1 1.0.40,3.3.24 3.9.0 {ROOM} => refused 15
compile 2.1 1.0.40,3.3.24 3.0.1 {ROOM} => refused 15
compile 2.2 1.0.40,3.3.24 4.0.0,3.0.0 {ROOM} => refused 15
compile 2.0,1.1 1.0.40,3.3.24,1.0.40 3.0.0 {ROOM} => ok
compile 1.1,2.0 1.0.40,1.0.40,3.3.24 3.0.0 {ROOM} => ok
compile 1.0,2.1 1.0.40,1.0.40,3.3.24 3.0.0 {ROOM} => refused 15

# 16: alignment.
compile 1.1 1.0.40 3.0.0 {ROOM} => ok
compile 1.1 1.0.32 3.0.0 {ROOM} => refused 16
compile 1.1 1.0.48 3.0.0 {ROOM} => refused 16
compile 1.1 1.0.56 3.0.0 {ROOM} => ok
compile 2.1 0.3.0,1.0.32 3.0.0 {ROOM} => ok
compile 2.1 0.3.0,1.0.40 3.0.0 {ROOM} => refused 16
compile 3.1 0.3.0,0.5.0,1.0.40 3.0.0 {ROOM} => ok
compile 3.1 0.3.0,0.5.0,1.0.32 3.0.0 {ROOM} => refused 16
compile 9.1 {PUSHES},1.0.40 3.0.0 {ROOM} => ok
compile 9.1 {PUSHES},1.0.48 3.0.0 {ROOM} => refused 16
compile 3.1 0.3.0,1.0.40,3.5.32 3.0.0 {ROOM} => refused 16
compile 3.1 0.3.0,1.0.48,3.5.32 3.0.0 {ROOM} => ok
compile 1.1 1.0.2097144 3.0.0 {ROOM} => ok
compile 1.1 1.0.2097152 3.0.0 {ROOM} => refused 16
compile 2.1 0.3.0,1.0.2097152 3.0.0 {ROOM} => ok

# 16: a block under 32; only with a call, good or not.
compile 0.1 - 3.0.0 {ROOM} => refused 16
compile 1.1 0.3.0 3.0.0 {ROOM} => refused 16
compile 2.1 0.3.0,2.3.0 3.0.0 {ROOM} => refused 16
compile 1.1 1.0.8 3.0.0 {ROOM} => refused 16
compile 1.1 1.0.24 3.0.0 {ROOM} => refused 16
compile 2.1 0.3.0,1.0.16 3.0.0 {ROOM} => refused 16
compile 1.0 1.0.32 - {ROOM} => ok
compile 1.1 1.0.32 0.0.0 {ROOM} => ok
compile 1.1 1.0.24 0.0.0 {ROOM} => ok
compile 1.1 1.0.32 3.9.0 {ROOM} => refused 16
compile 1.1 1.0.32 3.0.1 {ROOM} => refused 16
compile 1.2 1.0.32 0.0.0,3.0.0 {ROOM} => refused 16
compile 1.1,1.0 1.0.40,1.0.32 3.1.0 {ROOM} => ok
compile 1.0,1.1 1.0.32,1.0.40 3.0.0 {ROOM} => ok
compile 1.0,1.1 1.0.40,1.0.32 3.0.0 {ROOM} => refused 16

# 17: kinds; nop.
compile 0.1 - 4.0.0 {ROOM} => refused 17
compile 0.1 - 255.0.0 {ROOM} => refused 17
compile 0.1 - 0.0.0 {ROOM} => ok 90c3 01000000 {table((0x1000, 0x1002, 0x2000))}
compile 0.1 - 0.1.0 {ROOM} => refused 17
compile 0.1 - 0.255.0 {ROOM} => refused 17
compile 0.1 - 0.0.1 {ROOM} => refused 17
compile 0.1 - 0.0.-1 {ROOM} => refused 17
compile 0.1 - 0.0.-2147483648 {ROOM} => refused 17
compile 0.2 - 0.0.0,0.1.0 {ROOM} => refused 17
compile 0.255 - {many("0.0.0", 254)},0.1.0 {ROOM} => refused 17

# 17: set, by what this function pushes and saves. The numbers' notation.
compile 0.1 - 1.0.5 {ROOM} => ok 48c7c005000000c3 01000000
compile 0.1 - 1.11.-1 {ROOM} => ok 49c7c3ffffffffc3 01000000
compile 0.1 - 1.0.-2147483648 {ROOM} => ok 48c7c000000080c3 01000000
compile 0.1 - 1.0.-0x80000000 {ROOM} => ok 48c7c000000080c3 01000000
compile 0.1 - 1.0.2147483647 {ROOM} => ok 48c7c0ffffff7fc3 01000000
compile 0.1 - 1.0.0x7fffFFFF {ROOM} => ok 48c7c0ffffff7fc3 01000000
compile 0.1 - 1.0.-0x1 {ROOM} => ok 48c7c0ffffffffc3 01000000
compile 0.1 - 1.3.5 {ROOM} => refused 17
compile 1.1 0.3.0 1.3.5 {ROOM} => ok
compile 2.1 1.0.8,3.3.0 1.3.5 {ROOM} => ok
compile 2.1 0.3.0,2.3.0 1.3.5 {ROOM} => refused 17
compile 3.1 0.3.0,0.5.0,2.5.0 1.3.5 {ROOM} => ok
compile 3.1 0.3.0,0.5.0,2.5.0 1.5.5 {ROOM} => refused 17
compile 1.0,0.1 0.3.0 1.3.5 {ROOM} => refused 17
compile 0.0,1.1 0.3.0 1.3.5 {ROOM} => ok
compile 2.0,1.1 0.3.0,2.3.0,0.3.0 1.3.5 {ROOM} => ok

# 17: reserve.
compile 0.1 - 2.0.16 {ROOM} => refused 17
compile 2.1 0.5.0,1.0.32 2.0.16 {ROOM} => refused 17
compile 2.1 0.5.0,2.5.0 2.0.16 {ROOM} => ok
compile 2.1 0.5.0,2.5.0 2.1.16 {ROOM} => refused 17
compile 2.1 0.5.0,2.5.0 2.5.16 {ROOM} => refused 17
compile 2.0,0.1 0.5.0,2.5.0 2.0.16 {ROOM} => refused 17
compile 0.0,2.1 0.5.0,2.5.0 2.0.16 {ROOM} => ok
compile 2.3 0.5.0,2.5.0 2.0.16,2.0.65520,2.0.16 {ROOM} => ok
compile 2.3 0.5.0,2.5.0 2.0.16,2.0.65520,2.0.65536 {ROOM} => refused 17

# 17: call.
compile 1.1 1.0.40 3.0.0 {ROOM} => ok
compile 1.1 1.0.40 3.1.0 {ROOM} => refused 17
compile 1.1 1.0.40 3.255.0 {ROOM} => refused 17
compile 1.1 1.0.40 3.0.1 {ROOM} => refused 17
compile 1.1 1.0.40 3.0.-1 {ROOM} => refused 17
compile 1.1,0.0 1.0.40 3.1.0 {ROOM} => ok
compile 1.1,0.0 1.0.40 3.2.0 {ROOM} => refused 17
compile 0.0,1.1 1.0.40 3.0.0 {ROOM} => ok
compile 0.0,1.2 1.0.40 3.0.0,3.2.0 {ROOM} => refused 17
compile 1.1,{many("0.0", 63)} 1.0.40 3.63.0 {ROOM} => ok
compile 1.1,{many("0.0", 63)} 1.0.40 3.64.0 {ROOM} => refused 17

# 18: each buffer one byte short, and just long enough.
compile {WORKED_FIELDS} 27 16 12 => refused 18
compile {WORKED_FIELDS} 28 15 12 => refused 18
compile {WORKED_FIELDS} 28 16 11 => refused 18
compile {WORKED_FIELDS} 28 16 0 => refused 18
compile {WORKED_FIELDS} 0 0 0 => refused 18
compile {WORKED_FIELDS} {LAST} {LAST} 11 => refused 18
compile {WORKED_FIELDS} {LAST} 0 {LAST} => refused 18
compile 0.0 - - 0 4 12 => refused 18
compile 0.0 - - 1 3 12 => refused 18
compile 0.0 - - 1 4 11 => refused 18
compile 0.0,0.0 - - 16 8 24 => refused 18
compile 0.0,0.0 - - 17 7 24 => refused 18
compile 0.0,0.0 - - 17 8 23 => refused 18
compile 0.0,0.0 - - 17 8 24 => ok
compile 0.0,0.0 - - 32 8 24 => ok

# Two rules broken in one step.
compile 2.0 0.3.0,0.3.1 - {ROOM} => refused 12
compile 2.0 1.0.8,0.0.0 - {ROOM} => refused 12
compile 2.0 1.0.8,1.1.8 - {ROOM} => refused 12
compile 1.0 1.1.4 - {ROOM} => refused 12
compile 1.0 3.4.1 - {ROOM} => refused 12
compile 3.0 0.3.0,1.0.8,0.3.0 - {ROOM} => refused 13
compile 3.0 0.3.0,1.0.8,3.3.8 - {ROOM} => refused 13
compile 3.0 1.0.8,3.3.0,3.3.0 - {ROOM} => refused 13
compile 2.0 1.0.8,1.0.4 - {ROOM} => refused 14
compile 1.0 2.5.8 - {ROOM} => refused 14
compile 2.0 0.12.0,2.12.256 - {ROOM} => refused 14
compile 3.0 0.3.0,2.3.0,2.3.8 - {ROOM} => refused 14

# The earlier step, then 16, then the operations, then the next function, then 18.
compile 2.0 1.0.4,4.0.0 - {ROOM} => refused 15
compile 2.0 2.5.0,0.0.0 - {ROOM} => refused 14
compile 3.0 0.3.0,0.3.0,4.0.0 - {ROOM} => refused 13
compile 3.0 1.0.4,0.3.0,0.3.0 - {ROOM} => refused 15
compile 3.0 1.0.4,1.0.8,4.0.0 - {ROOM} => refused 15
compile 2.0 4.0.0,1.0.4 - {ROOM} => refused 12
compile 2.1 1.0.32,3.3.24 3.0.0 {ROOM} => refused 15
compile 2.1 1.0.32,3.3.32 3.0.0 {ROOM} => refused 15
compile 2.1 1.0.24,4.0.0 3.0.0 {ROOM} => refused 12
compile 1.1 1.0.36 3.0.0 {ROOM} => refused 15
compile 1.2 1.0.32 4.0.0,3.0.0 {ROOM} => refused 16
compile 1.1 1.0.32 3.0.5 {ROOM} => refused 16
compile 1.1 4.0.0 4.0.0 {ROOM} => refused 12
compile 1.1 1.0.4 4.0.0 {ROOM} => refused 15
compile 0.1,1.0 4.0.0 4.0.0 {ROOM} => refused 17
compile 0.0,1.0 4.0.0 - {ROOM} => refused 12
compile 1.1,1.0 1.0.32,4.0.0 3.0.0 {ROOM} => refused 16
compile 1.0,1.0 1.0.4,4.0.0 - {ROOM} => refused 15
compile 1.0,1.0 4.0.0,1.0.4 - {ROOM} => refused 12
compile 0.1,1.1 1.0.32 4.0.0,3.0.0 {ROOM} => refused 17
compile 1.0,0.1 1.0.4 4.0.0 {ROOM} => refused 15
compile 0.1 - 4.0.0 0 0 0 => refused 17
compile 1.1 1.0.32 3.0.0 0 0 0 => refused 16
compile 1.0 1.0.4 - 0 0 0 => refused 15
compile 1.0 2.5.0 - 0 0 0 => refused 14
compile 2.0 0.3.0,0.3.0 - 0 0 0 => refused 13
compile 1.0 4.0.0 - 0 0 0 => refused 12
compile 0.0,0.1 - 4.0.0 0 0 0 => refused 17

# The largest number that each field holds, and one more; the lowest signed one, and one less.
compile 65535.0 - - {ROOM} => refused 11
compile 65536.0 - - {ROOM} => bad
compile 0.65535 - - {ROOM} => refused 11
compile 0.65536 - - {ROOM} => bad
compile 1.0 255.0.0 - {ROOM} => refused 12
compile 1.0 256.0.0 - {ROOM} => bad
compile 1.0 0.255.0 - {ROOM} => refused 12
compile 1.0 0.256.0 - {ROOM} => bad
compile 1.0 1.0.4294967295 - {ROOM} => refused 15
compile 1.0 1.0.4294967296 - {ROOM} => bad
compile 1.0 1.0.0x100000008 - {ROOM} => bad
compile 0.1 - 255.0.0 {ROOM} => refused 17
compile 0.1 - 256.0.0 {ROOM} => bad
compile 0.1 - 1.255.0 {ROOM} => refused 17
compile 0.1 - 1.256.0 {ROOM} => bad
compile 0.1 - 1.0.2147483647 {ROOM} => ok 48c7c0ffffff7fc3
compile 0.1 - 1.0.2147483648 {ROOM} => bad
compile 0.1 - 1.0.0x80000000 {ROOM} => bad
compile 0.1 - 1.0.4294967295 {ROOM} => bad
compile 0.1 - 1.0.-2147483648 {ROOM} => ok 48c7c000000080c3
compile 0.1 - 1.0.-2147483649 {ROOM} => bad
compile 0.1 - 1.0.-0x80000001 {ROOM} => bad
compile 0.1 - 1.0.-18446744073709551615 {ROOM} => bad
compile 0.1 - 1.0.-18446744073709551616 {ROOM} => bad
compile 0.0 - - 18446744073709551615 4 12 => ok c3
compile 0.0 - - 18446744073709551616 4 12 => bad
compile 0.0 - - 1 18446744073709551616 12 => bad
compile 0.0 - - 1 4 18446744073709551616 => bad

# Signs: one, and only before an operation's number.
compile 0.1 - 1.0.-0 {ROOM} => ok 48c7c000000000c3
compile 0.1 - 1.0.-0x0 {ROOM} => ok 48c7c000000000c3
compile 0.1 - 1.0.-00005 {ROOM} => ok 48c7c0fbffffffc3
compile 0.1 - 0.0.-0 {ROOM} => ok 90c3
compile 0.1 - 1.0.- {ROOM} => bad
compile 0.1 - 1.0.-- {ROOM} => bad
compile 0.1 - 1.0.--5 {ROOM} => bad
compile 0.1 - 1.0.+5 {ROOM} => bad
compile 0.1 - 1.0.5- {ROOM} => bad
compile 0.1 - 1.0.-0x {ROOM} => bad
compile 0.1 - 1.0.0x-5 {ROOM} => bad
compile 0.1 - 1.0.-x5 {ROOM} => bad
compile 0.1 - 1.-0.5 {ROOM} => bad
compile 0.1 - -1.0.5 {ROOM} => bad
compile 1.0 1.0.-8 - {ROOM} => bad
compile 1.0 -0.3.0 - {ROOM} => bad
compile -0.0 - - {ROOM} => bad
compile 0.0 - - -1 4 12 => bad

# Lines that cannot be read, some though a refusal would come too.
compile => bad
compile 0.0 => bad
compile 0.0 - => bad
compile 0.0 - - => bad
compile 0.0 - - 1 => bad
compile 0.0 - - 1 4 => bad
compile 0.0 - - 1 4 12 0 => bad
compile  0.0 - - 1 4 12 => bad
compile 0.0  - - 1 4 12 => bad
compiles 0.0 - - 1 4 12 => bad
Compile 0.0 - - 1 4 12 => bad
compile 0 - - {ROOM} => bad
compile 0.0.0 - - {ROOM} => bad
compile 0. - - {ROOM} => bad
compile .0 - - {ROOM} => bad
compile 0.0, - - {ROOM} => bad
compile ,0.0 - - {ROOM} => bad
compile -,0.0 - - {ROOM} => bad
compile 1.0 1.0 - {ROOM} => bad
compile 1.0 1.0.8.0 - {ROOM} => bad
compile 1.0 1..8 - {ROOM} => bad
compile 1.0 1,0,8 - {ROOM} => bad
compile 0.1 - 0.0 {ROOM} => bad
compile 0.1 - 0.0.0.0 {ROOM} => bad
compile 0.1 - 0.0. {ROOM} => bad
compile 0.0 - - - 4 12 => bad
compile 0.0 - - 1 x 12 => bad
compile - - - x 0 0 => bad
compile 1.0 4.0.0 0.0 {ROOM} => bad
compile 1.0 300.x.0 - {ROOM} => bad number too large
compile 1.0 x.300.0 - {ROOM} => bad not a number
compile 0.1 - 1.0.2147483648.x {ROOM} => bad number too large
compile 65536 - - {ROOM} => bad number too large
compile 5 - - {ROOM} => bad missing part
compile 5.5.x - - {ROOM} => bad too many parts
"""


def readback_line(entries, start, area):
    return f"readback {table(*entries) or '-'} {start:#x} {area or '-'}"


def at_first(area):
    """An info at RVA 0x2000, in the table with one entry."""
    return readback_line([(0x1000, 0x1001, 0x2000)], 0x2000, area)


def at_both(first, second):
    """Two infos one after the other, with an entry each."""
    return readback_line([(0x1000, 0x1001, 0x2000), (0x1010, 0x1011, 0x2000 + len(first) // 2)], 0x2000, first + second)


GOOD, VERSION, FLAGS = "01000000", "02000000", "29000000"
HANDLER, CHAIN = "0900000078563412", "21000000000000000100000000200000"
XMM, FAR_XMM = "0105020005680100", "010903000969010000000000"
WORKED_STEPS = "0x0.0x5.0x0,0x0.0x3.0x0,0x1.0x0.0x38,0x2.0x5.0x20,0x3.0x6.0x28"

READBACKS = f"""
# The worked example; no entry; no step; two functions; numbers in either notation.
readback {ONE} 0x2000 {EXAMPLE} => ok 5.0 {WORKED_STEPS}
readback {ONE} 8192 {EXAMPLE} => ok 5.0 {WORKED_STEPS}
readback - 0x2000 - => ok - -
readback - 0x2000 {EXAMPLE} => ok - -
{at_first(GOOD)} => ok 0.0 -
{at_first("01ff00fd")} => ok 0.0 -
{at_both(GOOD, EXAMPLE)} => ok 0.0,5.0 {WORKED_STEPS}
{at_both(EXAMPLE, GOOD)} => ok 5.0,0.0 {WORKED_STEPS}
{at_both(EXAMPLE, EXAMPLE)} => ok 5.0,5.0 {WORKED_STEPS},{WORKED_STEPS}

# Two entries of one info; infos in another order than the entries; bytes around an info.
{readback_line([(1, 2, 0x2000), (2, 3, 0x2000)], 0x2000, EXAMPLE)} => ok 5.0,5.0 {WORKED_STEPS},{WORKED_STEPS}
{readback_line([(1, 2, 0x2010), (2, 3, 0x2000)], 0x2000, EXAMPLE + GOOD)} => ok 0.0,5.0 {WORKED_STEPS}
{readback_line([(1, 2, 0x2004)], 0x2000, "ffffffff" + EXAMPLE + "ff")} => ok 5.0 {WORKED_STEPS}
{readback_line([(1, 2, 0x2004)], 0x2003, "ff" + EXAMPLE)} => ok 5.0 {WORKED_STEPS}
{readback_line([(1, 2, 0xFFFFFFFC)], 0xFFFFFFFC, EXAMPLE)} => ok 5.0 {WORKED_STEPS}

# Codes that compile does not write: every register but 4, the long forms of small numbers, no block, any order.
{at_first("0101010001000000")} => ok 1.0 0x0.0x0.0x0
{at_first("0101010001b00000")} => ok 1.0 0x0.0xb.0x0
{at_first("0104020004010000")} => ok 1.0 0x1.0x0.0x0
{at_first("0104020004010100")} => ok 1.0 0x1.0x0.0x8
{at_first("010403000411010000000000")} => ok 1.0 0x1.0x0.0x1
{at_first("010403000411ffffffff0000")} => ok 1.0 0x1.0x0.0xffffffff
{at_first("010402000434ffff")} => ok 1.0 0x3.0x3.0x7fff8
{at_first("010403000415ffffffff0000")} => ok 1.0 0x3.0x1.0xffffffff
{at_first("010403000435050000000000")} => ok 1.0 0x3.0x3.0x5
{at_first("010503000530040201000000")} => ok 3.0 0x0.0x0.0x0,0x1.0x0.0x8,0x0.0x3.0x0
{at_first("0105020005300430")} => ok 2.0 0x0.0x3.0x0,0x0.0x3.0x0
{at_first("0105020005020442")} => ok 2.0 0x1.0x0.0x28,0x1.0x0.0x8
{at_first("0100020000300002")} => ok 2.0 0x1.0x0.0x8,0x0.0x3.0x0

# Set-frame: register and offset from the header, the code's info ignored; a frame register without the code.
{at_first("010401f504030000")} => ok 1.0 0x2.0x5.0xf0
{at_first("010401f504f30000")} => ok 1.0 0x2.0x5.0xf0
{at_first("0104010c04030000")} => ok 1.0 0x2.0xc.0x0
{at_first("0104011104030000")} => ok 1.0 0x2.0x1.0x10
{at_first("0104012504020000")} => ok 1.0 0x1.0x0.0x8

# The pad is not checked.
{at_first("010101000130ffff")} => ok 1.0 0x0.0x3.0x0

# 35, as for a table; the size is the area's end.
readback 00 0x2000 {EXAMPLE} => refused 35
readback {ONE[:-2]} 0x2000 {EXAMPLE} => refused 35
readback {ONE}00 0x2000 {EXAMPLE} => refused 35
{readback_line([(0x1000, 0x1000, 0x2000)], 0x2000, GOOD)} => refused 35
{readback_line([(0x1001, 0x1000, 0x2000)], 0x2000, GOOD)} => refused 35
{readback_line([(1, 3, 0x2000), (2, 4, 0x2000)], 0x2000, GOOD)} => refused 35
{readback_line([(1, 3, 0x2000), (3, 4, 0x2000)], 0x2000, GOOD)} => ok 0.0,0.0 -
{readback_line([(3, 4, 0x2000), (1, 3, 0x2000)], 0x2000, GOOD)} => refused 35
{readback_line([(0x1000, 0x2004, 0x2000)], 0x2000, GOOD)} => ok 0.0 -
{readback_line([(0x1000, 0x2005, 0x2000)], 0x2000, GOOD)} => refused 35
{readback_line([(0, 4, 0)], 0, GOOD)} => ok 0.0 -
{readback_line([(0, 5, 0)], 0, GOOD)} => refused 35
{readback_line([(0xFFFFFFFE, 0xFFFFFFFF, 0xFFFFFFFC)], 0xFFFFFFFC, GOOD)} => ok 0.0 -
{readback_line([(0xFFFFFFFE, 0xFFFFFFFF, 0xFFFFFFF8)], 0xFFFFFFF8, GOOD)} => refused 35

# 36, and 35 before it; both before any info.
readback - 0 - => refused 36
readback - 1 - => ok - -
readback - 0 00 => ok - -
readback 00 0 - => refused 35
{readback_line([(0, 1, 0)], 0, "")} => refused 35
{readback_line([(1, 2, 0x2000), (2, 2, 0x2000)], 0x2000, VERSION)} => refused 35
{readback_line([(1, 2, 0x2001), (1, 3, 0x2000)], 0x2000, GOOD)} => refused 35

# Reading an info whole: 40 to 45, without a slot index.
{readback_line([(1, 2, 0x2001)], 0x2000, "00" + GOOD)} => refused 40
{readback_line([(1, 2, 0x1FFC)], 0x2000, GOOD)} => refused 40
{readback_line([(1, 2, 0x2004)], 0x2000, GOOD)} => refused 40
{readback_line([(1, 2, 0x2000)], 0x2000, "010000")} => refused 40
{readback_line([(1, 2, 0x2000)], 0x2000, "")} => refused 40
{at_first(VERSION)} => refused 41
{at_first("00000000")} => refused 41
{at_first(FLAGS)} => refused 42
{at_first("f9000000")} => refused 42
{at_first(EXAMPLE[:-2])} => refused 40
{at_first("010101000130")} => refused 40
{at_first("01000004")} => refused 43
{at_first("0101010001060000")} => refused 43
{at_first("0101010001400000")} => refused 43
{at_first("0101020001440000")} => refused 43
{at_first("0101010001030000")} => refused 43
{at_first("0101020501030103")} => refused 43
{at_first("01010100010a0000")} => refused 43
{at_first("0101010001210000")} => refused 43
{at_first("0101010001010000")} => refused 44
{at_first("0101010001080000")} => refused 44
{at_first("0101010002020000")} => refused 45
{at_first("0102020001020202")} => refused 45

# Flags 1 to 4 in an info that is good otherwise; but the info's own refusals come first.
{at_first(HANDLER)} => refused 42
{at_first("1100000078563412")} => refused 42
{at_first("1900000078563412ff")} => refused 42
{at_first(CHAIN)} => refused 42
{at_first(HANDLED)} => refused 42
{at_first(CHAINED)} => refused 42
{at_first(HANDLER[:-2])} => refused 40
{at_first(CHAIN[:-2])} => refused 40
{at_first("0900000478563412")} => refused 43
{at_first("090001000006000078563412")} => refused 43
{at_first("090001000001000078563412")} => refused 44
{at_first("090001000102000078563412")} => refused 45

# A save of an XMM register in an info that is good otherwise; flags before it, the info's own refusals before both.
{at_first(XMM)} => refused 43
{at_first(FAR_XMM)} => refused 43
{at_first("010503000568010001020000")} => refused 43
{at_first("010503000568010006020000")} => refused 45
{at_first("010503000568010000010000")} => refused 44
{at_first("090502000568010078563412")} => refused 42
{at_first("09050300056801000602000078563412")} => refused 45

# The first bad entry.
{at_both(GOOD, VERSION)} => refused 41
{at_both(VERSION, FLAGS)} => refused 41
{at_both(FLAGS, VERSION)} => refused 42
{at_both(HANDLER, VERSION)} => refused 42
{at_both(CHAIN, VERSION)} => refused 42
{at_both(XMM, VERSION)} => refused 43
{at_both(VERSION, XMM)} => refused 41
{at_both(XMM, HANDLER)} => refused 43
{at_both(HANDLER, XMM)} => refused 42
{at_both(EXAMPLE, XMM)} => refused 43
{at_both(EXAMPLE, CHAIN)} => refused 42
{readback_line([(1, 2, 0x2001), (2, 3, 0x2000)], 0x2000, VERSION)} => refused 40
{readback_line([(1, 2, 0x2000), (2, 3, 0x2001)], 0x2000, VERSION)} => refused 41

# Lines that cannot be read.
readback => bad
readback - => bad
readback - 0 => bad
readback - 0 - - => bad
readback  - 0 - => bad
readbacks - 0 - => bad
readback 0 0 - => bad
readback 0g 0 - => bad
readback 0A 0 - => bad
readback - x - => bad
readback - -1 - => bad
readback - 4294967296 - => bad
readback - 0x100000000 - => bad
readback - 0 0 => bad
readback - 0 0x00 => bad
readback - 0 -- => bad
readback 0 x - => bad
"""


def compile_sweeps():
    """Each value of a field in turn, with the answer that is meant."""

    def line(steps, operations, good, refusal):
        counts = f"{len(steps.split(',')) if steps else 0}.{len(operations.split(',')) if operations else 0}"
        return f"compile {counts} {steps or '-'} {operations or '-'} {ROOM} => {'ok' if good else f'refused {refusal}'}"

    registers = [*range(17), 19, 128, 255]
    yield "# Push, save and set-frame of each register."
    for n in registers:
        yield line(f"0.{n}.0", "", n in PRESERVED, 12)
        yield line(f"1.0.8,3.{n}.0", "", n in PRESERVED, 12)
        yield line(f"{PUSHES},2.{n}.16", "", n in PRESERVED and n != 12, 14)
    yield "# Set of each register: none pushed; 5 and 13 pushed, 6 and 14 saved, 13 the frame register."
    for n in registers:
        volatile = n in (0, 1, 2, 8, 9, 10, 11)
        yield line("", f"1.{n}.-1", volatile, 17)
        yield line("0.5.0,0.13.0,1.0.16,2.13.0,3.6.0,3.14.8", f"1.{n}.1", volatile or n in (5, 6, 14), 17)
    yield "# Allocates."
    for n in (0, 1, 4, 7, 8, 9, 12, 15, 16, 120, 124, 127, 128, 136, 524280, 524284, 524288, 524296):
        yield line(f"1.0.{n}", "", n >= 8 and n % 8 == 0, 15)
    for n in (2097136, 2097144, 2097148, 2097151, 2097152, 2097153, 2097160, 4194304, 2**31, 2**32 - 8, 2**32 - 1):
        yield line(f"1.0.{n}", "", n <= 2097152 and n % 8 == 0, 15)
    yield "# Frame offsets."
    for n in (0, 1, 8, 15, 16, 17, 24, 32, 112, 128, 224, 232, 239, 240, 241, 248, 255, 256, 272, 65536, 2**32 - 16):
        yield line(f"0.5.0,2.5.{n}", "", n <= 240 and n % 16 == 0, 15)
    yield "# Reserves."
    for n in (0, 1, 8, 15, 16, 17, 24, 32, 112, 120, 128, 144, 65504, 65512, 65519, 65520, 65521, 65528, 65535, 65536):
        yield line("0.5.0,2.5.0", f"2.0.{n}", 16 <= n <= 65520 and n % 16 == 0, 17)
    for n in (65552, 131072, 2**31 - 16, 2**31 - 1, -1, -15, -16, -128, -65520, -(2**31)):
        yield line("0.5.0,2.5.0", f"2.0.{n}", False, 17)
    yield "# Set numbers, low and high register."
    for n in NUMBERS:
        for r, opening in ((2, "48c7c2"), (10, "49c7c2")):
            code = opening + struct.pack("<i", n).hex() + "c3"
            yield f"compile 0.1 - 1.{r}.{n} {ROOM} => ok {code} 01000000 {table((0x1000, 0x1008, 0x2000))}"


def sweeps():
    """Each value of a field in turn, with the answer that is meant."""

    def line(area, room, meant):
        return f"info {area} 0 0 {room} => {meant}"

    yield "# Flags 0 to 31."
    for flags in range(32):
        meant = f"ok {flags:#x} 0x0" if flags <= 4 else "refused 42 65535"
        yield line(f"{8 * flags + 1:02x}{'00' * 15}", 0, meant)
    yield "# Frame registers 0 to 15, and frame offsets 0 to 240."
    for n in range(16):
        meant = "refused 43 65535" if n == 4 else f"ok 0x0 0x0 {n:#x} {16 * n:#x}"
        yield line(f"010000{17 * n:02x}", 0, meant)
    yield "# Operations 0 to 15."
    for op in range(16):
        count = {1: 2, 4: 2, 5: 3, 8: 2, 9: 3}.get(op, 1)
        meant = "refused 43 0" if op in (6, 7) or op >= 10 else "ok"
        yield line(f"0100{count:02x}05000{op:x}010200000000", 1, meant)
    yield "# Each info of operations 0, 1, 2 and 8."
    for n in range(16):
        good = "ok 0x0 0x0 0x0 0x0 0x4"
        meant = f"{good} 00{n:x}0 none 0.0x0.0x0.{n:#x}.0x0" if n != 4 else "refused 43 0"
        yield line(f"0100010000{n:x}00000", 1, meant)
        yield line(f"0100030000{n:x}10100000000ff", 2, "ok" if n <= 1 else "refused 43 0")
        yield line(f"0100010000{n:x}20000", 1, f"{good} 00{n:x}2 none 0.0x0.0x2.{n:#x}.{8 * n + 8:#x}")
        yield line(f"0100020000{n:x}80300", 1, f"{good} 00{n:x}80300 none 0.0x0.0x8.{n:#x}.0x30")


def meant_lines(text):
    """The lines of a text with arrows, without them; the model has to agree with what is meant."""
    for line in text:
        line, arrow, meant = line.partition(" => ")
        if arrow:
            found = answer(line.encode())
            assert re.match(re.escape(meant) + r"(?![0-9a-z])", found), f"{line}: {meant} is meant, not {found}"
        yield line


def damaged():
    """Good infos with each byte changed in turn to four other values."""
    yield "# Good infos with one byte changed."
    for good in (EXAMPLE, KINDS, HANDLED, CHAINED):
        area = bytes.fromhex(good)
        for i, byte in enumerate(area):
            for other in dict.fromkeys([byte + 1 & 255, byte - 1 & 255, byte ^ 0x40, 255 - byte]):
                changed = area[:i] + bytes([other]) + area[i + 1 :]
                yield f"info {changed.hex()} 0x2000 0x2000 10"


# A module with every form of code but the small allocate, which WORKED has.
VARIED = [
    ([(0, 12, 0), (0, 13, 0), (1, 0, 1048576), (3, 3, 524280), (2, 13, 48), (3, 6, 524288)], [(0, 0, 0)]),
    ([(1, 0, 136)], []),
]


def compiled(module):
    """Code, infos and table by the model, and the RVA of the infos; or None where the module is refused."""
    found = answer(f"compile {fields(module)} {LAST} {LAST} {LAST}".encode())
    if not found.startswith("ok "):
        return None
    code, infos, entries = map(bytes.fromhex, found.split()[1:])
    return code, infos, entries, 4096 + len(code) + -len(code) % 4096


def damaged_modules():
    """What compile wrote, with each byte of the table and of the infos changed in turn to some other values."""
    yield "# Compiled modules with one byte changed."
    for module, take in (([WORKED], 4), (VARIED, 1)):
        _, infos, entries, start = compiled(module)
        both = entries + infos
        for i, byte in enumerate(both):
            for other in list(dict.fromkeys([byte + 1 & 255, byte ^ 0x40, byte - 1 & 255, 255 - byte]))[:take]:
                changed = both[:i] + bytes([other]) + both[i + 1 :]
                yield f"readback {changed[: len(entries)].hex()} {start:#x} {changed[len(entries) :].hex()}"


# Random lines.


def spelled(r, n):
    return r.choice([str(n), hex(n)])


def rarely(r):
    return r.random() < 0.04


def random_table(r):
    at, entries = r.choice([0, 0x1000, 2**32 - 200]), []
    for _ in range(r.choice([0, 1, 1, 2, 3, 8])):
        at = max(0, at + (r.randint(-3, 0) if rarely(r) else r.choice([0, 0, 1, 16])))
        end = at + (0 if rarely(r) else r.randint(1, 20))
        entries.append((at % 2**32, end % 2**32, r.getrandbits(32)))
        at = end
    if rarely(r):
        r.shuffle(entries)
    data = table(*entries)
    if rarely(r):
        data = data[: 2 * r.randint(0, len(data) // 2)]
    size = 0 if rarely(r) else max(0, at + (r.randint(-1, 1) if r.random() < 0.2 else r.randint(1, 5000)))
    base = r.choice([0, 0x140000000, TOP - size + r.randint(-2, 1)])
    base = max(0, min(TOP - 1, base))
    room = max(0, len(entries) + r.choice([-1, 0, 0, 1, 7]))
    return f"table {data or '-'} {spelled(r, base)} {spelled(r, size)} {spelled(r, room)}"


def random_code(r, offset):
    op = r.randrange(16) if rarely(r) else r.choice([0, 0, 1, 2, 2, 3, 4, 5, 8, 9])
    extra = r.choice([0, 1]) if op == 1 and not rarely(r) else r.randrange(16)
    if op in (0, 4, 5) and extra == 4 and not rarely(r):
        extra = 5
    further = {1: 2 + 2 * extra, 4: 2, 5: 4, 8: 2, 9: 4}.get(op, 0)
    return op, bytes([offset, 16 * extra + op]) + r.randbytes(min(further, 4))


def random_info(r):
    prologue = r.choice([0, 4, 16, 40, 255])
    register = r.choice([0, 5, 5, 5, 13, r.randrange(16)])
    offset, codes, framed = prologue, [], register == 0
    for _ in range(r.choice([0, 1, 2, 3, 5, 9, 60])):
        offset = max(0, min(255, offset + (1 if rarely(r) else r.choice([0, -1, -4]))))
        op, data = random_code(r, offset)
        if op == 3 and framed and not rarely(r):
            op, data = 2, bytes([offset, 16 * r.randrange(16) + 2])
        framed = framed or op == 3
        codes.append(data)
    slots = b"".join(codes)
    count = len(slots) // 2
    if rarely(r):
        count = max(0, count + r.randint(-2, 2))
    count = min(count, 255)
    flags = r.randrange(32) if rarely(r) else r.choice([0, 0, 1, 2, 3, 4, 4])
    version = r.randrange(8) if rarely(r) else 1
    head = bytes([8 * flags + version, prologue, count, 16 * r.randrange(16) + register])
    pad = r.randbytes(2) if count % 2 else b""
    tail = r.randbytes({0: 0, 4: 12}.get(flags, 4) + r.choice([0, 0, 1, 9]))
    before = r.randbytes(r.choice([0, 0, 4, 6, 12]))
    area = before + head + slots + pad + tail
    if r.random() < 0.1:
        area = area[: len(area) - r.randint(1, min(len(area), 12))]
    place = r.choice([0x2000, 0x20F0, 2**32 - 4, 12])
    if rarely(r):
        place = max(0, min(2**32 - 1, place + r.randint(-5, 5)))
    start = max(0, place - len(before)) + (r.randint(0, 8) if rarely(r) else 0)
    room = max(0, len(codes) + r.choice([-1, 0, 0, 0, 0, 3]))
    return f"info {area.hex() or '-'} {spelled(r, start)} {spelled(r, place)} {spelled(r, room)}"


def random_read(r):
    def near(*values):
        return max(0, min(TOP - 1, r.choice(values) + r.randint(-3, 3)))

    base = r.choice([0, 8, 0x1000, TOP - 8, TOP - 40])
    run = r.randbytes(r.choice([0, 1, 2, 5, 8, 16]))
    text = run.hex() or "-"
    if r.random() < 0.4:
        memory = f"flat@{spelled(r, near(base))}@{text}"
    else:
        at, ranges = near(base), []
        for _ in range(r.randint(0, 5)):
            length = r.randint(0 if r.random() < 0.05 else 1, 4)
            place = r.randint(0, max(0, len(run) - length + (r.random() < 0.05)))
            ranges.append(f"{spelled(r, at)}.{spelled(r, length)}.{spelled(r, place)}")
            at = max(0, min(TOP - 1, at + length + r.choice([0, 0, 1, 3, -1 if r.random() < 0.2 else 2])))
        memory = f"sparse@{','.join(ranges) or '-'}@{text}"
    for _ in range(r.randint(0, 4 + (r.random() < 0.05))):
        wide, found = r.random() < 0.3, []
        for i in range(r.choice([0, 1, 2, 3, 16, 17] if wide else [0, 1, 2])):
            first = max(0, min(TOP - 1, base - 20 + 3 * i if wide else near(base, base + 4)))
            found.append((first, max(0, min(TOP - 1, first + (r.randint(-1, 2) if r.random() < 0.1 else r.randint(0, 2))))))
        r.shuffle(found)
        memory += "|limit@" + (",".join(f"{spelled(r, a)}.{spelled(r, b)}" for a, b in found) or "-")
    addresses = ",".join(spelled(r, near(base, base + 8, 0, TOP - 1)) for _ in range(r.randint(0, 8))) or "-"
    return f"read {memory} {addresses}"


def near(r, n, low, high):
    """A number near n, from low to high."""
    other = r.choice([n + 1, n - 1, n + 8, n - 8, n + 16, n - 16, 2 * n, 0, 4, 24, 32, low, high])
    return max(low, min(high, other))


def changed_record(r, record, low, high):
    """A step or an operation with one field changed; its number lies from low to high."""
    kind, first, n = record
    field = r.randrange(3)
    if field == 0:
        return r.choice([0, 1, 2, 3, 3, 4, 255]), first, n
    if field == 1:
        return kind, r.choice([0, 3, 4, 5, 12, 13, 15, 16, first ^ 1, first ^ 8]), n
    return kind, first, near(r, n, low, high)


def changed_function(r, function):
    """A function with one change: in a step, an operation, or their order."""
    steps, operations = map(list, function)
    records, low, high = (operations, -(2**31), 2**31 - 1) if r.random() < 0.35 else (steps, 0, 2**32 - 1)
    if not records or r.random() < 0.1:
        other = r.choice([(0, 0, 0), (0, 3, 0), (1, 0, 40), (2, 5, 16), (3, 6, 32), (3, 0, 0)])
        records.insert(r.randint(0, len(records)), other)
        return steps, operations
    i, way = r.randrange(len(records)), r.random()
    if way < 0.55:
        records[i] = changed_record(r, records[i], low, high)
    elif way < 0.7:
        records[i], records[i - 1] = records[i - 1], records[i]
    elif way < 0.85:
        records.insert(r.randint(0, len(records)), records[i])
    else:
        del records[i]
    return steps, operations


def random_compile(r):
    """A module that the rules accept, in two cases of three with one or two changes."""
    module = random_module(r, r.choice([1, 1, 1, 1, 2, 2, 3, 6]))
    for _ in range(r.choice([0, 0, 1, 1, 1, 2])):
        i = r.randrange(len(module))
        module[i] = changed_function(r, module[i])
    counts = [[len(steps), len(operations)] for steps, operations in module]
    if rarely(r):
        r.choice(counts)[r.randrange(2)] += r.choice([1, 1, 10, 255])
    parts = compiled(module)
    lengths = [len(part) for part in parts[:3]] if parts else [r.randint(0, 200) for _ in range(3)]
    rooms = [max(0, n + (-1 if rarely(r) else r.choice([0, 0, 0, 1, 40]))) for n in lengths]
    shown = record_list(counts, lambda n: spelled(r, n))
    _, steps, operations = fields(module, lambda n: spelled(r, n)).split(" ")
    return " ".join(["compile", shown, steps, operations, *(spelled(r, n) for n in rooms)])


def random_readback(r):
    """What compile wrote, with the description as the answer that is meant; in half of the cases with some change."""
    module = random_module(r, r.choice([1, 1, 2, 3, 6]))
    _, infos, entries, start = compiled(module)
    if r.random() < 0.5:
        return f"readback {entries.hex()} {spelled(r, start)} {infos.hex()} => {read_back(module)}"
    infos, entries = bytearray(infos), bytearray(entries)
    for _ in range(r.choice([1, 1, 2])):
        way = r.randrange(6)
        if way == 0:
            entries[r.randrange(len(entries))] = r.randrange(256)
        elif way < 4:
            infos[r.randrange(len(infos))] ^= 1 << r.randrange(8)
        elif way == 4:
            start = max(0, start + r.choice([-4, -1, 1, 4, 16]))
        else:
            infos = infos[: r.randint(1, len(infos))] + r.randbytes(r.choice([0, 0, 4, 12]))
    return f"readback {entries.hex()} {spelled(r, start)} {infos.hex()}"


MAKERS = {
    "read": [random_read],
    "table": [random_table],
    "info": [random_info, random_info],
    "compile": [random_compile, random_compile],
    "readback": [random_readback],
}


def random_line(r, requests):
    """A line of one of the requests, in one case of eight with one byte replaced or removed."""
    maker = r.choice([maker for request in requests for maker in MAKERS[request]])
    line = next(meant_lines([maker(r)])).encode()
    if r.random() >= 0.125:
        return line
    at = r.randrange(len(line))
    other = line[:at] + r.choice([b"", b"0", b"x", b",", b".", b"@", b"|", b" ", b"-", b"f"]) + line[at + 1 :]
    # Of the requests not served yet, lines that cannot be read are left out.
    request = line.split(b" ")[0].decode()
    return other if request in SERVED or not answer(other).startswith("bad") else line


def random_lines(count, seed, requests=("read", "table", "info")):
    r = random.Random(seed)
    return [random_line(r, requests) for _ in range(count)]


def new_random(maker, count, seed):
    r = random.Random(seed)
    return [maker(r) for _ in range(count)]


def random_descriptions():
    """Random descriptions, of which at least a third are accepted."""
    lines = new_random(random_compile, 270, 2)
    assert 3 * sum(answer(line.encode()).startswith("ok") for line in lines) >= len(lines)
    return ["# Random descriptions.", *lines]


def long_lines():
    """Tables of the greatest length and of one entry more; and the largest module, with buffers one byte short too."""
    entries = [(i, i + 1, 4 * i) for i in range(65537)]
    for count, room in ((65536, 65536), (65536, 65535), (65536, 70000), (65537, 65537), (65537, 70000)):
        yield f"table {table(*entries[:count])} 0 0x100000 {room}".encode()
    if "compile" in SERVED:
        steps = [(0, r, 0) for r in (3, 5, 6, 13)] + [(1, 0, 2097144), (2, 13, 240)]
        steps += [(3, r, 2097136 - 8 * i) for i, r in enumerate((7, 12, 14, 15))]
        module = [(steps, [(3, k, 0)] + [(1, 11, k - i) for i in range(254)]) for k in range(64)]
        lengths = [len(part) for part in compiled(module)[:3]]
        for short in ((0, 0, 0), (1, 0, 0), (0, 1, 0), (0, 0, 1)):
            yield f"compile {fields(module)} {' '.join(str(n - s) for n, s in zip(lengths, short))}".encode()


# Writing.


def answered(lines):
    """Pairs of a line with its end and its answer, or None where it is passed over."""
    return [(line, answer(re.sub(rb"\r?\n\Z", b"", line))) for line in lines]


def ended(lines):
    return answered(line + b"\n" for line in lines)


def texts(lines):
    return ended(line.encode() for line in lines)


def llvm(name):
    """Cases of LLVM with the answers stored with them; the model has to agree."""
    answers = iter((LLVM / f"{name}.out").read_text().splitlines())
    pairs = texts((LLVM / f"{name}.in").read_text().splitlines())
    for line, found in pairs:
        assert found is None or found == next(answers), line
    assert next(answers, None) is None
    return pairs


def new(requests):
    """The cases of these requests, from those in NEW, by kind."""
    kinds = {
        "compile, by hand": texts(meant_lines(COMPILES.splitlines())),
        "compile, sweeps": texts(meant_lines(compile_sweeps())),
        "compile, random": texts(random_descriptions()),
        "readback, by hand": texts(meant_lines(READBACKS.splitlines())),
        "readback, one byte changed": texts(damaged_modules()),
        "readback, random": texts(meant_lines(["# Random modules.", *new_random(random_readback, 90, 3)])),
        "compile and readback, from LLVM": llvm("compile"),
    }
    kept = {}
    for kind, pairs in kinds.items():
        pairs = [pair for pair in pairs if pair[1] is None or pair[0].split(b" ")[0].decode() in requests]
        if any(found is not None for _, found in pairs):
            kept[kind] = pairs
    return kept


def stored():
    """The stored cases by kind."""
    return {
        "read, by hand": texts(STORED.splitlines()),
        "table, by hand": texts(meant_lines(TABLES.splitlines())),
        "info, by hand": texts(meant_lines(INFOS.splitlines())),
        "info, sweeps": texts(meant_lines(sweeps())),
        "info, one byte changed": texts(damaged()),
        "random": ended([b"# Random lines.", *random_lines(200, 1)]),
        "from LLVM": llvm("cases"),
        **new([request for request in NEW if request in SERVED]),
        "line ends": answered(ENDS),
    }


def write(folder, pairs):
    (Path(folder) / "stdin").write_bytes(b"".join(line for line, _ in pairs))
    (Path(folder) / "stdout").write_text("".join(f"{found}\n" for _, found in pairs if found is not None))


def main(args):
    if args == ["stored"]:
        write(CRATE, sum(stored().values(), []))
    elif args[:1] == ["new"] and len(args) >= 2 and set(args[2:]) <= set(NEW):
        write(args[1], sum(new(args[2:] or NEW).values(), []))
    elif args[:1] == ["random"] and len(args) >= 4 and set(args[4:]) <= set(MAKERS):
        write(args[3], ended(random_lines(int(args[1]), int(args[2]), args[4:] or SERVED)))
    elif len(args) == 2 and args[0] == "long":
        write(args[1], ended(long_lines()))
    elif args == ["count"]:
        for kind, pairs in {**stored(), **new(NEW)}.items():
            firsts = [found.split()[0] for _, found in pairs if found is not None]
            counts = ", ".join(f"{firsts.count(f)} {f}" for f in ("ok", "refused", "bad"))
            print(f"{kind}: {len(firsts)} ({counts})")
    else:
        sys.exit(__doc__)


main(sys.argv[1:])

# Cases of the forms of maps, GBBs, keyblocks, preambles, slots, bodies, entries and records, row by row.
from whole_boots import *

SHOW, SHOW_2 = 'futility show flash', 'futility show disk 2'
MAP_AREAS = ((8192, 16384), (32768, 8192), (65536, 65536), (131072, 131072), (262144, 65536), (327680, 131072))

def map_row(name, at, size): return p32(at) + p32(size) + name.encode().ljust(32, b'\0') + b'\t\t'
def map_head(count): return b'__FMAP__\1' + 45 * b'\7' + struct.pack('<H', count)
def whole_map(count=6): return map_head(count) + b''.join(map_row(name, *area) for name, area in zip(AREAS, MAP_AREAS))
def put_row(s, k, name, at, size): s.put('flash', 4096 + 56 + 42 * k, map_row(name, at, size))

def small_machine(s): s.line('machine 1')
def disk_machine(s):
    for line in ('erased 1048576', 'disk 16384', 'make 1'): s.line(line)

def maps(s):
    s.about('maps, row by row: flashes of other sizes, with the map of machine 1 where it has a place')
    for size, text in ((1048576, 'map 4096'), (33554432, 'map 4096'), (33558528, 'bad flash 1'), (1048577, 'bad flash 1'), (1046528, 'bad flash 1'),
                       (458752, 'map 4096'), (454656, 'bad flash 4')):
        s.line(f'erased {size}'); s.put('flash', 4096, whole_map()); s.run(SHOW, f'flash {size} {text}' if 'map' in text else text)
    for size in (0, 4096): s.line(f'erased {size}'); s.run(SHOW, 'bad flash 2')
    small_machine(s); s.put('flash', 4096, whole_map()); s.line('keep')
    for what, line, rows in (
        ('an area that is missing', 3, (
            (0, 'GBC', 8192, 16384), (0, 'GBBX', 8192, 16384), (1, 'RW_NVRA', 32768, 8192), (2, 'VBLOCK_B', 65536, 65536), (3, 'FW_MAIN', 131072, 131072),
            (3, 'FW_MAIN_A_AND_SOME_OTHER_LETTERS', 131072, 131072), (4, '', 262144, 65536), (5, 'fw_main_b', 327680, 131072))),
        ('one that is empty, or does not end in the flash', 4, (
            (0, 'GBB', 8192, 0), (1, 'RW_NVRAM', 1048576, 8192), (2, 'VBLOCK_A', 65536, 983041), (3, 'FW_MAIN_A', 0xfffff000, 8192),
            (4, 'VBLOCK_B', 0xffffffff, 1), (5, 'FW_MAIN_B', 1, 0xffffffff))),
        ('one that is too large', 5, ((2, 'VBLOCK_A', 524288, 65537), (4, 'VBLOCK_B', 524288, 65537))),
        ('nvdata that does not begin at a page, or is too short', 6, ((1, 'RW_NVRAM', 32769, 8192), (1, 'RW_NVRAM', 32768, 8191))),
        ('two in one page', 7, (
            (1, 'RW_NVRAM', 0, 8192), (2, 'VBLOCK_A', 40959, 4096), (2, 'VBLOCK_A', 4500, 10), (2, 'VBLOCK_A', 24575, 1), (3, 'FW_MAIN_A', 131071, 10),
            (3, 'FW_MAIN_A', 327681, 10), (4, 'VBLOCK_B', 131072, 65536), (5, 'FW_MAIN_B', 131072, 131072), (5, 'FW_MAIN_B', 36864, 1)))):
        s.about(f'bad flash {line}: {what}')
        for row in rows: s.again(); put_row(s, *row); s.run(SHOW, f'bad flash {line}')
    s.about('no fault: the GBB in the pages of the map, a name that ends before its first NUL, an area behind these pages, one at the end')
    for row in ((0, 'GBB', 4096, 4096), (0, 'GBB\0rest', 8192, 16384), (2, 'VBLOCK_A', 28672, 4096), (4, 'VBLOCK_B', 1044480, 4096)):
        s.again(); put_row(s, *row); s.run(SHOW, f'area {AREAS[row[0]]} {row[2]} {row[3]}')
    s.about('the first row of a name counts')
    s.again(); put_row(s, 6, 'GBB', 24576, 4096); s.put('flash', 4096 + 54, b'\7\0'); s.run(SHOW, 'area GBB 8192 16384')
    s.about('heads of another form')
    for at, bs in ((0, b'__FMAP_-'), (0, b'-'), (8, b'\2'), (8, b'\0'), (54, b'\x81\0'), (54, b'\6\1')):
        s.again(); s.put('flash', 4096 + at, bs); s.run(SHOW, 'bad flash 2')
    s.about('a map of 128 rows, of which the last six name the areas')
    small_machine(s); s.put('flash', 4096, b'\xff' * 308); s.line('keep')
    s.put('flash', 0, map_head(128)); s.put('flash', 56 + 42 * 122, whole_map()[56:]); s.run(SHOW, 'flash 1048576 map 0')
    s.about('the last row of a map ends with the flash, and past it')
    s.again(); s.put('flash', 1047680, whole_map(20)); s.run(SHOW, 'flash 1048576 map 1047680')
    s.put('flash', 1047680 + 54, b'\x15\0'); s.run(SHOW, 'bad flash 2')
    s.line('erased 8192'); s.put('flash', 8064, map_head(1)); s.run(SHOW, 'bad flash 3')
    s.put('flash', 8064 + 54, b'\2\0'); s.run(SHOW, 'bad flash 2')
    s.about('where a map is looked for: the lowest multiple of 64 counts, other places do not; heads without rows are maps too')
    s.again(); s.run(SHOW, 'bad flash 2')
    for places, place in (((4096,), 4096), ((64, 4096), 64), ((0, 4096), 0), ((32,), None), ((32, 6976), 6976), ((4032,), 4032)):
        s.again()
        for at in places: s.put('flash', at, whole_map())
        s.run(SHOW, 'bad flash 2' if place is None else f'flash 1048576 map {place}')
    for at, behind in ((0, 64), (64, 4096)):
        s.again(); s.put('flash', at, map_head(0)); s.put('flash', behind, whole_map()); s.run(SHOW, 'bad flash 3')
    s.line('erased 4096'); s.put('flash', 4032, map_head(0)); s.run(SHOW, 'bad flash 3')
    s.about('a body of a large flash: its most bytes, and one more')
    s.line('erased 33554432'); s.put('flash', 4096, whole_map())
    for k in (3, 5):
        put_row(s, k, AREAS[k], 524288, 16777216); s.run(SHOW, f'area {AREAS[k]} 524288 16777216')
        put_row(s, k, AREAS[k], 524288, 16777217); s.run(SHOW, 'bad flash 5')
        put_row(s, k, AREAS[k], *MAP_AREAS[k])

def gbbs(s):
    s.about('GBBs, row by row, in an area of 1,248 bytes or of another size; 0 is no fault')
    small_machine(s); s.put32('flash', 4156, 1248); s.gbb(0x01234567); s.put32('flash', 8192 + 720, 2); s.line('keep')
    for what, rows in (
        ('the area, the magic and the version', (
            (1248, {}, 0), (3584, {}, 0), (127, {}, 1), (128, {}, 4), (1248, {0: 0x42424725}, 2), (1248, {0: 0x43424724}, 2), (1248, {4: 0x20000}, 3),
            (1248, {4: 0x20002}, 3), (1248, {4: 0x10001}, 3), (1248, {4: 0x30001}, 0), (1248, {8: 127}, 3), (1248, {8: 129}, 0))),
        ('the HWID', ((1248, {16: 127}, 4), (1248, {16: 1232}, 0), (1248, {16: 1233}, 4), (1248, {16: 0xfffffff0}, 4), (1248, {20: 0}, 4),
                      (1248, {20: 1}, 0), (1248, {20: 256}, 0), (1248, {20: 257}, 4))),
        ('the range of the root key', ((1248, {24: 127}, 4), (1248, {24: 697}, 4), (1248, {24: 0xfffffff0}, 4), (1248, {28: 31}, 4), (1248, {28: 551}, 4),
                                       (1248, {28: 553}, 0), (1248, {28: 1105}, 4), (1248, {28: 0xffffffff}, 4))),
        ('its packed key', ((1248, {144: 31}, 4), (1248, {144: 33}, 4), (1248, {144: 0xfffffff0}, 4), (1248, {152: 521}, 4), (1248, {152: 0xffffffff}, 4))),
        ('the range of the recovery key', ((1247, {}, 4), (1248, {40: 127}, 4), (1248, {40: 0xfffffff0}, 4), (1248, {44: 31}, 4), (1248, {44: 551}, 4))),
        ('its packed key, in an area that goes on behind its range', ((3584, {696: 31}, 4), (3584, {696: 33}, 4), (3584, {704: 521}, 4))),
        ('two faults: the earlier line counts', ((127, {0: 0}, 1), (1248, {0: 0, 4: 0}, 2), (1248, {4: 0, 20: 0}, 3), (1248, {8: 127, 144: 31}, 3)))):
        s.about(what)
        for size, fields, line in rows:
            s.again()
            if size != 1248: s.put32('flash', 4156, size)
            for at, value in fields.items(): s.put32('flash', 8192 + at, value)
            s.run(SHOW, *[f'gbb fault {line}'] if line else ['status 0', f'area GBB 8192 {size}'])
            assert line or not any('gbb fault' in text for text in s.bench.out[-20:])
    s.about('an area of no bytes is a fault of the map')
    s.again(); s.put32('flash', 4156, 0); s.run(SHOW, 'bad flash 4')
    s.about('the largest key that has a place, and one byte more: it is read, and is no key of its algorithm')
    for size, line in ((2056, 12), (2057, 11)):
        s.again(); s.put32('flash', 4156, 3337); s.put('flash', 8192 + 24, p32(1248) + p32(32 + size))
        s.put('flash', 8192 + 1248, images.words(32, 0, size, 0, 10, 0, 3, 0)); s.run(SHOW, 'gbb minor 2 flags 0x01234567 hwid DEMO TEST 1234')
        s.gbb(0); s.boot(); assert f'  reboot reason 20 subcode {line} requested 0' in s.bench.out
    s.about('HWIDs: none before a NUL, one before it, bytes that are no printable ASCII, a line feed, and 256 bytes without a NUL')
    for hwid, text in ((b'\0', ''), (b'\0X', ''), (b'X\0Y', ' X'), (b'\x1f\x20\x7e\x7f\xff\0HIDDEN', ' ? ~??'), (b'\n\0', ' ?')):
        s.again(); s.put('flash', 8192 + 128, hwid); s.run(SHOW, 'gbb minor 2 flags 0x01234567 hwid' + text)
    hwid = bytes(33 + i % 94 for i in range(1, 257))
    s.again(); s.put32('flash', 4156, 1504); s.put('flash', 8192 + 16, p32(1248) + p32(256)); s.put('flash', 8192 + 1248, hwid)
    s.run(SHOW, 'gbb minor 2 flags 0x01234567 hwid ' + hwid.decode())
    s.about('the largest numbers that have a place in the text of a flash')
    small_machine(s); s.put('flash', 8198, b'\xff\xff'); s.gbb(0xffffffff)
    for at in (65536, 262144):
        for place in (72, 96, 104, 952 + 40, 952 + 96, 952 + 104): s.put32('flash', at + place, 0xffffffff)
    s.run(SHOW, 'gbb minor 65535 flags 0xffffffff hwid DEMO TEST 1234', 'slot A keyblock 952 flags 4294967295 key 4294967295 version 4294967295',
          'slot B preamble 1140 version 4294967295 flags 0xffffffff body 4294967295')
    s.about('a fault of the GBB, of the keyblock of slot A and of the preamble of slot B')
    small_machine(s); s.put32('flash', 8196, 0x10001); s.put32('flash', 4240, 111); s.put32('flash', 262144 + 952, 107)
    s.run(SHOW, 'gbb fault 3', 'slot A keyblock fault 1', 'slot B keyblock 952 flags 7 key 4 version 1', 'slot B preamble fault 3')

BARE = {16: 112, 24: 24, 32: 0, 40: 112, 80: 32, 88: 0} # a keyblock that is its structure alone
KEYBLOCKS = ( # bytes that are there, fields, line
    (952, {}, 0), (112, BARE, 0), (111, BARE, 1), (1, {}, 1), (111, {}, 1), (952, {4: 0}, 2), (952, {8: 3}, 3), (951, {}, 4), (952, {16: 111}, 4),
    (952, {24: 673}, 5), (952, {24: 23}, 5), (952, {24: 0xffffffff}, 5), (952, {40: 111}, 6), (952, {40: 953}, 7), (952, {40: 631}, 8), (952, {80: 31}, 8),
    (952, {80: 0xfffffff0}, 8), (111, {4: 0}, 1), (952, {4: 0, 8: 3}, 2), (951, {8: 3}, 3), (952, {16: 953, 24: 930}, 4), (952, {24: 673, 40: 111}, 5),
    (952, {24: 673, 40: 953}, 5), (952, {40: 953, 80: 0xfffffff0}, 7))

def keyblocks(s):
    s.about('keyblocks, row by row, in slot A with an area of so many bytes: each line, and pairs of which the earlier one counts')
    small_machine(s); s.put32('flash', 4240, 952); s.line('keep')
    for size, fields, line in KEYBLOCKS:
        s.again()
        if size != 952: s.put32('flash', 4240, size)
        for at, value in fields.items(): s.put32('flash', SLOT_A + at, value)
        s.run(SHOW, f'slot A keyblock fault {line}' if line else f'slot A keyblock {size} flags 7 key 4 version 1')
    s.about('the same in partition 2 of the disk, of which 65,536 bytes are looked at')
    disk_machine(s); s.line('keep')
    rows = [(fields, line) for size, fields, line in KEYBLOCKS if size == 952 and fields.get(16) != 953]
    for fields, line in rows + [({16: 65537, 24: 65000}, 4), (BARE, 0)]:
        s.again()
        for at, value in fields.items(): s.put32('disk', A + at, value)
        s.run(SHOW_2, f'partition 2 keyblock fault {line}' if line else f'partition 2 keyblock {fields.get(16, 952)} flags 7 key 4 version 1')

BARE_FIRMWARE = {0: 108, 8: 24, 16: 0, 24: 108, 48: 32, 56: 0, 80: 24, 88: 0}
FIRMWARE_PREAMBLES = (
    (1140, {40: 9, 104: 6}, 0), (108, BARE_FIRMWARE, 0), (107, BARE_FIRMWARE, 1), (0, {}, 1), (107, {32: 3}, 1), (1140, {32: 3}, 2), (1139, {}, 3),
    (1140, {0: 107}, 3), (1140, {8: 877}, 4), (1140, {8: 23}, 4), (1140, {24: 107}, 5), (1140, {24: 1141}, 6), (1140, {48: 0xfffffff0}, 7),
    (1140, {80: 549}, 8), (1140, {88: 0xffffffff}, 8), (1139, {32: 3}, 2), (1139, {8: 877}, 3), (1140, {8: 877, 24: 107}, 4), (1140, {24: 1141, 48: 31}, 6),
    (1140, {48: 31}, 7), (1140, {80: 23}, 8), (1140, {48: 31, 80: 23}, 7))

def bare_kernel(minor, size): return {0: size, 8: 24, 16: 0, 24: size, 36: minor, 72: 24, 80: 0}
KERNEL_FIELDS = {0: 628, 8: 364, 16: 256, 24: 372, 32: 2, 36: 2, 40: 9, 48: 0x100000, 52: 0x12345678, 72: 44, 80: 256, 88: 131072}
KERNEL_PREAMBLES = (
    (628, {}, 0), (96, bare_kernel(0, 96), 0), (95, bare_kernel(0, 96), 1), (112, bare_kernel(1, 112), 0), (111, bare_kernel(1, 112), 3),
    (116, bare_kernel(2, 116), 0), (115, bare_kernel(2, 116), 3), (0, {}, 1), (95, {32: 3}, 1), (628, {32: 1}, 2), (627, {}, 3), (628, {36: 0, 0: 95}, 3),
    (628, {36: 1, 0: 111}, 3), (628, {36: 2, 0: 115}, 3), (628, {36: 0xffffffff, 0: 115}, 3), (628, {36: 0x10000, 0: 115}, 3), (628, {8: 365}, 4),
    (628, {8: 0xffffffff}, 4),
    (628, {36: 0, 24: 95}, 5), (628, {36: 1, 24: 111}, 5), (628, {24: 115, 72: 40, 80: 0}, 5), (628, {36: 1, 24: 115, 72: 40, 80: 0}, 0), (628, {24: 629}, 6),
    (628, {72: 45}, 7), (628, {72: 23}, 7), (627, {32: 3}, 2), (627, {8: 365}, 3), (628, {8: 365, 24: 115}, 4), (628, {24: 629, 72: 23}, 6))

def preambles(s):
    s.about('firmware preambles, row by row, in slot A with an area that has so many bytes behind the keyblock')
    small_machine(s); s.put32('flash', 4240, 952 + 1140); s.line('keep')
    for size, fields, line in FIRMWARE_PREAMBLES:
        s.again()
        if size != 1140: s.put32('flash', 4240, 952 + size)
        for at, value in fields.items(): s.put32('flash', SLOT_A + 952 + at, value)
        s.run(SHOW, f'slot A preamble fault {line}' if line else 'status 0', 'slot A keyblock 952 flags 7 key 4 version 1')
        assert line or any(f'slot A preamble {size} version' in text for text in s.bench.out[-20:])
    s.about('kernel preambles, row by row, in partition 2: the keyblock is so long that the first 65,536 bytes end behind so many')
    disk_machine(s); s.put32('disk', A + 16, 65536 - 628); s.line('keep')
    for size, fields, line in KERNEL_PREAMBLES:
        s.again()
        if size != 628: s.put32('disk', A + 16, 65536 - size)
        head = bytearray(116)
        for at, value in {**KERNEL_FIELDS, **fields}.items(): head[at:at+4] = p32(value)
        if size: s.put('disk', A + 65536 - size, head)
        good = f'partition 2 preamble {size} version 9 load 0x1234567800100000 body 131072'
        s.run(SHOW_2, f'partition 2 preamble fault {line}' if line else good)
    s.about('partitions of 127 sectors and of 128')
    disk_machine(s); s.line('keep')
    for sectors, text in ((127, 'short'), (128, 'keyblock 952 flags 7 key 4 version 1')):
        s.again(); s.table({2: dict(last=64 + sectors - 1)}); s.run(SHOW_2, 'partition 2 ' + text)
    s.about('the largest numbers that have a place in the text of a partition, and the last index')
    disk_machine(s)
    for at in (72, 96, 104): s.put32('disk', A + at, 0xffffffff)
    for at in (40, 48, 52, 88): s.put32('disk', A + 952 + at, 0xffffffff)
    s.table({128: dict(kind='kernel', unique=fill(1, 99, 16), first=64, last=575), 2: dict(type=bytes(16))})
    s.run('futility show disk 128', 'partition 128 keyblock 952 flags 4294967295 key 4294967295 version 4294967295',
          'partition 128 preamble 64584 version 4294967295 load 0xffffffffffffffff body 4294967295')

def keys(s):
    boot = lambda reason, line: s.run('boot', f'reboot reason {reason} subcode {line} requested 0')
    s.about('a root key that is no key: of another algorithm, with SHA-1, of another size; a fault of its size comes after the others')
    small_machine(s); s.line('keep')
    for algorithm, size, line in ((18, 776, 9), (0xffffffff, 0, 9), (3, 519, 10), (15, 776, 10), (4, 519, 11), (16, 775, 11), (11, 2057, 11), (1, 2, 11)):
        s.again(); s.put32('flash', 8192 + 28, 32 + size); s.put32('flash', 8192 + 152, size); s.put32('flash', 8192 + 160, algorithm); boot(20, line)
    s.about('a data key that is none, in a keyblock that is signed anew')
    for algorithm, size, line in ((18, 500, 14), (0xffffffff, 0, 14), (3, 519, 15), (15, 520, 15), (4, 519, 16), (16, 520, 16)):
        s.again(); s.put32('flash', SLOT_A + 88, size); s.put32('flash', SLOT_A + 96, algorithm); s.enroll('flash', SLOT_A, 'keyblock', 1); boot(20, line)
    s.about('a subkey of another size: no kernel is good')
    disk_machine(s); s.put32('flash', SLOT_A + 952 + 56, 519); s.enroll('flash', SLOT_A, 'preamble'); boot(31, 0)

# A slot of which root key and data key have an algorithm. The keyblock has its data key and then its signature behind its structure;
# the preamble has the subkey, the body's signature and its own. Bytes that are no field stay what they are.
def slot_of(s, algorithm):
    size = signature_size(algorithm)
    key = 8 + 2 * size
    s.put32('flash', 8192 + 28, 32 + key); s.put32('flash', 8192 + 152, key); s.put32('flash', 8192 + 160, algorithm)
    preamble, signed = 112 + key + size, 628 + size
    s.put('flash', SLOT_A, b'CHROMEOS' + images.words(2, 1, preamble, 0) + images.signature(88 + key, size, 112 + key) + bytes(24)
          + images.words(7, 0, 32, 0, key, 0, algorithm, 0, 1, 0))
    s.put('flash', SLOT_A + preamble, images.words(signed + size, 0) + images.signature(signed - 8, size, signed) + images.words(2, 1, 2, 0)
          + images.packed_key(60) + images.signature(548, size, 66048) + images.words(0) + fill(1, 4, 520))
    bs = s.m.flash[SLOT_A:]
    s.row(algorithm, Key(s.m.flash, 8192 + 144).bytes, Sealed(bs, 24).signed, Sealed(bs, 24).bytes)
    data_key, bs = Key(bs, 80).bytes, bs[preamble:]
    s.row(algorithm, data_key, Sealed(bs, 8).signed, Sealed(bs, 8).bytes)
    s.row(algorithm, data_key, s.m.flash[131072:131072+66048], Sealed(bs, 80).bytes)

def algorithms(s):
    s.about('a slot of each algorithm that is not one of SHA-1: good, and with another byte at the end of its body')
    disk_machine(s)
    s.put('flash', 8192 + 1248, fill(1, 60, 984))
    for k in range(6): s.put('flash', SLOT_A + 1024 * k, fill(1, 61 + k, 1024))
    s.line('keep')
    for algorithm in (1, 2, 4, 5, 7, 8, 10, 11, 13, 14, 16, 17):
        s.about(f'algorithm {algorithm}')
        s.again(); slot_of(s, algorithm); s.run('boot', 'slot A', 'firmware 0x00010002 66048', 'hand over')
        s.other('flash', 131072 + 66047); s.run('boot', 'reboot reason 22 subcode 4 requested 0')

def slots(s):
    boot = lambda reason, line: s.run('boot', f'reboot reason {reason} subcode {line} requested 0')
    s.about('slot A: its data key has another byte; a keyblock and a preamble of one byte more than there are; a subkey with another byte')
    disk_machine(s); s.line('keep')
    s.again(); s.other('flash', SLOT_A + 112); boot(20, 13)
    s.again(); s.put32('flash', SLOT_A + 16, 65537); boot(20, 4)
    s.again(); s.put32('flash', SLOT_A + 16, 65429); s.enroll('flash', SLOT_A, 'keyblock', 1); boot(21, 1)
    s.again(); s.other('flash', SLOT_A + 952 + 108); boot(21, 10)
    s.about('bytes behind its body, which are no matter, and bytes of it; and then slot B')
    for at in (66048, 70000): s.again(); s.other('flash', 131072 + at); s.run('boot', 'slot A', 'firmware 0x00010002 66048')
    for at in (66047, 5000): s.again(); s.other('flash', 131072 + at); boot(22, 4); s.run('boot', 'slot B', 'firmware 0x00010002 66048')
    s.about('a fault of slot B after a failure and after a success of slot A, and one of slot A after a failure of its own')
    for at, fields, requested in ((327680, dict(TryNext=1, Result=3), 1), (327680, dict(TryNext=1, Result=2), 0), (131072, dict(Result=3), 0)):
        s.again(); s.nv(TryCount=3, **fields); s.other('flash', at); s.run('boot', f'reboot reason 22 subcode 4 requested {requested}')
    s.about('each line of the table of modes, with what a later line looks at')
    for recovery, gbb, flags, firmware, kernel, asked, text in (
        (1, b'%', 0, None, 1, 1, 'screen reason 10 subcode 2'), (1, b'$', 0, None, 1, 1, 'screen reason 2 subcode 1'),
        (0, b'$', 0x4000, None, 1, 1, 'screen reason 2 subcode 1'), (0, b'$', 0, None, 1, 1, 'screen reason 11 subcode 1'),
        (0, b'$', 0, 2, 1, 1, 'screen reason 12 subcode 2'), (0, b'$', 0, 2, 0, 1, 'screen reason 31 subcode 7'),
        (0, b'$', 0, 2, 0, 0, 'mode developer'), (0, b'$', 8, 0, 0, 0, 'mode developer'), (0, b'$', 0, 1, 0, 0, 'mode normal')):
        s.again(); s.put('flash', 8192, gbb); s.gbb(flags)
        if firmware is None: s.space('firmware', b'')
        else: s.firmware(flags=firmware)
        if kernel: s.space('kernel', s.m.kernel[:12] + b'\0')
        if asked: s.nv(RecoveryRequest=31, RecoverySubcode=7)
        s.run('boot recovery' if recovery else 'boot', text)

def bodies(s):
    s.about('bodies of kernels right behind a preamble of 628 bytes: ends in the first 65,536 bytes, with them, behind them, with the partition; lines')
    disk_machine(s); s.put32('disk', A + 952, 628); s.put('disk', A + 1580, fill(1, 67, 512)); s.put('disk', A + 65024, fill(1, 68, 512)); s.line('keep')
    chosen = lambda size: s.run('boot', f'kernel disk 2 0x00010003 {size} 0x0000000000100000')
    for size in (70000, 260564, 100, 63956, 63957, 129492): s.again(); s.preamble('disk', A, {BODY_SIZE: size}, 'body'); chosen(size)
    for edits in ({BODY_SIZE: 0}, {BODY_SIZE: 260565}, {BODY_SIZE: 70000, BODY_SIG_SIZE: 255}):
        s.again(); s.preamble('disk', A, edits, 'body'); before = s.m; s.boot()
        assert kernel_line(before) == ('body', len(edits) == 2 and 3 or 1 + (edits[BODY_SIZE] > 0))
    for size in (70000, 100, 63956, 63957):
        s.again(); s.preamble('disk', A, {BODY_SIZE: size}, 'body'); s.other('disk', A + 1580 + size); chosen(size)
        s.other('disk', A + 1580 + size - 1); s.run('boot', 'kernel disk 4 0x00010002 131584 0x0000000000100000')

def heads(s):
    first, second = 'kernel disk 2 0x00010003 131584 0x0000000000100000', 'kernel disk 4 0x00010002 131584 0x0000000000100000'
    def line(*wanted): before = s.m; s.run('boot', second); assert kernel_line(before) == wanted, kernel_line(before)
    s.about('heads of kernels: the data key and the body signature with another byte; one byte more than there are; a data key in its head')
    disk_machine(s); s.line('keep')
    s.again(); s.other('disk', A + 112); line('keyblock', 13)
    s.again(); s.other('disk', A + 952 + 116); line('preamble', 9)
    s.again(); s.keyblock('disk', A, {16: 65537}); line('keyblock', 4)
    s.again(); s.keyblock('disk', A, {80: 31}); line('keyblock', 8)
    s.about('a data key of 519 bytes, of version 0; a kernel of version 0; a body signature in its head')
    s.again(); s.keyblock('disk', A, {88: 519}); line('keyblock', 16)
    s.again(); s.keyblock('disk', A, {KEY_VERSION: 0}); line('keyblock', 18)
    s.again(); s.preamble('disk', A, {VERSION: 0}); line('preamble', 11)
    s.again(); s.preamble('disk', A, {BODY_SIG: 23}, 'body'); line('preamble', 7)
    s.about('one byte less than the structure is signed, and as many, at minor versions 0 and 1')
    for minor, signed, number in ((0, 95, 5), (0, 96, 7), (1, 111, 5), (1, 112, 7)):
        s.again(); s.preamble('disk', A, {MINOR: minor, SIGNED: signed}, 'body'); line('preamble', number)
    s.about('flags of a machine without developer mode: all that are needed, and one of them missing')
    for flags, text in ((5, first), (14, second), (11, second)): s.again(); s.keyblock('disk', A, {FLAGS: flags}); s.run('boot', text)
    s.about('three stored versions, with the next kernel and without')
    for version, text in ((0x10001, 'stored 0x00010002 0x00010002'), (0x10003, 'stored 0x00010002 0x00010003'),
                          (0x10004, 'reboot reason 31 subcode 0 requested 0')):
        s.again(); s.kernel(version); s.run('boot', text)
    s.about('developer mode: the seal is spoiled, and the hash is right. Neither flags nor the version of the data key are looked at')
    s.again(); s.firmware(flags=2); s.line('keep')
    def spoil(edits, text):
        s.again(); s.other('disk', A + 696)
        for at, value in edits.items(): s.put32('disk', A + at, value)
        s.put('disk', A + 632, sha512(s.m.disk[A:A+min(u32(s.m.disk, A + 64), 632)])); s.run('boot', text)
    for edits in ({}, {FLAGS: 0}): spoil(edits, first)
    spoil({KEY_VERSION: 0}, first.replace('0x0001', '0x0000'))
    s.about('the hash begins in its head; 111 bytes are hashed, 953, 631; a hash of 63 bytes')
    for edits in ({48: 23}, {64: 111}, {64: 953}, {64: 631}, {56: 63}): spoil(edits, second)
    s.about('data keys of algorithm 18, of SHA-1, of 519 bytes, of version 65536')
    for edits in ({KEY_ALGORITHM: 18}, {KEY_ALGORITHM: 3}, {88: 519}, {KEY_VERSION: 65536}): spoil(edits, second)
    s.about('signed kernels alone: its seal is spoiled; a data key that is too old; and flags')
    s.again(); s.nv(SignedOnly=1); s.line('keep')
    spoil({}, second)
    for edits, text in (({KEY_VERSION: 0}, second), ({FLAGS: 6}, first), ({FLAGS: 13}, second), ({FLAGS: 11}, second)):
        s.again(); s.keyblock('disk', A, edits); s.run('boot', text)
    s.about('the hash has a length of its own: signature and hash are the other way round, and the hash is of the signature too')
    disk_machine(s); s.firmware(flags=2)
    for at, value in ((24, 608), (48, 840), (64, 888)): s.put32('disk', A + at, value)
    s.put('disk', A + 888, sha512(s.m.disk[A:A+888])); s.run('boot', first)
    s.other('disk', A + 887); s.run('boot', second)
    s.about('recovery: flags of a machine with developer mode alone, on one without; of none in recovery; those that are needed; a spoiled seal')
    s.line('stick 16384'); s.line('make 1'); s.line('keep')
    s.again(); s.keyblock('stick', A, {FLAGS: 14}, 2); s.run('boot recovery', 'screen reason 2 subcode 2')
    s.again(); s.keyblock('stick', A, {FLAGS: 7}, 2); s.run('boot recovery', 'screen reason 2 subcode 2')
    s.again(); s.keyblock('stick', A, {FLAGS: 9}, 2); s.run('boot recovery', 'mode recovery')
    s.again(); s.other('stick', A + 696); s.run('boot recovery', 'screen reason 2 subcode 2')

def walks(s):
    kernel = lambda i, version: f'kernel disk {i} 0x0001000{version} 131584 0x0000000000100000'
    s.about('attributes of the entry of a kernel that is chosen, and of one whose body has another byte: those of an entry that is successful stay')
    disk_machine(s); s.line('keep')
    for attributes, tried, bad in ((0x0101 << 48, 0x0101 << 48, 0x0101 << 48), (0x32 << 48, 0x22 << 48, 0), (0x12 << 48, 0, 0),
                                   (0xfe1fffffffffffff, 0xfe00ffffffffffff, 0xfe00ffffffffffff), (0xfeffffffffffffff, 0xfeefffffffffffff, 0xfe00ffffffffffff),
                                   (0xff1fffffffffffff, 0xff1fffffffffffff, 0xff1fffffffffffff)):
        for spoiled, after in ((False, tried), (True, bad)):
            s.again(); s.table({2: dict(attributes=attributes)})
            if spoiled: s.other('disk', A + SPOILED['body'])
            s.run('boot', kernel(4, 2) if spoiled else kernel(2, 3))
            assert u64(entry(read_table(s.m.disk)[0], 2), 48) == after
    s.about('which entries are candidates, by their attributes, and by a type that differs in its last byte')
    for attributes, candidate in ((0x0101 << 48, 1), (0x11 << 48, 1), (0xff << 48, 1), (1 << 48, 0), (0x0110 << 48, 0), (0xfe00ffffffffffff, 0)):
        s.again(); s.table({2: dict(attributes=attributes)}); s.run('boot', kernel(2, 3) if candidate else kernel(4, 2))
    s.again(); s.table({2: dict(type=KERNEL[:15] + b'\0')}); s.run('boot', kernel(4, 2))
    s.about('the order: a higher priority, an equal one with a lower index, and the highest at the last index')
    for edits, chosen in (({2: dict(priority=1), 4: dict(priority=2)}, kernel(4, 2)), ({2: dict(priority=1), 4: dict(priority=1)}, kernel(2, 3)),
                          ({2: dict(type=bytes(16)), 4: dict(type=bytes(16)), 1: dict(kind='kernel', first=576, last=1087, attributes=0x010e << 48),
                            128: dict(kind='kernel', unique=fill(1, 99, 16), first=64, last=575, attributes=0x010f << 48)}, kernel(128, 3))):
        s.again(); s.table(edits); s.run('boot', chosen)
    s.about('fates where entry 2 of priority 3 is chosen: of itself; of entry 1 with a good head and with a bad one; of entry 6 behind it')
    s.again()
    head = s.m.disk[A:A+1580]
    for at in (8192, 12288): s.put('disk', 512 * at, head[:1024]); s.put('disk', 512 * at + 1024, head[1024:])
    s.line('keep')
    later = dict(kind='kernel', first=12288, last=12799)
    for i, attributes, bad_head, edits, after in (
        (2, 0x0103, 0, {}, 0x0103), (2, 0x23, 0, {}, 0x13), (1, 0x13, 0, dict(kind='kernel'), 0), (1, 0x0103, 1, dict(kind='kernel'), 0x0103),
        (6, 0x32, 1, later, 0), (6, 0x32, 0, later, 0x32), (6, 0x02, 1, later, 0x02)):
        s.again()
        if bad_head: s.other('disk', 512 * (8192 if i == 1 else 12288))
        s.table({2: dict(priority=3), i: dict(edits, attributes=attributes << 48)}); s.run('boot', kernel(2, 3))
        assert u64(entry(read_table(s.m.disk)[0], i), 48) == after << 48, (i, attributes)

# A page of nvdata: its head, and a record in its first cells.
def put_page(s, k, generation, used, tries, torn=False):
    head = page_head(generation)
    page = (head[:15] + bytes([0 if torn else head[15]]) + used * record(BLANK, TryCount=tries)).ljust(4096, b'\xff')
    for at in range(0, 4096, 1024): s.put('flash', 32768 + 4096 * k + at, page[at:at+1024])

def both_pages(s, words):
    s.about('pages of nvdata, both full: each order of generations, one generation; an erased cell in page 0; a torn head of page 1, of page 0')
    small_machine(s); put_page(s, 0, 1, 255, 1); put_page(s, 1, 2, 255, 2); s.line('keep')
    for generations in ((1, 0), (1, 2), (2, 0), (1, 1)):
        s.again()
        for k in (0, 1):
            s.put('flash', 32768 + 4096 * k, page_head(generations[k]))
        s.line(words)
    s.again(); put_page(s, 0, 0, 7, 1); s.line(words)
    for k in (1, 0): s.again(); s.put('flash', 32768 + 4096 * k + 15, b'\0'); s.line(words)
    s.about('and where no page counts: records under no head, and under a torn one')
    s.again(); put_page(s, 0, 1, 9, 1); put_page(s, 1, 1, 9, 2, torn=True); s.put('flash', 32768, b'\xff' * 16); s.line(words)

def pages(s): both_pages(s, 'boot')

def records(s):
    s.about('a record with a value in each field: its request is shown and taken back, and then its tries count')
    disk_machine(s); s.line('keep')
    each_field = bytes.fromhex('50458142210093360000000000000070')
    s.put('flash', 32784, each_field); s.run('boot', 'screen reason 129 subcode 147'); s.run('boot', 'mode normal', 'slot A')
    s.about('the same where developer mode is not to be switched off: its three choices')
    for external, default, signed in ((1, 0, 0), (1, 1, 0), (1, 2, 0), (1, 3, 0), (0, 1, 1)):
        nv = record(each_field, DisableDev=0, RecoveryRequest=0, ExternalBoot=external, DefaultBoot=default, SignedOnly=signed)
        s.again(); s.firmware(flags=3); s.put('flash', 32800, nv)
        s.run('boot', 'screen reason 32 subcode 1' if external and default == 1 else 'hand over')
    s.about('each bit that no field has is set, and stays; with other tries and each result')
    for result, tries_left in enumerate((15, 8, 0, 1)):
        nv = record(bytes.fromhex('7fbf00ffffffffff') + b'\xff' * 8, Result=result, TryCount=tries_left, TryNext=0)
        s.again(); s.put('flash', 32800, nv); s.run('boot', 'mode normal', 'slot A')
    s.about('spaces: flags of a developer, a kernel version, a kernel space of 12 bytes, and one whose uid ends in another letter')
    s.again(); s.space('firmware', bytes.fromhex('0203010001000000007a')); s.run('boot', 'mode developer')
    s.again(); s.space('kernel', bytes.fromhex('024c5752470200010000000033')); s.run('boot', 'stored 0x00010002 0x00010002')
    s.again(); s.space('kernel', bytes.fromhex('024c57524701000100000000')); s.run('boot', 'screen reason 12 subcode 1')
    s.again(); s.space('kernel', bytes.fromhex('024c5752460100010000000046')); s.run('boot', 'screen reason 12 subcode 4')

# The kernel space from version 1.0 on, of these versions: no flags, and a hash of the embedded controller.
def space_v1(version, struct_version=0x10, size=40, flags=0, ec_hash=bytes(32)):
    return sealed_v1(bytes([struct_version, size, 0, flags]) + p32(version) + ec_hash)

def kernel_spaces(s):
    s.about('kernel spaces of version 1.0: one that rises and keeps its form, its flags and its hash, and then does not; one that is as high')
    s.again(); s.space('kernel', space_v1(0x10001))
    assert s.m.kernel == bytes.fromhex('10280c0001000100') + bytes(32)
    s.run('boot', 'stored 0x00010002 0x00010002')
    assert s.m.kernel == bytes.fromhex('1028e40002000100') + bytes(32)
    s.run('boot', 'stored 0x00010002 0x00010002')
    s.again(); s.space('kernel', space_v1(0x10001, 0x1f, flags=0xa5, ec_hash=fill(1, 50, 32))); s.run('boot', 'stored 0x00010002 0x00010002')
    assert s.m.kernel == space_v1(0x10002, 0x1f, flags=0xa5, ec_hash=fill(1, 50, 32))
    s.again(); s.space('kernel', space_v1(0x10004)); s.run('boot', 'reboot reason 31 subcode 0 requested 0')
    s.about('each fault of either form, and other numbers of bytes')
    old, new = s.m.copy(kernel=bytes.fromhex('024c57524701000100000000')), space_v1(0x10001)
    for bs, line in ((old.kernel, 1), (sealed(old.kernel) + b'\0', 1), (new[:39], 1), (new + b'\0', 1), (new.ljust(64, b'\0'), 1),
                     (space_v1(0x10001, size=39), 1), (space_v1(0x10001, size=13), 1), (sealed(old.kernel)[:12] + b'\0', 2),
                     (changed(new, 2, b'\0'), 2), (changed(new, 39, b'\1'), 2), (changed(new, 3, b'\1'), 2),
                     (sealed(b'\1' + old.kernel[1:]), 3), (sealed(b'\x10' + old.kernel[1:]), 3), (space_v1(0x10001, 0x0f), 3),
                     (space_v1(0x10001, 0x20), 3), (space_v1(0x10001, 0x02), 3), (sealed(old.kernel[:1] + b'\0' + old.kernel[2:]), 4)):
        s.again(); s.space('kernel', bs); s.run('boot', f'screen reason 12 subcode {line}')

# A page of cells of this many bytes: its head, and what stands in these cells, or in as many as there is a record for.
def put_cells(s, k, generation, size, cells, head=None):
    page = bytearray((head or page_head(generation, size)).ljust(4096, b'\xff'))
    for i, bs in cells.items(): page[size + size*i:size + size*i + len(bs)] = bs
    s.rewritten('flash', changed(s.m.flash, 32768 + 4096 * k, page[:4096]))

def of_tries(size, tries): # a blank record of this many bytes and tries
    return record(up(BLANK) if size == 64 else BLANK, TryCount=tries)

def page_forms(s):
    s.about('pages of 63 cells of 64 bytes: a record in the first cell, in one of both, in the last one; the next one goes behind it or into the other page')
    for i in (0, 1, 31, 62):
        s.again(); put_cells(s, 0, 2, 64, {i: of_tries(64, 3)}); s.run('boot', 'mode normal')
        assert nv_state(s.m.flash, 32768)[:4] == ((0, 2, 64, i + 2) if i < 62 else (1, 0, 64, 1)), i
    s.about('all 63 cells are used; the bytes behind page 0 are no cell of it')
    s.again(); put_cells(s, 0, 1, 64, {i: of_tries(64, 3) for i in range(63)}); s.run('boot', 'mode normal')
    s.again(); put_cells(s, 0, 1, 64, {4: of_tries(64, 3)}); s.put('flash', 32768 + 4096, of_tries(64, 9)); s.run('boot', 'mode normal')
    assert get(nv_state(s.m.flash, 32768).record, 'TryCount') == 2
    s.about('the bytes between head and first cell are not looked at; a torn cell, and one of another form, is no record')
    s.again(); put_cells(s, 0, 0, 64, {0: of_tries(64, 3)}); s.put('flash', 32784, bytes(48)); s.run('boot', 'mode normal')
    good = of_tries(64, 3)
    for bad in (good[:63] + b'\0', sealed(b'\x70' + good[1:63]), of_tries(16, 9), good[:15] + bytes([crc8(good[:15])]) + good[16:63] + b'\0'):
        s.again(); put_cells(s, 0, 0, 64, {0: good, 1: bad}); s.run('boot', 'mode normal')
        assert nv_state(s.m.flash, 32768)[:4] == (0, 0, 64, 3), bad
    s.about('a page in which no record stands: the blank one goes into the other page, in its own form')
    s.again(); put_cells(s, 0, 0, 64, {}); s.run('boot', 'mode normal')
    assert nv_state(s.m.flash, 32768)[:4] == (1, 1, 16, 1)
    s.again(); put_cells(s, 0, 0, 16, {0: of_tries(64, 3)}); s.run('boot', 'mode normal')
    s.about('which page is current does not depend on the forms: each order of generations, one generation, a torn head, another byte of form')
    for first, second in ((16, 64), (64, 16), (64, 64)):
        for generations in ((0, 1), (1, 0), (2, 0), (0, 2), (1, 1)):
            s.again()
            for k, size in ((0, first), (1, second)): put_cells(s, k, generations[k], size, {0: of_tries(size, 4 + k)})
            s.run('boot', 'mode normal')
    for form in (0, 1, 3, 0xff):
        s.again(); put_cells(s, 1, 0, 64, {0: of_tries(64, 4)}); put_cells(s, 0, 1, 64, {0: of_tries(64, 5)}, sealed(page_head(1, 64)[:8] + bytes([form]) + bytes(6)))
        s.run('boot', 'mode normal')
    assert [page_head(k, 64)[15] for k in range(3)] == [0xce, 0xd1, 0xf0]

def with_ceiling(s, **which):
    s.again(); put_cells(s, 0, 0, 64, {0: with_ceilings(nv_state(s.m.flash, 32768).record, **which)})

def ceilings_of_versions(s):
    s.about('ceilings below the stored version, at it, at the version it rises to, above it; none')
    for ceiling in (0, 0x10000, 0x10001, 0x10002, 0x10003, 0xffffffff):
        after = max(0x10001, min(0x10002, ceiling))
        with_ceiling(s, firmware=ceiling); s.run('boot', f'stored 0x{after:08x} 0x00010002')
        with_ceiling(s, kernel=ceiling); s.run('boot', f'stored 0x00010002 0x{after:08x}')
    s.about('both; and the kernel rises as its ceiling does, by the next record')
    with_ceiling(s, firmware=0x10001, kernel=0x10001); s.run('boot', 'stored 0x00010001 0x00010001')
    with_ceiling(s, kernel=0x10001); s.run('boot', 'stored 0x00010002 0x00010001')
    put_cells(s, 1, 1, 64, {0: with_ceilings(nv_state(s.m.flash, 32768).record, kernel=0x10002)}); s.run('boot', 'stored 0x00010002 0x00010002')
    s.about('all bytes of the record that no field has stay, and both ceilings')
    s.again(); put_cells(s, 0, 0, 64, {0: record(sealed(b'\xbf' + bytes(range(1, 63))), TryCount=3, RecoveryRequest=0, DisableDev=0)}); s.run('boot', 'mode normal')
    s.run('boot', 'mode normal')
    assert nv_state(s.m.flash, 32768).record[8:63] == bytes(range(8, 63))

GROUPS_OF_FORMS = (maps, gbbs, keyblocks, preambles, keys, algorithms, slots, bodies, heads, walks, pages, records, kernel_spaces, page_forms, ceilings_of_versions)

def forms():
    s = Script()
    s.about('forms, row by row: the cases that tests/model/cases.py writes of them')
    for group in GROUPS_OF_FORMS: group(s)
    return s

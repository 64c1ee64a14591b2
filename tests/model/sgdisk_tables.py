# Cases of tables that sgdisk wrote, changed ones, and of repairs and `make` that are stopped.
from scripts import *

# The disk of 96 sectors in crates/bench/stdin: its headers and the first two entries of both copies.
SGDISK = {512: '4546492050415254000001005c000000b0d90b5f0000000001000000000000005f0000000000000022000000000000003e00000000000000'
               '2d3a4b9c0f1e5b4a8c6d7e8f90a1b2c302000000000000008000000080000000e73c1d19',
          48640: '4546492050415254000001005c000000548d518b000000005f00000000000000010000000000000022000000000000003e00000000000000'
                 '2d3a4b9c0f1e5b4a8c6d7e8f90a1b2c33f000000000000008000000080000000e73c1d19'}
SGDISK_ENTRIES = bytes.fromhex('5d2a3afe324fa741b725accc3285a309fef7f0e90c051a43a1282f363d444b52220000000000000028000000000000000000000000000101'
    '4b00450052004e002d0041').ljust(128, b'\0') + bytes.fromhex('02e2b83c7e3bdd478a3c7ff2a13cfcec67452301ab89de4c8f0123456789abcd'
    '29000000000000003c000000000000000000000000000000' '52004f004f0054002d0041').ljust(128, b'\0')
BACKUP = 48640

def sgdisk(s, *places): # these parts of it
    for at in places: s.put('disk', at, SGDISK_ENTRIES if at in (1024, 32256) else bytes.fromhex(SGDISK[at]))

def seal_primary(s): # both CRCs of the primary copy are made right again
    disk = s.m.disk
    head = changed(changed(disk[512:604], 88, p32(zlib.crc32(disk[1024:17408]))), 16, bytes(4))
    head = changed(head, 16, p32(zlib.crc32(head)))
    for at in (16, 88):
        if head[at:at+4] != disk[512+at:516+at]: s.put('disk', 512 + at, head[at:at+4])

# A disk of so many sectors whose copies are right in all but its size: these usable sectors, and entries of these sectors.
def made_table(s, sectors, first, last, *entries):
    s.line(f'disk {sectors}')
    e = b''.join(uuid.UUID(images.KINDS['data']).bytes_le + fill(1, i, 16) + p64(a) + p64(b) + bytes(80) for i, (a, b) in enumerate(entries, 1))
    s.rewritten('disk', with_table(s.m.disk, (fill(1, 40, 16), first, last, e.ljust(16384, b'\0'))))

def copy_tests(s):
    s.about('the disk of sgdisk, whose primary header is written anew with both CRCs right; the backup copy is not good')
    for line in ('erased 0', 'disk 96'): s.line(line)
    sgdisk(s, 512, 1024, 32256, 48640); s.line('keep'); s.line('cgpt show disk')
    def row(what, at, bs, good):
        s.about(what); s.again(); s.put('disk', BACKUP, b'\0'); s.put('disk', at, bs); seal_primary(s); s.line('cgpt show disk')
        assert (table_of_copy(s.m.disk, 1, 2) is not None) == good and table_of_copy(s.m.disk, 95, 63) is None, what
    for what, at, bs, good in (
        ('nothing else: the primary counts', 512, b'E', True), ('a reserved byte of the header is not looked at', 532, b'\1', True),
        ('the place of the other header is not', 544, b'\11', True), ('the rest of its sector is not', 604, b'\1', True),
        ('an unused entry is not', 1312, b'\1', True), ('another magic', 512, b'C', False), ('revision 2', 522, b'\2', False),
        ('a header of 93 bytes', 524, b'\x5d', False), ('its own place is 2', 536, b'\2', False), ('the place of its entries is 3', 584, b'\3', False),
        ('127 entries', 592, b'\x7f', False), ('entries of 127 bytes', 596, b'\x7f', False), ('the first usable sector is 33', 552, b'\x21', False),
        ('it is behind the last one', 552, b'\x3f', False), ('the last usable sector is 63', 560, b'\x3f', False),
        ('it is 60, the last one of entry 2', 560, b'\x3c', True), ('it is before that', 560, b'\x3b', False),
        ('entry 1 begins behind its end', 1056, b'\x29', False), ('it begins before the usable sectors', 1056, b'\x21', False),
        ('its last sector is over 2^63', 1071, b'\xff', False), ('entry 2 begins in entry 1', 1184, b'\x28', False),
        ('entry 1 ends in entry 2', 1064, b'\x29', False), ('entry 2 ends at 61', 1192, b'\x3d', True),
        ('entry 2 has the GUID of entry 1', 1168, SGDISK_ENTRIES[16:32], False)): row(what, at, bs, good)
    s.about('the same without its CRC, of the header and of the entries')
    for at, bs in ((532, b'\1'), (1312, b'\1')): s.again(); s.put('disk', BACKUP, b'\0'); s.put('disk', at, bs); s.line('cgpt show disk')

def table_sizes(s):
    s.about('each of the 128 entries is used and has one sector, on a disk of 200')
    s.line('disk 200'); sgdisk(s, 512, 1024, 32256, 48640); s.put('disk', 560, b'\xa5')
    entries = b''.join(b'\1' * 16 + bytes([i]) * 16 + p64(34 + i) + p64(34 + i) + bytes(80) for i in range(128))
    s.rewritten('disk', changed(s.m.disk, 1024, entries)); seal_primary(s); s.line('cgpt show disk')
    assert len(s.bench.out) > 131 and s.bench.out[-2].startswith('  part 128 begin 161 ')
    s.about('the disk of sgdisk with two sectors more: the backup copy is not at its end; a repair writes it there')
    s.line('disk 98'); sgdisk(s, 512, 1024, 32256, 48640)
    for line in ('cgpt show disk', 'cgpt repair disk', 'cgpt show disk'): s.line(line)
    s.about('one of 95 sectors: the usable ones end too late')
    s.line('disk 95'); sgdisk(s, 512, 1024, 32256); s.line('cgpt show disk')
    s.about('the fewest sectors that a table has: 69, with two usable ones; and 68, with one')
    made_table(s, 69, 34, 35, (34, 34), (35, 35)); s.line('cgpt show disk')
    s.put('disk', 512, b'\0'); s.line('cgpt show disk'); s.line('cgpt repair disk'); s.line('cgpt show disk')
    made_table(s, 68, 34, 34, (34, 34)); s.line('cgpt show disk'); s.line('cgpt repair disk')

def stopped_repairs(s):
    s.about('repairs of the disk of sgdisk: one copy is all zeros, and comes to be what it was')
    for line in ('erased 0', 'disk 96'): s.line(line)
    sgdisk(s, 512, 1024, 32256, 48640); s.line('keep')
    whole = s.m.disk
    for places in ((512, 1024), (48640, 32256)):
        s.again()
        for at in places: s.put('disk', at, bytes(92 if at in SGDISK else 256))
        s.line('cgpt repair disk')
        assert s.m.disk == whole
        s.line('cgpt repair disk')
    s.about('a repair whose calls fail in turn: both copies are good, and the backup has another attribute in entry 1')
    s.again(); s.put('disk', 32310, b'\3')
    entries = s.m.disk[32256:48640]
    head = changed(changed(s.m.disk[48640:48732], 88, p32(zlib.crc32(entries))), 16, bytes(4))
    s.put('disk', 48656, p32(zlib.crc32(head))); s.put('disk', 48728, p32(zlib.crc32(entries)))
    s.line('cgpt show disk'); s.line('each disk cgpt repair disk'); s.line('cgpt repair disk')
    s.about('the primary copy alone, by the header of the other one')
    s.again(); s.put('disk', BACKUP, b'\0'); s.line('each disk cgpt repair disk'); s.line('cgpt repair disk')
    s.about('neither copy')
    s.again(); s.put('disk', BACKUP, b'\0'); s.put('disk', 512, b'\0'); s.line('each disk cgpt repair disk')

def cgpt_words(s):
    s.about('words of the commands on tables once more')
    s.line('erased 0')
    for line in ('repair -- stick', 'prioritize -fi 4 disk', 'find stick -t kernel', 'show Disk', 'show disk disk', 'show -i disk',
                 'add -i13 -b 1164 -s 10 -t data -u E9F0F7FE-050C-431A-A128-2F363D444B52 -l KERN-\U0001f600 -S 1 -T=15 -P 0 -A 65535 stick'):
        s.line('cgpt ' + line)

def failing_makes(s):
    s.about('a machine is made over itself: each call of the TPM and of the hook fails in turn')
    for line in ('erased 1048576', 'disk 16384', 'make 1'): s.line(line)
    s.firmware(flags=2); s.kernel(0x00010002); s.line('each tpm make 1'); s.line('make 1'); s.line('each hook make 1')

SGDISK_GROUPS = (copy_tests, table_sizes, stopped_repairs, cgpt_words, failing_makes)

def sgdisk_tables():
    s = Script()
    for group in SGDISK_GROUPS: group(s)
    return s

# Cases of the commands that change a table, and of those that look for entries.
from sgdisk_tables import *

def machine(s): # the disk of machine 1, kept
    s.line('erased 1048576'); s.line('disk 16384'); s.line('make 1'); s.line('keep')

def refused(s, words, why): s.run(words, f'refused cgpt {why}')

def worked_rows(s):
    s.about('one entry more: it shares a sector, it touches, and it has the unique GUID of another')
    machine(s)
    refused(s, 'cgpt add -i 13 -b 1163 -s 10 -t data disk', 'Overlap')
    s.run('cgpt add -i 13 -b 1164 -s 10 -t data disk'); s.line('cgpt show disk'); s.again()
    refused(s, 'cgpt add -i 13 -b 1164 -s 10 -t data -u e9f0f7fe-050c-431a-a128-2f363d444b52 disk', 'DuplicateUnique')
    refused(s, 'cgpt add -i 200 disk', 'BadValue'); refused(s, 'cgpt add -i 13 disk', 'BadValue')
    refused(s, 'cgpt find -l NONE disk', 'NoEntry')
    s.about('kernels are ordered')
    s.line('cgpt prioritize -i 4 disk'); s.line('cgpt show disk'); s.again()
    s.line('cgpt prioritize -i 4 -P 15 disk'); s.line('cgpt show disk'); s.again()
    s.run('cgpt find -l KERN-B disk', '4')
    for line in ('cgpt repair disk', 'cgpt repair disk'): s.run(line, 'agree')
    s.about('drives on which a table has no room, and the least that has')
    for sectors in (0, 68, 69, 70):
        s.line(f'disk {sectors}')
        for words in ('create', 'add -b 34 -s 1 -t data', 'add -b 35 -s 1 -t data', 'prioritize', 'find', 'show', 'repair'): s.line(f'cgpt {words} disk')
    s.about('the stick')
    machine(s); s.line('stick 100')
    for words in ('show', 'create', 'show', 'add -b 34 -s 33 -t kernel -P 3 -T 2 -l KERN-A', 'add -b 67 -s 1 -t efi -A 65535', 'prioritize -i 1 -f', 'find -t kernel',
                  'find -t efi', 'show', 'create', 'create'): s.line(f'cgpt {words} stick')

def added_fields(s):
    s.about('each option at each bound and one past it, on an entry that is used and on one that is not')
    machine(s)
    for option, values in (('i', (0, 1, 128, 129)), ('S', (0, 1, 2)), ('T', (0, 15, 16)), ('P', (0, 15, 16)), ('A', (0, 1, 256, 65535, 65536)),
                           ('b', (0, 33, 34, 16350, 16351, 2**64 - 1, 2**64)), ('s', (0, 1, 512, 513, 16317, 2**64 - 1, 2**64))):
        for value in values:
            s.again(); s.line(f'cgpt add {"" if option == "i" else "-i 2 "}-{option} {value} disk')
            s.again(); s.line(f'cgpt add {"-b 1200 " * (option != "b")}{"-s 9 " * (option != "s")}-t rootfs -{option} {value} disk')
    s.about('the highest bits first, and then single fields of them')
    for words in ('-S 1 -A 0', '-A 65535 -S 0 -T 1 -P 2', '-T 3 -A 4096', '-P 0 -A 15', '-A 256 -S 0'): s.again(); s.line(f'cgpt add -i 2 {words} disk')
    s.about('an entry is moved, made shorter and longer, and given another type, name and GUID')
    for words in ('-b 1200', '-s 511', '-s 512', '-s 513', '-b 63', '-b 1200 -s 15151', '-b 1200 -s 6992', '-b 1200 -s 6993', '-t efi', '-l EFI', '-t 00000000-0000-0000-0000-000000000001',
                  '-u 00000000-0000-0000-0000-000000000001', '-u e9f0f7fe-050c-431a-a128-2f363d444b52', '-l \u00e9\u4e00\U0001f600', '-l ' + 36 * 'x', '-l ' + 37 * 'x'):
        s.again(); s.line(f'cgpt add -i 2 {words} disk'); s.line('cgpt show disk')
    s.about('an entry is taken out')
    for words in ('-i 2', '-i 13', '', '-i 2 -b 1 -S 1', '-i 12 -l x'): s.again(); s.line(f'cgpt add {words} -t unused disk'); s.line('cgpt find disk')
    s.again(); s.line('cgpt add -i 2 -t 00000000-0000-0000-0000-000000000000 disk'); s.line('cgpt find -t unused disk')

def places(s):
    s.about('sectors that touch, overlap by one, and end at the last usable one, between two entries and at both ends')
    machine(s)
    for begin, size in ((34, 30), (34, 31), (33, 31), (1094, 6), (1094, 7), (1093, 7), (1093, 6), (1164, 884), (1164, 885), (1163, 885), (12288, 4063), (12288, 4064),
                        (12287, 4064), (16350, 1), (16351, 1), (16350, 2), (2**64 - 1, 2), (2**64 - 2, 1), (34, 2**64 - 1), (34, 2**64 - 34)):
        s.again(); s.line(f'cgpt add -i 13 -b {begin} -s {size} -t data disk')

def full_tables(s):
    s.about('a table with no entry, with one, with 127 and with 128')
    s.line('erased 0'); s.line('disk 300')
    for line in ('cgpt create disk', 'cgpt show disk', 'cgpt find disk', 'cgpt prioritize disk', 'cgpt add -i 1 -t unused disk', 'cgpt add -t unused disk'): s.line(line)
    s.line('cgpt add -i 128 -b 34 -s 1 -t data disk'); s.line('cgpt find disk'); s.line('cgpt add -b 35 -s 1 -t data disk')
    s.line('cgpt add -b 35 -s 1 -t data -u 00000000-0000-0000-0000-000000000001 disk'); s.line('cgpt find disk')
    for i in range(2, 128):
        if i == 127: s.line('cgpt show disk'); s.line('keep')
        s.line(f'cgpt add -b {34 + i} -s 1 -t {"kernel" if i < 40 else "data"} -u {uuid.UUID(int=i)} -P {i % 16} disk')
    for line in ('add -b 200 -s 1 -t data', 'add -t unused', 'add -i 5 -b 200', 'find -t kernel', 'prioritize', 'show', 'prioritize -i 9 -f', 'prioritize -i 31 -P 3', 'show'): s.line(f'cgpt {line} disk')
    s.again(); s.line('cgpt add -t unused disk'); s.line('cgpt prioritize -P 15 disk')

def groups(s):
    s.about('groups of kernels, from one to fifteen, with the entry moved alone, with its group, and with values under their number')
    s.line('erased 0'); s.line('disk 300'); s.line('cgpt create disk')
    for i in range(1, 21):
        s.line(f'cgpt add -b {40 + i} -s 1 -t kernel -u {uuid.UUID(int=i)} -P {(7 * i) % 16} -T {i % 16} -S {i % 2} disk')
        for words in ('', f'-i {i}', f'-i {i} -f', '-P 1', f'-i 1 -f -P {min(i, 15)}'):
            s.line('keep'); s.line(f'cgpt prioritize {words} disk'); s.line('again')
    s.line('cgpt show disk'); s.line('cgpt add -i 30 -b 100 -s 1 -t data disk')
    for words in ('-i 30', '-i 31', '-i 128', '-f', '-P 15 -f'): s.line('keep'); s.line(f'cgpt prioritize {words} disk'); s.line('again')

def stopped_changes(s):
    s.about('each call of the drive fails while a table is changed: over two copies, over one, and over none')
    s.line('erased 0'); s.line('disk 100'); s.line('cgpt create disk')
    s.line('cgpt add -b 34 -s 8 -t kernel -P 1 -u 00000000-0000-0000-0000-000000000007 disk'); s.line('keep')
    changing = ('cgpt create disk', 'cgpt add -b 42 -s 2 -t data disk', 'cgpt prioritize -P 9 disk', 'cgpt find disk', 'cgpt add -i 1 -P 1 disk')
    for copies in ((), (512,), (99 * 512,), (512, 99 * 512)):
        for line in changing:
            s.again()
            for at in copies: s.put('disk', at, b'\0')
            s.line(f'each disk {line}'); s.line(line); s.line('cgpt show disk')

TABLE_GROUPS = (worked_rows, added_fields, places, full_tables, groups, stopped_changes)

def table_cases():
    s = Script()
    for group in TABLE_GROUPS: group(s)
    return s

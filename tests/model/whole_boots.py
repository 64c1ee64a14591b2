# Cases of whole boots.
from scripts import *

def first_boots(s):
    s.about('machine 1 with both drives is made; each case below begins with a machine that was kept')
    for line in ('erased 1048576', 'disk 16384', 'stick 16384', 'make 1', 'keep'): s.line(line)
    s.about('the pages of nvdata are erased: the blank record is stored, and it is no success of slot A')
    s.put('flash', 32768, b'\xff' * 32); s.boot()
    s.about('a byte of the body of slot A: slot B is next')
    s.again(); s.put('flash', 131072, b'\x97'); s.boot(); s.boot()
    s.about('a stop in the second copy of the table: the backup copy is the new one, the primary has new entries under its old header')
    s.again(); s.table({2: TRIES})
    after = after_boot(s.m, plan_of(s.m)).disk
    torn = changed(changed(s.m.disk, 1024, after[1024:1536]), 16351 * 512, after[16351*512:16384*512])
    s.rewritten('disk', torn); s.boot(); s.line('cgpt repair disk')
    s.about('three kernels in order: a good one, a good head of a lower version, and a short partition')
    s.again(); s.preamble('disk', A, {VERSION: 5}); s.preamble('disk', B, {VERSION: 3})
    s.table({2: dict(priority=3), 4: dict(priority=2), 6: dict(priority=1, tries=3)}); s.boot()
    s.about('the primary header is spoiled: the backup is read, and both copies are written')
    s.again(); s.put('disk', 512, b'\0'); s.boot(); s.line('cgpt show disk')
    s.about('the signature of a keyblock and not its hash is another one: good in developer mode, but not where signed kernels alone are')
    s.again(); s.other('disk', A + 696); s.boot('recovery', 'enable-dev'); s.boot(); s.nv(SignedOnly=1); s.boot()
    s.again(); s.other('disk', A + 696); s.boot()
    s.about('words that are no boot')
    for words in ('external recovery', 'enable-dev recovery', 'internal external'): s.boot(*words.split())
    s.about('slots with a fault: in developer mode that is to be switched off, where a try was left, and after a failure of the other slot')
    spoil = lambda: (s.again(), s.put('flash', 131072, b'\x97'))
    spoil(); s.firmware(flags=2); s.boot(); s.nv(DisableDev=1); s.boot()
    spoil(); s.nv(TryCount=3, Localization=7, DisableDev=1); s.boot()
    spoil(); s.nv(Result=3, Tried=1, RecoverySubcode=9); s.boot(); s.boot()
    s.about('and after a failure of the same slot')
    spoil(); s.nv(Result=3); s.boot()
    s.about('a fault of the GBB comes before a recovery by hand; a request is taken back at each screen, and nothing else')
    s.again(); s.put('flash', 8192, b'%'); s.nv(RecoveryRequest=5, RecoverySubcode=6, DisableDev=1); s.boot('recovery', 'enable-dev')
    s.again(); s.put('flash', 32768, b'\xff' * 32); s.put32('flash', 8220, 0xffffffff); s.boot()
    s.again(); s.nv(RecoveryRequest=5, RecoverySubcode=6); s.space('firmware', b''); s.gbb(8); s.boot()
    s.again(); s.nv(RecoveryRequest=255, RecoverySubcode=255); s.space('kernel', b''); s.boot()
    s.again(); s.nv(RecoveryRequest=31, DisableDev=1); s.firmware(flags=2); s.boot()
    s.about('its first boot, where the stored version of kernels is that of the later head; the next one; and one that changes no more')
    s.again(); s.boot(); s.boot(); s.boot(); s.line('keep')

# The table and the line of the fault of the kernel in partition 2, in normal mode.
def kernel_line(m):
    e, bs, stored = entry(read_table(m.disk)[0], 2), m.disk[A:A+65536], u32(m.kernel, 5)
    if u64(e, 40) - u64(e, 32) + 1 < 128: return ('partition',)
    line = keyblock_fault(m, bs, Key(m.flash, SLOT_A + 952 + 48), stored, 5)
    if line: return 'keyblock', line
    key, at = Key(bs, 80), u32(bs, 16)
    line = kernel_preamble_fault(m, bs[at:], key, stored)
    if line: return 'preamble', line
    seal, at = Sealed(bs[at:], BODY_SIG), at + u32(bs, at)
    most = 512 * (u64(e, 40) - u64(e, 32) + 1) - at
    return 'body', body_fault(m, lambda n: m.disk[A+at:A+at+n], seal.many, most, key, seal.size, seal.bytes)

def kernel_tables(s):
    disk = 'disk'
    short = lambda: (s.preamble(disk, A, {0: 628, BODY_SIZE: 1000}, 'body'), s.table({2: dict(last=64 + 126)}))
    keyblock = lambda at, value: lambda: s.keyblock(disk, A, {at: value})
    preamble = lambda at, value, *parts: lambda: s.preamble(disk, A, {at: value}, *parts)
    spoiled = lambda part: lambda: s.other(disk, A + SPOILED[part])
    subkey = lambda algorithm: lambda: s.subkey(algorithm)
    old_key = lambda: (s.kernel(0x00020001), s.keyblock(disk, B, {KEY_VERSION: 2}))
    old_kernel = lambda: (s.kernel(0x00010004), s.preamble(disk, B, {VERSION: 5}))
    s.about('each line of the tables of a kernel, in partition 2, signed anew where it can be: partition 4 is handed over, and entry 2 stays')
    for name, cases in (
        ('partition', [('127 sectors', short)]),
        ('keyblock', [(2, 'not its magic', keyblock(0, 0x4f524863)), (3, 'major 3', keyblock(8, 3)), (4, 'a size of 4,294,967,295', keyblock(16, 0xffffffff)),
                      (5, 'the seal begins in its head', keyblock(24, 23)),
                      (6, '111 bytes are signed', keyblock(40, 111)), (7, '953 bytes are signed', keyblock(40, 953)),
                      (8, 'the data key one byte too far', lambda: (s.keyblock(disk, A, {80: 33}), s.preamble(disk, A, {}, 'body'))), (9, 'a subkey of algorithm 18: no kernel is good', subkey(18)),
                      (10, 'one of SHA-1', subkey(3)), (11, 'one of another size', subkey(7)), (12, 'a seal of 255 bytes', keyblock(32, 255)),
                      (13, 'another seal', spoiled('keyblock')), (14, 'a data key of algorithm 18', keyblock(KEY_ALGORITHM, 18)),
                      (15, 'one of SHA-1', keyblock(KEY_ALGORITHM, 3)), (16, 'one of another size', keyblock(KEY_ALGORITHM, 7)),
                      (17, 'one of version 65536', keyblock(KEY_VERSION, 65536)), (18, 'one that is older than the stored one', old_key),
                      (19, 'not for a machine without developer mode', keyblock(FLAGS, 6)), (20, 'for recovery alone', keyblock(FLAGS, 11))]),
        ('preamble', [(1, 'under 96 bytes', keyblock(16, 65441)), (2, 'major 3', preamble(32, 3)), (3, 'a size of 115', preamble(0, 115)),
                      (3, 'a size of 64,585', preamble(0, 64585, 'body')), (4, 'the signature begins in its head', preamble(8, 23)),
                      (5, '115 bytes are signed', preamble(SIGNED, 115)), (6, '629 of 628 bytes are signed', lambda: s.preamble(disk, A, {0: 628, SIGNED: 629}, 'body')),
                      (7, "the body's signature one byte too far", preamble(BODY_SIG, 45, 'body')), (8, 'a signature of 255 bytes', preamble(16, 255)),
                      (9, 'another signature', spoiled('preamble')), (10, 'version 65536', preamble(VERSION, 65536)),
                      (11, 'older than the stored one', old_kernel)]),
        ('body', [(1, 'no bytes', preamble(BODY_SIZE, 0, 'body')), (2, 'one byte more than the partition has', preamble(BODY_SIZE, 196609, 'body')),
                  (3, 'a signature of 255 bytes', preamble(BODY_SIG_SIZE, 255, 'body')), (4, 'another byte', spoiled('body'))])):
        for *line, what, fault in cases:
            s.about(' '.join([name, *map(str, line)]) + ': ' + what)
            s.again(); fault(); before = s.m; s.boot()
            assert kernel_line(before) == (name, *line), what
    s.about('the same where entry 2 is not successful and has tries: it has neither tries nor priority afterwards')
    for fault in (spoiled('keyblock'), spoiled('body')): s.again(); s.table({2: TRIES}); fault(); s.boot()

def kernel_forms(s):
    for minor, head in ((0, 96), (65535, 116)):
        s.about(f'a preamble of minor version {minor} that has {head} bytes and signatures, and its body behind them')
        s.again()
        # The body signature and the signature are the same bytes, right behind the head and signed in part.
        s.preamble('disk', A, {0: head + 512, 8: head + 248, SIGNED: head + 256, MINOR: minor, BODY_SIG: head - BODY_SIG}, 'body'); s.boot()
    s.about('a body that ends with its partition; and a partition of 128 sectors with a body of one byte at its end')
    s.again(); s.preamble('disk', A, {BODY_SIZE: 196608}, 'body'); s.boot()
    s.again(); s.table({2: dict(last=64 + 127)}); s.preamble('disk', A, {0: 64583, BODY_SIZE: 1}, 'body'); s.boot()
    s.about('a data key with SHA-512, and a subkey with SHA-512')
    s.again(); s.keyblock('disk', A, {KEY_ALGORITHM: 5}); s.preamble('disk', A, {}, 'body'); s.boot()
    s.again(); s.subkey(5); s.enroll('disk', A, 'keyblock', algorithm=5); s.boot()
    s.about('a load address of all 64 bits')
    s.again(); s.put('disk', A + 952 + 48, p64(0xfedcba9876543210)); s.preamble('disk', A, {}); s.boot()

def candidates(s):
    s.about('entry 2 with two tries: each boot takes one, and then entry 4 is next')
    s.again(); s.table({2: TRIES}); s.boot(); s.boot(); s.boot()
    s.about('two priorities that are equal, and the highest without a try: the lower index is earlier; and a higher one that counts')
    s.again(); s.table({2: dict(priority=3), 4: dict(priority=3, successful=0, tries=2), 6: dict(priority=15)}); s.boot()
    s.again(); s.table({4: dict(priority=3)}); s.boot()
    s.about('no candidates: no tries, another type, no type; and a successful one of priority 0')
    s.again(); s.table({6: dict(priority=15), 3: dict(priority=15, tries=2), 13: dict(priority=15, tries=2), 2: dict(priority=0)}); s.boot()
    s.about('a successful entry keeps its tries; of another one all other bits stay')
    s.again(); s.table({2: dict(tries=5)}); s.boot()
    s.again(); s.table({2: dict(successful=0, priority=15, tries=15, low=b'\1\2\3\4\5\6')}); s.boot()
    s.about('no candidate is left')
    s.again(); s.table({2: dict(priority=0), 4: dict(successful=0)}); s.boot()
    s.about('all 128 entries: 127 short partitions of priority 15, and a good one of priority 1 at last; the backup copy stays behind')
    s.again()
    s.table({i: dict(kind='kernel', unique=fill(1, 100 + i, 16), first=8000 + i, last=8000 + i, priority=15, tries=15, successful=0) for i in range(1, 128)}
            | {128: dict(kind='kernel', unique=fill(1, 99, 16), first=64, last=575, priority=1, tries=1)}, only='primary')
    s.boot(); s.line('cgpt repair disk'); s.boot()

def versions(s):
    s.about('the greatest version, beside an entry of priority 0 that does not count; no other kernel is good then')
    s.again(); s.keyblock('disk', A, {KEY_VERSION: 0xffff}); s.preamble('disk', A, {VERSION: 0xffff}); s.table({4: dict(priority=0)}); s.boot()
    s.table({4: dict(priority=3)}); s.boot()
    s.about('a version over 65,535 is refused in developer mode and in a recovery too')
    s.again(); s.firmware(flags=2); s.keyblock('disk', A, {KEY_VERSION: 65536}); s.boot()
    s.again(); s.firmware(flags=2); s.preamble('disk', A, {VERSION: 65536}); s.boot()
    s.again(); s.keyblock('stick', A, {KEY_VERSION: 65536}, 2); s.boot('recovery')
    s.again(); s.preamble('stick', A, {VERSION: 65536}); s.boot('recovery')
    s.about('what is stored where the later kernel has a bad head, successful or not; a bad body; and where the slot is being tried')
    s.again(); s.other('disk', B + SPOILED['keyblock']); s.boot()
    s.again(); s.other('disk', B + SPOILED['preamble']); s.table({4: TRIES}); s.boot()
    s.again(); s.kernel(0x00010001); s.other('disk', B + SPOILED['body']); s.table({4: TRIES}); s.boot()
    s.again(); s.nv(TryCount=1); s.other('disk', B + SPOILED['keyblock']); s.table({4: TRIES}); s.boot(); s.boot()
    s.about('a later head that has a body signature of no bytes, at each minor version: good where enough bytes are signed, though its body is not')
    s.again(); s.kernel(0x00010001); s.preamble('disk', B, {BODY_SIG: 24, BODY_SIG_SIZE: 0, MINOR: 2, SIGNED: 116}); s.boot()
    for minor, signed in ((2, 115), (1, 112), (1, 111), (0, 96)):
        s.kernel(0x00010001); s.preamble('disk', B, {MINOR: minor, SIGNED: signed}); s.boot()
    s.about('the chosen version is the stored one: a later head that is too old stays; and one over it')
    s.again(); s.kernel(0x00010003); s.table({4: TRIES}); s.boot()
    s.preamble('disk', A, {VERSION: 5}); s.boot()
    s.about('the later head has a higher version; and all kernels are older than the stored version')
    s.again(); s.preamble('disk', B, {VERSION: 9}); s.boot()
    s.kernel(0x0001000a); s.boot()

def tables(s):
    s.about('no table: the failure comes as a second record, and after one of the other slot with a recovery')
    s.again(); s.no_table('disk'); s.boot(); s.boot(); s.boot()
    s.about('the two records lie in two pages, and both in the other one; a try is taken back')
    s.again(); s.no_table('disk'); s.nv(TryCount=2); s.put('flash', CELLS + 16 * 253, b'\0'); s.boot()
    s.again(); s.no_table('disk'); s.nv(TryCount=3); s.put('flash', CELLS + 16 * 254, b'\0'); s.boot()
    s.about('no good kernel: entries that are successful stay, others lose their tries; the table is written between the records')
    s.again(); s.other('disk', A + SPOILED['body']); s.other('disk', B + SPOILED['preamble']); s.boot()
    s.table({2: TRIES, 4: dict(successful=0, tries=15)}); s.boot()
    s.about('no good kernel, and the copies differ')
    s.again(); s.put('disk', 16383 * 512, b'\0'); s.other('disk', A); s.other('disk', B); s.boot()
    s.about('both copies are good and differ: the primary counts')
    s.again(); s.table({2: dict(successful=0, tries=7, priority=0)}, only='backup'); s.boot()
    s.again(); s.table({2: dict(successful=0, tries=7, priority=0)}, only='primary'); s.boot()
    s.about('the primary is not good by the CRC of its entries, by entries that overlap, by its place: the backup counts')
    s.again(); s.put('disk', 1024, b'\0'); s.boot()
    s.again(); s.table({4: dict(first=575)}, only='primary'); s.boot()
    s.again(); s.table({2: TRIES}, only='backup'); s.header(24, 2); s.boot()
    s.about('the place of the other header is not looked at: it stays, and is put right with the next change')
    s.again(); s.header(32, 99); s.boot()
    s.table({2: TRIES}, only='backup'); s.boot()

def switching(s):
    s.about('developer mode is to be switched off, beside the developer switch: the switch stays and the flag goes')
    s.again(); s.firmware(flags=0xff); s.nv(DisableDev=1); s.boot()
    s.again(); s.firmware(flags=2); s.gbb(8); s.nv(DisableDev=1); s.boot()
    s.about('it is not switched on without a recovery, nor where the firmware space has a fault; a fault of the kernel space is no matter')
    s.again(); s.boot('enable-dev')
    s.again(); s.space('firmware', s.m.firmware[:9] + b'\0'); s.boot('recovery', 'enable-dev')
    s.again(); s.space('kernel', b''); s.boot('recovery', 'enable-dev')
    s.about('both requests are gone where it is switched on; and where it is on, only that of a recovery')
    s.again(); s.nv(RecoveryRequest=5, RecoverySubcode=6, DisableDev=1); s.boot('recovery', 'enable-dev')
    s.nv(RecoveryRequest=5, RecoverySubcode=6, DisableDev=1); s.boot('recovery', 'enable-dev')
    s.about('flags of the GBB: the developer switch, without and with boots from the stick; a recovery by hand; all of them; all others')
    s.again(); s.gbb(0x08); s.boot(); s.boot('external')
    s.again(); s.gbb(0x18); s.boot('external')
    s.again(); s.gbb(0x20); s.firmware(version=0x00050000); s.boot()
    s.again(); s.gbb(0x4000); s.boot(); s.boot('enable-dev')
    s.again(); s.gbb(0x4038); s.boot('internal')
    s.again(); s.gbb(0xffffbfc7); s.boot()
    s.about('nothing allows a boot from the stick in normal mode')
    s.again(); s.gbb(0x10); s.nv(ExternalBoot=1, DefaultBoot=1, SignedOnly=1); s.boot('external')
    s.about('developer mode is switched on, and the machine is kept')
    s.again(); s.boot('recovery', 'enable-dev'); s.boot(); s.boot(); s.line('keep')

def developer(s):
    s.about('which drive: each choice where the stick is allowed, where it is the default, where it is not allowed; other defaults')
    for fields, words in ((dict(ExternalBoot=1), ('', 'external')), (dict(ExternalBoot=1, DefaultBoot=1), ('', 'internal')),
                          (dict(DefaultBoot=1), ('', 'external')), (dict(ExternalBoot=1, DefaultBoot=3), ('',))):
        s.again(); s.nv(**fields)
        for word in words: s.boot(*word.split())
    s.again(); s.gbb(0x10); s.boot('external')
    s.about('a boot from the stick that comes to nothing: no sectors, no table, no good kernel; nothing of the drives changes')
    external = lambda **fields: (s.again(), s.nv(ExternalBoot=1, **fields))
    external(); s.no_table('stick'); s.boot('external')
    external(); s.table({2: TRIES}, 'stick'); s.other('stick', A + SPOILED['body']); s.put('stick', 512, b'\0'); s.boot('external')
    s.about('a kernel on the stick that has tries; signed kernels alone: not by the subkey, then by it, and then too old')
    external(); s.table({2: TRIES}, 'stick'); s.boot('external')
    external(SignedOnly=1); s.keyblock('stick', A, {FLAGS: 15}, 2); s.kernel(0x00010001); s.boot('external')
    s.enroll('stick', A, 'keyblock'); s.boot('external'); s.kernel(0x00010002); s.boot('external')
    s.about('a matching hash is enough, whatever the seal is and whatever key is to have made it')
    s.again(); s.put32('disk', A + SEAL_AT, 23); s.hash('disk', A); s.boot()
    s.again(); s.subkey(3); s.boot()
    s.about('a hash that does not match is no matter where the signature is good, and is a fault where it is not')
    s.again(); s.other('disk', A + 632); s.boot()
    s.other('disk', A + 696); s.table({2: TRIES}); s.boot()
    s.about('by its hash: a seal of 63 bytes, a data key that is not all hashed, a data key of SHA-1, of version 65536, of SHA-512')
    for at, value in ((56, 63), (64, 631), (KEY_ALGORITHM, 3), (KEY_VERSION, 65536)): s.again(); s.put32('disk', A + at, value); s.hash('disk', A); s.boot()
    s.again(); s.put32('disk', A + KEY_ALGORITHM, 5); s.hash('disk', A); s.preamble('disk', A, {}, 'body'); s.boot()
    s.about('neither flags nor versions are checked, but where signed kernels alone are')
    s.again(); s.keyblock('disk', A, {FLAGS: 0}); s.boot(); s.nv(SignedOnly=1); s.boot()
    s.again(); s.kernel(0x00020000); s.boot(); s.nv(SignedOnly=1); s.boot()
    s.about('signed kernels alone: one for a machine without developer mode, one for a machine with it')
    s.again(); s.nv(SignedOnly=1); s.keyblock('disk', A, {FLAGS: 5}); s.boot(); s.keyblock('disk', A, {FLAGS: 6}); s.boot()
    s.about('the fates in developer mode: an entry that is tried, and a later bad head that stays; no kernel version is stored')
    s.again(); s.kernel(0x00010001); s.other('disk', B); s.table({2: TRIES, 4: TRIES}); s.boot()
    s.about('a slot with a fault, no table, no good kernel')
    s.again(); s.put('flash', 131072, b'\x97'); s.boot()
    s.again(); s.no_table('disk'); s.boot()
    s.again(); s.other('disk', A); s.other('disk', B + SPOILED['body']); s.table({2: TRIES}); s.boot()
    s.about('it is switched off, and the machine is kept')
    s.again(); s.nv(DisableDev=1); s.boot(); s.line('keep')

def recovery(s):
    hand = lambda *words: s.boot('recovery', *words)
    s.about('a recovery from the stick; requests end with it, and what else is asked for stays')
    s.again(); hand('external'); s.nv(RecoveryRequest=5, RecoverySubcode=6, DisableDev=1, TryCount=3); hand('internal')
    s.about('no table on the stick; its backup alone; no good kernel: a body, a signature whose hash is right; and its entry keeps its tries')
    s.again(); s.no_table('stick'); s.nv(RecoveryRequest=5, RecoverySubcode=6); hand()
    s.again(); s.put('stick', 512, b'\0'); s.table({2: dict(successful=0, tries=1)}, 'stick', 'backup'); hand()
    s.again(); s.other('stick', A + SPOILED['body']); hand()
    s.again(); s.other('stick', A + SPOILED['keyblock']); s.table({2: TRIES}, 'stick'); hand()
    s.about('faults of the spaces')
    s.again(); s.space('firmware', b''); hand()
    s.again(); s.space('kernel', sealed(b'\x10' + s.m.kernel[1:12])); hand()
    s.again(); s.space('firmware', s.m.firmware[:9] + b'\0'); s.space('kernel', b''); s.gbb(0x4000); s.boot()
    s.about('versions are not checked')
    s.again(); s.firmware(version=0xffffffff); s.kernel(0xffffffff); hand()
    s.about('flags of a keyblock: recovery without developer mode and with it, and not in recovery')
    s.again(); s.keyblock('stick', A, {FLAGS: 9}, 2); hand(); s.firmware(flags=2); hand(); s.nv(DisableDev=1); hand()
    s.again(); s.keyblock('stick', A, {FLAGS: 10}, 2); hand(); s.gbb(8); hand()
    s.again(); s.keyblock('stick', A, {FLAGS: 7}, 2); hand()
    s.about('a recovery key of SHA-1')
    s.again(); s.put32('flash', RECOVERY_ALGORITHM, 3); hand()
    s.about('two kernels on the stick, the second one is good')
    s.again(); s.table({2: dict(priority=1), 4: dict(kind='kernel', unique=fill(1, 99, 16), first=576, last=1087, priority=2, successful=1)}, 'stick'); hand()
    s.about('drives without sectors: a recovery, and a boot')
    s.again(); s.line('disk 0'); s.line('stick 0'); hand(); s.boot()

GROUPS = (first_boots, kernel_tables, kernel_forms, candidates, versions, tables, switching, developer, recovery)

def cases():
    s = Script()
    for group in GROUPS: group(s)
    return s

# The same script without `keep` and `again`.
def plain(lines):
    s, kept = Script(), None
    for line in lines:
        if line == 'keep': kept = s.m
        elif line == 'again':
            for image in ('flash', 'disk', 'stick'): s.rewritten(image, getattr(kept, image))
            for name in ('firmware', 'kernel'):
                if getattr(s.m, name) != getattr(kept, name): s.space(name, getattr(kept, name))
        else: s.line(line)
    return s

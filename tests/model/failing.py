# Cases in which each call of a device fails in turn.
from forms import *

def failing():
    s = Script()
    each = lambda words, *devices: [s.line(f'each {device} {words}') for device in devices]
    s.about('each call of a device fails in turn, on machine 1 with both drives')
    for line in ('erased 1048576', 'disk 16384', 'stick 16384', 'make 1', 'keep'): s.line(line)
    s.about('its first boot: the firmware space, the record and the kernel space are written')
    each('boot', 'flash', 'tpm', 'disk', 'stick', 'hook', 'sink')
    s.about('and the table, of an entry with tries, and of one whose kernel is bad')
    s.table({2: TRIES}); each('boot', 'tpm', 'disk')
    s.other('disk', A + SPOILED['body']); each('boot', 'disk', 'hook')
    s.about('the backup copy is the only one, and is to be written last')
    s.again(); s.table({2: TRIES}); s.put('disk', 512, b'\0'); each('boot', 'disk')
    s.about('no table: two records, in one page and in two')
    s.again(); s.no_table('disk'); each('boot', 'flash', 'tpm', 'disk')
    s.put('flash', CELLS + 16 * 253, b'\0'); each('boot', 'flash')
    s.about('no good kernel: a record, the table, a record')
    s.again(); s.table({2: TRIES}); s.other('disk', A); s.other('disk', B); each('boot', 'flash', 'disk')
    s.about('a boot from the disk and from the stick in developer mode')
    s.again(); s.firmware(flags=2); s.nv(ExternalBoot=1); s.table({2: TRIES})
    each('boot', 'flash', 'tpm', 'disk', 'stick', 'hook'); each('boot external', 'flash', 'tpm', 'disk', 'stick', 'hook')
    s.no_table('stick'); each('boot external', 'flash', 'tpm', 'stick')
    s.about('developer mode is switched on; a recovery by hand, with a kernel and without')
    s.again(); s.nv(RecoveryRequest=5, DisableDev=1)
    each('boot recovery enable-dev', 'flash', 'tpm', 'disk', 'stick', 'hook'); each('boot recovery', 'flash', 'tpm', 'disk', 'stick', 'hook')
    s.other('stick', A); each('boot recovery', 'flash', 'stick')
    s.about('a slot with a fault, and a screen')
    s.again(); s.put('flash', 131072, b'\x97'); s.firmware(flags=2); each('boot', 'flash', 'tpm', 'disk', 'hook')
    s.again(); s.nv(RecoveryRequest=5); each('boot', 'flash', 'tpm', 'disk')
    return s

# The same of what is shown, and of records in pages that forms() has.
def failing_forms():
    s = Script()
    s.about('each call fails in turn while a flash is shown that has faults, and a partition where the primary header is spoiled, or no table is left')
    small_machine(s); s.put32('flash', 8196, 0x10001); s.put32('flash', 262144 + 952, 107); s.line('each flash futility show flash')
    disk_machine(s); s.put('disk', 512, b'\0'); s.put('disk', A + 984, b'\3'); s.line('each disk futility show disk 2')
    s.no_table('disk'); s.line('each disk futility show disk 2')
    both_pages(s, 'each flash boot')
    s.about('the same in pages of 64 bytes a cell: the next cell, the other page, and a page of the other form where no record stands')
    put_cells(s, 1, 1, 16, {}); put_cells(s, 0, 2, 64, {0: of_tries(64, 2)}); s.line('each flash boot')
    put_cells(s, 0, 2, 64, {62: of_tries(64, 2)}); s.line('each flash boot')
    put_cells(s, 0, 2, 64, {}); s.line('each flash boot')
    return s

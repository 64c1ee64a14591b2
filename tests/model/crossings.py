# Cases of crossystem and of migrate: each key, each word that is refused, what is stored, and what the next boot makes of it.
from forms import *

SETS = {key: what[1][:what[2]] for key, what in KEYS.items() if isinstance(what, tuple) and what[2]}
READ_ONLY = [key for key, what in KEYS.items() if isinstance(what, str) or isinstance(what, tuple) and not what[2]]
CEILINGS = [key for key, what in KEYS.items() if isinstance(what, int)]

def kept(s): small_machine(s); s.line('keep')
def kept_with_disk(s): disk_machine(s); s.line('keep')
def cross(s, words, *texts): s.run(('crossystem ' + words).strip(), *texts)

def of_rows(s):
    s.about('the list of a machine, and the first words')
    kept_with_disk(s)
    cross(s, '', 'dev_boot_signed_only=0', 'fw_ceiling=0xffffffff', 'fw_result=success', 'hwid=DEMO TEST 1234', 'tpm_kernver=0x00010001', 'status 0')
    cross(s, 'fw_try_next=B fw_try_count=16', 'refused word 2 BadValue', 'status 13')
    cross(s, 'tpm_fwver fw_result', '0x00010001', 'success', 'status 0')
    cross(s, 'fw_try_next?B', 'differs word 1', 'status 4')
    cross(s, 'no_such', 'refused word 1 UnknownKey', 'status 13')
    s.about('a recovery is asked for, and taken back by the boot that shows it')
    cross(s, 'recovery_request=5 recovery_subcode=6', 'status 0'); s.run('boot', 'screen reason 5 subcode 6'); s.run('boot', 'hand over')
    s.about('ceilings: the record gets its longer form, and the next boot holds the roll-forward down')
    s.again(); cross(s, 'kernel_ceiling=0x00010001', 'status 0')
    assert s.m.flash[36864:36880].hex() == '4e5650470100000002000000000000d1'
    s.run('boot', 'stored 0x00010002 0x00010001'); cross(s, 'kernel_ceiling=0x00010002'); s.run('boot', 'stored 0x00010002 0x00010002')
    cross(s, 'kernel_ceiling fw_ceiling', '0x00010002', '0xffffffff'); cross(s, 'fw_ceiling=0x1', 'refused word 1 BadValue')

def of_sets(s):
    s.about('each key, set to each value that it takes (of many, to some), shown and checked in the same call')
    kept(s)
    for key, texts in SETS.items():
        for text in texts if len(texts) < 16 else [*texts[:3], '9', '10', *texts[-2:]]:
            s.again(); cross(s, f'{key}={text} {key} {key}?{text}', text, 'status 0'); cross(s, f'{key}', text)
            cross(s, f'{key}?{text}x', 'differs word 1')
    for key in CEILINGS:
        for text in ('0x00000000', '0x0001ffff', '0xfedcba98', '0xffffffff'):
            s.again(); cross(s, f'{key}={text} {key} {key}?{text}', text); cross(s, '')
    s.about('both ceilings, and fields in a record that has them')
    s.again(); cross(s, 'fw_ceiling=0x00000001 kernel_ceiling=0x00000002 loc_idx=3 fw_ceiling kernel_ceiling loc_idx', '0x00000001', '0x00000002', '3'); cross(s, '')
    s.about('a value that no set takes: it is shown')
    for value in (2, 3): s.again(); s.nv(DefaultBoot=value); cross(s, f'dev_default_boot dev_default_boot?{value}', str(value), 'status 0')
    s.again(); s.nv(PrevResult=3, PrevTried=1, Tried=1, Result=1)
    cross(s, 'fw_prev_result fw_prev_tried fw_tried fw_result', 'failure', 'B', 'trying')
    s.about('the bit of the firmware stays where the bit of the kernel is cleared')
    s.again(); s.nv(KernelReset=1, FirmwareReset=1); cross(s, 'nvram_cleared nvram_cleared=0 nvram_cleared', '1', '0')
    assert get(nv_state(s.m.flash, 32768).record, 'FirmwareReset') == 1

BAD = ('', '00', '01', '-1', '+1', '=1', '?1', '256', '1.', '0x0', 'A', 'a', 'b', 'AB', 'disk', 'usb', '2', 'success', 'Success', '0X00000001',
       '0x0000000G', '0x0000000F', '0x1', '0x000000001', '00000000', '0x00000000x')

def of_refusals(s):
    s.about('each key, set to what it does not take: the record stays')
    kept(s)
    for key in [*SETS, *CEILINGS]:
        for text in BAD:
            if refusal(f'{key}={text}'): cross(s, f'{key}={text}', 'refused word 1 BadValue')
    for key in READ_ONLY:
        for text in ('', '0', 'A', 'success', key_text(key, nv_state(s.m.flash, 32768).record, fixed_texts(s.m, s.m.flash[8192:24576])).split(' ')[0]):
            cross(s, f'{key}={text}', 'refused word 1 ReadOnly')
    for word in ('=', '?', '=1', '?1', 'FW_RESULT', 'fw_resul', 'fw_result_', 'fw_result_=success', 'hwid_', 'x=fw_result'):
        cross(s, word, 'refused word 1 UnknownKey')
    s.about('words in each order of what refuses them: the first counts, and none before it is worked')
    words = {'UnknownKey': 'no_such', 'ReadOnly': 'fw_tried=A', 'BadValue': 'loc_idx=256'}
    for first in words:
        for second in words:
            cross(s, f'loc_idx=7 {words[first]} {words[second]} loc_idx?9', f'refused word 2 {first}', 'status 13')
    cross(s, 'loc_idx?9 fw_tried=A', 'refused word 2 ReadOnly'); cross(s, 'loc_idx', '0')
    s.about('a map with a fault: words that are refused come before it')
    s.put('flash', 4096, b'x'); cross(s, '', 'bad flash 2', 'status 11'); cross(s, 'loc_idx=1', 'bad flash 2'); cross(s, 'loc_idx=a', 'refused word 1 BadValue')

def of_orders(s):
    s.about('words are worked in order: a value after a set before it, and up to the first check that differs')
    kept(s)
    cross(s, 'loc_idx loc_idx=1 loc_idx loc_idx?1 loc_idx=2 loc_idx?2 loc_idx', '0', '1', '2', 'status 0')
    s.again(); cross(s, 'loc_idx=4 loc_idx loc_idx?5 loc_idx=6 loc_idx', '4', 'differs word 3', 'status 4'); cross(s, 'loc_idx', '4')
    s.again(); cross(s, 'loc_idx?0 loc_idx?1 loc_idx=6', 'differs word 2'); cross(s, 'loc_idx', '0')
    cross(s, 'fw_tried?A hwid?DEMO fw_tried', 'differs word 2'); cross(s, 'tpm_fwver?0x00010001 tpm_kernver?0x00010002', 'differs word 2')
    s.about('the first sign splits a word')
    cross(s, 'loc_idx=1=', 'refused word 1 BadValue'); cross(s, 'loc_idx=1?1', 'refused word 1 BadValue'); cross(s, 'loc_idx?=0', 'differs word 1')
    cross(s, 'loc_idx?0?', 'differs word 1'); cross(s, 'loc_idx?', 'differs word 1')
    s.about('a record that stands already is not stored, and one that was set back is not either')
    cross(s, 'fw_result=success loc_idx=0'); cross(s, 'loc_idx=5 loc_idx=0'); cross(s, 'loc_idx=5 loc_idx'); cross(s, 'loc_idx=5')
    s.about('no record stands: a set of the value that the blank record has stores it, and a value that is shown stores nothing')
    s.again(); s.put('flash', 32768, b'\0'); cross(s, ''); cross(s, 'nvram_cleared fw_result', '1', 'unknown'); cross(s, 'loc_idx=0', 'status 0')
    cross(s, 'loc_idx=0')
    s.again(); s.put('flash', CELLS, b'\0'); cross(s, 'nvram_cleared?1 loc_idx?0'); cross(s, 'nvram_cleared=0')
    s.about('pages: a full one, the next generation, and one of the other form')
    s.again(); s.put('flash', CELLS + 16 * 254, b'\0'); cross(s, 'loc_idx=1'); cross(s, 'loc_idx=2 loc_idx', '2'); cross(s, 'fw_ceiling=0x00000000'); cross(s, '')

def of_devices(s):
    s.about('a GBB with a fault, and HWIDs: none before a NUL, bytes that are no printable ASCII, 256 of them without a NUL')
    kept(s); s.put('flash', 8192, b'x'); cross(s, 'hwid hwid?(error)', '(error)', 'status 0'); cross(s, '')
    for hwid, text in ((b'\0', ''), (b'X\0Y', 'X'), (b'\x1f\x20\x7e\x7f\xff\0', '? ~??'), (b'\n\0', '?'), (b'=?\0', '=?')):
        s.again(); s.put('flash', 8192 + 128, hwid); cross(s, 'hwid', text); cross(s, 'hwid?' + text.split(' ')[0])
    hwid = bytes(33 + i % 94 for i in range(1, 257))
    s.again(); s.put('flash', 8192 + 16, p32(1248) + p32(256)); s.put('flash', 8192 + 1248, hwid); cross(s, 'hwid', hwid.decode()); cross(s, '')
    s.about('spaces with each of their faults, and a kernel space of 40 bytes')
    s.again(); firmware, kernel = s.m.firmware, s.m.kernel
    for bs in (b'', firmware[:9], firmware[:9] + b'\0', sealed(b'\1' + firmware[1:9])):
        s.again(); s.space('firmware', bs); cross(s, 'tpm_fwver tpm_kernver', '(error)', '0x00010001')
    for bs in (b'', kernel[:12], kernel[:12] + b'\0', sealed(b'\1' + kernel[1:12]), sealed(kernel[:1] + b'x' + kernel[2:12]), bytes(40)):
        s.again(); s.space('kernel', bs); cross(s, 'tpm_fwver tpm_kernver', '0x00010001', '(error)'); cross(s, 'tpm_kernver?(error)', 'status 0')
    s.again(); s.run('migrate', 'migrated'); cross(s, 'tpm_kernver', '0x00010001')

def of_migrate(s):
    s.about('the kernel space in its newer form: once, twice, and with each fault')
    kept_with_disk(s); s.run('migrate', 'migrated', 'status 0'); s.run('migrate', 'already v1', 'status 0'); s.run('boot', 'stored 0x00010002 0x00010002')
    s.again(); kernel = s.m.kernel
    for number, bs in ((1, b''), (1, kernel[:12]), (1, bytes(39)), (2, kernel[:12] + b'\0'), (3, sealed(b'\1' + kernel[1:12])), (3, sealed(b'\x10' + kernel[1:12])),
                       (4, sealed(kernel[:1] + b'x' + kernel[2:12])), (1, bytes(40)), (2, b'\x10\x28\1' + bytes(37)), (3, sealed_v1(b'\x0f\x28' + bytes(38)))):
        s.again(); s.space('kernel', bs); s.run('migrate', f'refused migrate {number}', 'status 20')
    for version in (0, 0xffffffff, 0x01020304): s.again(); s.kernel(version); s.run('migrate', 'migrated'); s.run('crossystem tpm_kernver', f'0x{version:08x}')
    s.run('migrate now', 'usage')

def of_boots(s):
    s.about('what a boot makes of a set: the other slot is tried, and a good boot is reported')
    kept_with_disk(s); cross(s, 'fw_try_next=B fw_try_count=2'); s.run('boot', 'slot B'); cross(s, 'fw_tried fw_result fw_try_count', 'B', 'trying', '1')
    cross(s, 'fw_result=success'); s.run('boot', 'slot B'); cross(s, ''); cross(s, 'fw_try_next=A'); s.run('boot', 'slot A')
    s.about('developer mode: signed kernels alone, the drive, and that it is to be switched off')
    s.again(); s.firmware(flags=2); cross(s, 'dev_boot_usb=1 dev_default_boot=usb dev_boot_signed_only=1'); s.boot(); cross(s, 'disable_dev_request=1'); s.boot(); cross(s, '')

GROUPS_OF_CROSSINGS = (of_rows, of_sets, of_refusals, of_orders, of_devices, of_migrate, of_boots)

def crossings():
    s = Script()
    s.about('crossystem and migrate: the cases that tests/model/cases.py writes of them')
    for group in GROUPS_OF_CROSSINGS: group(s)
    return s

# Each call of a device fails in turn.
def failing_crossings():
    s = Script()
    each = lambda words, *devices: [s.line(f'each {device} {words}') for device in devices]
    s.about('each call fails in turn: a set in the next cell, in a full page, in a page of the other form, and where no page counts')
    kept(s); each('crossystem loc_idx=5 loc_idx hwid', 'flash', 'tpm', 'sink')
    s.put('flash', CELLS + 16 * 254, b'\0'); each('crossystem loc_idx=5 loc_idx', 'flash', 'sink')
    s.again(); each('crossystem kernel_ceiling=0x00010001', 'flash')
    s.again(); s.put('flash', 32768, b'\0'); each('crossystem loc_idx=5 loc_idx', 'flash', 'tpm', 'sink')
    s.about('words that change nothing: the list, a check that differs, a record that stands')
    s.again(); each('crossystem', 'flash', 'tpm', 'sink'); each('crossystem hwid loc_idx?1 loc_idx=1', 'flash', 'tpm', 'sink'); each('crossystem loc_idx=0', 'flash')
    s.about('migrate')
    each('migrate', 'tpm', 'sink')
    return s

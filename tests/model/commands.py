# What each command prints, its status, and the machine after it.
import functools
from crossing import *
from tables import *

def boot_switches(words): # None where they are no words of a boot
    switches = {}
    if words[:1] == ['recovery']: switches['recovery'], words = True, words[1:]
    if words[:1] == ['enable-dev']: switches['enable_dev'], words = True, words[1:]
    if words[:1] in (['internal'], ['external']): switches['choice'], words = words[0], words[1:]
    return None if words else switches

@functools.cache
def images_of(number): return images.flash(number), images.disk(number), images.stick(number), images.rows(number)

def made(m, number): # the machine after `make`, or the first device of another size
    if len(m.flash) != 1048576: return 'flash'
    if len(m.disk) != 16384 * 512: return 'disk'
    if len(m.stick) not in (0, 16384 * 512): return 'stick'
    flash, disk, stick, rows = images_of(number)
    return Machine(flash, bytes.fromhex('0200010001000000004f'), bytes.fromhex('024c5752470100010000000055'), disk, stick if m.stick else b'',
                   m.rows + [row for row in rows if row not in m.rows])

def table_text(name, disk):
    table, copy, agree = read_table(disk)
    if not table: return ['refused cgpt NoTable'], 14
    kinds = {uuid.UUID(kind): word for word, kind in images.KINDS.items()}
    lines = [f'drive {name} sectors {len(disk) // 512} table {copy} {"agree" if agree else "differ"}', f'guid {uuid.UUID(bytes_le=table[0])}',
             f'usable {table[1]} {table[2]}']
    for i in range(1, 129):
        e = entry(table, i)
        if not any(e[:16]): continue
        kind, first, last = uuid.UUID(bytes_le=e[:16]), u64(e, 32), u64(e, 40)
        units = [u16(e, at) for at in range(56, 128, 2)]
        label = ''.join(chr(x) if 0x20 <= x <= 0x7e else '?' for x in units[:(units + [0]).index(0)])
        lines.append(f'part {i} begin {first} size {last - first + 1} type {kinds.get(kind, kind)} unique {uuid.UUID(bytes_le=e[16:32])} priority '
                     f'{priority(e)} tries {tries(e)} successful {successful(e)} label' + (label and ' ' + label))
    return lines, 0

# Lines on a keyblock and on the preamble behind it, tested by their bytes alone: up to `last_line` of the table of the preamble.
def keyblock_and_preamble(name, bs, fault, last_line, fields):
    line = keyblock_form(bs, 24)
    if line: return [f'{name} keyblock fault {line}']
    lines = [f'{name} keyblock {u32(bs, 16)} flags {u32(bs, 72)} key {u32(bs, 96)} version {u32(bs, 104)}']
    bs, any_key = bs[u32(bs, 16):], types.SimpleNamespace(algorithm=0, version=0, bytes=b'')
    line = fault(Machine(), bs, any_key, None)
    return lines + [f'{name} preamble fault {line}' if 0 < line <= last_line else f'{name} preamble {fields(bs)}']

def firmware_fields(bs): return f'{u32(bs, 0)} version {u32(bs, 40)} flags 0x{u32(bs, 104):08x} body {u32(bs, 96)}'
def kernel_fields(bs): return f'{u32(bs, 0)} version {u32(bs, 40)} load 0x{u64(bs, 48):016x} body {u32(bs, 88)}'

def flash_text(flash):
    at = map_place(flash)
    areas = read_map(flash, at)
    if isinstance(areas, int): return [f'bad flash {areas}'], 11
    lines = [f'flash {len(flash)} map {at}'] + [f'area {name} {place} {size}' for name, (place, size) in zip(AREAS, areas)]
    content = lambda area: flash[area[0]:sum(area)]
    gbb = content(areas[0])
    if isinstance(read_gbb(gbb), int): lines.append(f'gbb fault {read_gbb(gbb)}')
    else:
        hwid = plain_text(gbb[u32(gbb, 16):u32(gbb, 16)+u32(gbb, 20)])
        lines.append(f'gbb minor {u16(gbb, 6)} flags 0x{u32(gbb, 12):08x} hwid' + (hwid and ' ' + hwid))
    for name, k in (('slot A', 2), ('slot B', 4)): lines += keyblock_and_preamble(name, content(areas[k]), fw_preamble_fault, 8, firmware_fields)
    return lines, 0

def partition_text(disk, i):
    table = read_table(disk)[0]
    if not table: return ['refused cgpt NoTable'], 14
    if not 1 <= i <= 128 or not any(entry(table, i)[:16]): return ['refused cgpt NoEntry'], 14
    first, last = u64(entry(table, i), 32), u64(entry(table, i), 40)
    if last - first + 1 < 128: return [f'partition {i} short'], 0
    return keyblock_and_preamble(f'partition {i}', disk[512*first:512*first+65536], kernel_preamble_fault, 7, kernel_fields), 0

def is_number(word): return word.isdecimal() and str(int(word)) == word and int(word) < 2**32

# The text, the status and the machine after words; None where this model does not know the command.
def run_words(m, words):
    if words[0] == 'boot':
        switches = boot_switches(words[1:])
        if switches is None: return ['usage'], 1, m
        plan = plan_of(m, **switches)
        return plan.text, plan.status, after_boot(m, plan)
    if words[0] == 'make' and len(words) == 2 and is_number(words[1]):
        after = made(m, int(words[1]))
        return ([f'refused make size {after}'], 16, m) if isinstance(after, str) else ([], 0, after)
    if words == ['futility', 'show', 'flash']: return *flash_text(m.flash), m
    if words[:2] == ['futility', 'show'] and len(words) == 4 and words[2] in ('disk', 'stick') and is_number(words[3]):
        return *partition_text(getattr(m, words[2]), int(words[3])), m
    if words == ['migrate']: return migrate(m)
    if words[0] in ('make', 'futility', 'migrate'): return ['usage'], 1, m
    if words[0] == 'crossystem': return crossystem(m, words[1:])
    if words[:2] == ['cgpt', 'show'] and words[2:] in (['disk'], ['stick']): return *table_text(words[2], getattr(m, words[2])), m
    if words[0] == 'cgpt':
        plan = plan_of_words(m, words[1:])
        if plan is None: return None
        lines, why, table = plan
        if why: return [f'refused cgpt {why}'], 14, m
        drive = call_of(words[1:])[2]
        return lines, 0, m if table is None else m.copy(**{drive: with_table(getattr(m, drive), table)})
    return None

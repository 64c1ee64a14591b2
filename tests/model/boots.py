# One boot: its plan, and the machine after it.
from drives import *

class Plan: # the lines that are printed, the status, and the changes in their order, each a kind and what is written
    def __init__(self, status, text, *changes): self.status, self.text, self.changes = status, text, list(changes)

version_text = lambda v: '-' if v is None else f'0x{v:08x}'
def screen(reason, subcode, *changes): return Plan(3, [f'screen reason {reason} subcode {subcode}'], *changes)
def reboot(reason, subcode, requested, *changes):
    return Plan(2, [f'reboot reason {reason} subcode {subcode} requested {requested}'], *changes)
def hand_over(mode, slot, firmware, drive, i, head, stored, *changes):
    return Plan(0, [f'mode {mode}', f'slot {slot}', f'firmware 0x{firmware[0]:08x} {firmware[1]}',
                    f'kernel {drive} {i} 0x{head.version:08x} {head.many} 0x{head.address:016x}',
                    f'stored {version_text(stored[0])} {version_text(stored[1])}', 'hand over'], *changes)

def plan_of(m, recovery=False, enable_dev=False, choice='default'):
    areas = read_map(m.flash, map_place(m.flash))
    if isinstance(areas, int): return Plan(11, [f'bad flash {areas}'])
    gbb_area, nvram, vblock_a, main_a, vblock_b, main_b = areas
    nv = nv_state(m.flash, nvram[0]).record or BLANK
    store = lambda bs: ('nv', nvram[0], bs)
    n0 = record(nv, RecoveryRequest=0, RecoverySubcode=0)
    gbb = read_gbb(m.flash[gbb_area[0]:sum(gbb_area)])
    if isinstance(gbb, int): return screen(10, gbb, store(n0))
    gbb_flags, root, recovery_key = gbb
    bad_firmware, bad_kernel = firmware_fault(m.firmware), kernel_space_fault(m.kernel)
    flags = 0 if bad_firmware else m.firmware[1]
    stored = (None if bad_firmware else u32(m.firmware, 2), None if bad_kernel else kernel_versions_of(m.kernel))
    dev_on = bool(flags & 2 and not get(nv, 'DisableDev') or gbb_flags & 8)
    firmware_with = lambda flags, version: ('firmware', sealed(changed(changed(m.firmware, 1, [flags]), 2, p32(version))[:9]))
    if recovery or gbb_flags & 0x4000:
        if enable_dev and not bad_firmware and not flags & 2:
            return Plan(0, ['developer mode enabled'], firmware_with(flags | 2, stored[0]), store(record(n0, DisableDev=0)))
        table = read_table(m.stick)[0]
        if not table: return screen(2, 1, store(n0))
        i, head, _, _ = walk(m, m.stick, table, recovery_key, Rules('recovery', 0, dev_on, 0), 'recovery', 0)
        if i is None: return screen(2, 2, store(n0))
        return hand_over('recovery', '-', (0, 0), 'stick', i, head, stored, store(n0))
    if bad_firmware: return screen(11, bad_firmware, store(n0))
    if bad_kernel: return screen(12, bad_kernel, store(n0))
    if get(nv, 'RecoveryRequest'): return screen(get(nv, 'RecoveryRequest'), get(nv, 'RecoverySubcode'), store(n0))
    mode = 'developer' if dev_on else 'normal'
    selected, slot, last_slot, last_result = select(nv)
    n1 = record(selected, DisableDev=0)
    n2 = lambda reason, subcode: fail(n1, slot, last_slot, last_result, reason, subcode)
    new_flags = flags & ~3 | (flags & 2 and not get(nv, 'DisableDev') and 2) | (mode == 'developer')
    vblock, main = (vblock_b, main_b) if slot else (vblock_a, main_a)
    good = check_slot(m, root, vblock, main, None if gbb_flags & 0x20 else stored[0])
    if len(good) == 2:
        after, requested = n2(*good)
        return reboot(*good, requested, firmware_with(new_flags, stored[0]), store(after))
    version, many, subkey = good
    rises = version > stored[0] and last_slot == slot and last_result == 2
    stored = (max(stored[0], min(version, ceilings(nv)[0])) if rises else stored[0], stored[1])
    changes = [firmware_with(new_flags, stored[0]), store(n1)]
    return with_kernel(m, mode, choice, nv, n1, n2, store, gbb_flags, dev_on, 'AB'[slot], (version, many), subkey, stored, changes)

# A boot from its good slot on.
def with_kernel(m, mode, choice, nv, n1, n2, store, gbb_flags, dev_on, slot, firmware, subkey, stored, changes):
    allowed = mode == 'developer' and (get(nv, 'ExternalBoot') or gbb_flags & 0x10)
    on_stick = allowed and (choice == 'external' or choice == 'default' and get(nv, 'DefaultBoot') == 1)
    drive, bs = ('stick', m.stick) if on_stick else ('disk', m.disk)
    rules = Rules(mode, get(nv, 'SignedOnly'), dev_on, stored[1])
    table, _, agree = read_table(bs)
    if not table:
        if on_stick: return screen(32, 1, *changes)
        after, requested = n2(30, 0)
        return reboot(30, 0, requested, *changes, store(after))
    i, head, entries, lowest = walk(m, bs, table, subkey, rules, mode, stored[1])
    if on_stick:
        return screen(32, 2, *changes) if i is None else hand_over(mode, slot, firmware, drive, i, head, stored, *changes)
    if entries != table[3] or not agree: changes = changes + [('disk', table[:3] + (entries,))]
    if i is None:
        after, requested = n2(31, 0)
        return reboot(31, 0, requested, *changes, store(after))
    rises = mode == 'normal' and get(n1, 'Result') != 1 and head.version > stored[1]
    stored = (stored[0], max(stored[1], min(lowest, ceilings(nv)[1])) if rises else stored[1])
    return hand_over(mode, slot, firmware, drive, i, head, stored, *changes, ('kernel', with_kernel_versions(m.kernel, stored[1])))

# The machine after a change; the same one where the change is left out.
def after_change(m, change):
    kind, *what = change
    if kind == 'nv':
        area, nv = what
        return m if nv_state(m.flash, area).record == nv else m.copy(flash=with_record(m.flash, area, nv))
    if kind == 'disk': return m.copy(disk=with_table(m.disk, what[0]))
    return m if getattr(m, kind) == what[0] else m.copy(**{kind: what[0]})

# The changes of a plan that are not left out, each with the machine after it.
def steps_of(m, plan):
    steps = []
    for change in plan.changes:
        after = after_change(m, change)
        if after is not m: steps.append((change, after))
        m = after
    return steps

def after_boot(m, plan): return ([m] + [after for _, after in steps_of(m, plan)])[-1]

# crossystem and migrate, by the table of the keys in docs/formats.md.
from boots import *

OUTCOMES, SLOTS = ['unknown', 'trying', 'success', 'failure'], ['A', 'B']
# What is shown of a field, by its value, and the texts that a set takes, in the order of the values.
NUMBERS = lambda count: [str(value) for value in range(count)]
KEYS = { # the field, its texts, and how many of them a set takes; a ceiling; or a value that is read only
    'dev_boot_signed_only': ('SignedOnly', NUMBERS(2), 2), 'dev_boot_usb': ('ExternalBoot', NUMBERS(2), 2),
    'dev_default_boot': ('DefaultBoot', ['disk', 'usb', '2', '3'], 2), 'disable_dev_request': ('DisableDev', NUMBERS(2), 2),
    'fw_ceiling': 0, 'fw_prev_result': ('PrevResult', OUTCOMES, 0), 'fw_prev_tried': ('PrevTried', SLOTS, 0),
    'fw_result': ('Result', OUTCOMES, 4), 'fw_tried': ('Tried', SLOTS, 0), 'fw_try_count': ('TryCount', NUMBERS(16), 16),
    'fw_try_next': ('TryNext', SLOTS, 2), 'hwid': 'hwid', 'kernel_ceiling': 1, 'loc_idx': ('Localization', NUMBERS(256), 256),
    'nvram_cleared': ('KernelReset', NUMBERS(2), 1), 'recovery_request': ('RecoveryRequest', NUMBERS(256), 256),
    'recovery_subcode': ('RecoverySubcode', NUMBERS(256), 256), 'tpm_fwver': 'tpm_fwver', 'tpm_kernver': 'tpm_kernver'}

def fixed_texts(m, gbb): # the values that no set changes
    version = lambda fault, value: '(error)' if fault else f'0x{value():08x}'
    return {'hwid': '(error)' if isinstance(read_gbb(gbb), int) else plain_text(gbb[u32(gbb, 16):u32(gbb, 16)+u32(gbb, 20)]),
            'tpm_fwver': version(firmware_fault(m.firmware), lambda: u32(m.firmware, 2)),
            'tpm_kernver': version(kernel_space_fault(m.kernel), lambda: kernel_versions_of(m.kernel))}

def key_text(key, nv, fixed):
    what = KEYS[key]
    if isinstance(what, str): return fixed[what]
    return f'0x{ceilings(nv)[what]:08x}' if isinstance(what, int) else what[1][get(nv, what[0])]

def version_in(text): # the ceiling that a text writes, or None
    digits = text[2:]
    return int(digits, 16) if len(text) == 10 and text[:2] == '0x' and all(c in '0123456789abcdef' for c in digits) else None

# A word: its key, its sign and what stands behind it. The first sign splits.
def split_word(word):
    at = next((i for i, c in enumerate(word) if c in '=?'), len(word))
    return word[:at], word[at:at+1], word[at+1:]

def refusal(word):
    key, sign, text = split_word(word)
    if key not in KEYS: return 'UnknownKey'
    if sign != '=': return None
    what = KEYS[key]
    if isinstance(what, str) or isinstance(what, tuple) and not what[2]: return 'ReadOnly'
    if isinstance(what, int): return None if version_in(text) is not None else 'BadValue'
    return None if text in what[1][:what[2]] else 'BadValue'

def with_set(nv, key, text):
    what = KEYS[key]
    if isinstance(what, tuple): return record(nv, **{what[0]: what[1].index(text)})
    both = list(ceilings(nv))
    both[what] = version_in(text)
    return with_ceilings(nv, *both)

def crossystem(m, words): # the lines, the status and the machine afterwards
    for number, word in enumerate(words, 1):
        if refusal(word): return [f'refused word {number} {refusal(word)}'], 13, m
    areas = read_map(m.flash, map_place(m.flash))
    if isinstance(areas, int): return [f'bad flash {areas}'], 11, m
    stands = nv_state(m.flash, areas[1][0]).record
    nv, fixed = stands or BLANK, fixed_texts(m, m.flash[areas[0][0]:sum(areas[0])])
    lines, status, was_set = [], 0, False
    if not words: lines = [f'{key}={key_text(key, nv, fixed)}' for key in KEYS]
    for number, word in enumerate(words, 1):
        key, sign, text = split_word(word)
        if sign == '?' and key_text(key, nv, fixed) != text:
            last, status = [f'differs word {number}'], 4
            break
        if sign == '=': nv, was_set = with_set(nv, key, text), True
        elif not sign: lines.append(key_text(key, nv, fixed))
    else: last = []
    after = m.copy(flash=with_record(m.flash, areas[1][0], nv)) if was_set and nv != stands else m
    return lines + last, status, after

def migrate(m):
    fault = kernel_space_fault(m.kernel)
    if fault: return [f'refused migrate {fault}'], 20, m
    if len(m.kernel) == 40: return ['already v1'], 0, m
    return ['migrated'], 0, m.copy(kernel=sealed_v1(bytes([16, 40, 0, 0]) + m.kernel[5:9] + bytes(32)))

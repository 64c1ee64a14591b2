# The partition table of a drive in two copies, and the walk over its kernels.
import types, uuid, zlib
import images
from slots import *

def copies(disk): # the places of header and entries of both copies
    last = len(disk) // 512 - 1
    return (1, 2), (last, last - 32)

def table_of_copy(disk, at, entries_at): # disk GUID, usable sectors and entries, None where the copy is not good
    sectors = len(disk) // 512
    if not 69 <= sectors <= 4294967296: return None
    h, entries = disk[512*at:512*at+92], disk[512*entries_at:512*entries_at+16384]
    if h[:8] != b'EFI PART' or u32(h, 8) != 0x10000 or u32(h, 12) != 92: return None
    if u32(h, 16) != zlib.crc32(changed(h, 16, bytes(4))): return None
    if u64(h, 24) != at or u64(h, 72) != entries_at or u32(h, 80) != 128 or u32(h, 84) != 128: return None
    first, last = u64(h, 40), u64(h, 48)
    if not 34 <= first <= last <= sectors - 34: return None
    if u32(h, 88) != zlib.crc32(entries): return None
    used = [entries[k:k+128] for k in range(0, 16384, 128) if any(entries[k:k+16])]
    if any(not first <= u64(e, 32) <= u64(e, 40) <= last for e in used): return None
    if len({e[16:32] for e in used}) != len(used): return None
    spans = sorted((u64(e, 32), u64(e, 40)) for e in used)
    if any(a[1] >= b[0] for a, b in zip(spans, spans[1:])): return None
    return h[56:72], first, last, entries

def read_table(disk): # the table, which copy it is of, and whether both agree
    primary, backup = (table_of_copy(disk, *place) for place in copies(disk))
    return primary or backup, 'primary' if primary else 'backup', bool(primary) and primary == backup

def with_table(disk, table): # the disk after both copies were written
    guid, first, last, entries = table
    (p, p_entries), (b, b_entries) = copies(disk)
    for my, other, at in ((p, b, p_entries), (b, p, b_entries)):
        head = lambda crc: (b'EFI PART' + struct.pack('<IIII', 0x10000, 92, crc, 0) + struct.pack('<QQQQ', my, other, first, last) + guid
                            + struct.pack('<QIII', at, 128, 128, zlib.crc32(entries)))
        disk = changed(disk, 512 * my, head(zlib.crc32(head(0))).ljust(512, b'\0'))
        disk = changed(disk, 512 * at, entries)
    return disk

KERNEL = uuid.UUID(images.KINDS['kernel']).bytes_le
def entry(table, i): return table[3][128*(i-1):128*i]
def priority(e): return e[54] & 15
def tries(e): return e[54] >> 4
def successful(e): return e[55] & 1
def with_tries(e, priority, tries): return changed(e, 54, [tries << 4 | priority])

class Rules:
    def __init__(self, mode, signed_only, dev_on, stored):
        self.hash_is_enough = mode == 'developer' and not signed_only
        self.stored = None if self.hash_is_enough or mode == 'recovery' else stored
        self.flags = 0 if self.hash_is_enough else (2 if dev_on else 1) | (8 if mode == 'recovery' else 4)

# The head of a kernel, or None where it is not good.
def kernel_head(m, disk, e, key, rules):
    first, last = u64(e, 32), u64(e, 40)
    if last - first + 1 < 128: return None
    bs = disk[512*first:512*first+65536]
    if keyblock_fault(m, bs, key, rules.stored, rules.flags, rules.hash_is_enough): return None
    size, data_key = u32(bs, 16), Key(bs, 80)
    bs = bs[size:]
    if kernel_preamble_fault(m, bs, data_key, rules.stored): return None
    seal = Sealed(bs, 72)
    return types.SimpleNamespace(version=data_key.version << 16 | u32(bs, 40), address=u64(bs, 48), at=size + u32(bs, 0), many=seal.many,
                                 size=seal.size, signature=seal.bytes, key=data_key)

def kernel_is_good(m, disk, e, head):
    start, end = 512 * u64(e, 32) + head.at, 512 * (u64(e, 40) + 1)
    most = min(67108864, end - start)
    return not body_fault(m, lambda n: disk[start:start+n], head.many, most, head.key, head.size, head.signature)

# The index and the head of the chosen kernel, the entries after the fates, and the version to store where versions rise.
def walk(m, disk, table, key, rules, mode, stored):
    entries = {i: entry(table, i) for i in range(1, 129)}
    candidates = sorted((i for i, e in entries.items() if e[:16] == KERNEL and priority(e) and (successful(e) or tries(e))),
                        key=lambda i: (-priority(entries[i]), i))
    heads = {i: kernel_head(m, disk, entries[i], key, rules) for i in candidates}
    chosen = next((i for i in candidates if heads[i] and kernel_is_good(m, disk, entries[i], heads[i])), None)
    place = len(candidates) if chosen is None else candidates.index(chosen)
    bad, later, lowest = candidates[:place], candidates[place+1:], stored
    if chosen is not None:
        e = entries[chosen]
        if not successful(e): entries[chosen] = with_tries(e, priority(e), tries(e) - 1) if tries(e) > 1 else with_tries(e, 0, 0)
        if mode == 'normal' and heads[chosen].version > stored:
            bad = bad + [i for i in later if not heads[i]]
            lowest = min([heads[chosen].version] + [heads[i].version for i in later if heads[i]])
    for i in bad:
        if not successful(entries[i]): entries[i] = with_tries(entries[i], 0, 0)
    return chosen, chosen and heads[chosen], b''.join(entries[i] for i in range(1, 129)), lowest

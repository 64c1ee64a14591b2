# The selection of a firmware slot, its failure and its check.
from records import *

def select(nv):
    slot, tried, result, count = (get(nv, f) for f in ('TryNext', 'Tried', 'Result', 'TryCount'))
    after = record(nv, PrevTried=tried, PrevResult=result, Result=0)
    if result == 1 and tried == slot and count == 0:
        slot = 1 - slot
        after = record(after, TryNext=slot)
    if count > 0: after = record(after, Result=1, TryCount=count - 1)
    return record(after, Tried=slot), slot, tried, result

def fail(nv, slot, last_slot, last_result, reason, subcode):
    nv = record(nv, Result=3, TryCount=0, TryNext=1 - slot)
    if last_slot == slot or last_result != 3 or get(nv, 'RecoveryRequest'): return nv, 0
    return record(nv, RecoveryRequest=reason, RecoverySubcode=subcode), 1

# (reason, subcode) of the slot's fault, or its version, the length of its body, and its kernel subkey.
def check_slot(m, root, vblock, main, stored):
    bs = m.flash[vblock[0]:vblock[0]+vblock[1]]
    line = keyblock_fault(m, bs, root, stored)
    if line: return 20, line
    key, bs = Key(bs, 80), bs[u32(bs, 16):]
    line = fw_preamble_fault(m, bs, key, stored)
    if line: return 21, line
    seal = Sealed(bs, 80)
    line = body_fault(m, lambda n: m.flash[main[0]:main[0]+n], seal.many, main[1], key, seal.size, seal.bytes)
    if line: return 22, line
    return key.version << 16 | u32(bs, 40), seal.many, Key(bs, 48)

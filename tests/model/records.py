# nvdata in its two pages, and both spaces of the TPM.
from collections import namedtuple
from flash import *

FIELDS = {'KernelReset': (0, 0x10), 'FirmwareReset': (0, 0x20), 'TryCount': (1, 0x0f), 'DisableDev': (1, 0x40),
          'RecoveryRequest': (2, 0xff), 'Localization': (3, 0xff), 'ExternalBoot': (4, 0x01), 'SignedOnly': (4, 0x02),
          'DefaultBoot': (4, 0x30), 'RecoverySubcode': (6, 0xff), 'Result': (7, 0x03), 'Tried': (7, 0x04), 'TryNext': (7, 0x08),
          'PrevResult': (7, 0x30), 'PrevTried': (7, 0x40)}
BLANK = bytes([0x70] + 14 * [0] + [0x20])
low_bit = lambda mask: mask & -mask

def get(nv, field):
    at, mask = FIELDS[field]
    return (nv[at] & mask) // low_bit(mask)

def record(nv, **fields): # the record with these fields
    nv = bytearray(nv)
    for field, value in fields.items():
        at, mask = FIELDS[field]
        nv[at] = nv[at] & ~mask | value * low_bit(mask)
    nv[-1] = crc8(nv[:-1])
    return bytes(nv)

# A record has 16 bytes, or 64 and a ceiling for each version.
def is_good_record(nv): return nv[0] & 0xc0 == {16: 0x40, 64: 0x80}.get(len(nv)) and crc8(nv[:-1]) == nv[-1]

def up(nv): # the record of 64 bytes, without a ceiling
    return nv if len(nv) == 64 else sealed(bytes([nv[0] & 0x3f | 0x80]) + nv[1:15] + b'\0' + 8 * b'\xff' + bytes(39))

def ceilings(nv): return (u32(nv, 16), u32(nv, 20)) if len(nv) == 64 else (0xffffffff, 0xffffffff)
def with_ceilings(nv, firmware=0xffffffff, kernel=0xffffffff): return sealed(changed(up(nv), 16, p32(firmware) + p32(kernel))[:63])

# A page has so many bytes in a cell, and in front of its first one, by the byte of its form; the head begins with its generation.
CELLS_OF_FORM = {0: 16, 2: 64}

def page_head(generation, size=16):
    head = b'NVPG' + p32(generation) + bytes([0 if size == 16 else 2]) + bytes(6)
    return sealed(head)

def head_in(page): # its generation and the bytes of its cells
    if page[:4] != b'NVPG' or u32(page, 4) > 2 or page[8] not in CELLS_OF_FORM or any(page[9:15]) or page[15] != crc8(page[:15]): return None
    return u32(page, 4), CELLS_OF_FORM[page[8]]

# The current page, its generation, the bytes of its cells, the first cell of its erased tail or their number, and the record that
# stands, if one does.
NvState = namedtuple('NvState', 'page generation size next record')

def nv_state(flash, area):
    pages = [flash[area:area+4096], flash[area+4096:area+8192]]
    heads = [head_in(page) for page in pages]
    if heads == [None, None]: return NvState(None, 0, 16, 255, None)
    if None in heads: k = 1 if heads[0] is None else 0
    else: k = 1 if heads[1][0] == (heads[0][0] + 1) % 3 else 0
    generation, size = heads[k]
    cells = [pages[k][at:at+size] for at in range(size, 4096, size)]
    tail = len(cells)
    while tail and cells[tail-1] == b'\xff' * size: tail -= 1
    return NvState(k, generation, size, tail, next((cell for cell in reversed(cells) if is_good_record(cell)), None))

def with_record(flash, area, nv): # the flash after a record was stored
    k, generation, size, tail, _ = nv_state(flash, area)
    if k is not None and size == len(nv) and size + size * tail < 4096: return changed(flash, area + 4096*k + size + size*tail, nv)
    page = page_head(0 if k is None else (generation + 1) % 3, len(nv)).ljust(len(nv), b'\xff') + nv
    return changed(flash, area + (4096 if k == 0 else 0), page.ljust(4096, b'\xff'))

def firmware_fault(bs):
    if len(bs) != 10: return 1
    if crc8(bs[:9]) != bs[9]: return 2
    return 3 if bs[0] < 2 else 0

# A kernel space has 13 bytes before version 1.0, and 40 from then on.
def kernel_space_fault(bs):
    if len(bs) == 40:
        if bs[1] != 40: return 1
        if crc8(bs[3:]) != bs[2]: return 2
        return 0 if 16 <= bs[0] <= 31 else 3
    if len(bs) != 13: return 1
    if crc8(bs[:12]) != bs[12]: return 2
    if not 2 <= bs[0] <= 15: return 3
    return 0 if u32(bs, 1) == 0x4752574c else 4

def kernel_versions_of(bs): return u32(bs, 4 if len(bs) == 40 else 5)

def sealed(bs): return bytes(bs) + bytes([crc8(bs)])
def sealed_v1(bs): return changed(bs, 2, [crc8(bs[3:])])

def with_kernel_versions(bs, version): # in the form of the space
    if len(bs) == 40: return sealed_v1(changed(bs, 4, p32(version)))
    return sealed(changed(bs, 5, p32(version))[:12])

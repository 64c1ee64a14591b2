# The flash map and the GBB.
from chain import *

AREAS = ('GBB', 'RW_NVRAM', 'VBLOCK_A', 'FW_MAIN_A', 'VBLOCK_B', 'FW_MAIN_B')

def map_stands(flash, at):
    if at + 56 > len(flash) or flash[at:at+8] != b'__FMAP__' or flash[at+8] != 1: return False
    return u16(flash, at + 54) <= 128 and at + 56 + 42 * u16(flash, at + 54) <= len(flash)

def map_place(flash): return next((at for at in range(0, len(flash), 64) if map_stands(flash, at)), 0)

# The number of the map's fault, or the six areas as (place, size).
def read_map(flash, at):
    if len(flash) % 4096 or len(flash) > 33554432: return 1
    if not map_stands(flash, at): return 2
    named = {}
    for k in range(u16(flash, at + 54)):
        row = flash[at+56+42*k:at+98+42*k]
        named.setdefault(row[8:40].split(b'\0')[0], (u32(row, 0), u32(row, 4)))
    if any(name.encode() not in named for name in AREAS): return 3
    areas = [named[name.encode()] for name in AREAS]
    if any(size == 0 or place + size > len(flash) for place, size in areas): return 4
    if any(areas[k][1] > (65536 if k in (2, 4) else 16777216) for k in (2, 3, 4, 5)): return 5
    if areas[1][0] % 4096 or areas[1][1] < 8192: return 6
    pages = lambda place, size: set(range(place // 4096, (place + size - 1) // 4096 + 1))
    groups = [pages(at, 56 + 42 * u16(flash, at + 54)) | pages(*areas[0])] + [pages(*area) for area in areas[1:]]
    return 7 if sum(map(len, groups)) != len(set().union(*groups)) else areas

# The number of the GBB's fault, or its flags, root key and recovery key.
def read_gbb(bs):
    if len(bs) < 128: return 1
    if bs[:4] != b'$GBB': return 2
    if u16(bs, 4) != 1 or u16(bs, 6) < 2 or u32(bs, 8) < 128: return 3
    ranges = [(u32(bs, at), u32(bs, at + 4)) for at in (16, 24, 40)]
    if any(place < 128 or place + size > len(bs) for place, size in ranges): return 4
    if not 1 <= ranges[0][1] <= 256: return 4
    for place, size in ranges[1:]:
        if size < 32 or not inside(size, 0, 32, u32(bs, place), u32(bs, place + 8)): return 4
    return u32(bs, 12), Key(bs, ranges[1][0]), Key(bs, ranges[2][0])

# ASCII before the first NUL, and `?` for each byte that is not printable.
def plain_text(bs): return ''.join(chr(x) if 0x20 <= x <= 0x7e else '?' for x in bs.split(b'\0')[0])

# Keys, keyblocks, preambles and bodies, and their fault tables.
from fields import *

class Key:
    def __init__(self, bs, at):
        offset, size = u32(bs, at), u32(bs, at + 8)
        self.algorithm, self.version, self.size, self.bytes = u32(bs, at + 16), u32(bs, at + 24), size, bytes(bs[at+offset:at+offset+size])

def signature_size(algorithm): return (128, 256, 512, 1024, 256, 384)[algorithm // 3]

# 1 over 17, 2 SHA-1, 3 another length than the algorithm's, 0 none of these.
def key_fault(key):
    if key.algorithm > 17: return 1
    if key.algorithm % 3 == 0: return 2
    return 3 if key.size != 8 + 2 * signature_size(key.algorithm) else 0

class Sealed: # the seal at a place of a structure: its bytes, and what is signed
    def __init__(self, bs, at):
        offset, self.size, self.many = u32(bs, at), u32(bs, at + 8), u32(bs, at + 16)
        self.bytes, self.signed = bytes(bs[at+offset:at+offset+self.size]), bytes(bs[:self.many])

# Lines 1 to 8 of the keyblock table.
def keyblock_form(bs, at):
    if len(bs) < 112: return 1
    if bs[:8] != b'CHROMEOS': return 2
    if u32(bs, 8) != 2: return 3
    size = u32(bs, 16)
    if size < 112 or size > len(bs): return 4
    if not inside(size, at, 24, u32(bs, at), u32(bs, at + 8)): return 5
    if u32(bs, at + 16) < 112: return 6
    if u32(bs, at + 16) > size: return 7
    return 0 if inside(u32(bs, at + 16), 80, 32, u32(bs, 80), u32(bs, 88)) else 8

# Lines 14 to 17: the data key.
def data_key_fault(key):
    if key_fault(key): return 13 + key_fault(key)
    return 17 if key.version > 0xffff else 0

# Lines 1 to 13, with the signature as seal.
def signed_fault(m, bs, signer):
    line = keyblock_form(bs, 24)
    if line: return line
    if key_fault(signer): return 8 + key_fault(signer)
    seal = Sealed(bs, 24)
    if seal.size != signature_size(signer.algorithm): return 12
    return 0 if m.accepts(signer.algorithm, signer.bytes, seal.signed, seal.bytes) else 13

# Lines 1 to 8, 12, 13 and 14 to 17, with the hash as seal.
def hashed_fault(bs):
    line = keyblock_form(bs, 48)
    if line: return line
    seal = Sealed(bs, 48)
    if seal.size != 64: return 12
    if seal.bytes != sha512(seal.signed): return 13
    return data_key_fault(Key(bs, 80))

# The whole table. `stored` is None where versions are not checked, `flags` the needed flags where those are.
def keyblock_fault(m, bs, signer, stored, flags=0, hash_is_enough=False):
    line = signed_fault(m, bs, signer)
    if line: return hashed_fault(bs) if hash_is_enough else line
    key = Key(bs, 80)
    if data_key_fault(key): return data_key_fault(key)
    if stored is not None and key.version < stored >> 16: return 18
    if flags & 3 & ~u32(bs, 72): return 19
    return 20 if flags & 12 & ~u32(bs, 72) else 0

# The table of a preamble behind a keyblock with this data key. It has `least` bytes at least and `head` at its minor version;
# `parts` are the places and lengths of the structures whose bytes lie in what is signed.
def preamble_fault(m, bs, key, stored, least, head, parts):
    seal = lambda: Sealed(bs, 8)
    tests = [lambda: len(bs) < least, lambda: u32(bs, 32) != 2, lambda: u32(bs, 0) < head or u32(bs, 0) > len(bs),
             lambda: not inside(u32(bs, 0), 8, 24, u32(bs, 8), u32(bs, 16)), lambda: u32(bs, 24) < head, lambda: u32(bs, 24) > u32(bs, 0),
             *[lambda at=at, length=length: not inside(u32(bs, 24), at, length, u32(bs, at), u32(bs, at + 8)) for at, length in parts],
             lambda: seal().size != signature_size(key.algorithm),
             lambda: not m.accepts(key.algorithm, key.bytes, seal().signed, seal().bytes), lambda: u32(bs, 40) > 0xffff,
             lambda: stored is not None and (key.version << 16 | u32(bs, 40)) < stored]
    return next((line for line, test in enumerate(tests, 1) if test()), 0)

def fw_preamble_fault(m, bs, key, stored): return preamble_fault(m, bs, key, stored, 108, 108, ((48, 32), (80, 24)))

def kernel_preamble_fault(m, bs, key, stored):
    minor = u32(bs, 36) if len(bs) >= 96 else 0
    return preamble_fault(m, bs, key, stored, 96, (96, 112, 116)[min(minor, 2)], ((72, 24),))

def body_fault(m, body_of, many, most, key, size, signature):
    if many == 0: return 1
    if many > most: return 2
    if size != signature_size(key.algorithm): return 3
    return 0 if m.accepts(key.algorithm, key.bytes, body_of(many), signature) else 4

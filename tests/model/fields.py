# Numbers, checksums and digests, and a machine as its bytes.
import hashlib, struct

u16 = lambda bs, at: int.from_bytes(bs[at:at+2], 'little')
u32 = lambda bs, at: int.from_bytes(bs[at:at+4], 'little')
u64 = lambda bs, at: int.from_bytes(bs[at:at+8], 'little')
p32 = lambda n: struct.pack('<I', n)
p64 = lambda n: struct.pack('<Q', n)
sha256 = lambda bs: hashlib.sha256(bs).digest()
sha512 = lambda bs: hashlib.sha512(bs).digest()

def crc8(bs):
    crc = 0
    for x in bs:
        crc ^= x
        for _ in range(8): crc = ((crc << 1) ^ 7 if crc & 0x80 else crc << 1) & 0xff
    return crc

def changed(bs, at, new): return bytes(bs[:at]) + bytes(new) + bytes(bs[at+len(new):])

# What a structure at a place points to is inside a limit.
def inside(limit, at, head, offset, length): return offset >= head and at + offset + length <= limit

class Machine:
    def __init__(self, flash=b'', firmware=b'', kernel=b'', disk=b'', stick=b'', rows=()):
        self.flash, self.firmware, self.kernel, self.disk, self.stick = map(bytes, (flash, firmware, kernel, disk, stick))
        self.rows = list(rows)
    def copy(self, **other): return Machine(**{**vars(self), **other})
    def accepts(self, algorithm, key, message, signature):
        digest = sha512(message) if algorithm % 3 == 2 else sha256(message)
        return (algorithm, sha256(key), digest, sha256(signature)) in self.rows

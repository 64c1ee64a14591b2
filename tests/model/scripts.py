# Scripts for the bench: lines that are run on the model as they are written.
from bench import *

fill = images.fill
KERNEL_A, KERNEL_B = 512 * 64, 512 * 576 # the partitions 2 and 4 in bytes; that of the stick is at KERNEL_A too
SLOT_A, CELLS, GBB_FLAGS = 65536, 32784, 8204
SUBKEY_ALGORITHM, RECOVERY_ALGORITHM = SLOT_A + 952 + 48 + 16, 8192 + 696 + 16
# Places in a keyblock, in a preamble, and of a byte of a signature or of the body of a kernel.
SEAL_AT, KEY_ALGORITHM, KEY_VERSION, FLAGS = 24, 96, 104, 72
SIGNED, MINOR, VERSION, BODY_SIG, BODY_SIG_SIZE, BODY_SIZE = 24, 36, 40, 72, 80, 88
SPOILED = {'keyblock': 696, 'preamble': 952 + 372, 'body': 65536}

class Script:
    """Lines of a script, each run on the model as it is written, so that the next ones can look at the machine."""
    def __init__(self): self.lines, self.bench = [], Bench()
    @property
    def m(self): return self.bench.m
    def line(self, text): self.lines.append(text); self.bench.line(text)
    def run(self, words, *texts): # words, and lines that they are to print
        printed = len(self.bench.out)
        self.line(words)
        assert all('  ' + text in self.bench.out[printed:] for text in texts), (texts, self.bench.out[printed:])
    def about(self, text): self.line('# ' + text)
    def again(self): self.line('again')
    def boot(self, *words): self.line(' '.join(['boot', *words]))
    def put(self, image, at, bs): self.line(f'rewrite {image} {at} {bs.hex()}')
    def put32(self, image, at, value): self.put(image, at, p32(value))
    def other(self, image, at): self.put(image, at, bytes([(getattr(self.m, image)[at] + 1) % 256])) # another byte here
    def no_table(self, image): self.put(image, 512, b'\0'); self.put(image, 16383 * 512, b'\0')
    def space(self, name, bs): self.line(f'space {name} {bs.hex() or "-"}')
    def firmware(self, flags=None, version=None): # the firmware space with other flags or another version
        bs = self.m.firmware
        self.space('firmware', sealed(bytes([2, bs[1] if flags is None else flags]) + (bs[2:6] if version is None else p32(version)) + bytes(3)))
    def kernel(self, version): self.space('kernel', sealed(self.m.kernel[:5] + p32(version) + bytes(3)))
    def gbb(self, flags): self.put32('flash', GBB_FLAGS, flags)
    def nv(self, **fields): # the next record, with other fields
        found = nv_state(self.m.flash, 32768)
        self.put('flash', 32768 + 4096 * found.page + found.size * (1 + found.next), record(found.record, **fields))
    def rewritten(self, image, new): # the lines that make an image another one
        spans = []
        found = list(changes(getattr(self.m, image), new))
        for at, end in found: # runs that lie near each other are one, and much nearer where there are few
            if spans and at - spans[-1][1] <= (72 if len(found) < 99 else 1024): spans[-1][1] = end
            else: spans.append([at, end])
        for at, end in spans:
            for k in range(at, end, 1024): self.put(image, k, new[k:min(k+1024, end)])
    def table(self, edits, drive='disk', only=None):
        """Entries with other types, GUIDs, sectors and attributes, in both copies or in one."""
        disk = getattr(self.m, drive)
        table = read_table(disk)[0]
        entries = bytearray(table[3])
        for i, edit in edits.items():
            at = 128 * (i - 1)
            for key, value in edit.items():
                if key == 'kind': entries[at:at+16] = uuid.UUID(images.KINDS[value]).bytes_le
                elif key == 'type': entries[at:at+16] = value
                elif key == 'attributes': entries[at+48:at+56] = p64(value)
                elif key == 'unique': entries[at+16:at+32] = value
                elif key == 'first': entries[at+32:at+40] = p64(value)
                elif key == 'last': entries[at+40:at+48] = p64(value)
                elif key == 'low': entries[at+48:at+54] = value
                elif key == 'priority': entries[at+54] = entries[at+54] & 0xf0 | value
                elif key == 'tries': entries[at+54] = entries[at+54] & 15 | value << 4
                elif key == 'successful': entries[at+55] = entries[at+55] & 0xfe | value
        new = with_table(disk, table[:3] + (bytes(entries),))
        head, at = copies(disk)[only == 'primary']
        if only:
            for place, size in ((512 * head, 512), (512 * at, 16384)): new = changed(new, place, disk[place:place+size])
        self.rewritten(drive, new)
    def header(self, at, value): # the primary header of the disk with another place, and a right CRC
        head = changed(changed(self.m.disk[512:604], at, p64(value)), 16, bytes(4))
        self.put('disk', 512, changed(head, 16, p32(zlib.crc32(head))))
    def row(self, algorithm, key, message, signature):
        digest = sha512(message) if algorithm % 3 == 2 else sha256(message)
        self.line(f'row {algorithm} {sha256(key).hex()} {digest.hex()} {sha256(signature).hex()}')
    def enroll(self, image, at, part, signer=4, algorithm=4):
        """What stands at a place is signed: its keyblock by the key of a tag, its preamble or its body by its data key."""
        bs = getattr(self.m, image)[at:]
        if part == 'keyblock': return self.row(algorithm, fill(1, signer, 520), Sealed(bs, 24).signed, Sealed(bs, 24).bytes)
        key, bs = Key(bs, 80), bs[u32(bs, 16):]
        if part == 'preamble': return self.row(key.algorithm, key.bytes, Sealed(bs, 8).signed, Sealed(bs, 8).bytes)
        seal, start = Sealed(bs, BODY_SIG), u32(bs, 0)
        self.row(key.algorithm, key.bytes, bs[start:start+seal.many], seal.bytes)
    def keyblock(self, image, at, edits, signer=4): # fields of a keyblock that is signed anew
        for place, value in edits.items(): self.put32(image, at + place, value)
        self.enroll(image, at, 'keyblock', signer)
    def preamble(self, image, at, edits, *parts): # and of the preamble behind it, with its body
        for place, value in edits.items(): self.put32(image, at + 952 + place, value)
        for part in ('preamble', *parts): self.enroll(image, at, part)
    def subkey(self, algorithm): self.put32('flash', SUBKEY_ALGORITHM, algorithm); self.enroll('flash', SLOT_A, 'preamble')
    def hash(self, image, at): self.put(image, at + 632, sha512(getattr(self.m, image)[at:at+632])) # the hash of its keyblock is right

TRIES = dict(successful=0, tries=2)
A, B = KERNEL_A, KERNEL_B

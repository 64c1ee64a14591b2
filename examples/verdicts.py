#!/usr/bin/env python3
"""Prints the hook.toml of a machine's images: a row for each signature that is right.

    verdicts.py --flash flash.bin --disk disk.img --stick stick.img > hook.toml

A row says that one signature of one digest by one key is right, as the RSA arithmetic of verified boot has it. It does not
say that the key is to be trusted: the program takes each key from what an earlier key signed, the first from the GBB, and
only then asks for the row. So a row for a signature by a foreign key does no harm.

What is not right or cannot be read is told on standard error. The exit status is 0 where each signature is right by a key
that it may be checked by, 1 where one is not, and 2 where a file cannot be read.

Layouts: docs/formats.md. Arithmetic and padding: vboot_reference, firmware/2lib/2rsa.c; numbers of the algorithms:
firmware/2lib/include/2crypto.h; keys: host/lib/util_misc.c (vb_keyb_from_rsa).
"""
import argparse
import hashlib
import os
import struct
import sys
import uuid
import zlib

KERNEL_TYPE = uuid.UUID('fe3a2a5d-4f32-41a7-b725-accc3285a309').bytes_le
BITS = (1024, 2048, 4096, 8192, 2048, 3072)     # by the number of the algorithm divided by 3
EXPONENTS = (65537, 65537, 65537, 65537, 3, 3)
HASHES = (None, hashlib.sha256, hashlib.sha512)  # by the remainder; SHA-1 is refused by the program
# What stands before the digest in the padding of PKCS #1 v1.5: the DER of SHA-256 and of SHA-512 (RFC 8017, section 9.2).
DIGEST_INFO = (None, bytes.fromhex('3031300d060960864801650304020105000420'),
               bytes.fromhex('3051300d060960864801650304020305000440'))
HEAD_BYTES = 65536               # keyblock and preamble of a kernel lie in the first so many bytes of its partition
LARGEST_KERNEL = 67108864
LARGEST_FLASH = 33554432


class Unreadable(Exception):
    """The bytes are no such structure."""


def need(condition, text):
    if not condition:
        raise Unreadable(text)


def number(bytes_, at, size=4):
    return int.from_bytes(bytes_[at:at + size], 'little')


def pointed(bytes_, at, head, limit, what):
    """What the structure at `at`, of `head` bytes, points to: it lies behind the structure, and not past the limit."""
    offset, size = number(bytes_, at), number(bytes_, at + 8)
    need(offset >= head and at + offset + size <= limit, f'{what} lies outside')
    return bytes_[at + offset:at + offset + size]


class Key:
    """A packed key and the name by which it is told."""

    def __init__(self, bytes_, at, limit, name):
        self.name = name
        self.bytes = pointed(bytes_, at, 32, limit, name)
        self.algorithm = number(bytes_, at + 16)

    def fault(self):
        """Why no signature is right by this key, or None."""
        if self.algorithm > 17:
            return f'there is no algorithm {self.algorithm}'
        if self.algorithm % 3 == 0:
            return f'algorithm {self.algorithm} has SHA-1, which the program refuses'
        bits = BITS[self.algorithm // 3]
        if len(self.bytes) != 8 + bits // 4 or number(self.bytes, 0) != bits // 32:
            return f'the key is none of algorithm {self.algorithm}'
        n, rr = self.modulus(), int.from_bytes(self.bytes[8 + bits // 8:], 'little')
        if n % 2 == 0 or number(self.bytes, 4) * n % 2**32 != 2**32 - 1 or rr != 2**(2 * bits) % n:
            return 'the numbers in the key do not fit each other'
        return None

    def modulus(self):
        return int.from_bytes(self.bytes[8:8 + BITS[self.algorithm // 3] // 8], 'little')

    def digest(self, message):
        return HASHES[self.algorithm % 3](message).digest()

    def wrong(self, message, signature):
        """Why this is no right signature of the message by this key, or None where it is right."""
        if self.fault():
            return self.fault()
        size, n, s = BITS[self.algorithm // 3] // 8, self.modulus(), int.from_bytes(signature, 'big')
        if len(signature) != size:
            return f'the signature has {len(signature)} bytes, not {size}'
        tail = DIGEST_INFO[self.algorithm % 3] + self.digest(message)
        padded = b'\0\1' + b'\xff' * (size - 3 - len(tail)) + b'\0' + tail
        # A signature of n or more is taken modulo n, as the firmware takes it.
        if pow(s, EXPONENTS[self.algorithm // 3], n).to_bytes(size, 'big') != padded:
            return 'the signature is not right'
        return None


class Verdicts:
    """The rows, each with the comments over it, and whether all is right."""

    def __init__(self):
        self.rows = {}
        self.all_right = True

    def say(self, what, why):
        print(f'{what}: {why}', file=sys.stderr)

    def bad(self, what, why):
        self.all_right = False
        self.say(what, why)

    def ask(self, what, keys, message, signature, name_keys=False):
        """Is this right by one of the keys? Keys that are the same are asked once."""
        groups, any_right = {}, False
        for key in keys:
            groups.setdefault((key.algorithm, key.bytes), []).append(key)
        for group in groups.values():
            key, told = group[0], what
            if name_keys:
                told += ', by the ' + ' and the '.join(k.name for k in group)
            why = key.wrong(message, signature)
            if why:
                self.say(told, why)
                continue
            any_right = True
            row = (key.algorithm, hashlib.sha256(key.bytes).hexdigest(), key.digest(message).hex(),
                   hashlib.sha256(signature).hexdigest())
            self.rows.setdefault(row, []).append(told)
        if not groups:
            self.say(what, 'there is no key to check it by')
        self.all_right &= any_right

    def text(self):
        return '\n'.join(''.join(f'# {comment}\n' for comment in comments) + f'[[row]]\nalgorithm = {algorithm}\n'
                         f'key = "{key}"\ndigest = "{digest}"\nsignature = "{signature}"\n'
                         for (algorithm, key, digest, signature), comments in self.rows.items())


def signed_part(bytes_, at, head, size):
    """The signature that the structure at `at` points to, and what it signs of a keyblock or preamble of this size."""
    signature = pointed(bytes_, at, 24, size, 'the signature')
    need(head <= number(bytes_, at + 16) <= size, 'the signature covers too few bytes or too many')
    return bytes_[:number(bytes_, at + 16)], signature


def check_keyblock(verdicts, what, bytes_, signers, name_keys):
    """Asks for the keyblock's signature, and answers its size and its data key."""
    need(len(bytes_) >= 112 and bytes_[:8] == b'CHROMEOS' and number(bytes_, 8) == 2, 'it is no keyblock of version 2')
    size = number(bytes_, 16)
    need(112 <= size <= len(bytes_), 'it is larger than what is there')
    try:
        signed, signature = signed_part(bytes_, 24, 112, size)
        verdicts.ask(what, signers, signed, signature, name_keys)
    except Unreadable as fault:
        # A developer's keyblock may have its hash alone; the program checks a hash by itself.
        verdicts.bad(what, fault)
        signed, _ = signed_part(bytes_, 48, 112, size)
    return size, Key(bytes_, 80, len(signed), 'data key')


def check_chain(verdicts, kind, where, bytes_, signers, most, read):
    """Asks for keyblock, preamble and body of a firmware slot or a kernel, whose body may have as many bytes as `most` says
    and is read by `read`, both by the place of the body behind the keyblock's front. Answers the key in the preamble of a
    slot. The first structure that cannot be read ends it."""
    part, subkey = 'keyblock', None
    head, body_at = (108, 80) if kind == 'firmware' else (96, 72)
    try:
        size, key = check_keyblock(verdicts, f'{kind} {part}, {where}', bytes_, signers, kind == 'kernel')
        part, preamble = 'preamble', bytes_[size:]
        need(len(preamble) >= head and number(preamble, 32) == 2, 'it is no preamble of version 2')
        if kind == 'kernel':
            head = (96, 112, 116)[min(number(preamble, 36), 2)]
        preamble_size = number(preamble, 0)
        need(head <= preamble_size <= len(preamble), 'it is too small, or larger than what is there')
        signed, signature = signed_part(preamble, 8, head, preamble_size)
        verdicts.ask(f'{kind} {part}, {where}', [key], signed, signature)
        signature = pointed(signed, body_at, 24, len(signed), 'the signature of the body')
        if kind == 'firmware':
            subkey = Key(signed, 48, len(signed), 'kernel subkey of ' + where)
        part, length, place = 'body', number(signed, body_at + 16), size + preamble_size
        need(length > 0, 'it has no bytes: a body that its signature does not cover is refused by the program')
        need(length <= most(place), 'it is larger than its place')
        verdicts.ask(f'{kind} {part}, {where}', [key], read(place, length), signature)
    except Unreadable as fault:
        verdicts.bad(f'{kind} {part}, {where}', fault)
    return subkey


def flash_areas(flash):
    """The areas of the lowest map that stands in the flash, by name."""
    at = flash.find(b'__FMAP__')
    while at >= 0:
        if at % 64 == 0 and at + 56 <= len(flash) and flash[at + 8] == 1:
            count = number(flash, at + 54, 2)
            if count <= 128 and at + 56 + 42 * count <= len(flash):
                break
        at = flash.find(b'__FMAP__', at + 1)
    need(at >= 0, 'it has no flash map')
    areas = {}
    for row in range(at + 56, at + 56 + 42 * count, 42):
        place, size = number(flash, row), number(flash, row + 4)
        areas.setdefault(flash[row + 8:row + 40].split(b'\0')[0].decode('latin-1'), flash[place:place + size])
    for name in ('GBB', 'RW_NVRAM', 'VBLOCK_A', 'FW_MAIN_A', 'VBLOCK_B', 'FW_MAIN_B'):
        need(areas.get(name), f'its map has no area {name}, or an empty one')
    return areas


def gbb_keys(gbb):
    need(len(gbb) >= 128 and gbb[:4] == b'$GBB' and number(gbb, 4, 2) == 1 and number(gbb, 6, 2) >= 2,
         'it is no GBB of version 1.2 or later')
    keys = []
    for at, name in ((24, 'root key'), (40, 'recovery key')):
        place, size = number(gbb, at), number(gbb, at + 4)
        need(place >= 128 and size >= 32 and place + size <= len(gbb), f'the {name} lies outside')
        keys.append(Key(gbb[place:place + size], 0, size, name))
    return keys


def check_flash(verdicts, flash):
    """Asks for both firmware slots, and answers the recovery key and the kernel subkeys of both, as far as they can be read."""
    need(len(flash) <= LARGEST_FLASH, 'it is larger than a flash may be')
    areas, root, recovery, subkeys = flash_areas(flash), [], [], []
    try:
        root_key, recovery_key = gbb_keys(areas['GBB'])
        root, recovery = [root_key], [recovery_key]
    except Unreadable as fault:
        verdicts.bad('GBB', fault)
    for slot in 'AB':
        vblock, main = areas['VBLOCK_' + slot], areas['FW_MAIN_' + slot]
        subkeys.append(check_chain(verdicts, 'firmware', 'slot ' + slot, vblock, root,
                                   lambda place: len(main), lambda place, length: main[:length]))
    return recovery, [key for key in subkeys if key]


def kernel_entries(drive, sectors):
    """Number, first sector and count of sectors of each kernel partition, of each copy of the table whose checksums hold."""
    last, found, tables = sectors - 1, set(), 0
    for place, entries_at in ((1, 2), (last, last - 32)):
        if sectors < 69:
            break
        header, entries = read_at(drive, 512 * place, 92), read_at(drive, 512 * entries_at, 16384)
        if (header[:16] == b'EFI PART' + struct.pack('<II', 0x10000, 92)
                and (number(header, 24, 8), number(header, 72, 8)) == (place, entries_at)
                and zlib.crc32(header[:16] + bytes(4) + header[20:]) == number(header, 16)
                and (number(header, 80), number(header, 84), number(header, 88)) == (128, 128, zlib.crc32(entries))):
            tables += 1
            for i in range(128):
                first, final = number(entries, 128 * i + 32, 8), number(entries, 128 * i + 40, 8)
                if entries[128 * i:128 * i + 16] == KERNEL_TYPE and first <= final <= last:
                    found.add((i + 1, first, final - first + 1))
    need(tables, 'it has no partition table whose checksums hold')
    return sorted(found)


def read_at(file, at, count):
    file.seek(at)
    bytes_ = file.read(count)
    need(len(bytes_) == count, 'it ends before its size')
    return bytes_


def check_drive(verdicts, drive, name, signers):
    """Asks for each kernel of a disk or a stick."""
    for index, first, count in kernel_entries(drive, drive.seek(0, os.SEEK_END) // 512):
        where = f'{name} partition {index}'
        if count < 128:
            verdicts.say(where, 'under 128 sectors, too few for a kernel')
            continue
        start = 512 * first
        check_chain(verdicts, 'kernel', where, read_at(drive, start, HEAD_BYTES), signers,
                    lambda place: min(LARGEST_KERNEL, 512 * count - place),
                    lambda place, length: read_at(drive, start + place, length))


def main():
    parser = argparse.ArgumentParser(description='Prints a hook.toml with a row for each signature that is right.')
    for option in ('--flash', '--disk', '--stick'):
        parser.add_argument(option, metavar='FILE')
    given, verdicts, recovery, subkeys = parser.parse_args(), Verdicts(), [], []
    for name in ('flash', 'disk', 'stick'):
        path = getattr(given, name)
        if path is None:
            continue
        try:
            with open(path, 'rb') as file:
                if name == 'flash':
                    recovery, subkeys = check_flash(verdicts, file.read(LARGEST_FLASH + 1))
                else:
                    check_drive(verdicts, file, name, subkeys if name == 'disk' else recovery + subkeys)
        except Unreadable as fault:
            verdicts.bad(path, fault)
        except OSError as fault:
            print(f'{path}: {fault.strerror}', file=sys.stderr)
            return 2
    print(verdicts.text(), end='')
    return 0 if verdicts.all_right else 1


if __name__ == '__main__':
    sys.exit(main())

#!/usr/bin/env python3
"""A random walk of commands on a partition table, each by this program and by Debian's cgpt, on images that change places.

    python3 -B tests/cgpt_walk.py [WALKS [SEED]]

After each command both images are to have the same entries in both copies, and both programs are to have refused or neither. What
differs from Debian's cgpt on purpose (docs/formats.md) is left out. It is no part of the gate: where Debian's cgpt is not there it
says so and ends with status 0. Where sgdisk is there, it is to find nothing at the end of a walk but that the protective MBR is
missing.
"""
import os, random, shutil, subprocess, sys, tempfile, uuid

PROGRAM = os.path.join(os.path.dirname(os.path.abspath(__file__)), '..', 'crates', 'vboot_tool', 'out', 'vboot_tool')
SECTORS, STEPS = 16384, 40
KINDS = {name: uuid.UUID(text) for name, text in (
    ('kernel', 'fe3a2a5d-4f32-41a7-b725-accc3285a309'), ('rootfs', '3cb8e202-3b7e-47dd-8a3c-7ff2a13cfcec'),
    ('efi', 'c12a7328-f81f-11d2-ba4b-00a0c93ec93b'), ('other', 'ebd0a0a2-b9e5-4433-87c0-68b6b72699c7'))}

def ours(folder, words):
    done = subprocess.run([PROGRAM, 'cgpt', *words, 'disk'], cwd=folder, stdin=subprocess.DEVNULL, capture_output=True, text=True)
    return done.returncode == 0, done.stdout

def debian(folder, words):
    done = subprocess.run([shutil.which('cgpt'), *words, 'disk.img'], cwd=folder, stdin=subprocess.DEVNULL, capture_output=True, text=True)
    return done.returncode == 0, done.stdout

def plain(entry):
    """An entry without what Debian's cgpt leaves: the old bytes of one that was taken out, and of a name behind the new one's end."""
    if not any(entry[:16]): return bytes(128)
    units = [entry[at:at + 2] for at in range(56, 128, 2)]
    end = units.index(bytes(2)) if bytes(2) in units else 36
    return entry[:56] + b''.join(units[:end]).ljust(72, b'\0')

def entries(folder):
    """The entries of both copies."""
    with open(os.path.join(folder, 'disk.img'), 'rb') as disk:
        image = disk.read()
    copies = image[1024:1024 + 16384], image[(SECTORS - 33) * 512:(SECTORS - 1) * 512]
    return [b''.join(plain(copy[at:at + 128]) for at in range(0, 16384, 128)) for copy in copies]

def used(folder):
    table = entries(folder)[0]
    return [i + 1 for i in range(128) if any(table[128 * i:128 * i + 16])]

def command(choice, folder):
    """The words of a random command, behind which the drive comes."""
    there = used(folder)
    kind = choice.choices(('add', 'change', 'take', 'prioritize', 'repair', 'find', 'create'), (30, 30, 8, 20, 4, 6, 2))[0]
    index = choice.choice(there) if there and choice.random() < 0.9 else choice.randint(1, 128)
    if kind == 'add':
        begin, size = choice.randint(30, SECTORS), choice.randint(1, 400)
        words = ['add', '-b', str(begin), '-s', str(size), '-t', str(KINDS[choice.choice(list(KINDS))]), '-u', str(uuid.UUID(int=choice.getrandbits(128)))]
        if choice.random() < 0.3: words += ['-i', str(choice.randint(1, 128))]
        # Of an entry that was taken out, Debian's cgpt takes over what is not given.
        return words + ['-l', 'NAME %d' % choice.randint(0, 99), '-A', str(choice.randint(0, 65535))]
    if kind == 'change':
        words = ['add', '-i', str(index)]
        # Not the range and the type at once: on an unused entry both programs would make a GUID of their own.
        if choice.random() < 0.2: words += ['-b', str(choice.randint(34, SECTORS)), '-s', str(choice.randint(1, 200))]
        elif choice.random() < 0.2: words += ['-t', str(KINDS[choice.choice(list(KINDS))])]
        if choice.random() < 0.2: words += ['-l', 'NEW %d' % choice.randint(0, 99)]
        return words + attributes(choice)
    if kind == 'take': return ['add', '-i', str(index), '-t', 'unused']
    if kind == 'prioritize':
        words = ['prioritize']
        if choice.random() < 0.8: words += ['-i', str(index)]
        if len(words) > 1 and choice.random() < 0.3: words += ['-f']
        if choice.random() < 0.5: words += ['-P', str(choice.randint(1, 15))]
        return words
    if kind == 'find': return ['find', '-t', str(KINDS[choice.choice(list(KINDS))])]
    return [kind]

def attributes(choice):
    if choice.random() < 0.15: return ['-A', str(choice.randint(0, 65535))]
    words = []
    for option, most in (('S', 1), ('T', 15), ('P', 15)):
        if choice.random() < 0.5: words += ['-' + option, str(choice.randint(0, most))]
    return words

def swap(one, two):
    names = [os.path.join(folder, 'disk.img') for folder in (one, two)]
    os.rename(names[0], names[0] + '.kept'); os.rename(names[1], names[0]); os.rename(names[0] + '.kept', names[1])

def walk(number, choice):
    """How many commands agreed, or the words of the first that did not."""
    with tempfile.TemporaryDirectory() as one, tempfile.TemporaryDirectory() as two:
        subprocess.run([PROGRAM, 'make', str(number)], cwd=one, stdin=subprocess.DEVNULL, check=True)
        shutil.copy(os.path.join(one, 'disk.img'), two)
        said = []
        for step in range(STEPS):
            words = command(choice, one)
            mine, its = ours(one, words), debian(two, words)
            said.append(' '.join(words))
            if mine[0] != its[0] or entries(one) != entries(two):
                return 'walk %d, step %d: %s: ours %s, Debian\'s %s\n%s' % (number, step + 1, said[-1], mine, its, '\n'.join(said[-4:]))
            if choice.random() < 0.5: swap(one, two)
        if shutil.which('sgdisk'):
            for folder in (one, two):
                told = subprocess.run(['sgdisk', '-v', 'disk.img'], cwd=folder, stdin=subprocess.DEVNULL, capture_output=True, text=True).stdout
                problems = [line for line in told.split('\n') if line.startswith('Problem:') and 'MBR' not in line]
                if problems: return 'walk %d: sgdisk: %s' % (number, problems)
    return None

def main():
    if not shutil.which('cgpt'):
        print('cgpt_walk: Debian\'s cgpt is not here, so no walk is tried')
        return 0
    walks, seed = int(sys.argv[1]) if len(sys.argv) > 1 else 5, int(sys.argv[2]) if len(sys.argv) > 2 else 1
    choice = random.Random(seed)
    for number in range(1, walks + 1):
        fault = walk(number, choice)
        if fault:
            print(fault)
            return 1
    print('%d walks of %d commands agree' % (walks, STEPS))
    return 0

if __name__ == '__main__':
    sys.exit(main())

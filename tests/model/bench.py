# The bench: a script of cases is read, and the transcript is what the bench is to print.
import re
from commands import *

# The changed bytes of an image, as (place, end) of each run of bytes that are all other ones.
def changes(old, new):
    at = 0
    while at < len(new):
        if old[at:at+4096] == new[at:at+4096]: at += 4096 - at % 4096; continue
        if old[at] == new[at]: at += 1; continue
        end = at
        while end < len(new) and old[end] != new[end]: end += 1
        yield at, end
        at = end

def change_lines(name, old, new):
    if len(old) != len(new): return [f'  {name} {old.hex()} {new.hex()}']
    lines = []
    for at, end in changes(old, new):
        if len(lines) == 8: return lines + [f'  {name} and more']
        lines.append(f'  {name} {at} {end - at} bytes' if end - at > 32 else f'  {name} {at} {old[at:end].hex()} {new[at:end].hex()}')
    return lines

IMAGES = ('flash', 'firmware', 'kernel', 'disk', 'stick')
def machine_lines(before, after):
    lines = [line for name in IMAGES for line in change_lines(name, getattr(before, name), getattr(after, name))]
    return lines + ([f'  rows {len(before.rows)} {len(after.rows)}'] if len(before.rows) != len(after.rows) else [])

# Calls of devices fail here in lines `each` on tables of drives and on `make` alone.
# The calls of a drive that a command on its table makes: None for each of both reads, then the sectors that are written, as
# (first, count), and (0, 0) for a flush.
def table_calls(m, words, drive):
    disk = getattr(m, drive)
    table, source, _ = read_table(disk)
    calls = [None, None] if 69 <= len(disk) // 512 <= 4294967296 else []
    plan = plan_of_words(m, words[1:])
    if words[1] == 'show' or plan[2] is None: return calls
    for head, at in copies(disk)[::-1 if table and source == 'primary' else 1]: calls += [(at, 32), (head, 1), (0, 0)]
    return calls

# Each of these calls fails once: what is pending then is old, new or zero afterwards.
def each_table_call(m, words):
    drive = words[-1]
    disk, lines = getattr(m, drive), []
    calls = table_calls(m, words, drive)
    after = getattr(run_words(m, words)[2], drive)
    for remains in ('old', 'new', 'zeros'):
        state, pending = disk, []
        for number, call in enumerate(calls, 1):
            if call and call[1]: pending.append(slice(512 * call[0], 512 * sum(call)))
            left = state
            for span in pending: left = changed(left, span.start, {'old': disk[span], 'new': after[span], 'zeros': bytes(len(disk[span]))}[remains])
            now = m.copy(**{drive: left})
            text, status, _ = run_words(now, words)
            lines += [f'  - call {number} {remains}', f'  fault {drive}', '  status 7', *machine_lines(m, now),
                      '  then ' + ''.join(line + ', ' for line in text) + f'status {status}']
            if call == (0, 0):
                for span in pending: state = changed(state, span.start, after[span])
                pending = []
    return lines

# `make` of a machine over one of the right sizes, where each call of the TPM or of the hook fails once: the TPM is started and its
# spaces are written after the flash, and the rows are enrolled last, those that stand too.
def each_make_call(m, device, words):
    after, rows, lines = made(m, int(words[1])), images_of(int(words[1]))[3], []
    steps = {'tpm': [{}, {'firmware': after.firmware}, {'kernel': after.kernel}],
             'hook': [{'rows': m.rows + [row for row in rows[:k] if row not in m.rows]} for k in range(1, 16)]}[device]
    for remains in ('old', 'new', 'zeros'):
        state = m.copy(flash=after.flash) if device == 'tpm' else after.copy(rows=m.rows)
        for number, step in enumerate(steps, 1):
            left = state.copy(**step) if (device, remains) == ('tpm', 'new') else state
            text, status, _ = run_words(left, words)
            lines += [f'  - call {number} {remains}', f'  fault {device}', f'  status {6 if device == "tpm" else 8}', *machine_lines(m, left),
                      '  then ' + ''.join(line + ', ' for line in text) + f'status {status}']
            state = state.copy(**step)
    return lines

HEX = '(?:[0-9a-f]{2})'
FORMS = {'machine': r'\d+', 'erased': r'\d+', 'disk': r'\d+', 'stick': r'\d+', 'rewrite': rf'(flash|disk|stick) \d+ {HEX}+',
         'space': rf'(firmware|kernel) (-|{HEX}+)', 'row': rf'\d+ {HEX}{{32}} ({HEX}{{32}}){{1,2}} {HEX}{{32}}', 'keep': '', 'again': ''}

class Bench:
    """Reads lines of a script and keeps the transcript. Lines and words that the model does not know leave a line `  ?` and no change."""
    def __init__(self): self.m, self.kept, self.out = Machine(), Machine(), []
    def line(self, text):
        if not text or text.startswith('#'): return
        self.out.append(text)
        verb, *words = text.split() or ['']
        if verb == 'each' and words and words[0] in ('disk', 'stick') and words[1:2] == ['cgpt'] and words[-1] == words[0] and call_of(words[2:]):
            self.out += each_table_call(self.m, words[1:])
        elif verb == 'each' and re.fullmatch(r'(tpm|hook) make \d+', ' '.join(words)) and not isinstance(made(self.m, int(words[2])), str):
            self.out += each_make_call(self.m, words[0], words[1:])
        elif verb not in FORMS:
            ran = None if verb == 'each' else run_words(self.m, [verb] + words)
            if ran is None: self.out.append('  ?'); return
            lines, status, after = ran
            self.out += ['  ' + line for line in lines] + [f'  status {status}'] + machine_lines(self.m, after)
            self.m = after
        elif not re.fullmatch(FORMS[verb], ' '.join(words)) or words and words[0].isdecimal() and int(words[0]) >= 2**32: self.out.append('  ?')
        elif verb == 'machine': self.m = made(Machine(b'\xff' * 1048576, disk=bytes(8388608)), int(words[0])).copy(disk=b'')
        elif verb == 'erased': self.m = Machine(b'\xff' * int(words[0]))
        elif verb == 'keep': self.kept = self.m
        elif verb == 'again': self.m = self.kept
        elif verb in ('disk', 'stick'): self.m = self.m.copy(**{verb: bytes(512 * min(int(words[0]), 16384))})
        elif verb == 'space': self.m = self.m.copy(**{words[0]: bytes.fromhex(words[1].replace('-', ''))})
        elif verb == 'row': self.m = self.m.copy(rows=self.m.rows + [(int(words[0]), *map(bytes.fromhex, words[1:]))])
        else:
            old, at, bs = getattr(self.m, words[0]), int(words[1]), bytes.fromhex(words[2])
            if at + len(bs) > len(old): self.out.append('  ?')
            else: self.m = self.m.copy(**{words[0]: changed(old, at, bs)})

# What the commands on a partition table come to: lines, an answer, and the table that is written, or none.
import re
from boots import *

COMMANDS = {'create': '', 'add': 'ibstulSTPA', 'prioritize': 'iPf', 'repair': '', 'show': '', 'find': 'tul'}
RANGES = {'i': (1, 128), 'b': (0, 2**64 - 1), 's': (0, 2**64 - 1), 'S': (0, 1), 'T': (0, 15), 'P': (0, 15), 'A': (0, 65535)}
UNUSED = bytes(16)
GUID = re.compile('[0-9a-fA-F]{8}(-[0-9a-fA-F]{4}){3}-[0-9a-fA-F]{12}')

# The GUID of command n of a run: the bench runs each command with a seed of zeros.
def run_guid(n=0, seed=bytes(32)):
    b = bytearray(images.sha256(seed + p32(n))[:16])
    b[6], b[8] = b[6] & 15 | 64, b[8] & 63 | 128
    return uuid.UUID(bytes=bytes(b)).bytes_le

class Bad(Exception): pass
class Unknown(Exception): pass

def value_of(command, option, text):
    if option in RANGES:
        least, most = RANGES[option]
        if (command, option) == ('prioritize', 'P'): least = 1
        if not re.fullmatch('0|[1-9][0-9]*', text) or not least <= int(text) <= most: raise Bad
        return int(text)
    if option == 'l':
        units = text.encode('utf-16-le')
        if len(units) > 72: raise Bad
        return units.ljust(72, b'\0')
    if option == 't': text = {**images.KINDS, 'unused': str(uuid.UUID(bytes=UNUSED))}.get(text, text)
    if re.fullmatch(r'urn:.*|\{.*\}|[0-9a-fA-F]{32}', text): raise Unknown
    if not GUID.fullmatch(text): raise Bad
    guid = uuid.UUID(text).bytes_le
    if guid == UNUSED and (option == 'u' or command == 'find'): raise Bad
    return guid

# The options and the drive; None where the words are not in the plain form of letters with values behind them.
def call_of(words):
    if not words or words[0] not in COMMANDS: return None
    command, rest, given, drive = words[0], list(words[1:]), {}, None
    while rest:
        word = rest.pop(0)
        if re.fullmatch('-[' + (COMMANDS[command] or '!') + ']', word) and word[1] not in given:
            if word == '-f': given['f'] = True; continue
            if not rest or rest[0].startswith('-'): return None
            given[word[1]] = rest.pop(0)
        elif not word.startswith('-') and drive is None: drive = word
        else: return None
    return None if drive is None else (command, given, drive)

def with_entry(table, i, e): return (*table[:3], table[3][:128*(i-1)] + bytes(e) + table[3][128*i:])
def used(table): return [i for i in range(1, 129) if any(entry(table, i)[:16])]

def added(table, given, guid):
    i = given.get('i') or next((i for i in range(1, 129) if i not in used(table)), None)
    if not i: return 'NoFreeEntry'
    if given.get('t') == UNUSED:
        if 'i' not in given: return 'BadValue'
        return with_entry(table, i, bytes(128)) if i in used(table) else 'NoEntry'
    e = bytearray(entry(table, i))
    if i not in used(table):
        if not {'b', 's', 't'} <= set(given): return 'BadValue'
        e = bytearray(16) + guid + bytes(96)
    old, bits = (u64(e, 32), u64(e, 40)), u16(e, 54)
    begin = given.get('b', old[0])
    size = given.get('s', old[1] - old[0] + 1)
    if 'A' in given: bits = given['A']
    for option, at, width in (('S', 8, 1), ('T', 4, 4), ('P', 0, 4)):
        if option in given: bits = bits & ~((1 << width) - 1 << at) | given[option] << at
    if 't' in given: e[:16] = given['t']
    if 'u' in given: e[16:32] = given['u']
    if 'l' in given: e[56:] = given['l']
    others = [entry(table, j) for j in used(table) if j != i]
    if not size or begin < table[1] or begin + size - 1 > table[2]: return 'Outside'
    if any(begin <= u64(o, 40) and u64(o, 32) <= begin + size - 1 for o in others): return 'Overlap'
    if any(o[16:32] == e[16:32] for o in others): return 'DuplicateUnique'
    e[32:40], e[40:48], e[54:56] = p64(begin), p64(begin + size - 1), struct.pack('<H', bits)
    return with_entry(table, i, e)

def prioritized(table, given):
    i = given.get('i')
    if i and i not in used(table): return 'NoEntry'
    if i and entry(table, i)[:16] != KERNEL: return 'BadValue'
    groups = {}
    for j in used(table):
        e = entry(table, j)
        if e[:16] == KERNEL and priority(e): groups.setdefault(priority(e), set()).add(j)
    ordered = [groups[p] for p in sorted(groups, reverse=True)]
    if i:
        mine = next((group for group in ordered if i in group), {i}) if given.get('f') else {i}
        ordered = [mine] + [group - mine for group in ordered if group - mine]
    top = given.get('P', min(15, len(ordered)))
    for k, group in enumerate(ordered):
        for j in group:
            e = bytearray(entry(table, j)); e[54] = e[54] & 0xf0 | max(1, top - k)
            table = with_entry(table, j, e)
    return table

# The lines, the name of a refusal or None, and the table that is written or None. The table text is put in for `show`.
def table_plan(disk, call, guid):
    command, given, drive = call
    table, _, agree = read_table(disk)
    sectors = len(disk) // 512
    if command == 'create':
        after = (guid, 34, sectors - 34, bytes(16384)) if 69 <= sectors <= 4294967296 else 'DiskTooSmall'
    elif not table: return [], 'NoTable', None
    elif command == 'repair': return ['agree' if agree else 'repaired'], None, None if agree else table
    elif command == 'find':
        is_found = lambda e: all(e[at:at+size] == given[option] for option, at, size in (('t', 0, 16), ('u', 16, 16), ('l', 56, 72)) if option in given)
        found = [str(i) for i in used(table) if is_found(entry(table, i))]
        return found, None if found else 'NoEntry', None
    else: after = added(table, given, guid) if command == 'add' else prioritized(table, given)
    if isinstance(after, str): return [], after, None
    return [], None, None if agree and after == table else after

# The plan of words on a table, read as they are; None where the model does not know them.
def plan_of_words(m, words):
    call = call_of(words)
    if call is None or call[0] == 'show': return None
    command, given, drive = call
    try: given = {option: text if text is True else value_of(command, option, text) for option, text in given.items()}
    except Bad: return [], 'BadValue', None
    except Unknown: return None
    if drive not in ('disk', 'stick'): return [], 'BadValue', None
    return table_plan(getattr(m, drive), (command, given, drive), run_guid())

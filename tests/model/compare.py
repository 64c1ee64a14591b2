# A transcript of the bench compared with the model, and the laws on calls that fail.
from scripts import *

STATUS = {'flash': 5, 'tpm': 6, 'disk': 7, 'stick': 7, 'hook': 8, 'sink': 9}
# The ranges that a change may leave torn, and whether a line of changed bytes lies in such a range.
def torn_ranges(m, change):
    if change[0] == 'nv': return [('flash', change[1], change[1] + 8192)]
    sectors = len(m.disk) // 512
    return [('disk', 512, 34 * 512), ('disk', (sectors - 33) * 512, sectors * 512)] if change[0] == 'disk' else []

def is_among(line, ranges):
    name, at, *words = line.split()
    if (at, *words) == ('and', 'more'): return True
    if not at.isdecimal() or len(words) != 2: return False
    size = int(words[0]) if words[1] == 'bytes' else len(words[1]) // 2
    return any(name == of and start <= int(at) and int(at) + size <= end for of, start, end in ranges)

# The blocks of an `each`: calls from one to another, what was left, and the lines.
def blocks_of(body):
    blocks = []
    for line in body:
        call = re.fullmatch(r'  - calls? (\d+)(?: to (\d+))? (old|new|zeros)', line)
        if call: blocks.append((int(call[1]), int(call[2] or call[1]), call[3], []))
        else: blocks[-1][3].append(line)
    return blocks

def laws(m, device, words, body):
    """What a transcript of failing calls of a boot breaks. Of each call it is wanted that
    - its last line tells the device that failed, with its status, and nothing else is printed;
    - what changed is what the changes that are done change, but that the next change may have been made, or be torn in its range;
    - the same boot, once more and without a failure, comes to what it comes to after these changes or after one more."""
    boot = lambda state: plan_of(state, **boot_switches(words[1:]))
    plan = boot(m)
    steps = steps_of(m, plan)
    def then(state): return '  then ' + ''.join(line + ', ' for line in boot(state).text) + f'status {boot(state).status}'
    wanted = [(machine_lines(m, state), then(state)) for state in [m] + [after for _, after in steps]]
    wrong, counts = [], {}
    for first, last, remains, lines in blocks_of(body):
        breaks = lambda what: wrong.append(f'call {first} {remains}: {what}')
        if first != counts.get(remains, 0) + 1: breaks('calls are not in turn')
        counts[remains] = last
        if f'  status {STATUS[device]}' not in lines: breaks('not the status of its device'); continue
        at = lines.index(f'  status {STATUS[device]}')
        text, changes, after = lines[:at], lines[at+1:-1], lines[-1]
        if device == 'sink':
            if text != ['  ' + line for line in plan.text][:len(text)] or changes != wanted[-1][0]: breaks('not all changes, or another text')
            continue
        done = re.fullmatch(rf'  fault {device}(?: done (\d+))?', text[0]) if len(text) == 1 else None
        if not done or not done[1] and device != 'flash' or int(done[1] or 0) > len(steps): breaks('another text'); continue
        n = int(done[1] or 0)
        next_one = n < len(steps) and done[1] # the flash failed while its map was looked for where nothing is counted
        may_be = wanted[n:n+2] if next_one else wanted[n:n+1]
        ranges = torn_ranges(m, steps[n][0]) if next_one else []
        outside = lambda lines: [line for line in lines if not is_among(line, ranges)]
        if changes not in [lines for lines, _ in may_be] and not (ranges and outside(changes) == outside(wanted[n][0])): breaks('other changes')
        if after not in [line for _, line in may_be]: breaks('another boot afterwards')
    if len(set(counts.values())) > 1: wrong.append(f'not as many calls with each of the remains: {counts}')
    return wrong, sum(counts.values())

def laws_of_showing(m, device, words, body): # the same of words that change nothing
    text, status, _ = run_words(m, words)
    then = '  then ' + ''.join(line + ', ' for line in text) + f'status {status}'
    wrong, counts = [], {}
    for first, last, remains, lines in blocks_of(body):
        told = lines[:-2]
        right = told == ['  ' + line for line in text][:len(told)] if device == 'sink' else told == [f'  fault {device}']
        if not right or lines[-2:] != [f'  status {STATUS[device]}', then]: wrong.append(f'call {first} {remains}: another text')
        if first != counts.get(remains, 0) + 1: wrong.append(f'call {first} {remains}: calls are not in turn')
        counts[remains] = last
    if len(set(counts.values())) > 1: wrong.append(f'not as many calls with each of the remains: {counts}')
    return wrong, sum(counts.values())

def laws_of_crossing(m, device, words, body):
    """The same of crossystem and migrate: where the flash or the TPM failed nothing but that is printed, and its change is not made, is made,
    or is torn in the pages of nvdata; where the sink failed the change is made, and a beginning of the lines is printed."""
    text, _, after = run_words(m, words)
    def then(state):
        text, status, _ = run_words(state, words)
        return '  then ' + ''.join(line + ', ' for line in text) + f'status {status}'
    changed_by = {'flash': after.flash != m.flash, 'tpm': after.kernel != m.kernel}
    wrong, counts = [], {}
    for first, last, remains, lines in blocks_of(body):
        breaks = lambda what: wrong.append(f'call {first} {remains}: {what}')
        if first != counts.get(remains, 0) + 1: breaks('calls are not in turn')
        counts[remains] = last
        if f'  status {STATUS[device]}' not in lines: breaks('not the status of its device'); continue
        at = lines.index(f'  status {STATUS[device]}')
        told, changes, later = lines[:at], lines[at+1:-1], lines[-1]
        may_be = [after] if device == 'sink' else [m, after] if changed_by[device] else [m]
        right = told == ['  ' + line for line in text][:len(told)] if device == 'sink' else told == [f'  fault {device}']
        if not right: breaks('another text')
        torn = device == 'flash' and changed_by['flash'] and all(is_among(line, torn_ranges(m, ('nv', read_map(m.flash, map_place(m.flash))[1][0]))) for line in changes)
        if changes not in [machine_lines(m, state) for state in may_be] and not torn: breaks('other changes')
        if later not in [then(state) for state in may_be]: breaks('other words afterwards')
    if len(set(counts.values())) > 1: wrong.append(f'not as many calls with each of the remains: {counts}')
    return wrong, sum(counts.values())

def check(lines):
    bench, wrong, same, calls = Bench(), [], 0, 0
    parts = []
    for line in lines:
        if not line.startswith('  '): parts.append((line, []))
        elif parts: parts[-1][1].append(line)
    for number, (line, body) in enumerate(parts, 1):
        if not line: continue
        before, printed = bench.m, len(bench.out)
        bench.line(line)
        expected = bench.out[printed+1:]
        words = line.split()
        boots = words[2:3] == ['boot'] and boot_switches(words[3:]) is not None
        crosses = words[2:3] == ['crossystem'] or words[2:] == ['migrate']
        if words[0] == 'each' and words[1] in STATUS and (boots or crosses or words[2] == 'futility'):
            broken, many = (laws if boots else laws_of_crossing if crosses else laws_of_showing)(before, words[1], words[2:], body)
            calls += many
            wrong += [f'part {number}, {line}: {what}' for what in broken]
        elif expected not in (['  ?'], body): wrong.append(f'part {number}, {line[:80]}: not\n' + '\n'.join(body) + '\nbut\n' + '\n'.join(expected))
        elif expected == body: same += 1
    print(*wrong, f'model: {same} lines and {calls} failing calls of the bench are compared', f'{same + calls - len(wrong)} passed, {len(wrong)} failed', sep='\n')
    return not wrong

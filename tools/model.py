"""An independent model of the rules in document 01, the exact rules, with the counts.

It prints what the case program crates/run_cases/src/main.rt has to print, and what
the program readings has to print of a schedule, and so makes their stored output:

    python3 tools/model.py crates/run_cases/src/main.rt > crates/run_cases/stdout
    python3 tools/model.py readings < crates/readings/stdin > crates/readings/stdout

It is written from the rules and not from the Rattle code. Of the case program it
takes the cases (names, schedules, budgets, rooms) and the form they are printed in.
"""
import ast
import re
import sys
from collections import namedtuple

LIMIT = 4294967295  # of a clock, of a count, and of a number in a schedule
LONGEST = 12288  # bytes of a schedule
IDLE, WAITING, HOLDING = 0, 1, 2

Message = namedtuple('Message', 'kind stamp counts')  # The sender's counts at the sending.
Line = namedtuple('Line', 'word numbers')  # A step is a line whose numbers are benches.

class Table:
    """At first fresh: all clocks at the start, all benches idle, everything else empty."""

    def __init__(self, n, capacity, start):
        self.n, self.capacity = n, capacity
        self.clock = [start] * n
        self.phase = [IDLE] * n
        # queue[p][q] is q's entry in p's queue; heard[p][q] is what p has heard from q.
        self.queue = [[0] * n for _ in range(n)]
        self.heard = [[0] * n for _ in range(n)]
        # counts[p][q] is how many events of q bench p has counted, whatever the start clock.
        self.counts = [[0] * n for _ in range(n)]
        # channel[p, q] leads from p to q, its oldest message first.
        self.channel = {(p, q): [] for p in range(n) for q in range(n) if p != q}

    def others(self, p):
        return [q for q in range(self.n) if q != p]

def comes_before(stamp, bench, other_stamp, other_bench):
    return stamp < other_stamp or stamp == other_stamp and bench < other_bench

def place(table, p):
    if table.phase[p] != WAITING:
        return '-'
    queue = table.queue[p]
    entries = [q for q in table.others(p) if queue[q] != 0]
    return 1 + sum(comes_before(queue[q], q, queue[p], p) for q in entries)

def holder(table):
    return next((p for p in range(table.n) if table.phase[p] == HOLDING), '-')

# ---- the numbers for no
ANY = [IDLE, WAITING, HOLDING]
ADMITTING = {'ask': [IDLE], 'enter': [WAITING], 'leave': [HOLDING], 'mark': ANY, 'carry': ANY}

def bench_of(step):
    """The bench whose clock advances: for carry the receiver."""
    return step.numbers[-1]

def carried(table, step):
    """The oldest message on a carry's channel, or None."""
    return next(iter(table.channel[tuple(step.numbers)]), None)

def may_enter(table, p):
    queue = table.queue[p]
    entries = [q for q in table.others(p) if queue[q] != 0]
    first = all(comes_before(queue[p], p, queue[q], q) for q in entries)
    return first and all(table.heard[p][q] > queue[p] for q in table.others(p))

def channels_sent_on(table, step):
    if step.word in ('ask', 'leave'):
        p = bench_of(step)
        return [(p, q) for q in table.others(p)]
    if step.word == 'carry' and carried(table, step).kind == 'request':
        p, q = step.numbers
        return [(q, p)]
    return []

def clock_after(table, step):
    clock = table.clock[bench_of(step)]
    if step.word != 'carry':
        return clock + 1
    message = carried(table, step)
    received = max(clock, message.stamp) + 1
    # Sending the acknowledgement is an event of its own.
    return received + 1 if message.kind == 'request' else received

def counts_after(table, step):
    """The counts of the step's bench."""
    p = bench_of(step)
    counts = list(table.counts[p])
    if step.word == 'carry':
        message = carried(table, step)
        # VC2: the maximum is taken over the others, and the own count only goes up by 1.
        for q in table.others(p):
            counts[q] = max(counts[q], message.counts[q])
        if message.kind == 'request':
            counts[p] += 1  # VC1, of the acknowledgement.
    counts[p] += 1
    return counts

def answer_to(table, step):
    """The first number that applies, else 0. It is never 1: a run's table is well formed."""
    if any(bench >= table.n for bench in step.numbers):
        return 2
    if step.word == 'carry' and step.numbers[0] == step.numbers[1]:
        return 3
    if table.phase[bench_of(step)] not in ADMITTING[step.word]:
        return 4
    if step.word == 'carry' and carried(table, step) is None:
        return 5
    if step.word == 'enter' and not may_enter(table, bench_of(step)):
        return 6
    if any(len(table.channel[c]) >= table.capacity for c in channels_sent_on(table, step)):
        return 7
    if clock_after(table, step) > LIMIT or counts_after(table, step)[bench_of(step)] > LIMIT:
        return 8
    return 0

# ---- the five steps, each given the clock after it; the bench's counts are those after it already

def send_to_others(table, p, message):
    for q in table.others(p):
        table.channel[p, q].append(message)

def ask(table, clock, p):
    table.queue[p][p] = clock
    table.phase[p] = WAITING
    send_to_others(table, p, Message('request', clock, table.counts[p]))

def carry(table, clock, p, q):
    message = table.channel[p, q].pop(0)
    table.heard[q][p] = max(table.heard[q][p], message.stamp)
    if message.kind == 'request':
        table.queue[q][p] = message.stamp
        table.channel[q, p].append(Message('acknowledgement', clock, table.counts[q]))
    elif message.kind == 'release':
        table.queue[q][p] = 0

def enter(table, clock, p):
    table.phase[p] = HOLDING

def leave(table, clock, p):
    table.queue[p][p] = 0
    table.phase[p] = IDLE
    send_to_others(table, p, Message('release', clock, table.counts[p]))

def mark(table, clock, p):
    pass  # Only the clock and the count advance.

STEPS = {'ask': ask, 'carry': carry, 'enter': enter, 'leave': leave, 'mark': mark}

def take(table, step):
    """Changes the table unless the step is refused, and returns the answer."""
    answer = answer_to(table, step)
    if answer == 0:
        p, clock, counts = bench_of(step), clock_after(table, step), counts_after(table, step)
        table.clock[p], table.counts[p] = clock, counts
        STEPS[step.word](table, clock, *step.numbers)
    return answer

# ---- the schedule
NUMBERS = {'table': 3, 'ask': 1, 'enter': 1, 'leave': 1, 'mark': 1, 'carry': 2}

class Refused(Exception):
    """Of a run: the number and the line."""

def is_number(field):
    return re.fullmatch(rb'0|[1-9][0-9]{0,9}', field) is not None and int(field) <= LIMIT

def read_line(text):
    """The line, or None if it is bad."""
    first, *fields = text.split(b'\t')
    word = first.decode('latin-1')
    if NUMBERS.get(word) != len(fields) or not all(map(is_number, fields)):
        return None
    return Line(word, [int(field) for field in fields])

def read_schedule(schedule):
    """The header and the steps."""
    if len(schedule) > LONGEST:
        raise Refused(12, 0)
    # What follows the last LF is nothing, or else a line that lacks its LF.
    *texts, unended = schedule.split(b'\n')
    lines = []
    for at, text in enumerate(texts, 1):
        line = read_line(text)
        # The header is the first line and no other.
        if line is None or (line.word == 'table') != (at == 1):
            raise Refused(10, at)
        if at == 1 and not (1 <= line.numbers[0] <= 8 and 1 <= line.numbers[1] <= 16):
            raise Refused(9, at)
        lines.append(line)
    if unended or not lines:
        raise Refused(10, len(lines) + 1)
    return lines[0], lines[1:]

# ---- the run and its listing

def record(table, at, step, answer):
    if answer == 2:
        return [at, answer, '-', '-', '-', '-', holder(table)]
    p = bench_of(step)
    return [at, answer, p, table.clock[p], table.phase[p], place(table, p), holder(table)]

def text_of(records):
    return ''.join('\t'.join(map(str, fields)) + '\n' for fields in records)

def run(schedule, budget, room):
    """The listing."""
    header, steps = read_schedule(schedule)
    if room < 32 * (1 + len(steps)):
        raise Refused(11, 0)
    table = Table(*header.numbers)
    records, refused = [], 0
    for at, step in enumerate(steps[:budget], 1):
        answer = take(table, step)
        if answer != 0:
            refused += 1
        records.append(record(table, at, step, answer))
    records.append(['end', len(records), refused])
    return text_of(records)

# ---- the readings of all steps: a line for each mark that is done

def readings(schedule):
    header, steps = read_schedule(schedule)
    table = Table(*header.numbers)
    records = []
    for at, step in enumerate(steps, 1):
        p = bench_of(step)
        if take(table, step) == 0 and step.word == 'mark':
            records.append([at, p, table.clock[p], *table.counts[p]])
    return text_of(records)

def print_readings(schedule):
    try:
        print(readings(schedule), end='')
    except Refused as refused:
        print('refused', *refused.args, sep='\t')

# ---- the cases, read out of the case program
LONG = b'table\t2\t4\t0\n' + b'ask\t0\n' * LONGEST  # `long` cuts it to a length.
STRING = r'b?"(?:[^"\\]|\\.)*"'
ARGUMENT = rf'{STRING}|\w+(?: \+ \w+)?'
CALL = rf'(\w+)\(\s*&?rt((?:,\s*(?:{ARGUMENT}))*),?\s*\)'
CONSTANT = rf'const (\w+): (?:&\[u8\]|usize) =\s*({STRING}|\d+);'

def value_of(argument, constants):
    """Of a literal, a constant, or a sum of two numbers."""
    if '"' in argument:
        return ast.literal_eval(argument)
    terms = [constants[t] if t in constants else int(t) for t in argument.split(' + ')]
    return sum(terms) if len(terms) > 1 else terms[0]

def calls_of(function, source, constants):
    """The calls in the function's body, each with its arguments behind rt."""
    body = re.search(rf'^fn {function}\(rt: .*?\{{\n(.*?)^\}}', source, re.S | re.M).group(1)
    found = re.findall(CALL, body)
    if len(found) != len(re.findall(r'\brt\b', body)):
        sys.exit(f'{function}: a call of a form that is not read here')
    return [(called, [value_of(a, constants) for a in re.findall(ARGUMENT, arguments)])
            for called, arguments in found]

def cases_of(function, source, constants):
    """Name, schedule, budget and room of each case, in order."""
    for called, arguments in calls_of(function, source, constants):
        if called == 'case':
            yield arguments
        elif called == 'text':
            yield [*arguments, constants['MANY'], constants['ROOM']]
        elif called == 'long':
            name, length = arguments
            yield [name, LONG[:length], constants['MANY'], constants['ROOM']]
        else:
            yield from cases_of(called, source, constants)

def digest(listing):
    value = 7
    for byte in listing.encode():
        value = (value % 4294967291 * 31 + byte) % 4294967291
    return value

def print_case(name, schedule, budget, room):
    number, line, listing = 0, 0, ''
    try:
        listing = run(schedule, budget, room)
    except Refused as refused:
        number, line = refused.args
    # By the rules the bytes after a listing stay, and all of them where a run is refused.
    print(f'{name}: {number} line {line} bytes {len(listing)} rest as before')
    print(listing if len(listing) <= 600 else f'digest {digest(listing)}\n', end='')

def print_cases(path):
    with open(path, encoding='utf-8') as file:
        program = file.read()
    named = {name: ast.literal_eval(value) for name, value in re.findall(CONSTANT, program)}
    for case in cases_of('main', program, named):
        print_case(*case)

if __name__ == '__main__':
    if sys.argv[1] == 'readings':
        print_readings(sys.stdin.buffer.read())
    else:
        print_cases(sys.argv[1])

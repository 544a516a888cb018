#!/usr/bin/env python3
"""make_replay_list.py ORACLE GENS FOLDER: writes FOLDER/stdin and FOLDER/stdout of the program check_replay.

ORACLE is the Rust oracle's shedtrial, GENS the folder that holds gens.py. The first list is one script of gens.py with its
first start only, lines that are refused strewn in, and a P at the end. Each of the others has a run where one of demand 3's
claims is within 1 % of its bound: bounds and costs are computed from what the oracle says that its judgements met (--met),
the 1 % is asserted here, and the figures stand in a line before the W line. What the program must say of a run is summed up
from what the oracle printed for the same lines. The oracle has no line for new rates: what must be said of the last list is
counted here, in whole tokens.
"""
import random
import struct
import subprocess
import sys
from fractions import Fraction

oracle, gens_folder, folder = sys.argv[1:4]
sys.path.insert(0, gens_folder)
import gens

SEED, SIZE = 7354, 1500
UNITS = 256
CALLS = 4096
DIMS = 2
# the calls that the program makes of a P line: a report, the call beside it, five readings of the head
READINGS = 7
HEAD = (b'rate ', b'ceiling ', b'active ', b'receiver-ceiling ', b'over-share ', b'relay-rate ')
NEAR = Fraction(1, 100)
RATE = (100_000, 30_000_000)


def double(word):
    return struct.unpack('<d', struct.pack('<Q', int(word)))[0]


# ---- what the oracle says
class Call:
    """A call: the index of its line, its fields, its answer, the numbers of its cost, and of a judgement what it met."""

    def __init__(self, line, fields, answer, met):
        self.line, self.fields, self.answer, self.kind = line, fields, answer, fields[0]
        self.is_refused = answer.startswith(b'refused ')
        self.cost = [int(x) for x in fields[{b'J': 2, b'C': 3}[self.kind]:][:DIMS]] if self.kind in b'JC' else [0] * DIMS
        self.stamp = int(fields[4]) if self.kind == b'J' else 0
        self.is_judged = self.kind == b'J' and not self.is_refused
        self.is_handed = self.kind == b'C' and fields[2] == b'receiver-ceiling'
        if met:
            self.levels = [double(x) for x in met[1:3]]
            self.key = b'overflow' if met[3] == b'overflow' else fields[1]
            self.is_added, self.is_fresh, self.at = met[3] == b'added', met[4] == b'1', int(met[5])
            self.attempted = [double(x) for x in met[6:8]]


def printed(lines, *words):
    text = b'\n'.join(lines) + b'\n'
    out = subprocess.run([oracle, *words], input=text, capture_output=True, check=True).stdout.split(b'\n')
    assert out.pop() == b''
    return out


def answered(lines):
    """Each line with the lines that the oracle printed for it."""
    said = printed(lines, '--met')
    out = []
    at = 0
    for line in lines:
        first = at
        at += 1
        if line == b'P' and said[first].startswith(HEAD[0]):
            at = first + len(HEAD)
            assert all(said[first + k].startswith(HEAD[k]) for k in range(len(HEAD)))
            while at < len(said) and said[at].startswith(b'source '):
                at += 1
        if at < len(said) and said[at].startswith(b'met '):
            at += 1
        out.append((line, said[first:at]))
    assert at == len(said)
    return out


def calls_of(lines):
    """The calls that the program makes of the lines behind the R line, and the text of each report by the place of its call."""
    answers = answered(lines)
    assert answers[0][1] == [b'started'] and not lines[0].startswith(b'R 18446744073709551615 ')
    calls, reports = [], {}
    for i, (line, text) in enumerate(answers[1:], 1):
        if text == [b'refused 8']:
            continue
        if line == b'P':
            reports[len(calls)] = b'\n'.join(text) + b'\n'
            calls += [Call(i, [b'P'], text[0], None)] * READINGS
        else:
            calls.append(Call(i, line.split(b' '), text[0], text[1].split(b' ') if len(text) > 1 else None))
    assert len(calls) <= CALLS
    return calls, reports


# ---- what the program must say of a run
def summed(calls):
    return [sum(r.cost[d] for r in calls) for d in range(DIMS)]


def taken_in(calls, start, end):
    return [r for r in calls[start:end] if not r.is_refused]


def admitted_in(run, key=None):
    return [r for r in run if r.is_judged and r.answer == b'ok' and (key is None or r.key == key)]


def page_after(calls, reports, end):
    page = b''
    for place, text in sorted(reports.items()):
        if place < end:
            page = text + page[len(text):]
    return page


def state_after(lines, calls, end):
    """The report of the state that the calls before `end` left."""
    last = calls[min(end, len(calls)) - 1].line if end and calls else 0
    said = printed(lines[:last + 1] + [b'P'])
    first = len(said) - 1
    while not said[first].startswith(HEAD[0]):
        first -= 1
    return b'\n'.join(said[first:]) + b'\n'


def said_of(lines, calls, reports, watch):
    key, start, end = watch
    run = taken_in(calls, start, end)
    over = bool(run) and run[-1].answer == b'over-share'
    totals = (b'admitted', admitted_in(run)), (b'on-watched', admitted_in(run, key)), (b'handed-back', [r for r in run if r.is_handed])
    out = b'W %s %d %d\n' % watch
    out += b''.join(b'%s %d %d\n' % (word, *summed(counted)) for word, counted in totals)
    out += b'taken %d\nover-share %s\n' % (len(run), b'yes' if over else b'no')
    return out + b'page\n' + page_after(calls, reports, end) + b'state\n' + state_after(lines, calls, end)


# ---- the bounds
def clocks(calls):
    """The clock after each call: the highest stamp so far of a call not refused."""
    out, clock = [], 0
    for r in calls:
        clock = max(clock, 0 if r.is_refused else r.stamp)
        out.append(clock)
    return out


def seconds(calls, start, end):
    """T of the run of the taken calls among calls[start:end]."""
    at = [t for t, r in zip(clocks(calls)[start:end], calls[start:end]) if not r.is_refused]
    return Fraction(at[-1] - at[0], 1000)


def fill(call, d):
    return Fraction(min(call.levels[d], RATE[d]))


def part_of(admitted, bound):
    """In each dimension, the part of the bound that is admitted: within it, and within 1 % of it."""
    parts = [Fraction(a) / b for a, b in zip(admitted, bound)]
    assert all(1 - NEAR <= p <= 1 for p in parts), [float(p) for p in parts]
    return ' '.join('%.5f' % p for p in parts)


def relay_part(calls, start, end, ceiling):
    run = taken_in(calls, start, end)
    handed = summed([r for r in run if r.is_handed])
    assert all(handed)
    burst = [max(RATE[d], min(ceiling[d], gens.MOST), 1) for d in range(DIMS)]
    bound = [burst[d] + RATE[d] * seconds(calls, start, end) + handed[d] + Fraction(len(run), 256) for d in range(DIMS)]
    return part_of(summed(admitted_in(run)), bound)


def share_part(calls, start, end, key):
    """The cuts of these lists name a unit that uses the record `key`."""
    run = taken_in(calls, start, end)
    handed = summed([r for r in run if r.is_handed and r.fields[1] == key])
    judged = [r for r in run if r.is_judged and r.key == key]
    assert all(handed) and {r.fields[1] for r in run if r.kind == b'C'} == {key}
    bound = [(4 + seconds(calls, start, end)) * max(fill(r, d) for r in judged) + handed[d] + Fraction(len(run), 256) for d in range(DIMS)]
    return part_of(summed(admitted_in(run, key)), bound)


def want(call):
    """How many times the level the sender of a judgement wants, in doubles as the definition has it."""
    idle = max(0, call.stamp - call.at)
    weight = 1.0 if call.is_fresh or idle >= 2000 else 0.5
    return max((call.attempted[d] + (weight - 1.0) * call.cost[d]) / 2.0 / call.levels[d] for d in range(DIMS))


def tried_part(calls):
    """Of the last judgement: in the run from a judgement of its record to it that comes closest, cost tried and n / 256 over
    (4 + T) * the lowest fill, in the dimension where that is most. No record of these lists is dropped and added again."""
    last = calls[-1]
    mine = [i for i, r in enumerate(calls) if r.is_judged and r.key == last.key]
    assert want(last) <= 1 and not any(calls[i].is_added for i in mine[1:])
    parts = []
    for i in mine:
        run, judged = taken_in(calls, i, len(calls)), [calls[j] for j in mine if j >= i]
        for d in range(DIMS):
            tried = summed(judged)[d] + Fraction(len(run), 256)
            parts.append(tried / ((4 + seconds(calls, i, len(calls))) * min(fill(r, d) for r in judged)))
    return max(parts)


# ---- the lists
def judge(label, cost, stamp):
    return b'J %s %d %d %d' % (label, *cost, stamp)


def cut(label, cost):
    return b'C %s receiver-ceiling %d %d' % (label, *cost)


def start(times):
    """A start; the burst is `times` times the rate."""
    return b'R %d %d %d %d' % (*RATE, *[times * r for r in RATE])


def part(f, xs=RATE):
    return [int(f * x) for x in xs]


def sender(k):
    return b'v4:10.%d.0.0/16' % k


def crowd():
    """32 judgements, as many as a scan takes: four senders that want more than the relay's rate, so that a level is found."""
    return [judge(sender(k % 4), part(Fraction(1, 2)), 1000 + 20 * k) for k in range(32)]


def fills_after(lines):
    """The fills that the next judgement meets."""
    call = calls_of(lines + [judge(b'no-address', (0, 0), 2000)])[0][-1]
    found = [fill(call, d) for d in range(DIMS)]
    assert all(f < r for f, r in zip(found, RATE))
    return found


def drained(before, names, fills, hands):
    """A record that takes all its credit at once, all that fills each half second for ten seconds, and what `hands` hands back."""
    spent = [judge(next(names), part(4, fills), 3000)]
    for k in range(1, 21):
        spent.append(judge(next(names), part(Fraction(1, 2), fills), 3000 + 500 * k))
    back = part(Fraction(1, 4), fills)
    return before + spent + ([cut(hands, back), judge(next(names), back, 13_000)] if hands else [])


def always(label):
    while True:
        yield label


def gens_list():
    r = random.Random(SEED)
    lines = gens.script(SEED, SIZE).split(b'\n')
    first = next(i for i, line in enumerate(lines) if line.split(b' ')[0] == b'R')
    out = [lines[first]]
    for line in lines[first + 1:]:
        if r.random() < .03:
            out.append(r.choice(gens.REFUSED + gens.NO_FORM))
        out.append(line)
    return out[:1] + [line for line in out[1:] if line.split(b' ')[0] != b'R'] + [b'P']


def relay_list():
    """The bucket is full before the run, is emptied at once, and then takes all that is refilled, each batch of a sender new to it."""
    lines = [start(0)] + crowd()
    names = (sender(k) for k in range(10, 256))
    fifth = part(Fraction(1, 5))
    lines += [judge(next(names), part(Fraction(1, 4)), 5000) for _ in range(4)]
    for k in range(1, 21):
        lines.append(judge(next(names), fifth, 5000 + 200 * k))
    lines += [cut(sender(20), fifth), judge(next(names), fifth, 9000)]
    return lines


def own_list():
    lines = [start(100)] + crowd()
    return drained(lines, always(b'v4:20.0.0.0/16'), fills_after(lines), b'v4:20.0.0.0/16')


def overflow_list():
    """The store is full, before a first scan can begin: senders more share overflow's record."""
    lines = [start(100)] + [judge(sender(k), (0, 0), k) for k in range(UNITS)] + crowd()
    names = (b'v6:2001:%x::/32' % k for k in range(1, 100))
    return drained(lines, names, fills_after(lines), b'overflow')


def spared_list(cost):
    """A sender whose credit is used up, and whose want has sunk below the level; its last batch costs `cost` in the first dimension."""
    lines = [start(100)] + crowd()
    return drained(lines, always(b'v4:20.0.0.0/16'), fills_after(lines), None) + [judge(b'v4:20.0.0.0/16', (cost, 0), 14_600)]


def last_answer(cost):
    return calls_of(spared_list(cost))[0][-1].answer


def spared_costs():
    """The largest cost that is within the condition, and the smallest that is answered over share."""
    low, high = 0, 2 * RATE[0]
    while high - low > 1:
        mid = (low + high) // 2
        low, high = (low, mid) if last_answer(mid) == b'over-share' else (mid, high)
    past = high
    while tried_part(calls_of(spared_list(low))[0]) > 1:
        low -= 1
    return low, past


# ---- new rates
STAMPS = 1 << 53


def turned_list():
    """All that the rates carry is taken at once, from senders that are new; of two changes that are refused nothing stays."""
    names = (sender(k) for k in range(40, 60))

    def took(cost, stamp):
        return judge(next(names), (cost, 0), stamp)

    def rates(receptions, most, stamp):
        return b'N %d 1000000 %d 7 %d' % (receptions, most, stamp)

    return [
        b'R 8000 1000000 0 0', took(8000, 1000), took(4000, 1500), rates(1000, 0, 1625), took(1000, 1625), took(500, 2125),
        rates(4000, 0, 3125), took(1000, 3125), took(1, 3125), took(4000, 4125), rates(0, 0, 5000), rates(1, 0, STAMPS),
        rates(2000, 5000, 4125), took(2000, 5125), b'P',
    ]


def turned_said(lines, key):
    """What must be said of the whole list, and the part of the first bound that is admitted."""
    def burst():
        return max(rate, min(most, gens.MOST), 1)

    level, _, most, _ = [int(x) for x in lines[0].split(b' ')[1:]]
    rate = level
    tokens = burst()
    largest = clock = carried = 0
    admitted, over = {}, []
    taken = READINGS
    for fields in (line.split(b' ') for line in lines[1:-1]):
        to, stamp = int(fields[{b'J': 2, b'N': 1}[fields[0]]]), int(fields[-1])
        if fields[0] == b'N' and (not 1 <= to <= gens.MOST or stamp >= STAMPS):
            continue
        gap = max(stamp, clock) - clock
        assert gap * rate % 1000 == 0
        tokens = min(tokens + gap * rate // 1000, burst())
        carried += gap * rate // 1000 if taken > READINGS else 0
        clock += gap
        taken += 1
        if fields[0] == b'N':
            rate, most = to, int(fields[3])
            tokens = min(tokens, burst())
        largest = max(largest, burst())
        if fields[0] == b'N':
            continue
        # each is within the level, which no scan has found yet, and within the credit of a new record
        assert to <= 2 * level and to <= 4 * min(level, rate) and fields[1] not in admitted
        admitted[fields[1]] = to if to <= tokens else 0
        over += [] if to <= tokens else [(fields[1], to)]
        tokens -= admitted[fields[1]]
    report = b'rate %d 1000000\nceiling %d 7\nactive %d\n' % (rate, most, len(admitted))
    report += b'receiver-ceiling 0 0\nover-share 0 0\nrelay-rate %d %d\n' % (len(over), sum(cost for _, cost in over))
    report += b''.join(b'source %s 0 0 1\n' % label for label, _ in over)
    said = b'W %s 0 %d\nadmitted %d 0\non-watched %d 0\nhanded-back 0 0\n' % (key, CALLS, sum(admitted.values()), admitted[key])
    said += b'taken %d\nover-share no\npage\n%sstate\n%s' % (taken, report, report)
    part = Fraction(sum(admitted.values())) / (largest + carried + Fraction(taken, 256))
    assert 1 - NEAR <= part <= 1
    return said, part


# ---- the files
stdin, stdout = [], []


def add(lines, watches, figures=None):
    """A list, the line of figures, and its runs."""
    calls, reports = calls_of(lines)
    stdin.extend(lines)
    if figures:
        stdin.append(b'# ' + figures(calls).encode())
    for watch in watches:
        stdin.append(b'W %s %d %d' % watch)
        stdout.append(said_of(lines, calls, reports, watch))
    return calls


lines = gens_list()
calls, _ = calls_of(lines)
first = next(r.fields[1] for r in calls if r.kind == b'J')
assert first != b'overflow'
assert {r.answer for r in calls if r.kind != b'P'} >= {b'ok', b'over-share', b'relay-rate', b'counted', b'refused 5', b'refused 6'}
assert b'refused 8' in {text[0] for _, text in answered(lines)}
assert all(summed(admitted_in(calls, key)) > [0, 0] for key in (first, b'overflow'))
add(lines, [(first, 0, CALLS), (first, 400, 1200), (b'overflow', 0, CALLS), (first, 1000, 1000)])

lines = relay_list()
size = len(lines) - 1
add(lines, [(sender(20), 32, size)], lambda calls: 'admitted over the first bound: ' + relay_part(calls, 32, size, (0, 0)))
key = b'v4:20.0.0.0/16'
lines = own_list()
size = len(lines) - 1
add(lines, [(key, 32, size)], lambda calls: 'admitted on the record over the second bound: ' + share_part(calls, 32, size, key))
lines = overflow_list()
size = len(lines) - 1
add(lines, [(b'overflow', UNITS + 32, size), (b'v6:2001:1::/32', UNITS + 32, size)],
    lambda calls: "admitted on overflow's record over the second bound: " + share_part(calls, UNITS + 32, size, b'overflow'))
within, past = spared_costs()
for cost, word in ((within, b'ok'), (past, b'over-share')):
    lines = spared_list(cost)
    calls = add(lines, [(key, 32, len(lines) - 1)], lambda calls: 'want %.5f, cost tried over the third condition: %.7f' % (want(calls[-1]), tried_part(calls)))
    assert calls[-1].answer == word
    assert 1 - NEAR <= tried_part(calls) <= 1 if word == b'ok' else 1 < tried_part(calls) <= 1 + NEAR
lines = turned_list()
said, part = turned_said(lines, sender(46))
stdin += lines + [b'# admitted over the first bound, the rates changing: %.5f' % part, b'W %s 0 %d' % (sender(46), CALLS)]
stdout.append(said)
open(folder + '/stdin', 'wb').write(b'\n'.join(stdin) + b'\n')
open(folder + '/stdout', 'wb').write(b''.join(stdout))

#!/usr/bin/env python3
"""example.py: runs docs/FAIRNESS.md's example for the dairy and prints its numbers. No part of the gate.

Wants `rt run < /dev/null` done in crates/shedtrial and `rt lib` in crates/tankpost, and cc. The answers are those of the trial program; the level
in force at each judgement, which the trial does not show, is read through the linked calls by levels.c, which must give the
same answers. Want, fill and the bound of docs/FAIRNESS.md are computed here from these numbers; the script fails where a
batch within both is told over share. tools/make_trial_list.py puts the same lists into the input of shedtrial that the gate
runs, with the oracle's answers.
"""
import math
import os
import subprocess
import sys
import tempfile

HERE = os.path.dirname(os.path.abspath(__file__))
ROOT = os.path.dirname(os.path.dirname(HERE))

RATE = 10
DAIRY = 'no-address'
SECONDS = 60
WORDS = {1: 'ok', 2: 'over-share', 3: 'relay-rate'}


def made(readings):
    """A relay of 10 readings a second; three groups that try 10 a second each; a dairy that sends so many every 4 seconds."""
    calls = [(1000 + 100 * i + g, f'J v4:10.{g + 1}.0.0/16 1 50') for i in range(10 * SECONDS) for g in range(3)]
    calls += [(t, f'J {DAIRY} {readings} 400') for t in range(5050, 1000 * SECONDS, 4000)]
    lines = [f'R {RATE} 1000000 0 0'] + [f'{call} {t}' for t, call in sorted(calls)]
    return '\n'.join(lines) + '\n'


LISTS = [made(4), made(8)]


def judgements(text, levels):
    """The dairy's batches: stamp, readings, answer, level in force, and the place of its call in the list."""
    trial = os.path.join(ROOT, 'crates', 'shedtrial', 'out', 'shedtrial')
    answers = subprocess.run([trial], input=text.encode(), capture_output=True, check=True).stdout.decode().split('\n')
    read = subprocess.run([levels, DAIRY], input=text.encode(), capture_output=True, check=True).stdout.decode().split('\n')
    places = [i for i, line in enumerate(text.split('\n')) if line.startswith(f'J {DAIRY} ')]
    out = []
    for place, line in zip(places, read):
        stamp, readings, code, level = line.split()
        assert answers[place] == WORDS[int(code)]
        out.append((int(stamp), int(readings), answers[place], float(level), place))
    return out


def wants(batches):
    """How many times the level each batch wants: what the dairy tried, faded with 2 seconds, over 2 seconds, over the level."""
    attempted, before = 0.0, None
    for stamp, readings, answer, level, place in batches:
        idle = math.inf if before is None else stamp - before
        attempted = readings + (0.0 if before is None else attempted * math.exp(-idle / 2000))
        weight = 1 if idle >= 2000 else 0.5
        yield (attempted + (weight - 1) * readings) / 2 / level
        before = stamp


def within(batches, i):
    """Whether all that was tried in each run that ends with batch i is within the bound; and the least room left."""
    room = math.inf
    for j in range(i + 1):
        run = batches[j:i + 1]
        seconds = (run[-1][0] - run[0][0]) / 1000
        calls = run[-1][4] - run[0][4] + 1
        fill = min(min(level, RATE) for _, _, _, level, _ in run)
        room = min(room, (4 + seconds) * fill - calls / 256 - sum(b[1] for b in run))
    return room >= 0, room


def told(text, levels):
    batches = judgements(text, levels)
    print(f'\n{batches[0][1]} readings every 4 seconds')
    print('stamp  answer      level  want  room to the bound')
    for i, (want, batch) in enumerate(zip(wants(batches), batches)):
        is_within, room = within(batches, i)
        print(f'{batch[0]:5}  {batch[2]:10}  {batch[3]:.3f}  {want:.2f}  {room:.1f}')
        if want <= 1 and is_within and batch[2] == 'over-share':
            sys.exit('a batch within want and bound was told over share')
    answers = [b[2] for b in batches]
    lowest = min(b[3] for b in batches)
    print(f'lowest level at its batches {lowest:.2f};', ', '.join(f'{w} {answers.count(w)}' for w in WORDS.values()))


def main():
    with tempfile.TemporaryDirectory() as folder:
        levels = os.path.join(folder, 'levels')
        archive = os.path.join(ROOT, 'crates', 'tankpost', 'out', 'libtankpost.a')
        subprocess.run(['cc', '-O2', '-Wall', '-I', os.path.join(ROOT, 'link'), os.path.join(HERE, 'levels.c'), archive, '-o', levels], check=True)
        for text in LISTS:
            told(text, levels)


if __name__ == '__main__':
    main()

#!/usr/bin/env python3
"""Times the trial program and the oracle on one large list, in turn, and compares what they print.

usage: trial.py TRIAL ORACLE GENS [MEGABYTES]
TRIAL is crates/shedtrial/out/shedtrial, ORACLE the program that oracle/build makes, GENS the folder of gens.py (oracle/), which makes lists.
"""
import hashlib, os, subprocess, sys, tempfile, time

trial, oracle, gens_folder = sys.argv[1:4]
size = int(sys.argv[4] if len(sys.argv) > 4 else 100) * 1_000_000
sys.dont_write_bytecode = True
sys.path.insert(0, gens_folder)
import gens


def timed(program, path):
    """Wall and user seconds of one run, and the digest of its answers."""
    with open(path, 'rb') as src, tempfile.TemporaryFile() as out:
        began = time.time()
        child = subprocess.Popen([program], stdin=src, stdout=out)
        _, status, used = os.wait4(child.pid, 0)
        wall = time.time() - began
        assert status == 0
        out.seek(0)
        return wall, used.ru_utime, hashlib.file_digest(out, 'sha256').hexdigest()


with tempfile.NamedTemporaryFile() as f:
    seed = lines = 0
    while f.tell() < size:
        text = gens.script(5000 + seed, 20000)
        if not text.endswith(b'\n'):
            text += b'\n'
        f.write(text)
        lines += text.count(b'\n')
        seed += 1
    f.flush()
    print(f'{f.tell():,} bytes, {lines:,} lines, {seed} scripts')
    answers = set()
    for turn in range(3):
        for name, program in (('trial', trial), ('oracle', oracle)):
            wall, user, digest = timed(program, f.name)
            answers.add(digest)
            print(f'{name:7} {wall:6.2f} s wall {user:6.2f} s user {lines / user:12,.0f} lines/s (user)')
    print('same answers' if len(answers) == 1 else 'DIFFERENT answers')

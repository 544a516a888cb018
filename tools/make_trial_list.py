#!/usr/bin/env python3
"""make_trial_list.py ORACLE GENS FOLDER: writes FOLDER/stdin and FOLDER/stdout of the program shedtrial.

ORACLE is the Rust oracle's shedtrial, GENS the folder that holds gens.py. The list is document 01's example, the two lists
of docs/FAIRNESS.md's example for the dairy (fairness/example.py), IPv6 prefixes in other spellings than RFC 5952's and then five in it, cut as often
as each other, and then 24 scripts of gens.py, two of each of its twelve
styles. stdout is what the oracle prints for it; its front part must be what document 01 prints for the example.
"""
import os
import subprocess
import sys

oracle, gens_folder, folder = sys.argv[1:4]
sys.dont_write_bytecode = True
sys.path[:0] = [gens_folder, os.path.join(os.path.dirname(os.path.abspath(__file__)), 'fairness')]
import example
import gens

EXAMPLE = b"""R 10 1000 0 0
J no-address 5 100 1000
J no-address 6 0 1000
J no-address 30 0 1000
C no-address receiver-ceiling 5 100
P
"""
PRINTED = b"""started
ok
relay-rate
over-share
counted
rate 10 1000
ceiling 0 0
active 1
receiver-ceiling 1 5
over-share 1 30
relay-rate 1 6
source no-address 1 1 1
"""
# prefixes as RFC 5952 writes them, in the order of the texts by bytes
SPELLED = ['v6:0:db8::/32', 'v6:2001:1::/32', 'v6:2001::/32', 'v6:2001:db8::/32', 'v6:::/32']
V6_LINES = ['R 10 1000 0 0'] + [f'J {u} 1 1 1' for u in gens.V6_NO_FORM] + [f'C {u} over-share 1 1' for u in reversed(SPELLED)] + ['P', '']
V6_PRINTED = ['started'] + ['refused 8'] * len(gens.V6_NO_FORM) + ['counted'] * 5 + [
    'rate 10 1000', 'ceiling 0 0', 'active 0', 'receiver-ceiling 0 0', 'over-share 5 5', 'relay-rate 0 0'] + [f'source {u} 0 1 0' for u in SPELLED] + ['']
SEEDS = range(7200, 7224)
LINES = 1500

scripts = [gens.script(seed, LINES) for seed in SEEDS]
text = EXAMPLE + ''.join(example.LISTS).encode() + '\n'.join(V6_LINES).encode() + b''.join(s if s.endswith(b'\n') else s + b'\n' for s in scripts)
answers = subprocess.run([oracle], input=text, capture_output=True, check=True).stdout
assert answers.startswith(PRINTED) and '\n'.join(V6_PRINTED).encode() in answers
open(folder + '/stdin', 'wb').write(text)
open(folder + '/stdout', 'wb').write(answers)
print(text.count(b'\n'), 'lines,', answers.count(b'\n'), 'answer lines')

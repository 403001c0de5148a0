#!/usr/bin/env python3
"""Writes the stored jobs and what each must print, by a plain model of the rules: data/NAME.job and data/NAME.out, and
their names in data/names; and the file stdout, of which the last line stays, which tells of the drawn jobs. Those of
examples/ are among them. Run it in the folder of the crate."""
import glob
import os
import random

def rec(mark, body=b''):
    return mark + bytes([len(body) % 256, len(body) // 256]) + body
PN = lambda b: rec(b'PN', b)
TX = lambda b: rec(b'TX', b)
KF, KL = rec(b'KF'), rec(b'KL')

def run(job):
    out = ['text start end id']
    pats, kind, closed, n, tally = [], b'KF', False, 0, []
    def fault(number, place, layer):
        return out + [f'fault {number} {place} {layer}']
    if len(job) > 65536:
        return fault(10, 0, 3)
    at = 0
    while at < len(job):
        if len(job) - at < 4:
            return fault(11, at, 3)
        mark, size = job[at:at + 2], job[at + 2] + 256 * job[at + 3]
        body = job[at + 4:at + 4 + size]
        if len(body) < size:
            return fault(11, at, 3)
        if mark not in (b'PN', b'KF', b'KL', b'TX'):
            return fault(12, at, 3)
        if mark in (b'KF', b'KL') and size:
            return fault(13, at, 3)
        if mark != b'TX' and closed:
            return fault(14, at, 3)
        if mark == b'PN':
            if not body:
                return fault(1, at, 1)
            if len(pats) >= 1024:
                return fault(2, at, 1)
            if sum(map(len, pats)) + size > 16384:
                return fault(3, at, 1)
            pats.append(body)
        elif mark != b'TX':
            kind = mark
        else:
            if not closed:
                if not pats:
                    return fault(4, at, 1)
                closed = True
            order = sorted(range(len(pats)), key=lambda i: (-len(pats[i]), i)) if kind == b'KL' else range(len(pats))
            hits, s = [], 0
            while s < len(body):
                i = next((i for i in order if body.startswith(pats[i], s)), None)
                if i is None:
                    s += 1
                else:
                    hits.append((s, s + len(pats[i]), i))
                    s += len(pats[i])
            if len(hits) > 4096:
                return fault(8, at, 2)
            out += [f'{n} {a} {b} {i}' for a, b, i in hits]
            tally += [i for _, _, i in hits]
            n += 1
        at += 4 + size
    if not pats:
        return fault(4, len(job), 1)
    return out + [f'texts {n}'] + [f'tally {i} {tally.count(i)}' for i in range(len(pats))]

D = PN(b'DC-40') + PN(b'DC-40-R')
A = PN(b'A')
r = random.Random(1)
few = lambda n: bytes(r.choice(b'AB') for _ in range(n))
full = b''.join(PN(b'%016d' % i) for i in range(1024))  # 1,024 patterns of 16 bytes: 16,384 bytes
jobs = {
    'dimmer_first': D + TX(b'2 DC-40-R') + TX(b''),
    'last_kind_counts': KL + D + KF + KL + KF + TX(b'2 DC-40-R'),
    'kind_between_patterns': PN(b'DC-40') + KL + PN(b'DC-40-R') + TX(b'2 DC-40-R'),
    'one_hit_covers': KL + PN(b'AB') + PN(b'BCDE') + TX(b'ABCDE'),
    'equal_hash': PN(b'AC') + TX(b'BA'),
    'apart': PN(b'AA') + TX(b'AAAA') + TX(b'AAAAA'),
    'equal_patterns': PN(b'RM') + PN(b'RM') + TX(b'RM'),
    'equal_patterns_longest': KL + PN(b'RM') + PN(b'RM') + TX(b'RM'),
    'cut_short': PN(b'DC-40') + TX(b'DC-4'),
    'no_text': D,
    'across_windows': PN(b'XY') + TX(b'.' * 16 + b'XY' + b'.' * 14),
    'tail': PN(b'X') + TX(b'.' * 19 + b'X'),
    'text_shorter_than_pattern': PN(b'ABCDEFGH') + PN(b'AB') + TX(b'A') + TX(b'AB') + TX(b'ABCDEFG'),
    'any_bytes': PN(bytes([0, 255])) + PN(b'\n') + TX(bytes(range(256)) + bytes([0, 255, 10])),
    # the book
    'fault_1_empty_pattern': PN(b''),
    'fault_1_second_pattern': A + PN(b''),
    'patterns_1024': b''.join(PN(b'%d' % i) for i in range(1024)) + TX(b'1023 7'),
    'fault_2_pattern_1025': b''.join(PN(b'%d' % i) for i in range(1025)),
    'fault_1_before_2': b''.join(PN(b'%d' % i) for i in range(1024)) + PN(b''),
    'bytes_16384': PN(b'A' * 16383) + PN(b'B') + TX(b'AB'),
    'fault_3_byte_16385': PN(b'A' * 16383) + PN(b'BC'),
    'fault_3_then_nothing': PN(b'A' * 16384) + A,
    'patterns_and_bytes_full': full + TX(b'0000000000000000 0000000000001023'),
    'fault_1_before_3': full + PN(b''),
    'fault_2_before_3': full + PN(b'B'),
    'fault_3_before_the_text': PN(b'A' * 16384) + PN(b'B') + TX(b'AB'),
    'fault_4_empty_job': b'',
    'fault_4_at_the_end': KL + KF,
    'fault_4_at_a_text': KL + TX(b'A'),
    # the intake
    'hits_4096': A + TX(b'A' * 4096),
    'fault_8_hits_4097': A + TX(b'BAB') + TX(b'A' * 4097) + TX(b'A'),
    # the job
    'job_65536': A + TX(b'.' * 65526 + b'A'),
    'fault_10_job_65537': A + TX(b'.' * 65527 + b'A'),
    'fault_10_before_12': b'?' * 65537,
    'fault_11_one_byte': b'P',
    'fault_11_two_bytes': b'PN',
    'fault_11_three_bytes': A + b'PN\1',
    'fault_11_before_13': A + b'KL\1\0',
    'fault_11_before_14': A + TX(b'A') + b'PN\2\0B',
    'fault_11_before_1_to_3': full + b'PN\2\0B',
    'fault_11_one_byte_missing': A + TX(b'ABC')[:-1],
    'fault_11_before_12': b'??\1\0',
    'fault_11_second_text': A + TX(b'BA') + b'TX\2\0A',
    'fault_11_after_a_fault_free_text': A + TX(b'BA') + b'T',
    'fault_12_mark': A + rec(b'PM', b'A'),
    'fault_12_lower_case': rec(b'pn', b'A'),
    'fault_12_swapped': rec(b'NP', b'A'),
    'fault_12_after_a_text': A + TX(b'A') + rec(b'XT', b'A'),
    'fault_13_first': rec(b'KF', b'A'),
    'fault_13_longest': A + rec(b'KL', b'\0'),
    'fault_13_before_14': A + TX(b'A') + rec(b'KL', b'\0'),
    'fault_14_pattern': A + TX(b'A') + PN(b'B'),
    'fault_14_before_1': A + TX(b'A') + PN(b''),
    'fault_14_before_2': full + TX(b'A') + PN(b'B'),
    'fault_14_kind': A + TX(b'') + KF,
    'fault_14_second_kind': A + TX(b'') + TX(b'A') + KL,
    'length_of_two_bytes': PN(b'Z' * 300) + TX(b'Y' + b'Z' * 300),
}
for path in sorted(glob.glob('../../examples/*.job')):
    jobs[os.path.basename(path)[:-len('.job')]] = open(path, 'rb').read()
for k in range(12):
    jobs[f'random_{k}'] = (KL if k % 2 else b'') + b''.join(PN(few(r.randint(1, 2 + k // 2))) for _ in range(r.randint(1, 12))) + b''.join(TX(few(r.randint(0, 90))) for _ in range(4))

os.makedirs('data', exist_ok=True)
open('data/names', 'w').write(''.join(f'{name}\n' for name in jobs))
for name, job in jobs.items():
    open(f'data/{name}.job', 'wb').write(job)
    open(f'data/{name}.out', 'w').write('\n'.join(run(job)) + '\n')
of_drawn = open('stdout').readlines()[-1]
open('stdout', 'w').write(''.join(f'{name} ok\n' for name in jobs) + of_drawn)
print(len(jobs), 'jobs')

#!/usr/bin/env python3
"""Runs random jobs through pnscan and through another program with the same input and output, and compares what they print.

    tests/jobs/compare-random.py PROGRAM [COUNT [SEED]]     from the repository's root, after `./pnscan examples/lamps.job`, which builds it

PROGRAM is a command that reads a job on standard input and prints what pnscan is to print, for instance a pnscan over the
Rust's searchers; the repository has none. Patterns and texts are drawn from few letters, so that hits, overlaps and equal
hashes are common; one job in four is damaged: cut short, a byte changed, or a record put at another place. A job that
differs is kept as differs-N.job.
"""
import random
import shlex
import subprocess
import sys

OURS = ['crates/pnscan/out/pnscan']


def record(mark, body=b''):
    return mark + len(body).to_bytes(2, 'little') + body


def draw(r):
    letters = r.choice([b'A', b'AB', b'ABC', b'DC-40R', bytes(range(256))])
    some = lambda low, high: bytes(r.choice(letters) for _ in range(r.randint(low, high)))
    shortest = r.choice([1, 1, 2, 3, 4, 7, 70])
    patterns = [some(shortest, shortest + r.choice([0, 1, 3, 9])) for _ in range(r.choice([1, 2, 5, 20, 60]))]
    records = [record(b'PN', p) for p in patterns]
    for _ in range(r.choice([0, 1, 1, 3])):
        records.insert(r.randint(0, len(records)), record(r.choice([b'KF', b'KL'])))
    for _ in range(r.randint(0, 6)):
        text = b''.join(r.choice([some(0, 8), r.choice(patterns)]) for _ in range(r.choice([0, 1, 4, 15, 40, 200])))
        records.append(record(b'TX', text))
    damage = r.randrange(12)
    if damage == 0:
        records.insert(r.randint(0, len(records)), records.pop(r.randrange(len(records))))
    if damage == 1:
        records.insert(r.randint(0, len(records)), record(r.choice([b'PN', b'KL', b'TX', b'XX']), some(0, 3)))
    job = bytearray(b''.join(records))
    if damage == 2:
        del job[r.randint(0, len(job)):]
    if damage == 3:
        job[r.randrange(len(job))] = r.randrange(256)
    return bytes(job)


def printed(command, job):
    return subprocess.run(command, input=job, stdout=subprocess.PIPE, stderr=subprocess.DEVNULL).stdout


def main():
    if len(sys.argv) < 2:
        sys.exit(__doc__)
    theirs = shlex.split(sys.argv[1])
    count = int(sys.argv[2]) if len(sys.argv) > 2 else 500
    r = random.Random(int(sys.argv[3]) if len(sys.argv) > 3 else 1)
    differ = faults = hits = 0
    for n in range(count):
        job = draw(r)
        own = printed(OURS, job)
        faults += b'\nfault ' in own
        hits += sum(line[:1].isdigit() for line in own.split(b'\n'))
        if own != printed(theirs, job):
            differ += 1
            open(f'differs-{n}.job', 'wb').write(job)
    print(f'{count} jobs, {hits} hits, {faults} with a fault: {differ} differ')
    sys.exit(1 if differ else 0)


main()

#!/usr/bin/env python3
"""Writes the order sheet of a long chain: set-ups of which each needs the next, and jobs that need one of the first.

usage: python3 tools/chain.py >examples/chain.sheet     at the top

What the jobs earn is sent along hundreds of needs, so a trail holds few paths, and `plan` runs the book many times. Two set-ups cost so much
that many jobs must share them: the last, which all jobs need, and one near the first, which is not worth it.
"""

import sys

SETUPS = 300
JOBS = 300


def record(earning, cost, needs):
    """The bytes of an entry."""
    bits = (earning > 0) + 2 * (cost > 0) + 4 * (2 ** len(needs) - 1)
    amounts = b"".join(amount.to_bytes(4, "big") for amount in (earning, cost) if amount)
    return bytes([bits]) + amounts + b"".join(need.to_bytes(2, "big") for need in needs)


def cost(setup):
    """What a set-up costs: two of them much, of the others each third a little."""
    return {7: 60000, SETUPS - 1: 60000}.get(setup, 37 * setup % 400 if setup % 3 == 0 else 0)


for setup in range(SETUPS):
    sys.stdout.buffer.write(record(0, cost(setup), [setup + 1] if setup + 1 < SETUPS else []))
for job in range(JOBS):
    sys.stdout.buffer.write(record(15 + 101 * job % 886, 0, [7 * job % 20]))

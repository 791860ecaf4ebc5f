"""The runs that are made from two numbers."""
from messages import Debit, write_message

KEY = bytes([1]) * 32
SUMMARY = 'generated %d %d lines %d refused %d power %d fault %d released %d accepted %d'


def opening():
    yield from (('day', 20513), ('on', 'centre'), ('on', 'verifier'), ('on', 'd1'), ('make', 1, KEY), ('register', 1, 94105, KEY),
                ('trust', 1, KEY), ('customer', 1), ('deposit', 1, 1, 10**9), ('ask enrol', 1, 1), ('deliver', 0), ('deliver', 1),
                ('ask audit', 1), ('deliver', 2), ('deliver', 3), ('ask reset', 1, 10**6), ('deliver', 4), ('deliver', 5))
    for piece in range(1, 11):
        yield 'debit', 1, piece, 1, 1


def turns(seed, count):
    x, pieces, messages, scans = seed, 10, 6, 0

    def draw():
        nonlocal x
        x = (x * 1664525 + 1013904223) % 2**32
        return x // 65536

    def give(postage):
        return 'give', 'd1', write_message(Debit(1, pieces + 1, postage, 1))

    for _ in range(count):
        kind = draw() % 4
        if kind == 3:
            yield 'ask reset', 1, 10000
            for message in (messages, messages, messages + 1, messages + 2):
                yield 'deliver', message
            messages += 3
            continue
        debit = give(1 + draw() % 10)
        if kind == 2:
            calls, keep, byte = draw() % 6, draw() % 300, draw() % 256
            yield 'cut', 'd1', calls, keep, bytes([byte])
            yield from (debit, ('on', 'd1'), debit)
        else:
            yield debit
            yield 'scan msg', scans + 1, messages
            scans += 1
        pieces, messages = pieces + 1, messages + 1


def summary(step, seed, count):
    """Does the events of a run and sums up the replies."""
    lines = refused = power = fault = released = accepted = 0
    for events in (opening(), turns(seed, count)):
        for event in events:
            words = step(event).split()
            lines += 1
            refused += words[0] == 'refused'
            power += words[0] == 'power'
            fault += words[0] == 'fault'
            released += words[0] == 'released'
            accepted += words[0] == 'accepted' and words[-1] == 'new'
    return SUMMARY % (seed, count, lines, refused, power, fault, released, accepted)

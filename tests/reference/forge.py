"""Bytes as an attacker may give them: messages and marks under the right keys or wrong ones, and changed in one place."""
from marks import Mark, Unread, write_mark
from messages import KINDS, Debit, Done, Release, Reply, Request, read_message, write_message

AMOUNTS = (0, 1, 2, 550, 1000, 1001, 50_000, 100_000, 100_001, 10**6, 10**7, 10**7 + 1, 2**32 - 1)


def changed(draw, data):
    """The bytes with one bit changed, some cut off, or some behind."""
    how = draw.randrange(4)
    if how == 0 and data:
        at = draw.randrange(8 * len(data))
        return data[:at // 8] + bytes([data[at // 8] ^ 1 << at % 8]) + data[at // 8 + 1:]
    if how == 1:
        return data[:draw.randrange(len(data) + 1)]
    if how == 2:
        return data + bytes([draw.randrange(256)])
    return bytes([draw.choice([0, 1, 2, 3])]) + data[1:]


def request(draw, number, key, view):
    """A Request. `view` has the device's record and the centre's row, or None for each."""
    record, row = view
    version = draw.choice([1, 2, 2])
    ruled = row.ruled if row else 0
    sums = [row.buys - row.returns, 0, row.returns] if row else [0, 0, 0]
    if record and draw.random() < 0.5:
        sums = [record.ascending, record.descending, record.refunded]
    kind = draw.choice(KINDS)
    amount = draw.choice([draw.choice(AMOUNTS), 0 if kind in ('enrol', 'audit') else sums[1] if kind != 'reset' else 1000])
    if draw.random() < 0.1:
        sums[draw.randrange(3)] += draw.choice([1, -1, 2**32, 2**63])
    top = 2**32 - 1 if version == 1 else 2**64 - 1
    amount, *sums = (max(0, min(top, value)) for value in (amount, *sums))
    at = max(0, min(2**32 - 1, ruled + draw.choice([1, 1, 1, 1, 0, 0, 2, -1, -ruled])))
    customer = draw.choice([row.customer if row else 1, 1, 2, 64, 65, 0, 2**32 - 1])
    day = draw.choice([20513, 20513, 20514, 10957, 84005])
    return write_message(Request(version, number, at, kind, customer, amount, *sums, record.pieces if record else 0, day), key)


def reply(draw, number, key, view):
    record = view[0]
    version, kind, amount, at = draw.choice([1, 2]), draw.choice(KINDS), draw.choice(AMOUNTS), draw.choice([0, 1, 2])
    if record and record.pending:
        asked = read_message(record.pending)
        at = max(0, min(2**32 - 1, asked.number + draw.choice([0, 0, 0, 0, 0, 1, -1])))
        kind = asked.kind if draw.random() < 0.9 else kind
        amount = asked.amount if draw.random() < 0.9 else amount
    verdict = draw.choice([0, 0, 0, 0, 1, 2, 3, 4, 5, 6])
    deadline = draw.choice([20605, 20605, 20605, 20515, 2**31 - 1, 2**31 - 7, 2**31 - 8, -2**31, 0])
    if version == 1:
        amount = min(amount, 2**32 - 1)
    return write_message(Reply(version, number, at, kind, verdict, amount, deadline, draw.choice([94105, 0, 2**32 - 1])), key)


def done(draw, number, key, view):
    row = view[1]
    at = max(0, min(2**32 - 1, (row.ruled if row else 0) + draw.choice([0, 0, 0, -1, 1, 2])))
    return write_message(Done(number, at), key)


def debit(draw, number, view):
    record = view[0]
    pieces, descending = (record.pieces, record.descending) if record else (0, 0)
    piece = max(0, min(2**32 - 1, pieces + draw.choice([1, 1, 1, 1, 1, 0, 0, 2, -1])))
    postage = draw.choice([550, 550, 1, draw.choice(AMOUNTS), descending, descending + 1])
    return write_message(Debit(number, piece, max(0, min(2**32 - 1, postage)), draw.choice([1, 1, 1, 2, 0, 65535])))


def mark(draw, number, key, view, today):
    record = view[0]
    piece = draw.choice([1, 2, 3, 511, 512, record.pieces if record else 0, 0, 2**32 - 1])
    version = draw.choice([1, 2])
    number = number if draw.random() < 0.9 else draw.choice([0, 9, 300, 65535])
    return write_mark(Mark(version, number, piece, draw.choice([550, 550, 1, 100_001, 0]), draw.choice([0, 550, 10**9]), draw.choice([0, 49_450]),
                           today + draw.choice([0, 0, 0, 1, -1, -30, -31, 30]), 94105, draw.choice([1, 1, 2])), key)


def message(draw, number, key, view, today):
    """Any message, mostly whole and under the key."""
    make = draw.choice([request, request, reply, reply, done])
    how = draw.random()
    if how < 0.5:
        data = make(draw, number, key, view)
    elif how < 0.8:
        data = debit(draw, number, view)
    else:
        data = write_message(Release(mark(draw, number, key, view, today)))
    return changed(draw, data) if draw.random() < 0.15 else data


def goes_to(draw, data, number):
    """The node that bytes are given to: mostly the one of their tag."""
    try:
        read = read_message(data)
    except Unread:
        read = None
    if draw.random() < 0.1:
        return draw.choice(['centre', 'host', 'd%d' % number, 'd8'])
    if isinstance(read, (Request, Done)):
        return 'centre'
    return 'host' if isinstance(read, Release) else 'd%d' % number

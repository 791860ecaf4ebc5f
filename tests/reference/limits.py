"""Storages near the limits: records that no short run reaches, in both versions, and counts near their end."""
import struct

import centre
import claims
import departments
import device
import host
import older
import verifier
from centre import CustomerRow, DeviceRow
from device import Record
from marks import Mark, write_mark
from messages import KINDS, Reply, Request, write_message
from plans import NoRecord
from storage import LAST_COUNT, OPEN

EDGES = (0, 1, 2, 3, 1000, 1001, 100_000, 100_001, 10**7, 10**7 + 1)


def near(draw, *limits):
    """A number near a limit, or a small one."""
    limit = draw.choice(limits)
    return max(0, min(limit, draw.choice([limit, limit - 1, limit - 2, limit - draw.choice(EDGES), draw.choice(EDGES)])))


def a_count(draw):
    return draw.choice([1, 2, 3, 16, 17, 1000, LAST_COUNT, LAST_COUNT - 1, LAST_COUNT - 2])


def a_day(draw, today):
    return draw.choice([today, today - 1, today + 1, today - 7, today - 8, today + 92, 0, -1, 2**31 - 1, 2**31 - 7, -2**31])


def blank(kind):
    return bytearray(kind.cells * kind.slots * (5 + kind.payload_size))


def put_slot(content, kind, cell, slot, count, payload):
    at = (kind.slots * cell + slot) * (5 + kind.payload_size)
    content[at:at + 5 + len(payload)] = bytes([OPEN]) + count.to_bytes(4, 'big') + payload


def readable(draw, make, read):
    """A payload that is made by chance, and mostly one that reads as a record."""
    while True:
        try:
            record, payload = make()
            if draw.random() < 0.9:
                read(payload)
            return record, payload
        except (NoRecord, struct.error):
            continue


def device_record(draw, number, key, today):
    """A device's record and its payload."""
    first = draw.random() < 0.3
    limit = device.FIRST_LIMIT if first else device.LIMIT
    refunded = draw.choice([0, 0, near(draw, limit)])
    descending = near(draw, limit - refunded)
    ascending = draw.choice([0, near(draw, limit - refunded - descending), limit - refunded - descending])
    pieces = min(ascending, near(draw, 2**32 - 1))
    phase = draw.choice(['in-service'] * 6 + list(device.PHASES))
    record = Record(phase, key, ascending, descending, refunded, pieces, near(draw, 2**32 - 1), a_day(draw, today),
                    a_day(draw, today), 0 if phase == 'manufactured' else draw.choice([1, 1, 1, 1, 2, 64, 65]), 94105, b'', b'')
    if pieces:
        version = 1 if first or (draw.random() < 0.3 and ascending + descending < 2**32) else 2
        mark = Mark(version, number, pieces, draw.choice([1, 550, 1000]), ascending, descending, today, 94105, draw.choice([1, 2]))
        record = record._replace(mark=write_mark(mark, key))
    if draw.random() < 0.5 and record.number < 2**32 - 1:
        record = record._replace(pending=a_request(draw, number, record, today, 1 if first or draw.random() < 0.3 else 2))
    return record, older.write_record(number, record) if first else device.write_record(number, record)


def device_content(draw, number, payload):
    content = blank(device.Device)
    put_slot(content, device.Device, 0, draw.randrange(16), a_count(draw), payload)
    return content


def a_request(draw, number, record, today, version):
    kind = draw.choice(KINDS)
    top = 2**32 - 1 if version == 1 else 2**64 - 1
    amount = {'reset': draw.choice([1, 50_000, 10**7, 10**7 + 1, 0]), 'refund': record.descending, 'withdraw': record.descending}
    sums = [min(top, number) for number in (amount.get(kind, 0), record.ascending, record.descending, record.refunded)]
    return write_message(Request(version, number, record.number + 1, kind, record.customer, *sums, record.pieces, today), record.key)


def device_row(draw, number, key, today, record):
    """A centre's row of a device and its payload; if there is a record, mostly the row that agrees with it."""
    first = draw.random() < 0.3
    limit = 2**32 - 1 if first else draw.choice([device.LIMIT, 2**64 - 1])
    state = draw.choice(['enrolled'] * 4 + list(centre.STATES))
    buys = 0 if state == 'registered' else near(draw, limit)
    returns, ruled = draw.choice([0, buys, near(draw, buys)]), draw.choice([0, near(draw, 2**32 - 1)])
    customer = draw.choice([1, 1, 2])
    if record and draw.random() < 0.9:
        state = {'manufactured': 'registered', 'withdrawn': 'withdrawn'}.get(record.phase, 'enrolled')
        buys, returns, ruled, customer = device.total(record), record.refunded, record.number, record.customer
    row = DeviceRow(state, 0 if state == 'registered' else customer, 94105, key, ruled, max(0, ruled - draw.choice([0, 0, 1])),
                    buys, returns, b'', b'')
    if ruled:
        row = with_messages(draw, number, row, today, 1 if first or draw.random() < 0.3 else 2)
    return row, older.write_device(number, row) if first else centre.write_device(number, row)


def centre_content(draw, keys, today, records):
    content, rows = blank(centre.Centre), []
    for number in range(1, 9):
        if number not in records and draw.random() < 0.5:
            continue
        row, payload = readable(draw, lambda: device_row(draw, number, keys[number], today, records.get(number)),
                                lambda payload: centre.read_device(number, payload))
        rows.append(row)
        put_slot(content, centre.Centre, number - 1, draw.randrange(2), a_count(draw), payload)
    for customer in (1, 2, 64):
        owed = sum(row.buys - row.returns for row in rows if row.customer == customer)
        deposits = min(10**15, draw.choice([owed, owed + 1, owed + 50_000, owed + 10**9, 10**15, near(draw, 10**15)]))
        amount = min(deposits, draw.choice([1, 5, 10**9]))
        row = CustomerRow(draw.random() < 0.1, deposits, near(draw, 2**32 - 1) or 1 if deposits else 0, amount)
        payload = centre.CUSTOMER.pack(customer, row.suspended, *row[1:]) + bytes(171)
        put_slot(content, centre.Centre, customer + 7, draw.randrange(2), a_count(draw), payload)
    return content


def with_messages(draw, number, row, today, version):
    kind, amount = draw.choice(KINDS), near(draw, min(row.buys, 2**32 - 1))
    verdict = draw.choice([0, 0, 0, 1, 2, 3, 4, 5, 6])
    request = Request(version, number, row.ruled, kind, row.customer, amount, 0, 0, 0, 0, today)
    reply = Reply(version, number, row.ruled, kind, verdict, amount, today + 92, 94105)
    return row._replace(request=write_message(request, row.key), reply=write_message(reply, row.key))


def host_content(draw, today):
    """A host's storage that is nearly full, and whose last job may be near the last number."""
    content = blank(host.Host)
    last = draw.choice([1023, 1024, 1025, 2000, 2**32 - 1, 2**32 - 2])
    fewest = draw.choice([1024, 1024, 1024, 1023, 10])
    used = draw.choice([2, 5, 2**32 - 2])
    for job in range(max(1, last - fewest + 1), last + 1):
        state = draw.choices([4, 1, 2, 3], [60, 1, 1, 1])[0]
        piece, number = draw.choice([1, 2, used, used + 1]), draw.randrange(1, 9)
        mark = bytes(64)
        if state in (2, 3) or state == 4 and draw.random() < 0.3:
            piece = min(piece, used)
            mark = write_mark(Mark(draw.choice([1, 2]), number, piece, 550, 550, 0, today, 94105, 1), bytes([number]) * 32)
        else:
            piece = used + 1 if state == 1 else piece
        payload = host.LAYOUT.pack(job, number, piece, 550, 1, state, *[used] * 8, mark)
        put_slot(content, host.Host, (job - 1) % 1024, draw.randrange(2), a_count(draw), payload)
    return content


def verifier_content(draw, keys):
    """A verifier's storage with nearly all blocks in use."""
    content = blank(verifier.Verifier)
    for number in (1, 2):
        put_slot(content, verifier.Verifier, number - 1, 0, a_count(draw), number.to_bytes(4, 'big') + keys[number] + bytes(2020))
    count = draw.choice([0, 1, 1023, 1024, 1024])
    first = draw.choice([0, 1, 8_388_607 - 1023, 8_388_607 - 1022])
    for at in range(count):
        scans = [0] * 512
        scans[draw.choice([0, 1, 511])] = draw.choice([1, 2**32 - 1, 3_000_000_001])
        payload = verifier.LAYOUT.pack(draw.choice([1, 2]), first + at, *scans)
        put_slot(content, verifier.Verifier, 8 + at, draw.randrange(2), a_count(draw), payload)
    return content


def claims_content(draw, today):
    content = blank_desk(claims.Claims)
    for claim in range(1, draw.choice([2, 1023, 1024]) + 1):
        mark = write_mark(Mark(draw.choice([1, 2]), 1, claim, 550, 550, 0, today, 94105, 1), bytes([1]) * 32)
        payload = claims.LAYOUT.pack(claim, draw.choice([1, 2, 64]), draw.choice([1, 2]), mark)
        put_slot(content, DeskKind(claims.Claims), claim - 1, draw.randrange(2), a_count(draw), payload)
    return content


def departments_content(draw):
    content, kind = blank_desk(departments.Departments), DeskKind(departments.Departments)
    for department in (1, 2, 16):
        count = draw.choice([0, 1, 63, 64])
        quota = 550 * count + draw.choice([0, 549, 550, 100_000])
        put_slot(content, kind, department - 1, draw.randrange(2), a_count(draw), departments.QUOTA.pack(department, quota, 0))
        for at in range(count):
            payload = departments.QUOTA.pack(64 * department + at, department, 550)
            put_slot(content, kind, 16 + 64 * (department - 1) + at, draw.randrange(2), a_count(draw), payload)
    return content


class DeskKind:
    """The layout of an own storage, as the layouts of the nodes have it."""
    slots = 2

    def __init__(self, kind):
        self.payload_size, self.cells = kind.payload_size, kind.cell_count


def blank_desk(kind):
    return blank(DeskKind(kind))


def contents(draw, keys, today):
    """Storages near the limits, by the names of their files; some of all."""
    made, records = {}, {}
    for number, chance in ((1, 0.9), (2, 0.5)):
        if draw.random() < chance:
            records[number], payload = readable(draw, lambda: device_record(draw, number, keys[number], today),
                                                lambda payload: device.read_record(number, payload))
            made['device-%d.nv' % number] = device_content(draw, number, payload)
    if draw.random() < 0.9:
        made['centre.nv'] = centre_content(draw, keys, today, records)
    if draw.random() < 0.3:
        made['host.nv'] = host_content(draw, today)
    if draw.random() < 0.3:
        made['verifier.nv'] = verifier_content(draw, keys)
    if draw.random() < 0.3:
        made['claims.nv'] = claims_content(draw, today)
    if draw.random() < 0.3:
        made['departments.nv'] = departments_content(draw)
    return made

"""The device: its record in two versions, and its rules."""
import struct
from collections import namedtuple

import marks
from marks import Mark, Unread, code, code_matches, read_mark, write_mark
from messages import Debit, Done, Release, Reply, Request, read_message, write_message
from plans import NoRecord, Plan, Refused, new_or_again, require

SIZE = 209
LIMIT = 10**12
FIRST_LIMIT = 2**32 - 1
RESET_LIMIT = 10_000_000
POSTAGE_LIMIT = 100_000
GRACE_DAYS = 7
GRACE_POSTAGE = 1_000
PHASES = ('manufactured', 'authorised', 'in-service', 'withdrawn')
ALLOWED = {'enrol': PHASES[:1], 'audit': PHASES[1:3], 'withdraw': PHASES[1:3], 'reset': PHASES[2:3], 'refund': PHASES[2:3]}

# `pending` is the stored Request with its code, `mark` the last mark; each is empty while there is none.
Record = namedtuple('Record', 'phase key ascending descending refunded pieces number deadline last_day customer origin pending mark')

SECOND = struct.Struct('>IB32sQQQIIiiII')
FIRST = struct.Struct('>IB32sIIIIIiiII')


def total(record):
    return record.ascending + record.descending + record.refunded


def check_pending(device, record):
    """The conditions of a record on its pending Request."""
    try:
        request = read_message(record.pending)
    except Unread:
        raise NoRecord()
    require(isinstance(request, Request) and request.device == device)
    require(code_matches(record.pending, record.key))
    require(request.number == record.number + 1 and record.phase in ALLOWED[request.kind])
    if request.kind == 'reset':
        limit = FIRST_LIMIT if request.version == 1 else LIMIT
        require(1 <= request.amount <= RESET_LIMIT and total(record) + request.amount <= limit)
    elif request.kind in ('refund', 'withdraw'):
        require(request.amount == record.descending)
    else:
        require(request.amount == 0)
    return request


def check_mark(device, record, versions):
    """The conditions of a record on its last mark."""
    require(marks.reads_as_mark(record.mark))
    mark = read_mark(record.mark)
    require(mark.version in versions and mark.device == device and mark.piece == record.pieces)
    require(mark.ascending == record.ascending and code_matches(record.mark, record.key))


def with_code(key, field, lengths):
    """A message's bytes, which begin a field, with their code; the rest of the field is zero."""
    require(field[0] in lengths)
    text, rest = field[:lengths[field[0]]], field[lengths[field[0]]:]
    require(not any(rest))
    return text + code(key, text)


def read_record(device, payload):
    """The record of a payload of either version."""
    first = payload[4] in (1, 2, 3, 4)
    require(first or payload[4] in (17, 18, 19, 20))
    if first:
        number, phase, key, ascending, descending, refunded, pieces, *rest = FIRST.unpack(payload[:73])
        flag, request, mark, tail = payload[73], payload[74:145], payload[145:209], b''
        limit, phase = FIRST_LIMIT, PHASES[phase - 1]
    else:
        number, phase, key, ascending, descending, refunded, pieces, *rest = SECOND.unpack(payload[:85])
        flag, request, mark, tail = payload[85], payload[86:141], payload[141:205], payload[205:209]
        limit, phase = LIMIT, PHASES[phase - 17]
    require(number == device and flag in (0, 1) and not any(tail))
    require(flag == 1 or not any(request))
    pending = b''
    if flag:
        pending = request if first else with_code(key, request, {1: 39, 2: 55})
    record = Record(phase, key, ascending, descending, refunded, pieces, *rest, pending, mark if pieces else b'')
    require(total(record) <= limit and pieces <= ascending)
    if flag:
        require(check_pending(device, record).version == 1 or not first)
    require(pieces > 0 or not any(mark))
    if pieces:
        check_mark(device, record, (1,) if first else (1, 2))
    return record


def write_record(device, record):
    """The payload of version 2."""
    request = record.pending[:-32]
    return (SECOND.pack(device, 17 + PHASES.index(record.phase), record.key, record.ascending, record.descending, record.refunded,
                        record.pieces, record.number, record.deadline, record.last_day, record.customer, record.origin)
            + bytes([1 if request else 0]) + request.ljust(55, b'\0') + record.mark.ljust(64, b'\0') + bytes(4))


def is_overdue(day, deadline, postage):
    return day > deadline + GRACE_DAYS or (day > deadline and postage > GRACE_POSTAGE)


class Device:
    """A device that is on."""
    payload_size, cells, slots = SIZE, 1, 16

    def __init__(self, number, records):
        self.number = number
        self.name = 'd%d' % number
        self.records = records

    @classmethod
    def read(cls, number, payloads):
        return cls(number, {cell: read_record(number, payload) for cell, payload in payloads.items()})

    def write(self, cell, record):
        return write_record(self.number, record)

    def changed(self, change):
        return Device(self.number, {change[0]: change[1]})

    def record(self):
        if 0 not in self.records:
            raise Refused('blank')
        return self.records[0]

    def make(self, key):
        if 0 in self.records:
            raise Refused('made')
        record = Record('manufactured', key, 0, 0, 0, 0, 0, 0, 0, 0, 0, b'', b'')
        return Plan('made ' + self.name, (0, record))

    def debited(self, order, day):
        """The mark of a debit, whether it is given again, and the new record otherwise."""
        record = self.record()
        if order.device != self.number:
            raise Refused('wrong device %d' % order.device)
        if order.piece == record.pieces and record.pieces >= 1:
            kept = read_mark(record.mark)
            if (kept.postage, kept.mail_class) != (order.postage, order.mail_class):
                raise Refused('conflict %d %d' % (kept.postage, kept.mail_class))
            return record.mark, True, None
        if order.piece != record.pieces + 1:
            raise Refused('wrong piece %d' % record.pieces)
        if record.phase != 'in-service':
            raise Refused('phase ' + record.phase)
        kind = read_message(record.pending).kind if record.pending else None
        if kind in ('refund', 'withdraw'):
            raise Refused('frozen ' + kind)
        if day < record.last_day:
            raise Refused('clock back %d' % record.last_day)
        if is_overdue(day, record.deadline, order.postage):
            raise Refused('due %d' % record.deadline)
        if not 1 <= order.postage <= POSTAGE_LIMIT:
            raise Refused('bad amount %d' % order.postage)
        if order.postage > record.descending:
            raise Refused('no funds %d' % record.descending)
        ascending, descending = record.ascending + order.postage, record.descending - order.postage
        mark = write_mark(Mark(2, self.number, order.piece, order.postage, ascending, descending, day, record.origin,
                               order.mail_class), record.key)
        return mark, False, record._replace(ascending=ascending, descending=descending, pieces=order.piece, last_day=day, mark=mark)

    def debit(self, day, piece, postage, mail_class):
        mark, again, record = self.debited(Debit(self.number, piece, postage, mail_class), day)
        text = 'mark %s %d %s %s' % (self.name, piece, new_or_again(again), mark.hex())
        return Plan(text, None if again else (0, record))

    def release(self, day, order):
        mark, again, record = self.debited(order, day)
        text = 'released %s %d %s' % (self.name, order.piece, new_or_again(again))
        return Plan(text, None if again else (0, record), write_message(Release(mark)))

    def ask(self, day, kind, value=0):
        record = self.record()
        if record.pending:
            raise Refused('busy ' + read_message(record.pending).kind)
        if record.phase not in ALLOWED[kind]:
            raise Refused('phase ' + record.phase)
        if day < record.last_day:
            raise Refused('clock back %d' % record.last_day)
        if kind == 'reset':
            if day > record.deadline:
                raise Refused('due %d' % record.deadline)
            if not 1 <= value <= RESET_LIMIT:
                raise Refused('bad amount %d' % value)
            if total(record) + value > LIMIT:
                raise Refused('total full %d' % total(record))
        if record.number == 2**32 - 1:
            raise Refused('number full')
        customer = value if kind == 'enrol' else record.customer
        amount = {'reset': value, 'refund': record.descending, 'withdraw': record.descending}.get(kind, 0)
        request = write_message(Request(2, self.number, record.number + 1, kind, customer, amount, record.ascending,
                                        record.descending, record.refunded, record.pieces, day), record.key)
        text = 'sent %s request %d' % (self.name, record.number + 1)
        return Plan(text, (0, record._replace(pending=request, last_day=day)), request)

    def resend(self, day):
        record = self.record()
        if not record.pending:
            raise Refused('nothing pending')
        return Plan('sent %s request %d' % (self.name, record.number + 1), None, record.pending)

    def ack(self, day):
        record = self.record()
        if record.number == 0:
            raise Refused('nothing done')
        return Plan('sent %s done %d' % (self.name, record.number), None, write_message(Done(self.number, record.number), record.key))

    def status(self, day):
        record = self.record()
        phase = 'locked' if record.phase == 'in-service' and day > record.deadline else record.phase
        pending = read_message(record.pending).kind if record.pending else 'none'
        return Plan('status %s %s ascending %d descending %d refunded %d pieces %d number %d deadline %d pending %s' % (
            self.name, phase, record.ascending, record.descending, record.refunded, record.pieces, record.number, record.deadline, pending))

    def take(self, day, data):
        """A Reply or a Debit."""
        try:
            message = read_message(data)
            if isinstance(message, Debit):
                return self.release(day, message)
            if not isinstance(message, Reply):
                raise Unread('tag')
        except Unread as cause:
            raise Refused('unread %s' % cause)
        record = self.record()
        if message.device != self.number:
            raise Refused('wrong device %d' % message.device)
        if not code_matches(data, record.key):
            raise Refused('bad code')
        text = 'applied %s %d verdict %d' % (self.name, message.number, message.verdict)
        return Plan(text, (0, applied(record, message)))


def applied(record, reply):
    """The record after a Reply."""
    if not record.pending:
        raise Refused('nothing pending')
    request = read_message(record.pending)
    if reply.number != request.number:
        raise Refused('stale %d' % request.number)
    if reply.kind != request.kind or (reply.verdict == 0 and reply.amount != request.amount):
        raise Refused('stray ' + request.kind)
    record = record._replace(number=request.number, pending=b'')
    if reply.verdict != 0:
        return record
    if reply.kind == 'enrol':
        return record._replace(phase='authorised', customer=request.customer, origin=reply.origin)
    if reply.kind == 'audit':
        return record._replace(phase='in-service', deadline=reply.deadline)
    if reply.kind == 'reset':
        return record._replace(descending=record.descending + reply.amount, deadline=reply.deadline)
    record = record._replace(refunded=record.refunded + record.descending, descending=0)
    return record._replace(phase='withdrawn') if reply.kind == 'withdraw' else record

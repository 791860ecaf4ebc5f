"""Writes random scripts, line by line, each by what a meter in Python answers to the lines before it."""
import datetime

import forge
from grammar import EPOCH
from marks import read_mark, write_mark

BAD_LINES = (b'x', b' status d1', b'status d1 ', b'status  d1', b'status d9', b'status\td1', b'end\r', b'debit d1 01 1 1', b'day 2026-02-30',
             b'day 1999-12-31', b'day 2200-01-01', b'scan 0 msg 1', b'deposit 65 1 1', b'give verifier -', b'give d1 0A', b'give d1 0',
             b'give d1 ' + b'0' * 514, b'send 4294967296', b'\xff', b'#' * 601, b'status d1' + b' ' * 600, b'STATUS d1', b'on d0', b'end end',
             b'claim 0 1 00', b'dept quota 17 1', b'manifest open 0 1 1 00', b'statement open 0', b'ask d1 audit 1', b'ask d1 enrol')

ASKED = ('audit', 'audit', 'refund', 'reset 1', 'reset 50000', 'reset 50000', 'reset 10000000', 'reset 10000001', 'reset 0', 'enrol 1', 'enrol 2')
NOISE = {'debit': 14, 'frank': 14, 'scan': 10, 'give': 14, 'power': 8, 'ask': 7, 'centre': 5, 'time': 4, 'look': 8, 'switch': 2, 'deliver': 7,
         'job': 3, 'prepare': 2, 'rates': 0.5}


def date(day):
    return (EPOCH + datetime.timedelta(days=day)).isoformat()


class Writer:
    """One script. `answers` answers each of its lines; `keys` has the key of each device."""

    edges = [3_000_000_000]

    def __init__(self, draw, answers, grammar, session):
        self.draw, self.answers, self.grammar, self.keys, self.today = draw, answers, grammar, session.keys, session.today
        self.forges, self.marks = session.forges, session.marks
        self.bench = answers.bench
        self.lines = []
        self.replies = []
        self.scans = 0

    def do(self, line, *values):
        line = line % values
        self.lines.append(line.encode())
        self.replies += self.answers.answer(self.grammar.read(line.encode()))
        return self.replies[-1]

    def chance(self, of):
        return self.draw.random() < of

    def view(self, number):
        """The device's record and the centre's row, if their nodes are on and have them."""
        node, centre = self.bench.nodes.get('d%d' % number), self.bench.nodes.get('centre')
        return node.records.get(0) if node else None, centre.records.get(number - 1) if centre else None

    def last(self):
        """The number of the last message."""
        return len(self.bench.messages) - 1

    def some_message(self):
        return max(0, self.last() - self.draw.choice([0, 0, 0, 1, 1, 2, 3, 7]))

    def device(self):
        """Mostly one that is on."""
        on = [number for number in (1, 2) if 'd%d' % number in self.bench.nodes]
        return self.draw.choice(on * 12 + [1, 2, 8])

    def begin(self):
        self.do('day %s', date(self.today))
        if self.chance(0.7):
            self.do('rates')
        for node in ('centre', 'host', 'verifier', 'd1', 'd2'):
            if self.chance(0.95):
                self.do('on %s', node)

    def prepare(self, number):
        """Brings a device into service, as far as it isn't."""
        key = self.keys[number].hex()
        for node in ('centre', 'verifier', 'd%d' % number):
            if node not in self.bench.nodes:
                self.do('on %s', node)
        record, row = self.view(number)
        for line, there in (('make d%d %s' % (number, key), record), ('register d%d 94105 %s' % (number, key), row),
                            ('trust d%d %s' % (number, key), None), ('customer 1', row and row.customer)):
            if self.chance(0.05 if there else 0.97):
                self.do(line)
        self.deposit(1)
        for kind in ('enrol 1', 'audit', 'reset %d' % self.draw.choice([50_000, 50_000, 1000, 10**7])):
            record = self.view(number)[0]
            phase = record.phase if record else ''
            if self.chance(0.98 if phase == {'enrol 1': 'manufactured', 'audit': 'authorised'}.get(kind, 'in-service') else 0.05):
                self.transaction(number, kind)

    def deposit(self, customer):
        centre = self.bench.nodes.get('centre')
        row = centre.records.get(customer + 7) if centre else None
        receipt = min(2**32 - 1, (row.receipt if row else 0) + self.draw.choice([1] * 10 + [0, 0, 2]))
        amount = self.draw.choice([10**6, 10**8, 10**9] * 6 + [10**9 + 1, 0, 5])
        if row and receipt == row.receipt and self.chance(0.7):
            amount = row.amount
        self.do('deposit %d %d %d', customer, receipt, amount)

    def transaction(self, number, kind):
        """A request and what follows it, any part of which may be lost, repeated or late."""
        record = self.view(number)[0]
        line = 'resend d%d' % number if record and record.pending and self.chance(0.8) else 'ask d%d %s' % (number, kind)
        if self.do(line).startswith('sent'):
            for _ in range(self.draw.choice([0] + [1] * 12 + [2])):
                if self.do('deliver %d', self.last()).startswith('ruled') and self.chance(0.95):
                    self.do('deliver %d', self.last())
            if self.chance(0.4) and self.do('ack d%d', number).startswith('sent') and self.chance(0.8):
                self.do('deliver %d', self.last())

    def frank(self, number):
        """A job from its order to the scan of its piece."""
        record = self.view(number)[0]
        piece = min(2**32 - 1, (record.pieces if record else 0) + self.draw.choice([1] * 10 + [0, 2]))
        if self.bench.rates is None and self.chance(0.3):
            self.do('rates')
        host = self.bench.nodes.get('host')
        waits = host.ordered_job(number) if host else None
        if waits and self.chance(0.9):
            self.do('close %d', waits.job)
        answer = self.do('order d%d %d %d %d %d', number, piece, self.draw.choice([1] * 10 + [2, 3]),
                         self.draw.choice([25, 25, 28, 29, 56, 57]), self.draw.choice([1] * 10 + [2, 2, 3, 0]))
        job = int(answer.split()[1]) if answer.startswith('ordered') else 1
        if answer.startswith('ordered') or self.chance(0.1):
            answer = self.do('send %d', job)
            for _ in range(2):
                if ' msg ' in answer and self.chance(0.97):
                    answer = self.do('deliver %d', self.last())
            if answer.startswith('held') or self.chance(0.3):
                self.finish(job)

    def finish(self, job):
        """What follows a job that is held."""
        if self.chance(0.9):
            self.do('print %d', job)
        if self.chance(0.5):
            self.do('close %d', job)
        if self.chance(0.5):
            self.scan()

    def debit(self, number):
        record = self.view(number)[0]
        pieces, descending = (record.pieces, record.descending) if record else (0, 0)
        piece = max(0, min(2**32 - 1, pieces + self.draw.choice([1] * 12 + [0, 0, 2, -1])))
        postage = self.draw.choice([550] * 8 + [1, 1000, 1001, descending, descending + 1, 100_000, 100_001, 0])
        self.do('debit d%d %d %d %d', number, piece, min(2**32 - 1, postage), self.draw.choice([1, 1, 1, 1, 2, 0]))

    def releases(self):
        return [at for at, data in enumerate(self.bench.messages) if data[:2] == b'\x01\x11']

    def scan(self):
        if not self.releases() and self.chance(0.8):
            return self.give()
        self.scans += self.draw.choice([1, 1, 1, 0])
        number = self.draw.choice([max(1, self.scans)] * 10 + [1, 2**32 - 1] + self.edges)
        at = self.draw.choice(self.releases() or [self.some_message()])
        if self.chance(0.7):
            self.do('scan %d msg %d', number, at)
        else:
            self.do('scan %d hex %s', number, self.a_mark().hex() or '-')

    def a_mark(self):
        """A mark that was released, also in the other version, a forged one, or changed bytes."""
        number = self.device()
        released = self.releases()
        key = self.keys[number] if self.forges else bytes(32)
        data = forge.mark(self.draw, number, key, self.view(number), self.today)
        if self.marks and self.chance(0.3):
            return self.draw.choice(self.marks)
        if released and self.chance(0.7):
            data = self.bench.messages[self.draw.choice(released)][2:]
            fields = read_mark(data)
            if self.forges and self.chance(0.2) and fields.device in self.keys and max(fields.ascending, fields.descending) < 2**32:
                data = write_mark(fields._replace(version=3 - fields.version), self.keys[fields.device])
        return forge.changed(self.draw, data) if self.chance(0.1) else data

    def give(self):
        number = self.device()
        key = self.keys[number if self.chance(0.95) else 3]
        if self.bench.messages and self.chance(0.2):
            data = self.bench.messages[self.some_message()]
            data = forge.changed(self.draw, data) if self.chance(0.5) else data
        elif self.forges:
            data = forge.message(self.draw, number, key, self.view(number), self.today)
        elif self.chance(0.6):
            data = forge.debit(self.draw, number, self.view(number))
        else:
            data = forge.changed(self.draw, forge.message(self.draw, number, bytes(32), self.view(number), self.today))
        to = forge.goes_to(self.draw, data, number)
        self.do('give %s %s', to, data.hex() or '-')

    def power(self):
        """Cuts a node, and mostly does something there and switches it on again."""
        node = self.draw.choice(['d1', 'd1', 'd1', 'd2', 'centre', 'centre', 'host', 'verifier'])
        keep = self.draw.choice([0, 1, 4, 5, 10, 100, 213, 300, 2060, self.draw.randrange(300), 2**32 - 1])
        byte = self.draw.choice([0, 0xA5, 0x37, self.draw.randrange(256)])
        self.do('cut %s %d %d %02x', node, self.draw.choice([0, 1, 2, 3, 3, 4, 5, 5, 6, 7]), keep, byte)
        work = {'d1': [self.debit, self.ask], 'd2': [self.debit, self.ask], 'centre': [self.ask, self.centre], 'host': [self.frank],
                'verifier': [self.scan]}
        for _ in range(self.draw.choice([0, 1, 1, 1, 2])):
            do = self.draw.choice(work[node])
            do(*([int(node[1:])] if node[0] == 'd' else [] if do == self.scan else [1]))
        if node not in self.bench.nodes and self.chance(0.95):
            self.do('on %s', node)

    def ask(self, number):
        if self.chance(0.15):
            for kind in ('refund', 'reset 5000', 'refund'):
                self.transaction(number, kind)
            return
        self.transaction(number, self.draw.choice(['withdraw'] if self.chance(0.03) else ASKED))

    def centre(self, customer):
        customer = self.draw.choice([customer, customer, 2, 64])
        if self.chance(0.5):
            self.deposit(customer)
        else:
            self.do(self.draw.choice(['suspend %d', 'resume %d', 'resume %d', 'balance %d', 'customer %d']), customer)

    def time(self):
        record = self.view(1)[0]
        deadline = record.deadline if record else 0
        day = self.draw.choice([self.today + 1] * 6 + [self.today, self.today + 30, self.today + 31, self.today - 1, deadline, deadline,
                                                       deadline + 1, deadline + 7, deadline + 8])
        if 10957 <= day <= 84005:
            self.today = day
        self.do('day %s', date(self.today))

    def look(self, number):
        self.do(self.draw.choice(['status d%d', 'status d%d', 'reconcile d%d', 'resend d%d', 'ack d%d']), number)

    def switch(self):
        node = self.draw.choice(['d1', 'd2', 'd8', 'centre', 'host', 'verifier'])
        if node in self.bench.nodes and self.chance(0.9):
            self.do('off %s', node)
        if self.chance(0.9):
            self.do('on %s', node)

    def deliver(self):
        self.do('deliver %d', self.some_message() if self.chance(0.95) else self.draw.choice([self.last() + 1, 2**32 - 1]))

    def job(self):
        host = self.bench.nodes.get('host')
        last = host.last_job() if host else 1
        job = max(0, min(2**32 - 1, last + self.draw.choice([0, 0, 0, 0, 0, -1, -1, -2, 1, -1023, -1024, -last])))
        self.do(self.draw.choice(['send %d', 'print %d', 'close %d']), job)

    def noise(self):
        """Any one thing."""
        what = self.draw.choices(list(NOISE), NOISE.values())[0]
        if what in ('debit', 'frank', 'ask', 'look', 'prepare'):
            getattr(self, what)(self.device())
        elif what == 'centre':
            self.centre(1)
        elif what == 'rates':
            self.do('rates')
        else:
            getattr(self, what)()

    def end(self):
        """The last lines: mostly `end`, else nothing or a line that is none."""
        if self.chance(0.85):
            self.do('end')
            return b'\n'.join(self.lines) + self.draw.choice([b'\n', b'', b'\nstatus d1\n'])
        return b'\n'.join(self.lines + self.draw.choice([[], [self.draw.choice(BAD_LINES), b'end']])) + self.draw.choice([b'\n', b''])

    def skipped(self):
        self.lines.append(self.draw.choice([b'', b'# a note', b'#' * 600, b'#\xff']))

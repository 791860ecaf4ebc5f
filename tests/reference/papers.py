"""The words `manifest`, `statement` and `recompute`: lists of marks with a code, and of the movements of one customer's money."""
from desk import Lines, Refusal
from grammar import BadLine, Grammar
from marks import Unread, code, read_mark

MOVEMENTS = 10_000
LAST_SCAN = 2**32 - 1


class Manifest(Lines):
    own_lines = 'manifest open N COUNT U64 KEY\nmanifest piece PIECE\nmanifest code\nmanifest check KEY\n'
    opened = None

    def is_event(self, event):
        return event[0] != 'manifest open' or event[1] + event[2] - 1 <= LAST_SCAN

    def do_manifest_open(self, first, count, total, key):
        self.opened, self.pieces = (first, count, total, key), []
        return 'manifest open %d' % count

    def need_open(self):
        if self.opened is None:
            raise Refusal('refused manifest none')

    def do_manifest_piece(self, mark):
        self.need_open()
        if len(self.pieces) == self.opened[1]:
            raise Refusal('refused manifest full')
        self.pieces.append(mark)
        return 'piece %d' % len(self.pieces)

    def code(self):
        first, count, total, key = self.opened
        return code(key, count.to_bytes(2, 'big') + total.to_bytes(8, 'big') + first.to_bytes(4, 'big') + b''.join(self.pieces))

    def do_manifest_code(self):
        self.need_open()
        return 'code ' + self.code().hex()

    def do_manifest_check(self, wanted):
        self.need_open()
        first, count, total, _ = self.opened
        if len(self.pieces) != count:
            return 'manifest no count %d' % len(self.pieces)
        if wanted != self.code():
            return 'manifest no code'
        postage = 0
        for at, mark in enumerate(self.pieces):
            try:
                postage += read_mark(mark).postage
            except Unread:
                return 'manifest no unread %d' % (at + 1)
        if postage != total:
            return 'manifest no total %d' % postage
        for at, mark in enumerate(self.pieces):
            answer = self.bench.step(('scan hex', first + at, mark))
            if not answer.startswith('accepted '):
                return 'manifest no piece %d %s' % (at + 1, answer)
        return 'manifest yes %d %d' % (count, total)


class Statement(Lines):
    own_lines = 'statement open CUST\nstatement close\n'
    customer = None

    def __init__(self, bench, folder):
        Lines.__init__(self, bench, folder)
        bench.counted = self.counted

    def counted(self, plan):
        """Notes the movement of a commit that counts."""
        if plan.movement and plan.movement[0] == self.customer:
            self.movements.append(plan.movement[1:])

    def balance(self, customer):
        answer = self.bench.step(('balance', customer))
        if not answer.startswith('balance '):
            raise Refusal(answer)
        return int(answer.split()[2])

    def do_statement_open(self, customer):
        opening = self.balance(customer)
        self.customer, self.opening, self.movements = customer, opening, []
        return 'statement %d opening %d' % (customer, opening)

    def do_statement_close(self):
        if self.customer is None:
            raise Refusal('refused statement none')
        closing = self.balance(self.customer)
        self.customer = None
        if len(self.movements) > MOVEMENTS:
            raise Refusal('refused statement full')
        lines, balance = [], self.opening
        for text, amount in self.movements:
            balance += amount
            lines.append('%s balance %d' % (text, balance))
        return lines + ['closing %d' % closing]


OPENING = Grammar('statement CUST opening U64')
FURTHER = Grammar('''
deposit U32 U64 balance U64
reset DEV U32 U64 balance U64
refund DEV U32 U64 balance U64
withdraw DEV U32 U64 balance U64
closing U64
''')


def read_form(grammar, lines, line):
    try:
        return grammar.read(line)
    except BadLine:
        raise lines.bad()


def recompute(lines, report):
    """Checks the balances of one statement. `lines` skips nothing and ends a run of too many lines."""
    balance = read_form(OPENING, lines, lines.next())[-1]
    closed = False
    while True:
        line = lines.next_or_end()
        if line is None and closed:
            return report.line('statement good %d' % balance)
        if line is None or closed:
            raise lines.bad()
        name, *values, told = read_form(FURTHER, lines, line)
        closed = name == 'closing'
        if not closed:
            balance += -values[-1] if name.startswith('reset') else values[-1]
        if told != balance:
            return report.line('statement wrong %d %d' % (lines.count, balance))

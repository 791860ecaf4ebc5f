"""Writes random scripts of the words with lines of their own."""
from writer import Writer


class ClaimsWriter(Writer):
    edges = [3_000_000_000, 3_000_000_000, 3_000_000_001]

    def own(self):
        if self.chance(0.2):
            return self.do('credits %d', self.draw.choice([1, 1, 2, 64]))
        last = len(self.answers.records)
        claim = max(1, last + self.draw.choice([1, 1, 1, 1, 0, 0, -1, 2]))
        mark = self.a_mark()
        kept = self.answers.records.get(claim - 1)
        customer = self.draw.choice([1, 1, 1, 2])
        if kept and self.chance(0.8):
            customer, mark = kept.customer, kept.mark
        if len(mark) == 64 and mark[0] in (1, 2) and mark[1] == 1 and 1 <= mark[2 if mark[0] == 1 else 3]:
            self.do('claim %d %d %s', claim, customer, mark.hex())


class DepartmentsWriter(Writer):
    def own(self):
        department = self.draw.choice([1, 1, 1, 2, 3, 16])
        host = self.bench.nodes.get('host')
        last = host.last_job() if host else 1
        job = max(0, min(2**32 - 1, last + self.draw.choice([0, 0, 0, 0, -1, 1, -last])))
        spent = self.answers.spent(department)
        quota = self.draw.choice([0, 549, 5000, 5000, spent, spent + 549] + [spent + 550] * 3 + [2**32 - 1])
        what = self.draw.random()
        if what < 0.35:
            self.do('dept quota %d %d', department, min(quota, 2**32 - 1))
        elif what < 0.5:
            self.do('dept spent %d', department)
        else:
            if self.chance(0.7):
                answer = self.order()
                job = int(answer.split()[1]) if answer.startswith('ordered') else job
            self.do('dept assign %d %d', department, job)
            if self.chance(0.5) and self.bench.messages:
                self.do('deliver %d', self.last())
                self.do('deliver %d', self.last())
            self.do('print %d', job)

    def order(self):
        number = self.device()
        record = self.view(number)[0]
        if self.bench.rates is None:
            self.do('rates')
        return self.do('order d%d %d 1 25 1', number, min(2**32 - 1, (record.pieces if record else 0) + 1))


class ManifestWriter(Writer):
    def own(self):
        what = self.draw.random()
        if what < 0.7:
            return self.whole()
        self.do(self.draw.choice(['manifest code', 'manifest check ' + '0' * 64, 'manifest piece ' + (self.a_mark().hex() + '0' * 128)[:128],
                                  'manifest open 4294967295 1 0 ' + '00' * 32]))

    def whole(self):
        """A manifest from its opening to its check, mostly right."""
        pieces = [self.a_mark() for _ in range(self.draw.choice([1, 1, 2, 3]))]
        pieces = [mark for mark in pieces if len(mark) == 64] or [bytes(64)]
        total = sum(int.from_bytes(mark[8:12] if mark[0] == 2 else mark[10:14], 'big') for mark in pieces)
        total += self.draw.choice([0, 0, 0, 0, 1])
        count = len(pieces) + self.draw.choice([0, 0, 0, 0, 0, 1])
        first = self.draw.choice([1, self.scans + 1, self.scans + 1, 4294967295 - count + 1])
        self.do('manifest open %d %d %d %s', first, count, min(total, 2**64 - 1), self.keys[1].hex())
        for mark in pieces + self.draw.choice([[], [], [], [pieces[0]]]):
            self.do('manifest piece %s', mark.hex())
        code = self.do('manifest code').split()[-1]
        self.scans += count
        for _ in range(self.draw.choice([1, 1, 2])):
            self.do('manifest check %s', code if self.chance(0.95) else '00' * 32)


class StatementWriter(Writer):
    def own(self):
        if self.answers.customer is None or self.chance(0.1):
            self.do('statement open %d', self.draw.choice([1, 1, 1, 1, 1, 1, 2, 64]))
        elif self.chance(0.4):
            self.transaction(self.device(), self.draw.choice(['refund', 'reset 1000', 'reset 50000', 'audit']))
        elif self.chance(0.3):
            self.deposit(1)
        else:
            self.do('statement close')


def statement_text(draw):
    """A statement to recompute, mostly right."""
    balance = draw.choice([0, 0, 5, 2**64 - 1, 2**63])
    lines = ['statement %d opening %d' % (draw.choice([1, 64]), balance)]
    for receipt in range(1, draw.choice([0, 1, 2, 5, 20]) + 1):
        amount = draw.choice([0, 1, 550, 10**9, 2**64 - 1 if draw.random() < 0.1 else 7])
        kind = draw.choice(['deposit %d', 'reset d1 %d', 'refund d8 %d', 'withdraw d2 %d']) % receipt
        balance += -amount if kind.startswith('reset') else amount
        lines.append('%s %d balance %d' % (kind, amount, max(0, balance) if draw.random() < 0.97 else abs(balance) + 1))
    lines.append('closing %d' % max(0, balance))
    if draw.random() < 0.3:
        at = draw.randrange(len(lines) + 1)
        lines[at:at + draw.choice([0, 1])] = draw.choice([[], [''], ['# x'], ['closing 0'], ['statement 1 opening 0'], ['deposit 1 01 balance 0'], ['x']])
    return '\n'.join(lines).encode() + draw.choice([b'\n', b''])

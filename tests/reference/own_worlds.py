"""A judge of several runs of all words over one folder. Beside its meters a world has the claims and departments that are kept, and a run's manifest and
statement. A stop at a line of its own leaves what was committed for it up to any moment: by the line itself, or by a step that it asks for."""
from collections import namedtuple

from claims import RESERVED
from departments import JOBS
from grammar import EVENTS, Grammar, need
from marks import Unread, code, read_mark
from messages import read_message
from papers import LAST_SCAN, MOVEMENTS
from program import WORDS
from worlds import World
from worlds import judge as judge_all

CLAIMS = 1024
GRAMMARS = {word: Grammar(EVENTS, answers.own_lines) for word, answers in WORDS.items()}
Claim = namedtuple('Claim', 'customer mark is_credited')
Job = namedtuple('Job', 'department job postage')
Manifest = namedtuple('Manifest', 'first count total key marks')
Statement = namedtuple('Statement', 'customer opening movements')


class OwnWorld(World):
    """One state. `claims` are in their order, `quotas` by their departments."""

    def __init__(self):
        super().__init__()
        self.claims, self.quotas, self.jobs = (), {}, ()

    def begin(self, rates_text, word='replay'):
        super().begin(rates_text, word)
        self.manifest = self.statement = None

    def key(self):
        return super().key() + repr((self.claims, sorted(self.quotas.items()), sorted(self.jobs), self.manifest, self.statement))

    def read_line(self, line):
        event = GRAMMARS[self.word].read(line)
        need(event[0] != 'manifest open' or event[1] + event[2] - 1 <= LAST_SCAN)
        return event

    def outcomes(self, event):
        name, *values = event
        if self.word == 'claims' and name in ('scan msg', 'scan hex') and values[0] > RESERVED:
            return [('refused claim reserved', self)]
        if self.word == 'departments' and name == 'print' and values[0] not in [row.job for row in self.jobs]:
            return [('refused dept unassigned %d' % values[0], self)]
        own = getattr(self, 'own_' + name.replace(' ', '_'), None)
        return own(*values) if own else self.steps(event)

    def steps(self, event):
        """The outcomes of an event of the bench."""
        return super().outcomes(event)

    def committed(self, node, plan):
        world, statement = super().committed(node, plan), self.statement
        if statement and plan.movement and plan.movement[0] == statement.customer:
            return world.changed(statement=statement._replace(movements=statement.movements + (plan.movement[1:],)))
        return world

    # Claims

    def with_claim(self, number, claim):
        return self.changed(claims=self.claims[:number - 1] + (claim,) + self.claims[number:])

    def own_claim(self, number, customer, mark):
        kept = self.claims[number - 1] if number <= len(self.claims) else None
        if kept and (kept.customer, kept.mark) != (customer, mark):
            yield 'refused claim conflict', self
        elif not kept and number != len(self.claims) + 1:
            yield 'refused claim wrong claim %d' % len(self.claims), self
        elif number > CLAIMS:
            yield 'refused claim full', self
        else:
            yield from self.with_claim(number, kept or Claim(customer, mark, False)).credit(number)

    def credit(self, number):
        """The outcomes of a claim that is kept."""
        claim, piece = self.claims[number - 1], read_mark(self.claims[number - 1].mark)
        text = 'credited %d d%d %d %d ' % (number, piece.device, piece.piece, piece.postage)
        if claim.is_credited:
            yield text + 'again', self
            return
        yield None, self
        for answer, world in self.steps(('scan hex', RESERVED + number, claim.mark)):
            if answer.startswith('accepted '):
                yield None, world
                yield text + 'new', world.with_claim(number, claim._replace(is_credited=True))
            else:
                yield answer, world

    def own_credits(self, customer):
        credited = [read_mark(claim.mark).postage for claim in self.claims if claim.customer == customer and claim.is_credited]
        yield 'credits %d %d' % (customer, sum(credited)), self

    # Departments

    def spent(self, department):
        return sum(row.postage for row in self.jobs if row.department == department)

    def own_dept_quota(self, department, quota):
        if quota < self.spent(department):
            yield 'refused dept below spent %d' % self.spent(department), self
        else:
            yield 'quota %d %d' % (department, quota), self.changed(quotas={**self.quotas, department: quota})

    def own_dept_spent(self, department):
        if department not in self.quotas:
            yield 'refused dept unknown %d' % department, self
        else:
            yield 'spent %d %d quota %d' % (department, self.spent(department), self.quotas[department]), self

    def own_dept_assign(self, department, job):
        owner = next((row.department for row in self.jobs if row.job == job), None)
        if department not in self.quotas:
            yield 'refused dept unknown %d' % department, self
        elif owner == department:
            yield 'assigned %d %d again' % (job, department), self
        elif owner:
            yield 'refused dept assigned %d' % job, self
        elif sum(row.department == department for row in self.jobs) == JOBS:
            yield 'refused dept full', self
        else:
            left = self.quotas[department] - self.spent(department)
            for answer, world in self.steps(('send', job)):
                yield world.taken(department, job, left) if answer.startswith('sent ') else (answer, world)

    def taken(self, department, job, left):
        """The outcome of an assignment whose message was sent."""
        postage = read_message(self.messages[-1]).postage
        if postage > left:
            return 'refused dept quota %d' % left, self
        return 'assigned %d %d left %d' % (job, department, left - postage), self.changed(jobs=self.jobs + (Job(department, job, postage),))

    # Manifests

    def own_manifest_open(self, *values):
        yield 'manifest open %d' % values[1], self.changed(manifest=Manifest(*values, ()))

    def own_manifest_piece(self, mark):
        if self.manifest is None:
            yield 'refused manifest none', self
        elif len(self.manifest.marks) == self.manifest.count:
            yield 'refused manifest full', self
        else:
            marks = self.manifest.marks + (mark,)
            yield 'piece %d' % len(marks), self.changed(manifest=self.manifest._replace(marks=marks))

    def manifest_code(self):
        first, count, total, key, marks = self.manifest
        return code(key, count.to_bytes(2, 'big') + total.to_bytes(8, 'big') + first.to_bytes(4, 'big') + b''.join(marks))

    def own_manifest_code(self):
        yield 'refused manifest none' if self.manifest is None else 'code ' + self.manifest_code().hex(), self

    def fault_of_list(self, wanted):
        """Why a manifest is refused before its first scan, or None."""
        _, count, total, _, marks = self.manifest
        if len(marks) != count:
            return 'count %d' % len(marks)
        if wanted != self.manifest_code():
            return 'code'
        postage = 0
        for number, mark in enumerate(marks, 1):
            try:
                postage += read_mark(mark).postage
            except Unread:
                return 'unread %d' % number
        return None if postage == total else 'total %d' % postage

    def own_manifest_check(self, wanted):
        if self.manifest is None:
            yield 'refused manifest none', self
        elif self.fault_of_list(wanted):
            yield 'manifest no ' + self.fault_of_list(wanted), self
        else:
            yield from self.scan_pieces()

    def scan_pieces(self):
        world = self
        for at, mark in enumerate(self.manifest.marks):
            outcomes, world = world.steps(('scan hex', self.manifest.first + at, mark)), None
            for answer, after in outcomes:
                if answer.startswith('accepted '):
                    yield None, after
                    world = after
                else:
                    yield 'manifest no piece %d %s' % (at + 1, answer), after
            if world is None:
                return
        yield 'manifest yes %d %d' % (self.manifest.count, self.manifest.total), world

    # Statements

    def own_statement_open(self, customer):
        for answer, world in self.steps(('balance', customer)):
            if answer.startswith('balance '):
                opening = int(answer.split()[-1])
                answer, world = 'statement %d opening %d' % (customer, opening), world.changed(statement=Statement(customer, opening, ()))
            yield answer, world

    def own_statement_close(self):
        if self.statement is None:
            yield 'refused statement none', self
            return
        for answer, world in self.steps(('balance', self.statement.customer)):
            if answer.startswith('balance '):
                answer, world = world.closing(answer.split()[-1]), world.changed(statement=None)
            yield answer, world

    def closing(self, balance):
        """The answer to the close of a statement: several lines."""
        lines, running = [], self.statement.opening
        if len(self.statement.movements) > MOVEMENTS:
            return 'refused statement full'
        for text, amount in self.statement.movements:
            running += amount
            lines.append('%s balance %d' % (text, running))
        return '\n'.join(lines + ['closing ' + balance])


def judge(runs):
    """The verdicts on runs (word, script, report, rates text) over one folder that is blank at first, up to the first that isn't possible."""
    return judge_all([(*papers, word) for word, *papers in runs], OwnWorld)

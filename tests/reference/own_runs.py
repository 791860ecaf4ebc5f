"""Random honest runs of all words over one folder: whole, or killed at any commit of any line, with as much of the last answer as there may be."""
import os
import shutil
import tempfile
from contextlib import contextmanager

import program
from bench import Bench
from compare import run_program
from grammar import EVENTS, Grammar
from judged_runs import Runs
from sessions import RATES, WRITERS, marks_of
from steps import answers_of, is_own
from storage import Cells


# A device in service, which has debited ten pieces.
KEY = '01' * 32
FIRST = '\n'.join(['day 2026-03-01', 'rates', 'on centre', 'on verifier', 'on d1', f'make d1 {KEY}', f'register d1 94105 {KEY}', f'trust d1 {KEY}',
                   'customer 1', 'deposit 1 1 1000000', 'ask d1 enrol 1', 'deliver 0', 'deliver 1', 'ask d1 audit', 'deliver 2', 'deliver 3',
                   'ask d1 reset 100000', 'deliver 4', 'deliver 5', *(f'debit d1 {piece} 550 1' for piece in range(1, 11)), 'end', '']).encode()


WORDS = ('replay', 'claims', 'claims', 'claims', 'departments', 'departments', 'manifest', 'manifest', 'statement')


class Killed(Exception):
    """The run is killed."""


@contextmanager
def killed_before(limit, report):
    """Lets a run begin so many commits, and kills it before the next. Gives a list: how many bytes the report had before each commit that it began."""
    begun, commit = [], Cells.commit

    def counted(cells, *content):
        if len(begun) == limit:
            raise Killed()
        begun.append(os.fstat(report).st_size)
        commit(cells, *content)

    Cells.commit = counted
    try:
        yield begun
    finally:
        Cells.commit = commit


def run_killed(folder, word, script, limit=None):
    """The report of the meter in Python that is killed before it begins more commits than that, and how many bytes it had before each."""
    clean = os.path.join(folder, '.clean')
    if os.path.exists(clean):
        os.remove(clean)
    with tempfile.TemporaryFile() as text, tempfile.TemporaryFile() as report, killed_before(limit, report.fileno()) as begun:
        text.write(script)
        text.flush()
        text.seek(0)
        try:
            program.run([word], folder, text.fileno(), report.fileno())
        except Killed:
            pass
        report.seek(0)
        return report.read(), begun


class OwnRuns(Runs):
    """The runs of one seed. Each has its word, its script, its report and its rates."""

    def __init__(self, seed, work, meter):
        super().__init__(seed, os.path.join(work, 'session'), os.path.join(work, 'scratch'), None)
        self.meter, self.again = meter, None

    def writer_of(self, word, answers):
        """A writer of scripts of this word, which takes marks of earlier runs mostly."""
        class Marked(WRITERS[word]):
            def a_mark(self):
                return self.draw.choice(self.marks) if self.marks and self.chance(0.7) else super().a_mark()

        return Marked(self.draw, answers, Grammar(EVENTS, answers.own_lines), self)

    def copied(self):
        shutil.rmtree(self.scratch, ignore_errors=True)
        shutil.copytree(self.folder, self.scratch)
        return self.scratch

    def script_of(self, word, again=None):
        folder = self.copied()
        bench = Bench(folder)
        try:
            answers = program.WORDS[word](bench, folder)
            bench.open_streams(folder)
            writer = self.writer_of(word, answers)
            writer.begin()
            if again and self.draw.random() < 0.7:
                writer.do(again.decode())
            for number, chance in ((1, 0.9), (2, 0.2)):
                if not writer.view(number)[0] and self.draw.random() < chance:
                    writer.prepare(number)
            for _ in range(self.draw.choice([5, 10, 20])):
                if word != 'replay' and self.draw.random() < 0.7:
                    writer.own()
                else:
                    writer.noise()
                if self.draw.random() < 0.05:
                    writer.skipped()
            self.today = writer.today
            script = writer.end()
            answers.close()
            return script
        finally:
            bench.close()

    def all(self, count):
        shutil.rmtree(self.folder, ignore_errors=True)
        os.mkdir(self.folder)
        with open(os.path.join(self.folder, 'rates.toml'), 'wb') as file:
            file.write(RATES)
        runs = [('replay', FIRST, self.whole('replay', FIRST), RATES)]
        for _ in range(count):
            self.marks = [mark for _, _, report, _ in runs for mark in marks_of(report)]
            # What a stop has left is often tried again by the next run.
            again, self.again = self.again, None
            word = runs[-1][0] if again and self.draw.random() < 0.7 else self.draw.choice(WORDS)
            script = self.script_of(word, again if word == runs[-1][0] else None)
            report = self.whole(word, script) if self.draw.random() < 0.4 else self.stopped(word, script)
            runs.append((word, script, report, RATES))
        return runs

    def whole(self, word, script):
        return run_program(self.meter, [word], self.folder, script)[1]

    def stopped(self, word, script):
        """The report of a run that is killed within a line, mostly one of its own, or as it answers that."""
        report, begun = run_killed(self.copied(), word, script)
        lines = [it for it in answers_of(word, script, report) if it[3]]
        own = [(number, place) for number, line, place, answer in lines if place in begun and is_own(word, line, answer)]
        number, place = self.draw.choice(own) if own and self.draw.random() < 0.8 else self.draw.choice([(number, place) for number, _, place, _ in lines])
        front = b''.join(line + b'\n' for line in script.split(b'\n')[:number])
        if self.draw.random() < 0.3:
            answer = self.whole(word, front)[place:]
            return report[:place] + answer[:self.draw.choice([0, 1, 2, self.draw.randrange(len(answer)), len(answer) // 2, len(answer) - 1])]
        run_killed(self.folder, word, front, sum(at < place for at in begun) + self.draw.randrange(begun.count(place) + 1))
        self.again = script.split(b'\n')[number - 1]
        return report[:place]


def altered(draw, runs):
    """The runs with a whole answer of one of them changed in a digit or a word, cut, or taken from another line; None if there is none."""
    at = draw.randrange(len(runs))
    word, script, report, rates = runs[at]
    whole = [(place, answer) for _, _, place, answer in answers_of(word, script, report) if answer.endswith(b'\n')]
    if not whole:
        return None
    place, answer = draw.choice(whole)
    other = draw.choice([digit_changed(draw, answer), draw.choice(whole)[1], answer.replace(b' new', b' again'), answer.replace(b' again', b' new'), b'',
                         b'power verifier\n', answer.replace(b'credited', b'accepted')])
    report = report[:place] + other + report[place + len(answer):]
    return runs[:at] + [(word, script, report, rates)] + runs[at + 1:]


def digit_changed(draw, answer):
    places = [at for at, byte in enumerate(answer) if 48 <= byte < 58]
    if not places:
        return answer
    at = draw.choice(places)
    return answer[:at] + b'%d' % ((answer[at] - 47) % 10) + answer[at + 1:]


"""The program: its words, its files, its statuses and its line on standard error."""
import os

from bench import Bench, CannotUse
from claims import Claims
from departments import Departments
from desk import Lines as Answers
from generator import summary
from grammar import EVENTS, LONGEST, NUMBER, BadLine, Grammar
from papers import MOVEMENTS, Manifest, Statement, recompute

LINES = 1_000_000
USAGE = 'usage: meter_run replay | meter_run generate SEED COUNT'


class Ended(Exception):
    """The end of a run, with its status and its line on standard error."""

    def __init__(self, status, line):
        Exception.__init__(self, status, line)
        self.status, self.line = status, line


WORDS = {'replay': Answers, 'claims': Claims, 'departments': Departments, 'manifest': Manifest, 'statement': Statement}


TOO_LONG = Ended(6, 'script too long')


class Lines:
    """The lines of a script, each read when it is asked for."""

    def __init__(self, file, most=LINES):
        self.file = file
        self.most = most
        self.held = b''
        self.ended = False
        self.count = 0

    def next_or_end(self):
        """The next line of a text that may have so many lines, or None behind its last."""
        line = self.take()
        self.count += 1
        if line is not None and self.count > self.most:
            raise TOO_LONG
        if line is not None and len(line) > LONGEST:
            raise self.bad()
        return line

    def next(self):
        """The next line of a text that isn't read behind so many lines."""
        if self.count == self.most:
            raise TOO_LONG
        line = self.next_or_end()
        if line is None:
            raise self.bad()
        return line

    def next_event(self):
        """The next line that is not skipped."""
        while True:
            line = self.next()
            if line and not line.startswith(b'#'):
                return line

    def bad(self):
        return Ended(2, 'script: line %d' % self.count)

    def take(self):
        """The next line, the front of one that is too long, or None at the end."""
        while b'\n' not in self.held and not self.ended and len(self.held) <= LONGEST:
            try:
                more = os.read(self.file, 65536)
            except OSError:
                raise Ended(3, 'read fault')
            self.held += more
            self.ended = not more
        if not self.held:
            return None
        line, _, self.held = self.held.partition(b'\n')
        return line


class Report:
    def __init__(self, file):
        self.file = file

    def line(self, text):
        data = text.encode() + b'\n'
        try:
            while data:
                data = data[os.write(self.file, data):]
        except OSError:
            raise Ended(4, 'write fault')


def run_lines(answers, script, report):
    """Answers a script line by line, up to its `end`."""
    grammar, lines = Grammar(EVENTS, answers.own_lines), Lines(script)
    while True:
        line = lines.next_event()
        try:
            event = grammar.read(line)
        except BadLine:
            raise lines.bad()
        if not answers.is_event(event):
            raise lines.bad()
        for text in answers.answer(event):
            report.line(text)
        if event[0] == 'end':
            return


def is_number(word, most):
    return word.isascii() and NUMBER.fullmatch(word.encode()) is not None and int(word) <= most


def is_generate(words):
    return len(words) == 3 and words[0] == 'generate' and is_number(words[1], 2**32 - 1) and is_number(words[2], 90_000)


def run_bench(words, folder, script, report):
    """Runs one of the words that use the bench."""
    kind, answers = WORDS.get(words[0], Answers), None
    bench = Bench(folder, kind.own_files, lambda: kind.look(folder))
    try:
        answers = kind(bench, folder)
        bench.open_streams(folder)
        if words[0] == 'generate':
            return report.line(summary(bench.step, int(words[1]), int(words[2])))
        run_lines(answers, script, report)
    finally:
        bench.close()
        if answers:
            answers.close()


def run(words, folder, script, report):
    """Runs the program; answers its status and its line on standard error."""
    try:
        if words == ['recompute']:
            recompute(Lines(script, MOVEMENTS + 2), Report(report))
        elif is_generate(words) or len(words) == 1 and words[0] in WORDS:
            run_bench(words, folder, script, Report(report))
        else:
            return 1, USAGE
    except Ended as end:
        return end.status, end.line
    except CannotUse as file:
        return 7, 'cannot use %s' % file
    return 0, ''

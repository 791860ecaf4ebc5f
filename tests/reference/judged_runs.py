"""Random sessions for judges: honest runs over one folder, with stops, failures, and folders that are put back."""
import os
import random
import shutil

from bench import Bench
from compare import FILES, read
from desk import Lines
from grammar import EVENTS, Grammar
from sessions import RATES, marks_of
from worlds import events_of
from writer import Writer


class Runs:
    """The runs of one seed over a folder that the meter at `program` keeps. Each has its script, its report and its rates."""

    def __init__(self, seed, folder, scratch, program):
        self.draw = random.Random(seed)
        self.folder, self.scratch, self.program = folder, scratch, program
        self.keys = {number: bytes([number]) * 32 for number in range(1, 9)}
        self.today, self.forges = 20513, False
        self.older, self.marks = [], []
        self.before = None
        self.honest = True
        self.committing = set()

    def all(self, count):
        shutil.rmtree(self.folder, ignore_errors=True)
        os.mkdir(self.folder)
        with open(os.path.join(self.folder, 'rates.toml'), 'wb') as file:
            file.write(RATES)
        runs = []
        for at in range(count):
            if self.before and self.draw.random() < 0.7:
                self.put_back(self.before, [FILES[:11], FILES[:11], FILES[:8], ['centre.nv'], ['host.nv', 'verifier.nv']])
            elif at and self.draw.random() < 0.2:
                self.put_back(self.draw.choice(self.older), [FILES[:11], self.draw.sample(FILES[:11], 3), ['device-1.nv'], ['centre.nv']])
            self.older.append(self.contents())
            runs.append(self.run())
        return runs

    def contents(self):
        return {name: read(self.folder, name) for name in FILES[:11]}

    def put_back(self, copy, choices):
        """Takes some storages from an older copy."""
        self.honest = False
        for name in self.draw.choice(choices):
            path = os.path.join(self.folder, name)
            if copy[name] is None:
                if os.path.exists(path):
                    os.remove(path)
                continue
            with open(path, 'wb') as file:
                file.write(copy[name])

    def script(self):
        shutil.rmtree(self.scratch, ignore_errors=True)
        shutil.copytree(self.folder, self.scratch)
        bench = Bench(self.scratch)
        try:
            bench.open_streams(self.scratch)
            writer = Writer(self.draw, Lines(bench, self.scratch), Grammar(EVENTS), self)
            self.committing = set()
            bench.counted = lambda plan: self.committing.add(len(writer.lines))
            writer.begin()
            for number, chance in ((1, 0.9), (2, 0.2)):
                if not writer.view(number)[0] and self.draw.random() < chance:
                    writer.prepare(number)
            for _ in range(self.draw.choice([3, 8, 15, 25])):
                writer.noise()
                if self.draw.random() < 0.05:
                    writer.skipped()
            self.today = writer.today
            return writer.end()
        finally:
            bench.close()

    def run(self):
        """Runs a script, or a front of it that a stop leaves."""
        script = self.script()
        self.before = None
        if self.draw.random() < 0.4:
            report = self.program(self.folder, script)
            self.marks += marks_of(report)
            return script, report, RATES
        lines = script.split(b'\n')
        events = events_of(script)[0]
        at = self.last_event(events)
        front = b''.join(line + b'\n' for line in lines[:events[at][0] - 1])
        if self.draw.random() < 0.3:
            return script, self.program(self.folder, front), RATES
        if self.draw.random() < 0.6:
            self.before = self.contents_behind(front)
        report = self.program(self.folder, front + lines[events[at][0] - 1] + b'\n')
        self.marks += marks_of(report)
        at = report[:-1].rfind(b'\n') + 1
        answer = report[at:-1]
        return script, report[:at] + answer[:self.draw.choice([0, 0, 1, 2, len(answer) // 2, len(answer) - 1, len(answer), len(answer)])], RATES

    def last_event(self, events):
        """The event before or in which the run is stopped: mostly one that commits."""
        commits = [at for at, (number, _) in enumerate(events) if number in self.committing]
        return self.draw.choice(commits) if commits and self.draw.random() < 0.7 else self.draw.randrange(len(events))

    def contents_behind(self, front):
        """The storages as they are behind a front of the script."""
        shutil.rmtree(self.scratch, ignore_errors=True)
        shutil.copytree(self.folder, self.scratch)
        self.program(self.scratch, front)
        return {name: read(self.scratch, name) for name in FILES[:11]}


def altered(draw, runs):
    """The runs with one report changed in a line that its run could not have answered so, and the place of that run."""
    at = draw.randrange(len(runs))
    script, report, rates = runs[at]
    lines = report.split(b'\n')
    place = draw.randrange(max(1, len(lines) - 1))
    lines[place] = b'x' + lines[place]
    return runs[:at] + [(script, b'\n'.join(lines), rates)] + runs[at + 1:], at

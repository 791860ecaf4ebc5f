"""Random sessions: several runs over one folder, whose storages may be near the limits, of an older edition, spoilt or put back."""
import os
import random
import shutil

import limits
from bench import CLASSES, NODES, Bench, CannotUse, file_name
from claims import Claims
from compare import FILES, read
from departments import Departments
from device import Device
from grammar import EVENTS, Grammar
from own_writers import ClaimsWriter, DepartmentsWriter, ManifestWriter, StatementWriter, statement_text
from program import WORDS
from writer import Writer

RATES = b'''zones = 2
[[class]]
number = 1
steps = [{ grams = 28, mills = [550, 550] }, { grams = 56, mills = [790, 850] }]
[[class]]
number = 2
steps = [{ grams = 500, mills = [4100, 9200] }]
'''
CHANGES = ((b'zones = 2', b'zones = 1'), (b'550, 550', b'1, 100000'), (b'550, 550', b'0, 1'), (b'550', b'100001'), (b'28', b'56'), (b'= 56', b'= 28'),
           (b'number = 2', b'number = 1'), (b'number = 2', b'number = 65536'), (b'zones = 2', b'zones = 2\nmore = 1'), (b'zones = 2', b'zones = true'),
           (b'28', b'0x1c'), (b'500', b'99999999999999999999'), (b'zones', b'\xff'), (b'[[class]]', b'[class]'), (b'28', b'1_00_0'), (b'28', b'28.0'),
           (RATES, b''), (RATES, b'zones = '), (RATES, b'#' * 65537), (b'zones = 2', b'#' * 65200 + b'\nzones = 2'))
WRITERS = {'replay': Writer, 'claims': ClaimsWriter, 'departments': DepartmentsWriter, 'manifest': ManifestWriter, 'statement': StatementWriter}
BAD_WORDS = ([], ['replay', 'x'], ['generate', '07', '1'], ['generate', '7', '90001'], ['generate', '4294967296', '0'], ['generate', '7'],
             ['Replay'], ['claims', 'claims'], ['generate', '+7', '1'], [''])


BLANK = {file_name(node): bytes(limits.blank(CLASSES.get(node, Device))) for node in NODES}
BLANK.update({kind.file_name: bytes(limits.blank_desk(kind)) for kind in (Claims, Departments)})


def marks_of(report):
    """The marks of the debits in a report."""
    return [bytes.fromhex(line.split()[-1].decode()) for line in report.split(b'\n') if line.startswith(b'mark ')]


class Session:
    """The runs of one seed over folders that stay equal while both meters do."""

    def __init__(self, seed, folders, scratch):
        self.draw = random.Random(seed)
        self.folders, self.scratch = folders, scratch
        self.keys = {number: bytes([number]) * 32 for number in range(1, 9)}
        self.today = 20513
        self.forges = self.draw.random() < 0.5
        self.older = {}
        self.marks = []

    def start(self):
        for folder in self.folders:
            shutil.rmtree(folder, ignore_errors=True)
            os.mkdir(folder)
        for name in FILES[:-1]:
            if self.draw.random() < 0.97:
                self.put(name, BLANK[name])
        if self.draw.random() < 0.35:
            for name, content in limits.contents(self.draw, self.keys, self.today).items():
                self.put(name, bytes(content))

    def put(self, name, data):
        """Writes a file in both folders, or removes it."""
        for folder in self.folders:
            path = os.path.join(folder, name)
            if data is not None:
                with open(path, 'wb') as file:
                    file.write(data)
            elif os.path.exists(path):
                os.remove(path)

    def between(self):
        """What happens to the folder before a run."""
        rates = RATES if self.draw.random() < 0.9 else None
        if rates and self.draw.random() < 0.12:
            for old, new in self.draw.sample(CHANGES, self.draw.choice([1, 1, 2])):
                rates = rates.replace(old, new, 1)
        self.put('rates.toml', rates)
        if self.draw.random() < 0.1:
            self.spoil(self.draw.choice(FILES[:-1]))
        elif self.older and self.draw.random() < 0.2:
            for name in self.draw.sample(FILES[:-1], self.draw.choice([1, 1, 2, 5])):
                self.put(name, self.older.get(name))
        if self.draw.random() < 0.3:
            self.older = {name: read(self.folders[0], name) for name in FILES[:-1]}

    def spoil(self, name):
        """Changes bytes of a storage, mostly where something is written."""
        data = read(self.folders[0], name)
        if not data:
            return
        data = bytearray(data)
        used = [at for at in range(0, min(len(data), 20_000)) if data[at]] or [0]
        how = self.draw.randrange(6)
        at = self.draw.choice(used)
        if how == 0:
            data = data[:self.draw.choice([0, 1, len(data) - 1])]
        elif how == 1:
            data.append(0)
        elif how < 4:
            data[at] ^= 1 << self.draw.randrange(8)
        elif how == 4:
            data[at] = self.draw.choice([0, 0xA5, 255, 17, 1])
        else:
            length = self.draw.choice([1, 4, 214, 428, 197])
            data[at:at + length] = bytes(len(data[at:at + length]))
        self.put(name, bytes(data))

    def run(self):
        """The words and the script of the next run."""
        self.between()
        what = self.draw.random()
        if what < 0.02:
            return list(self.draw.choice(BAD_WORDS)), b'day 2026-03-01\nend\n'
        if what < 0.06:
            return ['generate', str(self.draw.choice([0, 7, 2**32 - 1, self.draw.randrange(2**32)])), str(self.draw.choice([0, 1, 5, 20]))], b''
        if what < 0.10:
            return ['recompute'], statement_text(self.draw)
        word = self.draw.choices(list(WRITERS), [50, 12, 12, 12, 14])[0]
        return [word], self.script(word)

    def script(self, word):
        """A script, tried line by line over a copy of the folder."""
        shutil.rmtree(self.scratch, ignore_errors=True)
        shutil.copytree(self.folders[0], self.scratch)
        bench = Bench(self.scratch)
        try:
            answers = WORDS[word](bench, self.scratch)
            bench.open_streams(self.scratch)
            script = self.write(WRITERS[word](self.draw, answers, Grammar(EVENTS, answers.own_lines), self))
            answers.close()
            return script
        except CannotUse:
            return b'day 2026-03-01\nend\n'
        finally:
            bench.close()

    def write(self, writer):
        if self.draw.random() < 0.98:
            writer.begin()
        for number, chance in ((1, 0.9), (2, 0.3)):
            record = writer.view(number)[0]
            if self.draw.random() < (0.1 if record and record.phase == 'in-service' else chance):
                writer.prepare(number)
        for _ in range(self.draw.choice([10, 20, 30, 50])):
            if hasattr(writer, 'own') and self.draw.random() < 0.4:
                writer.own()
            else:
                writer.noise()
            if self.draw.random() < 0.02:
                writer.skipped()
        self.today = writer.today
        self.marks += marks_of(b'\n'.join(reply.encode() for reply in writer.replies))
        return writer.end()

"""An office that ./post runs over the built programs, and what goes wrong between post and the meter: office.py METER WORD is in the meter's place."""
import json
import os
import re
import resource
import shutil
import signal
import subprocess
import sys
import time
from collections import namedtuple
from contextlib import suppress

from compare import FILES
from own_runs import run_killed

TOP = os.path.dirname(os.path.dirname(os.path.dirname(os.path.abspath(__file__))))
POST = os.path.join(TOP, 'post')
RATES = os.path.join(TOP, 'examples', 'rates.toml')
LETTER, PARCEL = 550, 9200
# The lines of a statement before its last one: they are no replies of their own.
MOVEMENTS = ('deposit ', 'reset ', 'refund ', 'withdraw ')
# A step of a plan: what happens, at which line of the script, and how.
Step = namedtuple('Step', 'act at how')


class Programs(namedtuple('Programs', 'meter audit work')):
    """The programs, and a folder for what is made beside the offices."""

    def between(self):
        """A program in the meter's place, which does what PLAN says."""
        stub = os.path.join(self.work, 'stub')
        if not os.path.exists(stub):
            with open(stub, 'w') as script:
                script.write(f'#!/bin/sh\nexec "{sys.executable}" "{os.path.abspath(__file__)}" "{self.meter}" "$@"\n')
            os.chmod(stub, 0o755)
        return stub


class Between:
    """What is between post and the meter: the steps of PLAN say what happens, each at one line of the script. AT is its number, comments not counted, or a
    pattern, without spaces, for what it begins with.
    `before AT`, `after AT`: the meter is killed before it is given that line, or after it has done it, and its reply is not told.
    `cut AT LINE`: after that line the line `cut ..` is given, too, and kept where post keeps its own.
    `fill AT PAGES`: the disk is filled but for so many pages. `grow AT SIZE`: from that line on no file of the meter grows beyond this size.
    `commit AT K`: the meter is killed at that line, before it begins commit K of it, from 0. For that the meter in Python does the run once more, over the
    files that were there before it."""

    def __init__(self, meter, word):
        self.steps = [Step(*(step.split(' ', 2) + [''])[:3]) for step in os.environ.get('PLAN', '').split('; ') if step]
        self.word, self.given, self.owed, self.run = word, b'', '', None
        tears = any(step.act == 'commit' for step in self.steps)
        self.start = {name: content_of(name) for name in FILES} if tears else None
        self.program = subprocess.Popen([meter, word], stdin=subprocess.PIPE, stdout=subprocess.PIPE, restore_signals=False)

    def steps_at(self, number, line):
        return [step for step in self.steps if (step.at == str(number) if step.at.isdigit() else re.match(step.at, line.decode()))]

    def give(self, line):
        self.given += line
        self.program.stdin.write(line)
        self.program.stdin.flush()

    def hear(self, line):
        reply = self.program.stdout.readline()
        while line == b'statement close\n' and reply.decode().rsplit('\n', 2)[-2].startswith(MOVEMENTS):
            reply += self.program.stdout.readline()
        return reply

    def keep(self, ending, text):
        self.run = self.run or 'runs/' + max(name for name in os.listdir('runs') if name.endswith('.script') and name[0].isdigit())[:-7]
        with open(self.run + ending, 'a') as paper:
            paper.write(text)

    def all(self):
        """The status of the program in the meter's place."""
        number = 0
        for line in iter(sys.stdin.buffer.readline, b''):
            if line.startswith(b'#'):
                self.give(line)
                continue
            number += 1
            if self.owed:
                self.keep('.report', self.owed)
            if not self.one(line, self.steps_at(number, line)):
                return 9
        self.program.stdin.close()
        return self.program.wait()

    def one(self, line, steps):
        """Does a line and tells its reply; not if the meter has ended then."""
        acts = [step.act for step in steps]
        if 'before' in acts:
            return self.kill()
        for step in steps:
            if step.act == 'commit':
                self.kill()
                self.do_again(line, int(step.how))
                return False
            if step.act == 'fill':
                fill(int(step.how))
            if step.act == 'grow':
                resource.prlimit(self.program.pid, resource.RLIMIT_FSIZE, (int(step.how), int(step.how)))
        self.give(line)
        reply = self.hear(line)
        if not reply:
            return False
        if 'after' in acts:
            return self.kill()
        self.owed = ''.join(self.cut(step.how) for step in steps if step.act == 'cut')
        sys.stdout.buffer.write(reply)
        sys.stdout.buffer.flush()
        return True

    def cut(self, line):
        """Gives a line `cut ..`, before post knows the reply to the one before it. Its own reply is kept before the next one."""
        self.keep('.script', line + '\n')
        self.give(line.encode() + b'\n')
        return self.program.stdout.readline().decode()

    def kill(self):
        self.program.kill()
        self.program.wait()
        return False

    def do_again(self, line, commit):
        """Leaves the folder as the run does that is killed at a commit of this line."""
        self.put_back()
        begun = len(run_killed('.', self.word, self.given)[1])
        self.put_back()
        run_killed('.', self.word, self.given + line, begun + commit)

    def put_back(self):
        for name, content in self.start.items():
            if content is not None:
                with open(name, 'wb') as file:
                    file.write(content)
            elif os.path.exists(name):
                os.remove(name)


def content_of(name):
    if not os.path.exists(name):
        return None
    with open(name, 'rb') as file:
        return file.read()


def fill(pages):
    """Fills the disk of the folder but for some pages."""
    with open('filler', 'wb', buffering=0) as filler:
        try:
            while True:
                filler.write(bytes(4096))
        except OSError:
            pass
        filler.truncate(max(0, os.path.getsize('filler') // 4096 - pages) * 4096)


class Office:
    """A folder with post, on a day of the calendar."""

    def __init__(self, folder, programs, today):
        self.folder, self.programs, self.today = folder, programs, today
        self.shown = ''
        self.calls = 0
        os.makedirs(folder)
        shutil.copy(RATES, os.path.join(folder, 'rates.toml'))

    def path(self, *names):
        return os.path.join(self.folder, *names)

    def start(self, *words, plan=None, shown=subprocess.PIPE):
        words = words if words[:1] == ('--day',) else ('--day', self.today) + words
        meter = self.programs.between() if plan else self.programs.meter
        env = dict(os.environ, METER=meter, AUDIT=self.programs.audit, PLAN=plan or '', TZ='UTC', TMPDIR=self.programs.work)
        return subprocess.Popen([POST, *map(str, words)], cwd=self.folder, env=env, stdout=shown, stderr=subprocess.PIPE,
                                stdin=subprocess.DEVNULL, text=True, start_new_session=True)

    def end(self, process):
        out, err = (text or '' for text in process.communicate())
        self.shown += out + err
        self.calls += 1
        return process.returncode, out, err

    def post(self, *words, plan=None):
        return self.end(self.start(*words, plan=plan))

    def killed(self, who, seconds, *words):
        """A call of which post, the meter, or both are killed after so many seconds."""
        process = self.start(*words)
        time.sleep(seconds)
        meters = self.meters_of(process.pid)
        if process.poll() is None:
            for pid in ([process.pid] if who != 'meter' else []) + (meters if who != 'post' else []):
                with suppress(ProcessLookupError):
                    os.kill(pid, signal.SIGKILL)
        return self.end(process)

    def meters_of(self, pid):
        """The meters among the children of a process, which may end meanwhile."""
        found = []
        with suppress(OSError):
            for child in open(f'/proc/{pid}/task/{pid}/children').read().split():
                if os.readlink(f'/proc/{child}/exe') == self.programs.meter:
                    found.append(int(child))
        return found

    def must(self, *words, plan=None):
        status, out, err = self.post(*words, plan=plan)
        assert status == 0, f'{words}: status {status}: {out}{err}'
        return out

    def refused(self, status, sentence, *words, plan=None):
        got, out, err = self.post(*words, plan=plan)
        assert got == status and sentence in err, f'{words}: status {got}, and {status} was due: {sentence!r}: {out}{err}'

    def set_up(self, *held):
        for number, money in enumerate(held, 1):
            self.must('customer', number)
            self.must('deposit', number, money)
            self.must('device', f'd{number}', 94105, number)
            self.must('load', f'd{number}', money)
        return self

    def runs(self):
        return sorted(name[:-7] for name in os.listdir(self.path('runs'))
                      if name.endswith('.script') and not name.startswith('alarm'))

    def replies(self, run=None):
        runs = [run] if run else self.runs()
        return [line for name in runs for line in open(self.path('runs', name + '.report')).read().split('\n')]

    def pairs(self):
        """Each line with its reply."""
        for name in self.runs():
            lines = [line for line in open(self.path('runs', name + '.script')).read().split('\n') if line and line[0] != '#']
            yield from zip(lines, (reply for reply in self.replies(name) if not reply.startswith(MOVEMENTS)))

    def word(self, run):
        return open(self.path('runs', run + '.word')).read().strip()

    def statement(self, *words, plan=None):
        """A statement, which the meter finds good."""
        out = self.must('statement', *words, plan=plan)
        checked = subprocess.run([self.programs.meter, 'recompute'], input=out, capture_output=True, text=True, check=True).stdout
        assert checked.startswith('statement good '), (words, out, checked)
        return out.splitlines()

    def books(self):
        return json.loads(self.must('status', '--json'))

    def next_job(self):
        return max(int(line.split()[1]) for line in self.replies() if line.startswith(('ordered ', 'closed '))) + 1

    def by_hand(self, *lines, word='replay', commit=None):
        """A run without post, whose papers are put with the others. Of one that is killed before it begins commit COMMIT of the last line, counted from 0,
        the last line has no answer."""
        name = self.path('runs', f'{len(self.runs()) + 1:06}-{self.today}-hand')
        shutil.copy(RATES, name + '.rates')
        script = '\n'.join((f'day {self.today}',) + lines + ('end', ''))
        for ending, text in ('.word', word + '\n'), ('.script', script):
            with open(name + ending, 'w') as kept:
                kept.write(text)
        with open(name + '.report', 'wb') as report:
            report.write(self.replied(word, script.encode(), commit))

    def replied(self, word, script, commit):
        if commit is None:
            return subprocess.run([self.programs.meter, word], cwd=self.folder, input=script, stdout=subprocess.PIPE, check=True).stdout
        *front, line, _, _ = script.split(b'\n')
        front = b''.join(line + b'\n' for line in front)
        copy = os.path.join(self.programs.work, 'copy-of-the-folder')
        shutil.copytree(self.folder, copy)
        report, begun = run_killed(copy, word, front)
        shutil.rmtree(copy)
        run_killed(self.folder, word, front + line + b'\n', len(begun) + commit)
        return report

    def prints(self):
        # a printer such as /dev/full is read without an end
        lines = open(self.path('prints.txt')).read().split('\n') if os.path.isfile(self.path('prints.txt')) else []
        return [mark_of(line) for line in lines if mark_of(line)]

    def check(self, money):
        """What holds of each office, where so much was deposited."""
        books = self.books()
        printed, shown = self.prints(), [mark_of(line) for line in self.shown.split('\n') if mark_of(line)]
        assert len(set(printed)) == len(printed), 'a mark is printed twice'
        for device in books['devices']:
            for piece in range(1, device['pieces'] + 1):
                assert (device['device'], piece) in printed + shown, f"{device['device']} piece {piece} is neither printed nor shown"
        spread = sum(c['balance'] for c in books['customers']) + sum(d['ascending'] + d['descending'] for d in books['devices'])
        assert spread == money, f'{money} mills were deposited, and {spread} are there'
        opened = {reply.split()[1] for _, reply in self.pairs() if reply.startswith('ordered ')}
        closed = {line.split()[1] for line, reply in self.pairs() if line.startswith('close ') and 'closed' in reply}
        assert opened <= closed, f'open jobs: {opened - closed}'
        self.check_claims()
        self.check_departments(books)
        status, out, err = self.post('audit')
        assert status == 0, (status, out, err)
        for line in out.splitlines():
            assert line.split()[0] in ('lawful', 'stopped', 'prints'), line
        return books

    def check_claims(self):
        """A piece is credited by one claim, new at most once, and is no mail; what has no answer was given again."""
        claims, credited, open_claims = {}, [], set()
        for line, reply in self.pairs():
            words, answer = line.split(), reply.split()
            if line.startswith('claim ') and not line.startswith('claim 1026 '):
                (open_claims.discard if answer else open_claims.add)(line)
            if answer[:1] == ['credited'] and len(answer) == 6:
                assert claims.setdefault(answer[1], (words[2], *answer[2:5])) == (words[2], *answer[2:5]), reply
                credited += [answer[1]] * (answer[5] == 'new')
        pieces = [claim[1:3] for claim in claims.values()]
        mail = {tuple(reply.split()[1:3]) for reply in self.replies() if reply.startswith('accepted ')}
        assert len(set(pieces)) == len(pieces) and not mail & set(pieces), 'a piece is credited twice, or is mail and credited'
        assert len(set(credited)) == len(credited), credited
        assert not open_claims, open_claims
        return claims

    def check_departments(self, books):
        """Each job that was printed by a run of departments has one, and a department has spent what its jobs cost, within its quota."""
        price, taken = {}, {}
        for name in self.runs():
            for reply in self.replies(name):
                words = reply.split()
                if words[:1] == ['ordered']:
                    price[words[1]] = int(words[3])
                if words[:1] == ['assigned'] and len(words) > 3:
                    assert taken.setdefault(words[1], words[2]) == words[2], reply
                if words[:1] == ['printed'] and self.word(name) == 'departments':
                    assert words[1] in taken, reply
        for row in books['departments']:
            spent = sum(price[job] for job, department in taken.items() if department == str(row['department']))
            assert row['spent'] == spent <= row['quota'], (row, spent)


def mark_of(line):
    """The device and piece of a line that is a mark of version 2."""
    if len(line) != 128 or line.strip('0123456789abcdef'):
        return None
    return f'd{int(line[4:8], 16)}', int(line[8:16], 16)


if __name__ == '__main__':
    sys.exit(Between(*sys.argv[1:]).all())

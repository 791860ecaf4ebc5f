"""Lines of a word's own: which they are, their answers, what a stop within one leaves in doubt, and what each did at the bench: the steps that the rules
of its word ask for, and their replies as its own answer tells them."""
import re

from marks import read_mark

# A claim scans under this number and its own.
RESERVED = 3_000_000_000
# The words with lines of their own whose runs are audited, and the node that the steps of these lines are for.
NODES = {'claims': b'verifier', 'departments': b'host', 'manifest': b'verifier', 'statement': b'centre'}
# The lines of a statement before its last one.
MOVEMENTS = (b'deposit ', b'reset ', b'refund ', b'withdraw ')


def events(script):
    """The lines that have an answer, with their numbers: up to `end`."""
    found = []
    for number, line in enumerate(script.split(b'\n'), 1):
        if line and not line.startswith(b'#'):
            found.append((number, line))
        if line == b'end':
            break
    return found


def answers_of(word, script, report):
    """Each line of the script that has an answer: its number, it, the place of its answer in the report, and so much of the answer as is there, with its
    line ends."""
    place = 0
    for number, event in events(script):
        end = place
        while end < len(report):
            line = report[end:].split(b'\n', 1)[0]
            end = min(end + len(line) + 1, len(report))
            if not (word == 'statement' and event == b'statement close' and line.startswith(MOVEMENTS)):
                break
        yield number, event, place, report[place:end]
        place = end


def last_line(answer):
    """The last line of an answer that is there to its end; None of another. A movement is followed by more lines."""
    line = answer[:-1].rsplit(b'\n', 1)[-1]
    return line if answer.endswith(b'\n') and not line.startswith(MOVEMENTS) else None


def is_own(word, event, answer):
    """Whether the line is one of the word's own. A scan under the number of a claim is one, and a print of a job that no department has."""
    if word == 'claims':
        scan = re.match(rb'scan (\d+) ', event)
        return event.startswith((b'claim ', b'credits ')) or scan and int(scan[1]) > RESERVED
    if word == 'departments':
        return event.startswith(b'dept ') or answer.startswith(b'refused dept unassigned ')
    return word in NODES and event.startswith(b'manifest ' if word == 'manifest' else b'statement ')


def has_steps(word, event, answer):
    """Whether an own line with this answer asked the bench for a step that may commit, by the rules of its word."""
    if word == 'claims':
        return event.startswith(b'claim ') and not answer.startswith(b'refused claim ') and not answer.rstrip(b'\n').endswith(b' again')
    if word == 'departments':
        return event.startswith(b'dept assign ') and not re.match(rb'refused dept (?!quota)|assigned .* again', answer)
    return word == 'manifest' and answer.startswith((b'manifest yes', b'manifest no piece'))


def is_in_doubt(word, event, answer, kept):
    """Whether it is in doubt what was done for an own line with this answer, of which the report has so many bytes."""
    prefix = answer[:kept].rstrip(b'\n')
    failures = [kind + b' ' + NODES[word] for kind in (b'power', b'fault')]
    if word == 'departments' and answer.startswith(b'quota '):
        return not prefix
    if not has_steps(word, event, answer):
        return False
    if word == 'manifest':
        front = b'manifest no piece '
        return front.startswith(prefix) or prefix.startswith(front)
    return any(failure.startswith(prefix) for failure in failures)


def piece_of(digits):
    """The device and the piece of the mark with these digits."""
    mark = read_mark(bytes.fromhex(digits))
    return 'd%d' % mark.device, mark.piece


class Steps:
    """The steps of a run of this word, line by line."""

    def __init__(self, word):
        self.word, self.first, self.marks, self.customer = word, 0, [], None

    def of(self, line, answer, is_accepted, message):
        """The steps of a line with this answer, each with its reply: an event of the bench is its own. `is_accepted` says of a piece whether it was accepted
        before, and `message` is the number that the next message of the run has."""
        event, reply = line.decode().split(), last_line(answer).decode().split()
        if not is_own(self.word, line, answer):
            return [(event, reply)]
        self.is_accepted, self.message = is_accepted, message
        return {'claims': self.of_claims, 'departments': self.of_departments, 'manifest': self.of_manifest, 'statement': self.of_statement}[self.word](
            event, reply)

    def scan(self, number, digits, reply=None):
        """The scan of a mark, which was accepted if no other reply is known: again if that was so before."""
        device, piece = piece_of(digits)
        again = 'again' if self.is_accepted(device, piece) else 'new'
        return ['scan', str(number), 'hex', digits], reply or ['accepted', device, str(piece), 'scan', str(number), again]

    def of_claims(self, event, reply):
        if event[0] != 'claim' or reply[-1] == 'again' or reply[:2] == ['refused', 'claim']:
            return []
        return [self.scan(RESERVED + int(event[1]), event[3], None if reply[0] == 'credited' else reply)]

    def of_departments(self, event, reply):
        if event[:2] != ['dept', 'assign'] or reply[-1] == 'again':
            return []
        if reply[0] == 'assigned' or reply[:3] == ['refused', 'dept', 'quota']:
            return [(['send', event[3]], ['sent', 'host', 'debit', event[3], 'msg', str(self.message)])]
        return [] if reply[:2] == ['refused', 'dept'] else [(['send', event[3]], reply)]

    def of_manifest(self, event, reply):
        if reply[:2] == ['manifest', 'open']:
            self.first, self.marks = int(event[2]), []
        elif reply[0] == 'piece':
            self.marks.append(event[2])
        elif reply[:2] == ['manifest', 'yes']:
            return [self.scan(self.first + at, mark) for at, mark in enumerate(self.marks)]
        elif reply[:3] == ['manifest', 'no', 'piece']:
            last = int(reply[3]) - 1
            return [self.scan(self.first + at, mark, reply[4:] if at == last else None) for at, mark in enumerate(self.marks[:last + 1])]
        return []

    def of_statement(self, event, reply):
        if reply[:2] == ['refused', 'statement']:
            return []
        if reply[0] == 'statement':
            self.customer = event[2]
        customer = event[2] if event[1] == 'open' else self.customer
        return [(['balance', customer], ['balance', customer, reply[-1]] if reply[0] in ('statement', 'closing') else reply)]

"""The bench: the day, the messages and the nodes. Each event is answered by one reply, and makes at most one commit."""
import os

from centre import Centre
from device import Device
from host import Host
from messages import receiver
from plans import NoRecord, Refused
from rates import LONGEST, BadRates, Rates
from storage import Cells, Damaged, Power, Storage, Worn
from verifier import Verifier

DEVICES = ['d%d' % number for number in range(1, 9)]
NODES = DEVICES + ['centre', 'host', 'verifier']
CLASSES = {'centre': Centre, 'host': Host, 'verifier': Verifier}


def file_name(node):
    return 'device-%s.nv' % node[1:] if node in DEVICES else node + '.nv'


def boot(node, payloads):
    """A node by the payloads of its cells."""
    if node in DEVICES:
        return Device.read(int(node[1:]), payloads)
    return CLASSES[node].read(payloads)


class CannotUse(Exception):
    """A file that can't be used; its text is the file's name."""


def storage_of(folder, name, size):
    """A storage in its file, which is made if it is missing."""
    try:
        return Storage(os.path.join(folder, name), size)
    except OSError:
        raise CannotUse(name)


def check_files(folder, names):
    """Finds a storage that is there and can't be used, before any is made."""
    for name in names:
        path = os.path.join(folder, name)
        if os.path.lexists(path) and not (os.path.isfile(path) and os.access(path, os.R_OK | os.W_OK)):
            raise CannotUse(name)


class Answer(Exception):
    """The reply to the event in hand, ahead of all that would follow."""


class Bench:
    def __init__(self, folder, own_files=(), look=lambda: None):
        self.cells = {}
        check_files(folder, [file_name(node) for node in NODES] + list(own_files))
        look()
        for node in NODES:
            kind = CLASSES.get(node, Device)
            storage = storage_of(folder, file_name(node), kind.cells * kind.slots * (5 + kind.payload_size))
            self.cells[node] = Cells(storage, kind.cells, kind.slots, kind.payload_size)
        self.rates_file = self.prints_file = None
        self.nodes = {}
        self.torn = {}
        self.day = None
        self.rates = None
        self.messages = []
        self.counted = lambda plan: None

    def open_streams(self, folder):
        """Opens the rates, if there are any, and the printer."""
        name = 'rates.toml'
        try:
            path = os.path.join(folder, name)
            self.rates_file = os.open(path, os.O_RDONLY) if os.path.exists(path) else None
            name = 'prints.txt'
            self.prints_file = os.open(os.path.join(folder, name), os.O_WRONLY | os.O_APPEND | os.O_CREAT, 0o666)
        except OSError:
            raise CannotUse(name)

    def close(self):
        for cells in self.cells.values():
            cells.storage.close()
        for file in (self.rates_file, self.prints_file):
            if file is not None:
                os.close(file)

    def step(self, event):
        """Does an event and answers its reply."""
        name, *values = event
        try:
            return self.answer(name, values)
        except Answer as answer:
            return str(answer)

    def answer(self, name, values):
        if name == 'end':
            return 'end'
        if name == 'day':
            self.day = values[0]
            return 'day %d' % self.day
        if self.day is None:
            return 'no day'
        if name in ('rates', 'cut', 'on', 'off', 'reconcile'):
            return getattr(self, 'do_' + name)(*values)
        return self.carry_out(*call(self, name, values))

    def node(self, name):
        if name not in self.nodes:
            raise Answer('off ' + name)
        return self.nodes[name]

    def message(self, number):
        if number >= len(self.messages):
            raise Answer('no message %d' % number)
        return self.messages[number]

    def carry_out(self, name, decide):
        """Lets a node decide, commits, prints and sends."""
        node = self.node(name)
        try:
            plan = decide(node)
        except Refused as refusal:
            return 'refused %s %s' % (name, refusal)
        if plan.change:
            self.commit(name, plan)
        if plan.printed and not self.print_line(plan.printed):
            return 'printer fault ' + plan.text.split()[1]
        if plan.message is None:
            return plan.text
        self.messages.append(plan.message)
        return '%s msg %d' % (plan.text, len(self.messages) - 1)

    def commit(self, name, plan):
        node, cells = self.nodes[name], self.cells[name]
        before = cells.commits()
        try:
            cells.commit(plan.change[0], node.write(*plan.change))
        except Worn:
            raise Answer('worn ' + name)
        except Power:
            del self.nodes[name]
            self.torn[name] = (before + 1, plan)
            raise Answer('power ' + name)
        self.nodes[name] = node.changed(plan.change)
        self.counted(plan)

    def print_line(self, line):
        data = line.encode()
        try:
            while data:
                data = data[os.write(self.prints_file, data):]
        except OSError:
            return False
        return True

    def do_rates(self):
        text = b''
        try:
            while len(text) <= LONGEST:
                more = os.read(self.rates_file, LONGEST + 1 - len(text)) if self.rates_file is not None else b''
                if not more:
                    break
                text += more
        except OSError:
            return 'rates fault'
        try:
            rates = Rates(text)
        except BadRates as cause:
            return 'rates %s' % cause
        self.rates = rates
        return 'rates %d %d' % (len(rates.classes), rates.zones)

    def do_cut(self, name, calls, keep, byte):
        self.cells[name].storage.arm(calls, keep, byte[0])
        return 'cut ' + name

    def do_on(self, name):
        if name in self.nodes:
            return 'on already ' + name
        try:
            self.nodes[name] = boot(name, self.cells[name].mount())
        except Power:
            return 'power ' + name
        except (Damaged, NoRecord):
            return 'damaged ' + name
        commits = self.cells[name].commits()
        count, plan = self.torn.pop(name, (None, None))
        if count == commits:
            self.counted(plan)
        return 'up %s commits %d' % (name, commits)

    def do_off(self, name):
        self.node(name)
        del self.nodes[name]
        return 'down ' + name

    def do_reconcile(self, device):
        record_of = self.node('d%d' % device)
        centre = self.node('centre')
        try:
            name = 'd%d' % device
            record = record_of.record()
            name = 'centre'
            stands, flight = centre.standing(device)
        except Refused as refusal:
            return 'refused %s %s' % (name, refusal)
        return 'reconcile d%d device %d centre %d in-flight %s' % (
            device, record.ascending + record.descending, stands, '%s %d' % flight if flight else 'none')


def call(bench, name, values):
    """The node that an event needs, and what it asks of it."""
    day = bench.day
    if name in ('deliver', 'give'):
        data = bench.message(values[0]) if name == 'deliver' else values[1]
        to = receiver(data) if name == 'deliver' else values[0]
        return to, (lambda node: node.take(day, data)) if to in DEVICES else (lambda node: node.take(data))
    if name in ('scan msg', 'scan hex'):
        data = bench.message(values[1])[2:] if name == 'scan msg' else values[1]
        return 'verifier', lambda node: node.scan(day, values[0], data)
    if name == 'trust':
        return 'verifier', lambda node: node.trust(*values)
    if name == 'order':
        return 'host', lambda node: node.order(bench.rates, *values)
    if name in ('send', 'print', 'close'):
        return 'host', lambda node: getattr(node, name)(*values)
    if name in ('suspend', 'resume'):
        return 'centre', lambda node: node.flag(values[0], name == 'suspend')
    if name in ('register', 'customer', 'deposit', 'balance'):
        return 'centre', lambda node: getattr(node, name)(*values)
    device = 'd%d' % values[0]
    if name.startswith('ask '):
        return device, lambda node: node.ask(day, name[4:], *values[1:])
    if name == 'make':
        return device, lambda node: node.make(values[1])
    return device, lambda node: getattr(node, name)(day, *values[1:])

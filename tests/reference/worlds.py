"""A judge of several runs over one folder, by their scripts and reports. It keeps each state that the meters may be in, as a set of worlds:
a stop leaves the event in hand not begun, torn or done, and a commit whose power was lost counts or doesn't."""
import copy

from bench import NODES, Answer, Bench, boot, call
from grammar import EVENTS, LONGEST, BadLine, Grammar
from marks import Unread, code_matches, read_mark
from messages import Done, Release, Reply, Request, read_message
from plans import Refused
from rates import LONGEST as LONGEST_RATES
from rates import BadRates, Rates

LINES = 1_000_000
GRAMMAR = Grammar(EVENTS)


class Forged(Exception):
    """Bytes come from outside that bear a node's own code, and no run has sent or released them."""


class World(Bench):
    """One state. `kept` has all nodes, `nodes` those that are on, `open` the commit of each node that is in doubt."""

    def __init__(self):
        self.kept = {node: boot(node, {}) for node in NODES}
        self.counts = dict.fromkeys(NODES, 0)
        self.open = {}
        self.sent = self.released = frozenset()
        self.begin(b'')

    def begin(self, rates_text, word='replay'):
        self.nodes, self.messages = {}, []
        self.day = self.rates = None
        self.rates_text = rates_text
        self.word = word

    def read_line(self, line):
        """The event of a line of a run of this word."""
        return GRAMMAR.read(line)

    def changed(self, **fields):
        world = copy.copy(self)
        for name, value in fields.items():
            setattr(world, name, value)
        return world

    def key(self):
        """What tells two worlds apart."""
        records = tuple((node, self.counts[node], sorted(self.kept[node].records.items())) for node in NODES)
        return repr((records, sorted(self.nodes), sorted((node, plan.change) for node, plan in self.open.items()), self.day,
                     self.rates and sorted(self.rates.classes.items()), self.rates_text, self.messages, sorted(self.sent), sorted(self.released)))

    def outcomes(self, event):
        """Each answer that may be given, with the world behind it. None is in the place of an answer if the run may be stopped there without one."""
        name, *values = event
        if self.is_forged(event):
            raise Forged()
        try:
            if name == 'end':
                return [('end', self)]
            if name == 'day':
                return [('day %d' % values[0], self.changed(day=values[0]))]
            if self.day is None:
                return [('no day', self)]
            if name == 'cut':
                return [('cut ' + values[0], self)]
            if name == 'reconcile':
                return [(self.do_reconcile(*values), self)]
            if name in ('rates', 'on', 'off'):
                return getattr(self, name + '_outcomes')(*values)
            return self.node_outcomes(*call(self, name, values))
        except Answer as answer:
            return [(str(answer), self)]

    def rates_outcomes(self):
        taken, rest = self.rates_text[:LONGEST_RATES + 1], self.rates_text[LONGEST_RATES + 1:]
        try:
            rates = Rates(taken)
            right = ('rates %d %d' % (len(rates.classes), rates.zones), self.changed(rates=rates, rates_text=rest))
        except BadRates as cause:
            right = ('rates %s' % cause, self.changed(rates_text=rest))
        return [right] + [('rates fault', self.changed(rates_text=self.rates_text[at:])) for at in range(len(taken) + 1)]

    def failed(self, node, **fields):
        return [('%s %s' % (word, node), self.changed(**fields)) for word in ('power', 'fault')]

    def on_outcomes(self, node):
        if node in self.nodes:
            return [('on already ' + node, self)]
        still = {name: plan for name, plan in self.open.items() if name != node}
        worlds = [self.changed(open=still)]
        if node in self.open:
            worlds.append(worlds[0].committed(node, self.open[node]))
        up = [('up %s commits %d' % (node, world.counts[node]), world.changed(nodes={**world.nodes, node: world.kept[node]}))
              for world in worlds]
        return up + self.failed(node)

    def off_outcomes(self, node):
        self.node(node)
        return [('down ' + node, self.changed(nodes={name: at for name, at in self.nodes.items() if name != node}))]

    def committed(self, node, plan):
        after = self.kept[node].changed(plan.change)
        nodes = {**self.nodes, node: after} if node in self.nodes else self.nodes
        return self.changed(kept={**self.kept, node: after}, nodes=nodes, counts={**self.counts, node: self.counts[node] + 1})

    def told(self, plan):
        """The world behind what a plan sends and releases, and its reply."""
        world, text = self, plan.text
        if text.startswith('mark '):
            world = world.changed(released=world.released | {bytes.fromhex(text.split()[-1])})
        if plan.message is None:
            return text, world
        if plan.message[:2] == b'\x01\x11':
            world = world.changed(released=world.released | {plan.message[2:]})
        messages = world.messages + [plan.message]
        return '%s msg %d' % (text, len(messages) - 1), world.changed(messages=messages, sent=world.sent | {plan.message})

    def node_outcomes(self, node, decide):
        try:
            plan = decide(self.node(node))
        except Refused as refusal:
            return [('refused %s %s' % (node, refusal), self)]
        if plan.change is None:
            return [self.told(plan)]
        done = self.committed(node, plan)
        others = {name: at for name, at in self.nodes.items() if name != node}
        outcomes = [done.told(plan)] + self.failed(node, open={**self.open, node: plan}, nodes=others)
        if plan.printed:
            outcomes.append(('printer fault ' + plan.text.split()[1], done))
        return outcomes

    def is_forged(self, event):
        """Whether bytes come from outside that bear a node's own code and were never sent or released."""
        name, *values = event
        try:
            if name == 'scan hex':
                mark, keys = read_mark(values[1]), self.kept['verifier'].records
                trusted = 1 <= mark.device <= 8 and mark.device - 1 in keys
                return trusted and code_matches(values[1], keys[mark.device - 1]) and values[1] not in self.released
            message = read_message(values[1]) if name == 'give' else None
        except Unread:
            return False
        if message is None or isinstance(message, Release):
            return message is not None and values[0] == 'host' and message.mark not in self.released
        rows = self.kept[values[0]].records
        if isinstance(message, Reply) and values[0] == 'd%d' % message.device:
            return 0 in rows and code_matches(values[1], rows[0].key) and values[1] not in self.sent
        if isinstance(message, (Request, Done)) and values[0] == 'centre':
            row = rows.get(message.device - 1) if 1 <= message.device <= 8 else None
            return row is not None and code_matches(values[1], row.key) and values[1] not in self.sent
        return False


def events_of(script, read_line=GRAMMAR.read):
    """The events up to the first `end`, each with its line's number, and the line at which the script ends badly or None."""
    lines = script.split(b'\n')
    if lines[-1] == b'':
        lines.pop()
    events = []
    for number, line in enumerate(lines, 1):
        if len(line) <= LONGEST and (line == b'' or line.startswith(b'#')):
            continue
        try:
            events.append((number, read_line(line if len(line) <= LONGEST else b'')))
        except BadLine:
            return events, number
        if events[-1][1][0] == 'end':
            return events, None
    return events, len(lines) + 1


def distinct(worlds):
    return list({world.key(): world for world in worlds}.values()) if len(worlds) > 1 else worlds


def outcomes_of(worlds, event):
    """Each outcome of an event in these worlds, and whether each of them comes to forged bytes."""
    outcomes, forged = [], 0
    for world in worlds:
        try:
            for text, after in world.outcomes(event):
                outcomes.append((text if text is None else text.encode(), after))
        except Forged:
            forged += 1
    return outcomes, forged == len(worlds)


def stop_at(worlds, outcomes, rest):
    """The worlds in which a run may be stopped at an event, of whose answer the report has the rest."""
    if not rest:
        return distinct(worlds + [world for _, world in outcomes])
    return distinct([world for text, world in outcomes if text is not None and text.startswith(rest)])


def judge_run(worlds, script, report, rates_text, word='replay'):
    """The verdict on a run, with a line's number for some, and the worlds behind it."""
    worlds = [copy.copy(world) for world in worlds]
    for world in worlds:
        world.begin(rates_text, word)
    events, bad_line = events_of(script, (worlds or [World()])[0].read_line)
    place = 0
    for number, event in events:
        outcomes, is_forged = outcomes_of(worlds, event)
        whole = [(text, world) for text, world in outcomes if text is not None and report.startswith(text + b'\n', place)]
        if not whole:
            after = stop_at(worlds, outcomes, report[place:])
            if after:
                return ('stopped', number), after
            return ('forged' if is_forged else 'wrong', number), []
        # No answer is the beginning of another one, so these are the same.
        place += len(whole[0][0]) + 1
        worlds = distinct([world for _, world in whole])
    if place < len(report):
        return ('more', None), []
    return ('lawful', bad_line), worlds


def judge(runs, kind=World):
    """The verdicts on runs (script, report, rates text) over one folder that is blank at first, up to the first that isn't possible."""
    worlds, verdicts = [kind()], []
    for run in runs:
        verdict, worlds = judge_run(worlds, *run)
        verdicts.append(verdict)
        if not worlds:
            break
    return verdicts

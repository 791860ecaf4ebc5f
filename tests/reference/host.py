"""The host: jobs, and the greatest piece held of each device."""
import struct
from collections import namedtuple

from marks import Unread, read_mark, reads_as_mark
from messages import Debit, Release, read_message, write_message
from plans import Plan, Refused, require
from rates import NoPrice

CELLS = 1024
STATES = ('ordered', 'held', 'begun', 'closed')
Job = namedtuple('Job', 'job device piece postage mail_class state tops mark')
LAYOUT = struct.Struct('>IIIIHB8I64s')


def read_job(cell, payload):
    job, device, piece, postage, mail_class, state, *tops, mark = LAYOUT.unpack(payload)
    require(job >= 1 and (job - 1) % CELLS == cell and 1 <= device <= 8 and 1 <= postage <= 100_000 and piece >= 1)
    require(1 <= state <= 4)
    record = Job(job, device, piece, postage, mail_class, STATES[state - 1], tuple(tops), mark if any(mark) else b'')
    require(record.state != 'ordered' or not record.mark)
    require(record.state not in ('held', 'begun') or record.mark)
    if record.mark:
        require(reads_as_mark(mark))
        read = read_mark(mark)
        require((read.device, read.piece, read.postage, read.mail_class) == (device, piece, postage, mail_class))
        require(tops[device - 1] >= piece)
    return record


class Host:
    """A host that is on."""
    name, payload_size, cells, slots = 'host', LAYOUT.size, CELLS, 2

    def __init__(self, records):
        self.records = records

    @classmethod
    def read(cls, payloads):
        host = cls({cell: read_job(cell, payload) for cell, payload in payloads.items()})
        jobs = {record.job for record in host.records.values()}
        last = host.last_job()
        require(jobs == set(range(max(1, last - CELLS + 1), last + 1)))
        tops = host.tops()
        ordered = [record for record in host.records.values() if record.state == 'ordered']
        require(len({record.device for record in ordered}) == len(ordered))
        require(all(record.piece > tops[record.device - 1] for record in ordered))
        return host

    def write(self, cell, record):
        return LAYOUT.pack(*record[:5], STATES.index(record.state) + 1, *record.tops, record.mark.ljust(64, b'\0'))

    def changed(self, change):
        return Host({**self.records, change[0]: change[1]})

    def last_job(self):
        return max((record.job for record in self.records.values()), default=0)

    def tops(self):
        return tuple(max(column) for column in zip((0,) * 8, *(record.tops for record in self.records.values())))

    def ordered_job(self, device):
        for record in self.records.values():
            if record.device == device and record.state == 'ordered':
                return record
        return None

    def job(self, job):
        record = self.records.get((job - 1) % CELLS)
        if job == 0 or record is None or record.job != job:
            raise Refused('no job')
        return record

    def order(self, rates, device, piece, mail_class, grams, zone):
        if rates is None:
            raise Refused('no rates')
        try:
            postage = rates.price(mail_class, grams, zone)
        except NoPrice as cause:
            raise Refused(str(cause))
        open_job = self.ordered_job(device)
        if open_job:
            raise Refused('open job %d' % open_job.job)
        if piece <= self.tops()[device - 1]:
            raise Refused('piece used %d' % self.tops()[device - 1])
        job = self.last_job() + 1
        if job == 2**32:
            raise Refused('number full')
        cell = (job - 1) % CELLS
        if cell in self.records and self.records[cell].state != 'closed':
            raise Refused('jobs full %d' % self.records[cell].job)
        return Plan('ordered %d postage %d' % (job, postage),
                    (cell, Job(job, device, piece, postage, mail_class, 'ordered', self.tops(), b'')))

    def change(self, record, **fields):
        return (record.job - 1) % CELLS, record._replace(tops=self.tops())._replace(**fields)

    def send(self, job):
        record = self.job(job)
        if record.state != 'ordered':
            raise Refused('state ' + record.state)
        return Plan('sent host debit %d' % job, None,
                    write_message(Debit(record.device, record.piece, record.postage, record.mail_class)))

    def take(self, data):
        """A Release."""
        try:
            message = read_message(data)
            if not isinstance(message, Release):
                raise Unread('tag')
        except Unread as cause:
            raise Refused('unread %s' % cause)
        mark = read_mark(message.mark)
        record = self.ordered_job(mark.device)
        if record is None:
            raise Refused('no job')
        if mark.piece != record.piece:
            raise Refused('other piece %d' % record.piece)
        if mark.postage != record.postage:
            raise Refused('other postage %d' % record.postage)
        if mark.mail_class != record.mail_class:
            raise Refused('other class %d' % record.mail_class)
        tops = list(self.tops())
        tops[record.device - 1] = max(tops[record.device - 1], record.piece)
        return Plan('held %d' % record.job, self.change(record, state='held', tops=tuple(tops), mark=message.mark))

    def print(self, job):
        record = self.job(job)
        if record.state != 'held':
            raise Refused('state ' + record.state)
        return Plan('printed %d' % job, self.change(record, state='begun'), printed=record.mark.hex() + '\n')

    def close(self, job):
        record = self.job(job)
        if record.state == 'closed':
            raise Refused('state closed')
        return Plan('closed %d' % job, self.change(record, state='closed'))

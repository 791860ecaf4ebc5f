"""The word `departments`: each has a quota of postage, and only the jobs that one of them took are printed."""
import struct
from collections import namedtuple

from desk import Desk, Refusal
from messages import read_message
from plans import require

DEPARTMENTS = 16
JOBS = 64
Job = namedtuple('Job', 'job postage')
QUOTA = struct.Struct('>III')


def read_quota(cell, payload):
    department, quota, zero = QUOTA.unpack(payload)
    require(department == cell + 1 and zero == 0)
    return quota


def read_job(cell, payload):
    job, department, postage = QUOTA.unpack(payload)
    require(job >= 1 and department == (cell - DEPARTMENTS) // JOBS + 1 and 1 <= postage <= 100_000)
    return Job(job, postage)


class Departments(Desk):
    file_name, payload_size, cell_count = 'departments.nv', QUOTA.size, DEPARTMENTS * (JOBS + 1)
    own_files = (file_name,)
    own_lines = 'dept quota DEPT U32\ndept assign DEPT U32\ndept spent DEPT\n'

    def read(self, payloads):
        self.records = {cell: (read_quota if cell < DEPARTMENTS else read_job)(cell, payload) for cell, payload in payloads.items()}
        for department in range(1, DEPARTMENTS + 1):
            first = self.first_cell(department)
            held = [cell - first for cell in self.records if first <= cell < first + JOBS]
            require(sorted(held) == list(range(len(held))))
            require(not held or self.records.get(department - 1, -1) >= self.spent(department))
        jobs = [record.job for cell, record in self.records.items() if cell >= DEPARTMENTS]
        require(len(set(jobs)) == len(jobs))
        return self.records

    def write(self, cell, record):
        if cell < DEPARTMENTS:
            return QUOTA.pack(cell + 1, record, 0)
        return QUOTA.pack(record.job, (cell - DEPARTMENTS) // JOBS + 1, record.postage)

    def first_cell(self, department):
        return DEPARTMENTS + JOBS * (department - 1)

    def jobs(self, department):
        first = self.first_cell(department)
        return [self.records[cell] for cell in range(first, first + JOBS) if cell in self.records]

    def spent(self, department):
        return sum(job.postage for job in self.jobs(department))

    def owner(self, job):
        """The department that has a job."""
        for cell, record in self.records.items():
            if cell >= DEPARTMENTS and record.job == job:
                return (cell - DEPARTMENTS) // JOBS + 1
        return None

    def do_dept_quota(self, department, quota):
        if quota < self.spent(department):
            raise Refusal('refused dept below spent %d' % self.spent(department))
        self.commit(department - 1, quota)
        return 'quota %d %d' % (department, quota)

    def quota(self, department):
        if department - 1 not in self.records:
            raise Refusal('refused dept unknown %d' % department)
        return self.records[department - 1]

    def do_dept_assign(self, department, job):
        left = self.quota(department) - self.spent(department)
        owner = self.owner(job)
        if owner == department:
            return 'assigned %d %d again' % (job, department)
        if owner:
            raise Refusal('refused dept assigned %d' % job)
        count = len(self.jobs(department))
        if count == JOBS:
            raise Refusal('refused dept full')
        answer = self.bench.step(('send', job))
        if not answer.startswith('sent '):
            return answer
        postage = read_message(self.bench.messages[-1]).postage
        if postage > left:
            raise Refusal('refused dept quota %d' % left)
        self.commit(self.first_cell(department) + count, Job(job, postage))
        return 'assigned %d %d left %d' % (job, department, left - postage)

    def do_dept_spent(self, department):
        quota = self.quota(department)
        return 'spent %d %d quota %d' % (department, self.spent(department), quota)

    def replaced(self, event):
        """The departments' own answer to a line of the plain script."""
        if event[0] == 'print' and self.owner(event[1]) is None:
            return 'refused dept unassigned %d' % event[1]
        return None

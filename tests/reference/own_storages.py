"""The storages of claims and of departments, which belong to no node: runs that leave some, what they show, and what is said of one that shows something else."""
import hashlib
import os

from bench import CannotUse
from claims import Claims
from departments import DEPARTMENTS, JOBS, Departments

KINDS = {kind.file_name: kind for kind in (Claims, Departments)}
SIZES = {'claims.nv': 159744, 'departments.nv': 35360}


def day(number, *lines):
    return b''.join(line + b'\n' for line in (b'day 2026-03-%02d' % number,) + lines + (b'end',))


def days(first):
    """Runs over one folder: the word of each, and its script by the marks that the runs before gave out. The first one, which is given, has one claim."""
    return [('claims', lambda marks: first),
            ('replay', lambda marks: day(2, b'on d1', *[b'debit d1 %d 550 1' % piece for piece in (2, 3, 4)])),
            ('claims', lambda marks: day(3, b'on verifier', b'claim 2 1 ' + marks[0], b'scan 9 hex ' + marks[1], b'claim 3 2 ' + marks[1], b'credits 1')),
            ('departments', lambda marks: day(4, b'rates', b'on host', b'on d1', b'dept quota 1 2000', b'dept quota 2 4000', b'close 1', b'order d1 5 1 25 1',
                                              b'dept assign 1 2', b'close 2')),
            ('departments', lambda marks: day(5, b'rates', b'on host', b'on d1', b'dept quota 2 5000', b'order d1 6 1 25 1', b'dept assign 1 3', b'dept spent 1'))]


def records_in(folder, name):
    """What the storage of this name shows, by its cells; None if it is none that a meter leaves."""
    try:
        desk = KINDS[name](None, folder)
    except CannotUse:
        return None
    desk.close()
    return desk.records


def claim_text(claim):
    if claim is None:
        return 'no claim'
    return '%s customer %d' % ('credited to' if claim.credited else 'open for', claim.customer)


def row_text(cell, record):
    if record is None:
        return 'no quota' if cell < DEPARTMENTS else 'no job'
    return 'quota %d' % record if cell < DEPARTMENTS else 'job %d with postage %d' % record


def other_line(name, due, found):
    """What is said of the storage of this name if it shows the second records, and the first are due: None if they are the same."""
    if found is None:
        return no_record(name)
    cell = next((cell for cell in range(KINDS[name].cell_count) if due.get(cell) != found.get(cell)), None)
    if cell is None:
        return None
    if name == 'claims.nv':
        wanted, shown = claim_text(due.get(cell)), claim_text(found.get(cell))
        return 'claims.nv claim %d: due %s, found %s' % (cell + 1, wanted, 'another mark' if wanted == shown else shown)
    department = cell + 1 if cell < DEPARTMENTS else (cell - DEPARTMENTS) // JOBS + 1
    return 'departments.nv department %d: due %s, found %s' % (department, row_text(cell, due.get(cell)), row_text(cell, found.get(cell)))


def no_record(name):
    return name + ' shows no record that a meter leaves'


def digest_lines(folder):
    """What is said of the bytes of those that are there."""
    lines = []
    for name in KINDS:
        path = os.path.join(folder, name)
        if os.path.exists(path):
            with open(path, 'rb') as file:
                lines.append('folder %s has %s with digest %s' % (folder, name, hashlib.sha256(file.read()).hexdigest()))
    return lines


def slot_bytes(name, image, is_newest):
    """The place of each byte of the newest slot of each cell, or of the one before it."""
    kind, places = KINDS[name], []
    width = 5 + kind.payload_size
    for cell in range(kind.cell_count):
        slots = [2 * cell * width, (2 * cell + 1) * width]
        counts = {int.from_bytes(image[at + 1:at + 5], 'big'): at for at in slots if image[at] == 0xA5}
        if counts:
            newest = counts[max(counts)]
            at = newest if is_newest else sum(slots) - newest
            places += range(at, at + width)
    return places

"""Runs both meters over folders of their own, and says where they differ: report, standard error, status, prints, storages."""
import os
import subprocess
import sys
import tempfile

import program
from bench import NODES, file_name

# What each byte of a payload is, by the place where a field begins.
DEVICE = {'device': 0, 'phase': 4, 'key': 5, 'ascending': 37, 'descending': 45, 'refunded': 53, 'pieces': 61, 'number': 65,
          'deadline': 69, 'last day': 73, 'customer': 77, 'origin': 81, 'pending': 85, 'request': 86, 'mark': 141, 'zeros': 205}
ROW = {'device': 0, 'state': 4, 'customer': 5, 'origin': 9, 'key': 13, 'ruled': 45, 'settled': 49, 'buys': 53, 'returns': 61,
       'request': 69, 'reply': 124, 'zeros': 152}
CUSTOMER = {'customer': 0, 'suspended': 4, 'deposits': 5, 'receipt': 13, 'amount': 17, 'zeros': 21}
JOB = {'job': 0, 'device': 4, 'piece': 8, 'postage': 12, 'class': 16, 'state': 18, 'tops': 19, 'mark': 51}
TRUST = {'device': 0, 'key': 4, 'zeros': 36}
BLOCK = {'device': 0, 'block': 4, 'scans': 8}
CLAIM = {'claim': 0, 'customer': 4, 'state': 8, 'mark': 9}
QUOTA = {'department': 0, 'quota': 4, 'zeros': 8}
DEPARTMENT_JOB = {'job': 0, 'department': 4, 'postage': 8}
# The file, its payload's size, its slots in a cell, and the fields of a cell's payload.
LAYOUTS = {'centre.nv': (192, 2, lambda cell: ROW if cell < 8 else CUSTOMER), 'host.nv': (115, 2, lambda cell: JOB),
           'verifier.nv': (2056, 2, lambda cell: TRUST if cell < 8 else BLOCK), 'claims.nv': (73, 2, lambda cell: CLAIM),
           'departments.nv': (12, 2, lambda cell: QUOTA if cell < 16 else DEPARTMENT_JOB)}
FILES = [file_name(node) for node in NODES] + ['claims.nv', 'departments.nv', 'prints.txt']


def place(name, at):
    """The cell, slot and field of a byte in a storage."""
    size, slots, fields = LAYOUTS.get(name, (209, 16, lambda cell: DEVICE))
    slot, inner = divmod(at, 5 + size)
    where = 'byte %d, cell %d, slot %d, ' % (at, slot // slots, slot % slots)
    if inner < 5:
        return where + ('gate' if inner == 0 else 'count')
    names = fields(slot // slots)
    field = max((start, name) for name, start in names.items() if start <= inner - 5)
    return where + '%s, byte %d of it' % (field[1], inner - 5 - field[0])


def read(folder, name):
    path = os.path.join(folder, name)
    if not os.path.exists(path):
        return None
    with open(path, 'rb') as file:
        return file.read()


def run_reference(words, folder, script):
    """The status, report and standard error of the meter in Python."""
    with tempfile.TemporaryFile() as text, tempfile.TemporaryFile() as report:
        text.write(script)
        text.flush()
        text.seek(0)
        status, line = program.run(words, folder, text.fileno(), report.fileno())
        report.seek(0)
        return status, report.read(), (line + '\n').encode() if line else b''


def a_program(path):
    """The path of a built program; ends with status 2 if there is none."""
    if not (os.path.isfile(path) and os.access(path, os.X_OK)):
        print('a built program is needed, and %s is none' % (path or 'nothing'), file=sys.stderr)
        sys.exit(2)
    return os.path.abspath(path)


def run_program(path, words, folder, script):
    done = subprocess.run([path] + words, cwd=folder, input=script, capture_output=True)
    return done.returncode, done.stdout, done.stderr


def shown(lines, at):
    return lines[at].decode('latin-1')[:300] if at < len(lines) else '(none)'


def report_difference(script, wanted, got):
    """Where two reports differ first, with the line of the script if each line has one answer."""
    wanted, got = wanted.split(b'\n'), got.split(b'\n')
    at = next((at for at, pair in enumerate(zip(wanted, got)) if pair[0] != pair[1]), min(len(wanted), len(got)))
    lines = [line for line in script.split(b'\n') if line and not line.startswith(b'#')]
    text = ['report line %d: reference %r, program %r' % (at + 1, shown(wanted, at), shown(got, at))]
    if at:
        text.append('the line before it: %s -> %s' % (shown(lines, at - 1), shown(wanted, at - 1)))
    return text + ['the line of the script, if each has one answer: %s' % shown(lines, at)]


def differences(script, wanted, got, folders):
    """What differs of two runs' status, report and standard error, and of the files in their folders."""
    found = []
    if wanted[1] != got[1]:
        found += report_difference(script, wanted[1], got[1])
    for what, want, have in (('status', wanted[0], got[0]), ('standard error', wanted[2], got[2])):
        if want != have:
            found.append('%s: reference %r, program %r' % (what, want, have))
    for name in FILES:
        want, have = (read(folder, name) for folder in folders)
        if want == have or name == 'prints.txt' and not want and not have:
            continue
        if want is None or have is None or len(want) != len(have):
            found.append('%s: %s' % (name, ', '.join('none' if data is None else '%d bytes' % len(data) for data in (want, have))))
            continue
        at = next(at for at, pair in enumerate(zip(want, have)) if pair[0] != pair[1])
        where = 'byte %d' % at if name == 'prints.txt' else place(name, at)
        found.append('%s: %s: reference %s, program %s' % (name, where, want[at:at + 8].hex(), have[at:at + 8].hex()))
    return found

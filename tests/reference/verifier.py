"""The verifier: the keys that it trusts, and the pieces that it accepted."""
import struct
from collections import namedtuple

from marks import Unread, code_matches, read_mark
from plans import Plan, Refused, new_or_again, require

BLOCK = 512
FIRST_CELL = 8
LIFE = 30
# `scans` has the number of the scan that accepted each of 512 pieces, and 0 for a piece that was not accepted.
Block = namedtuple('Block', 'device number scans')
LAYOUT = struct.Struct('>II512I')


def read_trust(device, payload):
    require(int.from_bytes(payload[:4], 'big') == device and not any(payload[36:]))
    return payload[4:36]


def read_block(payload):
    device, number, *scans = LAYOUT.unpack(payload)
    require(number <= 8_388_607 and any(scans))
    return Block(device, number, tuple(scans))


class Verifier:
    """A verifier that is on. Cells 0 to 7 have keys, the others blocks."""
    name, payload_size, cells, slots = 'verifier', LAYOUT.size, 1032, 2

    def __init__(self, records):
        self.records = records

    @classmethod
    def read(cls, payloads):
        verifier = cls({cell: read_trust(cell + 1, payload) if cell < FIRST_CELL else read_block(payload)
                        for cell, payload in payloads.items()})
        blocks = {cell: record for cell, record in verifier.records.items() if cell >= FIRST_CELL}
        require(sorted(blocks) == list(range(FIRST_CELL, FIRST_CELL + len(blocks))))
        require(all(1 <= block.device <= 8 and block.device - 1 in verifier.records for block in blocks.values()))
        require(len({block[:2] for block in blocks.values()}) == len(blocks))
        return verifier

    def write(self, cell, record):
        if cell < FIRST_CELL:
            return (cell + 1).to_bytes(4, 'big') + record + bytes(2020)
        return LAYOUT.pack(record.device, record.number, *record.scans)

    def changed(self, change):
        return Verifier({**self.records, change[0]: change[1]})

    def trust(self, device, key):
        if device - 1 in self.records:
            raise Refused('known')
        return Plan('trusted d%d' % device, (device - 1, key))

    def cell_of(self, device, number):
        """The cell of a block, or the next cell if there is no such block."""
        for cell, record in self.records.items():
            if cell >= FIRST_CELL and record.device == device and record.number == number:
                return cell
        return FIRST_CELL + sum(cell >= FIRST_CELL for cell in self.records)

    def scan(self, day, number, data):
        try:
            mark = read_mark(data)
        except Unread as cause:
            raise Refused('unread %s' % cause)
        if not 1 <= mark.device <= 8 or mark.device - 1 not in self.records:
            raise Refused('unknown device %d' % mark.device)
        if not code_matches(data, self.records[mark.device - 1]):
            raise Refused('bad code')
        place, at = mark.piece % BLOCK, mark.piece // BLOCK
        cell = self.cell_of(mark.device, at)
        block = self.records.get(cell, Block(mark.device, at, (0,) * BLOCK))
        text = 'accepted d%d %d scan %d ' % (mark.device, mark.piece, number)
        first = block.scans[place]
        if first == number:
            return Plan(text + new_or_again(True))
        if first:
            raise Refused('duplicate %d' % first)
        if mark.day > day:
            raise Refused('future %d' % mark.day)
        if day > mark.day + LIFE:
            raise Refused('too old %d' % mark.day)
        if cell == self.cells:
            raise Refused('blocks full')
        scans = block.scans[:place] + (number,) + block.scans[place + 1:]
        return Plan(text + new_or_again(False), (cell, block._replace(scans=scans)))

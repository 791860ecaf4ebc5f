"""The word `claims`: spoiled pieces are credited by using them up at the verifier."""
import struct
from collections import namedtuple

from desk import Desk, Refusal
from marks import read_mark, reads_as_mark
from plans import require

RESERVED = 3_000_000_000
CELLS = 1024
Claim = namedtuple('Claim', 'customer credited mark')
LAYOUT = struct.Struct('>IIB64s')


def read_claim(cell, payload):
    claim, customer, state, mark = LAYOUT.unpack(payload)
    require(claim == cell + 1 and 1 <= customer <= 64 and state in (1, 2) and reads_as_mark(mark))
    return Claim(customer, state == 2, mark)


class Claims(Desk):
    file_name, payload_size, cell_count = 'claims.nv', LAYOUT.size, CELLS
    own_files = (file_name,)
    own_lines = 'claim N CUST MARK\ncredits CUST\n'

    def read(self, payloads):
        records = {cell: read_claim(cell, payload) for cell, payload in payloads.items()}
        require(sorted(records) == list(range(len(records))))
        return records

    def write(self, cell, record):
        return LAYOUT.pack(cell + 1, record.customer, 2 if record.credited else 1, record.mark)

    def do_claim(self, claim, customer, mark):
        kept = self.records.get(claim - 1)
        if kept and (kept.customer, kept.mark) != (customer, mark):
            raise Refusal('refused claim conflict')
        if kept is None:
            if claim != len(self.records) + 1:
                raise Refusal('refused claim wrong claim %d' % len(self.records))
            if claim > CELLS:
                raise Refusal('refused claim full')
            self.commit(claim - 1, Claim(customer, False, mark))
        fields = read_mark(mark)
        text = 'credited %d d%d %d %d ' % (claim, fields.device, fields.piece, fields.postage)
        if kept and kept.credited:
            return text + 'again'
        answer = self.bench.step(('scan hex', RESERVED + claim, mark))
        if not answer.startswith('accepted '):
            return answer
        self.commit(claim - 1, Claim(customer, True, mark))
        return text + 'new'

    def do_credits(self, customer):
        credited = [record for record in self.records.values() if record.customer == customer and record.credited]
        return 'credits %d %d' % (customer, sum(read_mark(record.mark).postage for record in credited))

    def replaced(self, event):
        """The claims' own answer to a line of the plain script."""
        if event[0] in ('scan msg', 'scan hex') and event[1] > RESERVED:
            return 'refused claim reserved'
        return None

"""Records of version 1, as the first rules wrote them; today's programs only read them."""
from centre import FIRST as FIRST_ROW
from centre import STATES
from device import FIRST as FIRST_RECORD
from device import PHASES


def write_record(device, record):
    """A device's payload. Its sums and its messages fit version 1."""
    front = FIRST_RECORD.pack(device, 1 + PHASES.index(record.phase), record.key, record.ascending, record.descending,
                              record.refunded, record.pieces, record.number, record.deadline, record.last_day, record.customer,
                              record.origin)
    return front + bytes([1 if record.pending else 0]) + record.pending.ljust(71, b'\0') + record.mark.ljust(64, b'\0')


def write_device(number, row):
    """A centre's payload of a device."""
    return (FIRST_ROW.pack(number, 1 + STATES.index(row.state), *row[1:8]) + row.request.ljust(71, b'\0')
            + row.reply.ljust(56, b'\0') + bytes(4))

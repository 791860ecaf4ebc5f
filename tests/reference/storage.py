"""Storage in files: calls that a fuse may cut, and cells whose slots are written so that no cut leaves half a record."""
import os

OPEN = 0xA5
LAST_COUNT = 2**32 - 1


class Power(Exception):
    """The power was cut in this call."""


class Worn(Exception):
    """The cell's count is at its end."""


class Damaged(Exception):
    """The storage shows no state of its node."""


class Storage:
    """A file's content. A fuse lets so many calls of write and sync pass and tears the range of the next one."""

    def __init__(self, path, size):
        self.path = path
        if not os.path.exists(path):
            with open(path, 'xb') as file:
                file.truncate(size)
        self.file = os.open(path, os.O_RDWR)
        with open(self.file, 'rb', closefd=False) as file:
            self.content = bytearray(file.read())
        self.fuse = None
        self.lost = False
        self.last = None

    def close(self):
        os.close(self.file)

    def arm(self, calls, keep, byte):
        self.fuse = (calls, keep, byte)

    def burns(self):
        """Counts a call; whether its fuse burns in it."""
        if self.lost:
            raise Power()
        if self.fuse is None:
            return False
        calls, keep, byte = self.fuse
        self.fuse = (calls - 1, keep, byte) if calls else None
        return calls == 0

    def put(self, at, data):
        self.content[at:at + len(data)] = data
        os.pwrite(self.file, data, at)

    def tear(self, at, data, keep, byte):
        self.put(at, data[:keep] + bytes([byte]) * (len(data) - keep))

    def write(self, at, data):
        fuse = self.fuse
        if self.burns():
            self.tear(at, data, *fuse[1:])
            self.lost = True
            raise Power()
        self.put(at, data)
        self.last = (at, len(data))

    def sync(self):
        fuse = self.fuse
        if self.burns():
            if self.last:
                at, length = self.last
                self.tear(at, bytes(self.content[at:at + length]), *fuse[1:])
            self.lost = True
            raise Power()
        self.last = None

    def restart(self):
        self.lost = False
        self.last = None


class Cells:
    """The cells of a storage, each with so many slots for a payload, and which slot of each is current."""

    def __init__(self, storage, cells, slots, payload_size):
        self.storage = storage
        self.cells = cells
        self.slots = slots
        self.size = 5 + payload_size
        self.current = {}

    def at(self, cell, slot):
        return (self.slots * cell + slot) * self.size

    def mount(self):
        """The payload of each cell that is not blank."""
        self.storage.restart()
        if len(self.storage.content) != self.cells * self.slots * self.size:
            raise Damaged()
        self.storage.sync()
        content, payloads, self.current = self.storage.content, {}, {}
        gates = content[::self.size]
        for cell in range(self.cells):
            if OPEN not in gates[self.slots * cell:self.slots * (cell + 1)]:
                continue
            counts = {}
            for slot in range(self.slots):
                at = self.at(cell, slot)
                if content[at] == OPEN:
                    count = int.from_bytes(content[at + 1:at + 5], 'big')
                    if count == 0 or count in counts:
                        raise Damaged()
                    counts[count] = slot
            count = max(counts)
            self.current[cell] = (counts[count], count)
            at = self.at(cell, counts[count])
            payloads[cell] = bytes(content[at + 5:at + self.size])
        return payloads

    def commits(self):
        return sum(count for _, count in self.current.values())

    def commit(self, cell, payload):
        """Closes the gate of the next slot, writes count and payload behind it, and opens it; a sync ends each step."""
        slot, count = self.current.get(cell, (self.slots - 1, 0))
        if count == LAST_COUNT:
            raise Worn()
        slot, count = (slot + 1) % self.slots, count + 1
        at = self.at(cell, slot)
        if self.storage.content[at] == OPEN:
            self.storage.write(at, b'\0')
            self.storage.sync()
        self.storage.write(at + 1, count.to_bytes(4, 'big') + payload)
        self.storage.sync()
        self.storage.write(at, bytes([OPEN]))
        self.storage.sync()
        self.current[cell] = (slot, count)

"""What the words with lines of their own share: own lines beside the bench's, and own storage for some."""
import os

from bench import CannotUse, storage_of
from plans import NoRecord
from storage import Cells, Damaged, Worn


class Refusal(Exception):
    """An answer of an own line ahead of all that would follow."""


class Lines:
    """Answers own lines by the methods that are named after them, and all others by the bench."""
    own_lines = ''
    own_files = ()

    def __init__(self, bench, folder):
        self.bench = bench

    @classmethod
    def look(cls, folder):
        """Finds an own storage that is there and can't be used, before any storage is made."""

    def is_event(self, event):
        """Whether a line of the form of an own line is one."""
        return True

    def replaced(self, event):
        return None

    def answer(self, event):
        """The texts that answer an event."""
        own = getattr(self, 'do_' + event[0].replace(' ', '_'), None)
        if own is None:
            return [self.replaced(event) or self.bench.step(event)]
        try:
            answer = own(*event[1:])
        except Refusal as refusal:
            answer = str(refusal)
        return [answer] if isinstance(answer, str) else answer

    def close(self):
        pass


class Desk(Lines):
    """Own lines with own storage, whose cells have two slots."""

    def __init__(self, bench, folder):
        Lines.__init__(self, bench, folder)
        size = self.cell_count * 2 * (5 + self.payload_size)
        self.cells = Cells(storage_of(folder, self.file_name, size), self.cell_count, 2, self.payload_size)
        try:
            self.records = self.read(self.cells.mount())
        except (Damaged, NoRecord):
            raise CannotUse(self.file_name)

    @classmethod
    def look(cls, folder):
        if os.path.exists(os.path.join(folder, cls.file_name)):
            cls(None, folder).close()

    def commit(self, cell, record):
        try:
            self.cells.commit(cell, self.write(cell, record))
        except Worn:
            raise Refusal('worn desk')
        self.records[cell] = record

    def close(self):
        self.cells.storage.close()

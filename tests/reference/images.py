"""What an image of a storage shows, cell by cell, by the worlds of a judge: nothing of it is started, and each cell is read for itself."""
import os

from bench import CLASSES, DEVICES, NODES, file_name
from centre import read_customer, read_device
from device import Device, read_record
from host import read_job
from plans import NoRecord
from storage import OPEN
from verifier import FIRST_CELL, read_block, read_trust
from worlds import World


class CellWorld(World):
    """A world that counts the commits of each cell, too."""

    def __init__(self):
        super().__init__()
        self.cells = {}

    def committed(self, node, plan):
        at = (node, plan.change[0])
        return super().committed(node, plan).changed(cells={**self.cells, at: self.cells.get(at, 0) + 1})

    def key(self):
        return super().key() + repr(sorted(self.cells.items()))


def kind_of(node):
    return CLASSES.get(node, Device)


def read_payload(node, cell, payload):
    if node in DEVICES:
        return read_record(int(node[1:]), payload)
    if node == 'centre':
        return read_device(cell + 1, payload) if cell < 8 else read_customer(cell - 7, payload)
    if node == 'host':
        record = read_job(cell, payload)
        return record
    return read_trust(cell + 1, payload) if cell < FIRST_CELL else read_block(payload)


def newest_slot(node, image, cell):
    """The place of the newest slot of a cell that counts, with its count: None if there is none, and False if the cell is not clear."""
    kind = kind_of(node)
    width, found = 5 + kind.payload_size, {}
    for slot in range(kind.slots):
        at = (kind.slots * cell + slot) * width
        if image[at] == OPEN:
            count = int.from_bytes(image[at + 1:at + 5], 'big')
            if count == 0 or count in found:
                return False
            found[count] = at
    return (found[max(found)], max(found)) if found else None


def cell_of(node, image, cell):
    """The commits of a cell and its record: None if it is blank, and False if it holds no record."""
    slot = newest_slot(node, image, cell)
    if not slot:
        return slot
    at, count = slot
    try:
        return count, read_payload(node, cell, image[at + 5:at + 5 + kind_of(node).payload_size])
    except (NoRecord, KeyError, IndexError, ValueError):
        return False


def cells_of(node, image):
    return [cell_of(node, image, cell) for cell in range(kind_of(node).cells)]


def due_cell(world, node, cell):
    """What the world has of a cell."""
    count = world.cells.get((node, cell), 0)
    return (count, world.kept[node].records[cell]) if count else None


def first_other(world, node, cells):
    """The first cell that is not as the world has it."""
    return next((cell for cell, found in enumerate(cells) if found != due_cell(world, node, cell)), None)


def shown(worlds, node, cells):
    """'counted' or 'open', or the first cell that shows neither, with what it was due to show and what it shows."""
    openers = [world for world in worlds if node in world.open]
    world = (openers or worlds)[0]
    bad = first_other(world, node, cells)
    if bad is None:
        return 'counted'
    if openers and first_other(world.committed(node, world.open[node]), node, cells) is None:
        return 'open'
    after = world.committed(node, world.open[node]) if openers else world
    for cell, found in enumerate(cells):
        if found not in (due_cell(world, node, cell), due_cell(after, node, cell)):
            return 'other', cell
    return 'other', bad


def images_in(folder):
    images = {}
    for node in NODES:
        with open(os.path.join(folder, file_name(node)), 'rb') as file:
            images[node] = file.read()
    return images


def shown_by(worlds, images):
    """What each storage shows."""
    return {node: shown(worlds, node, cells_of(node, image)) for node, image in images.items()}

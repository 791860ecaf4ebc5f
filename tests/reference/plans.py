"""What a node decides on an event: a refusal, or a plan that the bench carries out."""
from collections import namedtuple

# `change` is the cell and its new record, if the event commits. `text` is the reply; if there is a `message`, the bench
# sends it and puts its number behind the text. `printed` goes to the printer. `movement` is one of a customer's money.
Plan = namedtuple('Plan', 'text change message printed movement', defaults=(None, None, None, None))


class Refused(Exception):
    """A node's refusal; its text is what the reply says behind the node's name."""


class NoRecord(Exception):
    """A payload that is the spelling of no record."""


def require(condition):
    if not condition:
        raise NoRecord()


def new_or_again(again):
    return 'again' if again else 'new'

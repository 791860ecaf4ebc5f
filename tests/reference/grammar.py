"""The lines of scripts. An event is the words that name it and its values, in the order of the line."""
import datetime
import re

from marks import reads_as_mark

LONGEST = 600
EPOCH = datetime.date(1970, 1, 1)
NUMBER = re.compile(rb'0|[1-9][0-9]*')
DIGITS = re.compile(rb'[0-9a-f]*')
DEVICE = re.compile(rb'd[1-8]')
DATE = re.compile(rb'[0-9]{4}-[0-9]{2}-[0-9]{2}')


class BadLine(Exception):
    """A line that is no event."""


def need(condition):
    if not condition:
        raise BadLine()


def number(low, high):
    def read(word):
        need(NUMBER.fullmatch(word) and low <= int(word) <= high)
        return int(word)
    return read


def digits(low, high):
    def read(word):
        need(DIGITS.fullmatch(word) and len(word) % 2 == 0 and low <= len(word) <= high)
        return bytes.fromhex(word.decode())
    return read


def given(word):
    return b'' if word == b'-' else digits(2, 512)(word)


def device(word):
    need(DEVICE.fullmatch(word))
    return int(word[1:])


def node(word):
    need(DEVICE.fullmatch(word) or word in (b'centre', b'host', b'verifier'))
    return word.decode()


def taker(word):
    need(word != b'verifier')
    return node(word)


def date(word):
    need(DATE.fullmatch(word))
    try:
        day = datetime.date(int(word[:4]), int(word[5:7]), int(word[8:]))
    except ValueError:
        raise BadLine()
    need(2000 <= day.year <= 2199)
    return (day - EPOCH).days


def mark(word):
    data = digits(128, 128)(word)
    need(reads_as_mark(data))
    return data


U32 = number(0, 2**32 - 1)
U64 = number(0, 2**64 - 1)
KINDS_OF_WORD = {
    'DATE': date, 'DEV': device, 'NODE': node, 'TAKER': taker, 'KEY': digits(64, 64), 'HEX': given, 'BYTE': digits(2, 2),
    'CUST': number(1, 64), 'U16': number(0, 2**16 - 1), 'U32': U32, 'U64': U64, 'N': number(1, 2**32 - 1), 'MARK': mark,
    'DEPT': number(1, 16), 'COUNT': number(1, 512), 'PIECE': digits(128, 128),
}

EVENTS = '''
day DATE
rates
make DEV KEY
on NODE
off NODE
cut NODE U32 U32 BYTE
debit DEV U32 U32 U16
ask DEV enrol U32
ask DEV reset U32
ask DEV audit
ask DEV refund
ask DEV withdraw
resend DEV
ack DEV
status DEV
register DEV U32 KEY
customer CUST
deposit CUST U32 U32
suspend CUST
resume CUST
balance CUST
deliver U32
give TAKER HEX
order DEV U32 U16 U32 U32
send U32
print U32
close U32
trust DEV KEY
scan N msg U32
scan N hex HEX
reconcile DEV
end
'''


class Grammar:
    """A list of forms. Words in capitals stand for values."""

    def __init__(self, *lists):
        self.forms = [form.split() for forms in lists for form in forms.split('\n') if form]

    def read(self, line):
        words = line.split(b' ')
        for form in self.forms:
            if len(form) == len(words) and all(want.isupper() or want.encode() == word for want, word in zip(form, words)):
                values = [KINDS_OF_WORD[want](word) for want, word in zip(form, words) if want.isupper()]
                return (' '.join(want for want in form if not want.isupper()), *values)
        raise BadLine()

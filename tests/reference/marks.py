"""Marks: the 64 bytes that frank a piece, in two versions, and the HMAC (FIPS 198-1) that ends them."""
import hmac
import struct
from collections import namedtuple

Mark = namedtuple('Mark', 'version device piece postage ascending descending day origin mail_class')

FIRST = struct.Struct('>BBIIIIIiIH')
HEAD = struct.Struct('>BBHII')
TAIL = struct.Struct('>iIH')


class Unread(Exception):
    """Bytes that are no mark or no message; its text is the cause."""


def code(key, text):
    """HMAC-SHA-256 of a text."""
    return hmac.digest(key, text, 'sha256')


def code_matches(data, key):
    """Whether the last 32 bytes are the code of all before them."""
    return len(data) >= 32 and data[-32:] == code(key, data[:-32])


def write_mark(mark, key):
    """The 64 bytes of a mark."""
    if mark.version == 1:
        text = FIRST.pack(1, 1, *mark[1:])
    else:
        text = (HEAD.pack(2, 1, mark.device, mark.piece, mark.postage) + mark.ascending.to_bytes(5, 'big')
                + mark.descending.to_bytes(5, 'big') + TAIL.pack(mark.day, mark.origin, mark.mail_class))
    return text + code(key, text)


def read_mark(data):
    """The mark that 64 bytes hold; its code is not checked."""
    if len(data) != 64:
        raise Unread('length')
    if data[0] not in (1, 2):
        raise Unread('version')
    if data[1] != 1:
        raise Unread('algorithm')
    if data[0] == 1:
        return Mark(1, *FIRST.unpack(data[:32])[2:])
    _, _, device, piece, postage = HEAD.unpack(data[:12])
    ascending, descending = int.from_bytes(data[12:17], 'big'), int.from_bytes(data[17:22], 'big')
    return Mark(2, device, piece, postage, ascending, descending, *TAIL.unpack(data[22:32]))


def reads_as_mark(data):
    try:
        read_mark(data)
    except Unread:
        return False
    return True

"""The five messages. Requests and Replies have two versions, the others one."""
import struct
from collections import namedtuple

from marks import Unread, code, reads_as_mark

Request = namedtuple('Request', 'version device number kind customer amount ascending descending refunded pieces day')
Reply = namedtuple('Reply', 'version device number kind verdict amount deadline origin')
Done = namedtuple('Done', 'device number')
Debit = namedtuple('Debit', 'device piece postage mail_class')
Release = namedtuple('Release', 'mark')

KINDS = ('enrol', 'reset', 'audit', 'refund', 'withdraw')
LONGEST_DAY = 84005
FIRST_DAY = 10957

REQUESTS = {1: struct.Struct('>BBIIBIIIIIIi'), 2: struct.Struct('>BBIIBIQQQQIi')}
REPLIES = {1: struct.Struct('>BBIIBBIiI'), 2: struct.Struct('>BBIIBBQiI')}
DONE = struct.Struct('>BBII')
DEBIT = struct.Struct('>BBIIIH')
LENGTHS = {(1, 1): 71, (1, 2): 56, (1, 3): 42, (1, 16): 16, (1, 17): 66, (2, 1): 87, (2, 2): 60}


def front(message):
    """The bytes of a message before its code."""
    if isinstance(message, Request):
        kind = KINDS.index(message.kind) + 1
        return REQUESTS[message.version].pack(message.version, 1, message.device, message.number, kind, *message[4:])
    if isinstance(message, Reply):
        kind = KINDS.index(message.kind) + 1
        return REPLIES[message.version].pack(message.version, 2, message.device, message.number, kind, *message[4:])
    if isinstance(message, Done):
        return DONE.pack(1, 3, *message)
    if isinstance(message, Debit):
        return DEBIT.pack(1, 16, *message)
    return bytes((1, 17)) + message.mark


def write_message(message, key=b''):
    """The bytes of a message; Debits and Releases have no code of their own."""
    text = front(message)
    if isinstance(message, (Debit, Release)):
        return text
    return text + code(key, text)


def read_kind(number):
    if not 1 <= number <= 5:
        raise Unread('kind')
    return KINDS[number - 1]


def read_message(data):
    """The message that the bytes hold; its code is not checked."""
    if len(data) < 2:
        raise Unread('length')
    version, tag = data[0], data[1]
    if version not in (1, 2):
        raise Unread('version')
    if (version, tag) not in LENGTHS:
        raise Unread('tag')
    if len(data) != LENGTHS[version, tag]:
        raise Unread('length')
    if tag == 1:
        device, number, kind, *rest = REQUESTS[version].unpack(data[:-32])[2:]
        request = Request(version, device, number, read_kind(kind), *rest)
        if not FIRST_DAY <= request.day <= LONGEST_DAY:
            raise Unread('day')
        return request
    if tag == 2:
        device, number, kind, verdict, *rest = REPLIES[version].unpack(data[:-32])[2:]
        reply = Reply(version, device, number, read_kind(kind), verdict, *rest)
        if verdict > 6:
            raise Unread('verdict')
        return reply
    if tag == 3:
        return Done(*DONE.unpack(data[:-32])[2:])
    if tag == 16:
        return Debit(*DEBIT.unpack(data)[2:])
    if not reads_as_mark(data[2:]):
        raise Unread('mark')
    return Release(data[2:])


def receiver(data):
    """The node that a sent message goes to."""
    message = read_message(data)
    if isinstance(message, (Request, Done)):
        return 'centre'
    if isinstance(message, Release):
        return 'host'
    return 'd%d' % message.device

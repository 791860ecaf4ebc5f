"""The centre: the rows of its devices and customers, and its rulings."""
import struct
from collections import namedtuple

from device import FIRST_LIMIT, LIMIT, RESET_LIMIT, with_code
from marks import Unread, code_matches
from messages import Done, Reply, Request, read_message, write_message
from plans import NoRecord, Plan, Refused, new_or_again, require

DEPOSIT_LIMIT = 10**9
DEPOSITS_LIMIT = 10**15
INTERVAL = 92
STATES = ('registered', 'enrolled', 'withdrawn')
NOT_ENROLLED, ENROLLED_ALREADY, NO_CUSTOMER, SUSPENDED, NO_FUNDS, IMBALANCE = range(1, 7)

# `request` and `reply` are whole messages, or empty while nothing was ruled.
DeviceRow = namedtuple('DeviceRow', 'state customer origin key ruled settled buys returns request reply')
CustomerRow = namedtuple('CustomerRow', 'suspended deposits receipt amount')

SECOND = struct.Struct('>IBII32sIIQQ')
FIRST = struct.Struct('>IBII32sIIII')
CUSTOMER = struct.Struct('>IBQII')


def in_flight(row):
    """The kind and the granted amount of the ruling that is not yet settled."""
    if row.ruled != row.settled + 1:
        return None
    reply = read_message(row.reply)
    return reply.kind, reply.amount if reply.verdict == 0 else 0


def acknowledged(row):
    """The acknowledged buys and returns."""
    kind, amount = in_flight(row) or (None, 0)
    return row.buys - (amount if kind == 'reset' else 0), row.returns - (amount if kind in ('refund', 'withdraw') else 0)


def check_messages(number, row, first):
    """The conditions of a row on its last Request and its Reply."""
    try:
        request, reply = read_message(row.request), read_message(row.reply)
    except Unread:
        raise NoRecord()
    require(isinstance(request, Request) and isinstance(reply, Reply) and request.version == reply.version)
    require(request.version == 1 or not first)
    require(request.device == reply.device == number and request.number == reply.number == row.ruled and request.kind == reply.kind)
    require(code_matches(row.request, row.key) and code_matches(row.reply, row.key))


def read_device(number, payload):
    """A device's row, of either version; its customer is looked up later."""
    first = payload[4] in (1, 2, 3)
    require(first or payload[4] in (17, 18, 19))
    if first:
        device, state, customer, origin, key, ruled, settled, buys, returns = FIRST.unpack(payload[:61])
        request, reply, tail = payload[61:132], payload[132:188], payload[188:]
        state = STATES[state - 1]
    else:
        device, state, customer, origin, key, ruled, settled, buys, returns = SECOND.unpack(payload[:69])
        request, reply, tail = payload[69:124], payload[124:152], payload[152:]
        state = STATES[state - 17]
    require(device == number and not any(tail) and settled <= ruled <= settled + 1)
    if ruled == 0:
        require(not any(request) and not any(reply))
        request = reply = b''
    elif not first:
        request, reply = with_code(key, request, {1: 39, 2: 55}), with_code(key, reply, {1: 24, 2: 28})
    row = DeviceRow(state, customer, origin, key, ruled, settled, buys, returns, request, reply)
    if ruled:
        check_messages(number, row, first)
    require((state == 'registered') == (customer == 0))
    require(returns <= buys and (state != 'registered' or buys == 0))
    sure_buys, sure_returns = acknowledged(row)
    require(0 <= sure_returns <= sure_buys)
    return row


def read_customer(number, payload):
    customer, suspended, deposits, receipt, amount = CUSTOMER.unpack(payload[:21])
    require(customer == number and suspended in (0, 1) and not any(payload[21:]))
    require(deposits <= DEPOSITS_LIMIT and amount <= DEPOSIT_LIMIT and amount <= deposits)
    require((receipt == 0) == (deposits == 0) == (amount == 0))
    return CustomerRow(suspended == 1, deposits, receipt, amount)


def write_device(number, row):
    """The payload of version 2."""
    return (SECOND.pack(number, 17 + STATES.index(row.state), *row[1:8]) + row.request[:-32].ljust(55, b'\0')
            + row.reply[:-32].ljust(28, b'\0') + bytes(40))


class Centre:
    """A centre that is on. Cell d - 1 has device d, cell 7 + c has customer c."""
    name, payload_size, cells, slots = 'centre', 192, 72, 2

    def __init__(self, records):
        self.records = records

    @classmethod
    def read(cls, payloads):
        rows = {cell: read_device(cell + 1, payload) if cell < 8 else read_customer(cell - 7, payload)
                for cell, payload in payloads.items()}
        centre = cls(rows)
        for cell, row in rows.items():
            if cell < 8:
                require(row.customer == 0 or row.customer in range(1, 65) and row.customer + 7 in rows)
            else:
                require(centre.balance_of(cell - 7) >= 0)
        return centre

    def write(self, cell, row):
        if cell < 8:
            return write_device(cell + 1, row)
        return CUSTOMER.pack(cell - 7, row.suspended, *row[1:]) + bytes(171)

    def changed(self, change):
        return Centre({**self.records, change[0]: change[1]})

    def balance_of(self, customer):
        rows = [self.records[cell] for cell in range(8) if cell in self.records]
        moved = sum(row.returns - row.buys for row in rows if row.customer == customer)
        return self.records[customer + 7].deposits + moved

    def customer_row(self, customer):
        if customer + 7 not in self.records:
            raise Refused('unknown customer %d' % customer)
        return self.records[customer + 7]

    def device_row(self, device):
        if not 1 <= device <= 8 or device - 1 not in self.records:
            raise Refused('unknown device %d' % device)
        return self.records[device - 1]

    def register(self, device, origin, key):
        if device - 1 in self.records:
            raise Refused('known')
        return Plan('registered d%d' % device, (device - 1, DeviceRow('registered', 0, origin, key, 0, 0, 0, 0, b'', b'')))

    def customer(self, customer):
        if customer + 7 in self.records:
            raise Refused('known')
        return Plan('opened %d' % customer, (customer + 7, CustomerRow(False, 0, 0, 0)))

    def deposit(self, customer, receipt, amount):
        row = self.customer_row(customer)
        if receipt == row.receipt and receipt >= 1:
            if amount != row.amount:
                raise Refused('conflict %d' % row.amount)
            return Plan('deposited %d %d again %d' % (customer, receipt, row.deposits))
        if receipt != row.receipt + 1:
            raise Refused('wrong receipt %d' % row.receipt)
        if not 1 <= amount <= DEPOSIT_LIMIT:
            raise Refused('bad amount %d' % amount)
        if row.deposits + amount > DEPOSITS_LIMIT:
            raise Refused('deposits full %d' % row.deposits)
        row = CustomerRow(row.suspended, row.deposits + amount, receipt, amount)
        return Plan('deposited %d %d new %d' % (customer, receipt, row.deposits), (customer + 7, row),
                    movement=(customer, 'deposit %d %d' % (receipt, amount), amount))

    def flag(self, customer, suspended):
        row = self.customer_row(customer)
        text = '%s %d' % ('suspended' if suspended else 'resumed', customer)
        return Plan(text, (customer + 7, row._replace(suspended=suspended)))

    def balance(self, customer):
        self.customer_row(customer)
        return Plan('balance %d %d' % (customer, self.balance_of(customer)))

    def standing(self, device):
        """The acknowledged resets less refunds, and the kind and amount of the ruling in flight."""
        row = self.device_row(device)
        buys, returns = acknowledged(row)
        return buys - returns, in_flight(row)

    def take(self, data):
        """A Request or a Done."""
        try:
            message = read_message(data)
            if not isinstance(message, (Request, Done)):
                raise Unread('tag')
        except Unread as cause:
            raise Refused('unread %s' % cause)
        row = self.device_row(message.device)
        if not code_matches(data, row.key):
            raise Refused('bad code')
        return self.settle(row, message) if isinstance(message, Done) else self.rule(row, message, data)

    def settle(self, row, done):
        text = 'settled d%d %d ' % done
        if done.number <= row.settled:
            return Plan(text + 'again')
        if done.number != row.ruled:
            raise Refused('ahead %d' % row.ruled)
        return Plan(text + 'new', (done.device - 1, row._replace(settled=row.ruled)))

    def rule(self, row, request, data):
        text = 'ruled d%d %d verdict %%d %%s' % (request.device, request.number)
        if request.number < row.ruled or request.number == 0:
            raise Refused('old %d' % row.ruled)
        if request.number == row.ruled:
            if data != row.request:
                raise Refused('changed %d' % row.ruled)
            return Plan(text % (read_message(row.reply).verdict, 'again'), None, row.reply)
        if request.number > row.ruled + 1:
            raise Refused('ahead %d' % row.ruled)
        verdict, amount = self.verdict(row, request)
        granted = verdict == 0
        deadline = request.day + INTERVAL if granted and request.kind in ('reset', 'audit') else 0
        if request.version == 1:
            amount = min(amount, 2**32 - 1)
        reply = write_message(Reply(request.version, request.device, request.number, request.kind, verdict, amount, deadline,
                                    row.origin), row.key)
        row = row._replace(ruled=request.number, settled=row.ruled, request=data, reply=reply)
        plan = Plan(text % (verdict, new_or_again(False)), (request.device - 1, row), reply)
        return grant(plan, request) if granted else plan

    def verdict(self, row, request):
        """The verdict on a Request, and the amount in the Reply."""
        enrols = request.kind == 'enrol'
        if not enrols and row.state != 'enrolled':
            return NOT_ENROLLED, 0
        if enrols and row.state != 'registered':
            return ENROLLED_ALREADY, 0
        if is_imbalance(row, request):
            return IMBALANCE, row.buys
        customer = request.customer if enrols else row.customer
        if enrols and not (1 <= customer <= 64 and customer + 7 in self.records):
            return NO_CUSTOMER, 0
        if (enrols or request.kind == 'reset') and self.records[customer + 7].suspended:
            return SUSPENDED, 0
        if request.kind == 'reset' and self.balance_of(customer) < request.amount:
            return NO_FUNDS, self.balance_of(customer)
        return 0, request.amount


def is_imbalance(row, request):
    if request.ascending + request.descending + request.refunded != row.buys or request.refunded != row.returns:
        return True
    if request.kind == 'reset':
        limit = FIRST_LIMIT if request.version == 1 else LIMIT
        return not 1 <= request.amount <= RESET_LIMIT or row.buys + request.amount > limit
    return request.amount != (request.descending if request.kind in ('refund', 'withdraw') else 0)


def grant(plan, request):
    """The plan of a granted ruling: what it does to the row, and its movement of money."""
    cell, row = plan.change
    movement, sign = None, 1
    if request.kind == 'enrol':
        row = row._replace(state='enrolled', customer=request.customer)
    elif request.kind == 'reset':
        row, sign = row._replace(buys=row.buys + request.amount), -1
    elif request.kind in ('refund', 'withdraw'):
        row = row._replace(returns=row.returns + request.amount)
        row = row._replace(state='withdrawn') if request.kind == 'withdraw' else row
    if request.kind in ('reset', 'refund', 'withdraw'):
        text = '%s d%d %d %d' % (request.kind, request.device, request.number, request.amount)
        movement = (request.customer, text, sign * request.amount)
    return plan._replace(change=(cell, row), movement=movement)

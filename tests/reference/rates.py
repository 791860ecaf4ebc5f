"""The rate file: a TOML document of one form, and the prices that it has."""
import tomllib

LONGEST = 65_536


class NoPrice(Exception):
    """A refusal of a price; its text is the cause."""


class BadRates(Exception):
    """A text that has no rates; its text is the cause."""


def whole_numbers(value):
    """All whole numbers in a document."""
    if isinstance(value, bool):
        return []
    if isinstance(value, int):
        return [value]
    values = value.values() if isinstance(value, dict) else value if isinstance(value, list) else []
    return [number for inner in values for number in whole_numbers(inner)]


def is_number(value, low, high):
    return type(value) is int and low <= value <= high


def is_list(value, low, high):
    return isinstance(value, list) and low <= len(value) <= high


def has_keys(value, *keys):
    return isinstance(value, dict) and set(value) == set(keys)


def read_steps(steps, zones):
    if not is_list(steps, 1, 64):
        raise BadRates('form')
    read, before = [], 0
    for step in steps:
        if not (has_keys(step, 'grams', 'mills') and is_number(step['grams'], before + 1, 100_000)
                and is_list(step['mills'], zones, zones) and all(is_number(price, 1, 100_000) for price in step['mills'])):
            raise BadRates('form')
        before = step['grams']
        read.append((before, step['mills']))
    return read


class Rates:
    def __init__(self, text):
        if len(text) > LONGEST:
            raise BadRates('length')
        try:
            table = tomllib.loads(text.decode())
        except ValueError:
            raise BadRates('toml')
        if not all(-2**63 <= number < 2**63 for number in whole_numbers(table)):
            raise BadRates('toml')
        if not (has_keys(table, 'zones', 'class') and is_number(table['zones'], 1, 9) and is_list(table['class'], 1, 64)):
            raise BadRates('form')
        self.zones = table['zones']
        self.classes = {}
        for row in table['class']:
            if not (has_keys(row, 'number', 'steps') and is_number(row['number'], 1, 65_535) and row['number'] not in self.classes):
                raise BadRates('form')
            self.classes[row['number']] = read_steps(row['steps'], self.zones)

    def price(self, mail_class, grams, zone):
        if mail_class not in self.classes:
            raise NoPrice('no class')
        if not 1 <= zone <= self.zones:
            raise NoPrice('no zone %d' % self.zones)
        steps = self.classes[mail_class]
        for most, mills in steps:
            if grams <= most:
                return mills[zone - 1]
        raise NoPrice('too heavy %d' % steps[-1][0])

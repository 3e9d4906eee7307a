"""A reader of the bodies of rows in both formats, by the tables of the formats. It gives the body in format 2: each
byte stays as it is, and where the body is in format 1 the byte 0 is added behind the splits of each transaction. What
is no body is a ValueError. `bad_key` gives the least key at which rows are bad."""

MOST_ID = 1 << 62
MOST_STEPS = 256
FIRST_DAY, LAST_DAY = -25_567, 84_005
# How many marks of a split there are, by format: the fourth is that of a voided transaction.
MARKS = {1: 3, 2: 4}


class Walk:
    """Walks through the fields of a body in a format, and writes them in format 2."""

    def __init__(self, data, form):
        self.data, self.form, self.at, self.out = data, form, 0, bytearray()

    def take(self, count):
        if self.at + count > len(self.data):
            raise ValueError('the body is cut')
        piece = self.data[self.at:self.at + count]
        self.at += count
        self.out += piece
        return piece

    def number(self):
        return int.from_bytes(self.take(8), 'big')

    def short(self):
        if self.number() >= 1 << 32:
            raise ValueError('a number of more than 32 bits')

    def bounded(self):
        value = self.number()
        if value >= MOST_ID:
            raise ValueError('a number of a head above 2^62')
        return value

    def signed(self):
        return int.from_bytes(self.take(8), 'big', signed=True)

    def wide(self):
        self.take(16)

    def day(self):
        if not FIRST_DAY <= self.signed() <= LAST_DAY:
            raise ValueError('no day of 1900 to 2199')

    def text(self):
        self.take(self.number()).decode('utf-8', 'strict')

    def texts(self, count):
        for _ in range(count):
            self.text()

    def numbers(self, count):
        for _ in range(count):
            self.number()

    def variant(self, most, least=1):
        value = self.take(1)[0]
        if not least <= value <= most:
            raise ValueError('no variant of these')
        return value

    def truth(self):
        self.variant(1, 0)

    def optional(self, field):
        if self.variant(1, 0) == 1:
            field()

    def listed(self, item):
        count = self.number()
        if count > len(self.data):
            raise ValueError('a list of more items than bytes')
        for _ in range(count):
            item()

    def split(self):
        self.numbers(2)
        self.texts(2)
        self.variant(MARKS[self.form])
        self.optional(self.number)
        self.amounts()

    def amounts(self):
        self.signed()
        self.signed()

    def void(self):
        self.text()
        self.listed(self.amounts)

    def transaction(self):
        self.number()
        self.day()
        self.texts(2)
        self.listed(self.split)
        if self.form == 1:
            self.out += b'\0'
        else:
            self.optional(self.void)

    def recurrence(self):
        self.variant(8)
        self.short()
        self.day()
        self.variant(3)

    def end(self):
        kind = self.variant(3)
        if kind == 2:
            self.day()
        elif kind == 3:
            self.number()

    def schedule(self):
        self.text()
        self.listed(self.recurrence)
        self.end()
        self.short()
        self.optional(self.day)
        self.number()
        self.transaction()

    def account(self):
        self.text()
        self.variant(13)
        self.number()
        self.optional(self.number)
        self.texts(2)
        self.truth()
        self.truth()
        self.optional(self.number)

    def statement(self):
        self.number()
        self.texts(2)
        self.optional(self.signed)
        self.optional(self.signed)
        self.day()
        self.optional(self.truth)

    def part(self):
        self.texts(2)
        self.signed()

    def line(self):
        self.numbers(3)
        self.day()
        self.day()
        self.signed()
        self.texts(5)
        self.listed(self.part)
        if self.variant(3) == 2:
            self.number()

    def mark(self):
        self.number()
        self.signed()

    def reconciliation(self):
        self.number()
        self.day()
        self.wide()
        self.signed()
        self.listed(self.mark)

    def price(self):
        self.numbers(2)
        self.day()
        self.numbers(2)

    def commodity(self):
        self.texts(3)
        self.number()

    def binding(self):
        self.text()
        self.number()

    def thing(self, kind):
        kinds = (self.commodity, self.account, self.transaction, self.price, self.schedule, self.statement, self.line,
                 self.binding, self.reconciliation)
        if not 2 <= kind < 2 + len(kinds):
            raise ValueError('no kind of a thing')
        kinds[kind - 2]()

    def edit(self, lists=8):
        form = self.variant(3, 0)
        if form == 0:
            if lists == 0:
                raise ValueError('nine lists in one another')
            self.listed(lambda: self.edit(lists - 1))
        elif form == 3:
            self.number()
        else:
            kind = self.variant(10, 2)
            self.number()
            if form == 1:
                self.thing(kind)

    def row(self, kind):
        if kind == 1:
            for _ in range(3):
                self.bounded()
            self.numbers(3)
        elif kind in (11, 12):
            self.edit()
        else:
            self.thing(kind)


def read(kind, body, form):
    """The body in format 2 of the row of this kind whose body in this format is given."""
    if body[:1] != bytes([form]):
        raise ValueError('no body of this format')
    walk = Walk(body[1:], form)
    walk.row(kind)
    if walk.at != len(walk.data):
        raise ValueError('bytes behind the fields')
    return b'\2' + bytes(walk.out)


def in_second(kind, body):
    """The body in format 2 of the row of this kind whose body in format 1 is given."""
    return read(kind, body, 1)


def all_in_second(have):
    """Rows of format 1 in format 2, under the same keys."""
    return {(kind, number): in_second(kind, body) for (kind, number), body in have.items()}


def is_body(key, body, form):
    """Whether the bytes are a body of the row with this key, in this format."""
    kind, number = key
    if not 1 <= kind <= 12 or kind == 1 and number != 0 or number >= MOST_ID:
        return False
    try:
        read(kind, body, form)
        return True
    except ValueError:
        return False


def steps_of(head):
    """The keys of the steps back and forth that a head asks for; None where it counts too many of them."""
    position, past, later = (int.from_bytes(head[at:at + 8], 'big') for at in (17, 25, 33))
    if past > position or past + later > MOST_STEPS:
        return None
    back = {(11, number) for number in range(position - past + 1, position + 1)}
    return back | {(12, number) for number in range(position + 1, position + later + 1)}


def bad_key(have):
    """The least key at which rows are bad: whose body is none in the format of the head, or of a row that is missing or
    one too many. None where there is no such key."""
    if not have:
        return None
    head = have.get((1, 0), b'')
    form = 1 if head[:1] == b'\1' else 2
    bad = {key for key, body in have.items() if not is_body(key, body, form)}
    if (1, 0) not in have:
        bad.add((1, 0))
    elif (1, 0) not in bad:
        steps = steps_of(head)
        if steps is not None:
            bad |= steps ^ {key for key in have if key[0] in (11, 12)}
    return min(bad, default=None)

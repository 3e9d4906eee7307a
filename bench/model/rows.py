"""The rows of a book: their bytes, written from the tables of the formats, and a machine read from rows.
Rows have two formats, 1 and 2, and the first byte of a body is its format. In format 2 a transaction ends with the byte
0, or with what is kept of a voided one. Format 1 has no voided transaction: what holds one can't be written in it."""
import datetime as dt
from model import Book, KINDS, MAPS, RECURRENCES, Machine

EPOCH = dt.date(1970, 1, 1).toordinal()
KIND_OF = dict(zip(MAPS, (2, 3, 4, 5, 6, 7, 8, 9, 10)))
u = lambda n: n.to_bytes(8, 'big')
s = lambda n: n.to_bytes(8, 'big', signed=True)
w = lambda n: n.to_bytes(16, 'big', signed=True)
d = lambda x: s(x.toordinal() - EPOCH)
t = lambda x: u(len(x.encode())) + x.encode()
b = lambda x: bytes([1 if x else 0])
e = lambda place: bytes([place + 1])
opt = lambda x, f: b'\0' if x is None else b'\1' + f(x)
many = lambda items, f: u(len(items)) + b''.join(f(i) for i in items)
ADJUST = ['none', 'back', 'forward']
# New, cleared, reconciled and voided. Format 1 has the first three.
MARKS = 'ncyv'


def split(x, template=False):
    ident, mark, recon = (0, 'n', None) if template else (x['id'], x['mark'], x['recon'])
    return u(ident) + u(x['account']) + t(x['memo']) + t(x['action']) + e(MARKS.index(mark)) + opt(recon, u) + \
        s(x['value']) + s(x['quantity'])


def txn(x, form, template=False):
    front = u(x['currency']) + d(x['day']) + t(x['num']) + t(x['description'])
    front += many(x['splits'], lambda y: split(y, template))
    kept = None if template else x['voided']
    if form == 1:
        assert kept is None, 'a voided transaction in format 1'
        return front
    return front + opt(kept, lambda v: t(v['reason']) + many(v['kept'], lambda k: s(k[0]) + s(k[1])))


def end(x):
    return b'\1' if x is None else b'\2' + d(x[1]) if x[0] == 'until' else b'\3' + u(x[1])


def fields(kind, x, form):
    if kind == 2:
        return t(x['space']) + t(x['name']) + t(x['full_name']) + u(x['fraction'])
    if kind == 3:
        return t(x['name']) + e(KINDS.index(x['kind'])) + u(x['commodity']) + opt(x['parent'], u) + t(x['code']) + t(x['note']) + \
            b(x['hidden']) + b(x['placeholder']) + opt(x['basis'], u)
    if kind == 4:
        return txn(x, form)
    if kind == 5:
        return u(x['commodity']) + u(x['currency']) + d(x['day']) + u(x['num']) + u(x['denom'])
    if kind == 6:
        recurrence = lambda r: e(RECURRENCES.index(r['kind'])) + u(r['every']) + d(r['start']) + e(ADJUST.index(r['adjust']))
        return t(x['name']) + many(x['recurrences'], recurrence) + end(x['end']) + u(x['advance']) + opt(x['last'], d) + \
            u(x['made']) + txn(x['template'], form, True)
    if kind == 7:
        return u(x['account']) + t(x['account_text']) + t(x['number']) + opt(x['opening'], s) + opt(x['closing'], s) + d(x['day']) + \
            opt(x['ties'], b)
    if kind == 8:
        state = {'open': b'\1', 'dismissed': b'\3'}.get(x['state']) or b'\2' + u(x['split'])
        return u(x['account']) + u(x['statement']) + u(x['ordinal']) + d(x['day']) + d(x['value_day']) + s(x['amount']) + \
            t(x['kind']) + t(x['ref_own']) + t(x['ref_bank']) + t(x['text']) + t(x['category']) + \
            many(x['parts'], lambda p: t(p[0]) + t(p[1]) + s(p[2])) + state
    if kind == 9:
        return t(x['text']) + u(x['account'])
    return u(x['account']) + d(x['day']) + w(x['opening']) + s(x['closing']) + many(x['marked'], lambda m: u(m[0]) + s(m[1]))


def things(book):
    return {(KIND_OF[m], n): v for m in MAPS for n, v in getattr(book, m).items()}


def edit(source, target, form):
    """The edit that leads from one book to the other."""
    leaves = []
    if source.currency != target.currency:
        leaves.append(b'\3' + u(target.currency))
    keys = set()
    for m in MAPS:
        one, other = getattr(source, m), getattr(target, m)
        if one is not other:
            keys |= {(KIND_OF[m], n) for n in set(one) | set(other) if one.get(n) != other.get(n)}
    have = things(target)
    for k, n in sorted(keys):
        at = bytes([k]) + u(n)
        leaves.append(b'\1' + at + fields(k, have[k, n], form) if (k, n) in have else b'\2' + at)
    return leaves[0] if len(leaves) == 1 else b'\0' + u(len(leaves)) + b''.join(leaves)


def rows(m, form=2):
    """All rows of a machine by key, in a format. A fresh one has none."""
    if m.version == 0:
        return {}
    first = bytes([form])
    head = (m.next, m.version, m.position, len(m.past), len(m.later), m.book.currency)
    out = {(1, 0): first + b''.join(map(u, head))}
    out |= {key: first + fields(key[0], v, form) for key, v in things(m.book).items()}
    books = m.past + [m.book]
    for i in range(len(m.past)):
        out[11, m.position - len(m.past) + 1 + i] = first + edit(books[i + 1], books[i], form)
    books = [m.book] + list(reversed(m.later))
    for i in range(len(m.later)):
        out[12, m.position + 1 + i] = first + edit(books[i], books[i + 1], form)
    return out


class Reader:
    def __init__(self, data, form):
        self.data, self.at, self.form = data, 0, form

    def take(self, n):
        assert self.at + n <= len(self.data)
        self.at += n
        return self.data[self.at - n:self.at]

    def u(self): return int.from_bytes(self.take(8), 'big')
    def s(self): return int.from_bytes(self.take(8), 'big', signed=True)
    def w(self): return int.from_bytes(self.take(16), 'big', signed=True)
    def d(self): return dt.date.fromordinal(self.s() + EPOCH)
    def t(self): return self.take(self.u()).decode()
    def b(self): return self.take(1) == b'\1'
    def e(self): return self.take(1)[0] - 1
    def opt(self, f): return f() if self.b() else None
    def many(self, f): return [f() for _ in range(self.u())]

    def split(self, template):
        x = dict(id=self.u(), account=self.u(), memo=self.t(), action=self.t(), mark=MARKS[self.e()], recon=self.opt(self.u),
                 value=self.s(), quantity=self.s())
        if template:
            x['id'] = None
            del x['mark'], x['recon']
        return x

    def txn(self, template=False):
        x = dict(currency=self.u(), day=self.d(), num=self.t(), description=self.t())
        x['splits'] = self.many(lambda: self.split(template))
        kept = self.opt(self.void) if self.form == 2 else None
        if not template:
            x['splits'] = tuple(x['splits'])
            x['voided'] = kept
        elif kept is not None:
            raise ValueError('a voided template')
        return x

    def void(self):
        return dict(reason=self.t(), kept=tuple(self.many(lambda: (self.s(), self.s()))))

    def end(self):
        k = self.take(1)
        return None if k == b'\1' else ('until', self.d()) if k == b'\2' else ('after', self.u())

    def thing(self, kind):
        if kind == 2: return dict(space=self.t(), name=self.t(), full_name=self.t(), fraction=self.u())
        if kind == 3: return dict(name=self.t(), kind=KINDS[self.e()], commodity=self.u(), parent=self.opt(self.u), code=self.t(),
                                  note=self.t(), hidden=self.b(), placeholder=self.b(), basis=self.opt(self.u))
        if kind == 4: return self.txn()
        if kind == 5: return dict(commodity=self.u(), currency=self.u(), day=self.d(), num=self.u(), denom=self.u())
        if kind == 6:
            return dict(name=self.t(), recurrences=self.many(lambda: dict(kind=RECURRENCES[self.e()], every=self.u(), start=self.d(),
                        adjust=ADJUST[self.e()])), end=self.end(), advance=self.u(), last=self.opt(self.d), made=self.u(),
                        template=self.txn(True))
        if kind == 7: return dict(account=self.u(), account_text=self.t(), number=self.t(), opening=self.opt(self.s),
                                  closing=self.opt(self.s), day=self.d(), ties=self.opt(self.b))
        if kind == 8:
            x = dict(account=self.u(), statement=self.u(), ordinal=self.u(), day=self.d(), value_day=self.d(), amount=self.s(),
                     kind=self.t(), ref_own=self.t(), ref_bank=self.t(), text=self.t(), category=self.t(),
                     parts=tuple(self.many(lambda: (self.t(), self.t(), self.s()))))
            k = self.take(1)[0]
            x['state'] = ['open', 'matched', 'dismissed'][k - 1]
            x['split'] = self.u() if k == 2 else None
            return x
        if kind == 9: return dict(text=self.t(), account=self.u())
        return dict(account=self.u(), day=self.d(), opening=self.w(), closing=self.s(), marked=tuple(self.many(lambda: (self.u(), self.s()))))

    def apply(self, book):
        k = self.take(1)[0]
        if k == 0:
            for _ in range(self.u()):
                self.apply(book)
        elif k == 1:
            kind, n = self.take(1)[0], self.u()
            book.put(MAPS[kind - 2], n, self.thing(kind))
        elif k == 2:
            kind, n = self.take(1)[0], self.u()
            if n in getattr(book, MAPS[kind - 2]):
                book.gone(MAPS[kind - 2], n)
        else:
            book.currency = self.u()


def opened(have):
    """The machine that rows of either format open as; the rows have to be those of a sound book."""
    m = Machine()
    m.position = 0
    if not have:
        return m
    form = have[1, 0][0]
    assert form in (1, 2) and all(body[0] == form for body in have.values())
    head = Reader(have[1, 0][1:], form)
    m.next, m.version, m.position, past, later, currency = (head.u() for _ in range(6))
    book = Book()
    for name in MAPS:
        setattr(book, name, {})
    book.currency = currency
    for (kind, n), body in sorted(have.items()):
        if 2 <= kind <= 10:
            getattr(book, MAPS[kind - 2])[n] = Reader(body[1:], form).thing(kind)
    m.book = at = book
    for i in range(past):
        at = at.copy()
        Reader(have[11, m.position - i][1:], form).apply(at)
        m.past.insert(0, at)
    at = book
    for i in range(later):
        at = at.copy()
        Reader(have[12, m.position + 1 + i][1:], form).apply(at)
        m.later.insert(0, at)
    return m

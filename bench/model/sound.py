"""What rows open as: `opened`, or the key at which they are bad or those of an unsound book, from the chapter "When
rows are those of a book" of FORMATS.md alone. Two modules beside it read the bytes: `bad_key` of `formats.py` gives
the least key at which rows are bad, and `Reader` of `rows.py` reads the fields of all things but transactions. A
transaction is read here, since a template may be a voided one, and is then not sound."""
from formats import bad_key
from rows import Reader

MOST, MOST_OF_LINE = 10 ** 13, 10 ** 12
COUNTS = {2: 10_000, 3: 10_000, 4: 200_000, 5: 1_000_000, 6: 1_000, 7: 100_000, 8: 1_000_000, 9: 10_000, 10: 100_000}
MOST_SPLITS = 1_000_000
MARKS = 'ncyv'


class Whole(Reader):
    """A reader of whole transactions: a template has what a transaction has, and either may be voided."""

    def txn(self, template=False):
        x = dict(currency=self.u(), day=self.d(), num=self.t(), description=self.t())
        x['splits'] = self.many(self.whole_split)
        x['voided'] = self.opt(self.void) if self.form == 2 else None
        return x

    def void(self):
        return dict(reason=self.t(), kept=self.many(lambda: (self.s(), self.s())))

    def whole_split(self):
        return dict(id=self.u(), account=self.u(), memo=self.t(), action=self.t(), mark=MARKS[self.e()],
                    recon=self.opt(self.u), value=self.s(), quantity=self.s())

    def leaves(self, depth=0):
        """The leaves of an edit in order, each with its key, and how deep its lists are nested."""
        form = self.take(1)[0]
        if form == 0:
            out, most = [], depth + 1
            for _ in range(self.u()):
                parts, deep = self.leaves(depth + 1)
                out += parts
                most = max(most, deep)
            return out, most
        if form == 3:
            return [((1, 0), self.u())], depth
        kind, number = self.take(1)[0], self.u()
        return [((kind, number), self.thing(kind) if form == 1 else None)], depth


def twice(things, part, broken):
    """Tells each thing whose part a thing with a smaller number has."""
    seen = set()
    for n, x in things:
        p = part(x)
        if p in seen:
            broken(n)
        seen.add(p)


class Check:
    """The rules of a sound book; `have` are its things by key."""

    def __init__(self, have, currency):
        self.have, self.currency = have, currency
        self.kinds = {k: sorted((n, x) for (kind, n), x in have.items() if kind == k) for k in range(2, 11)}

    def get(self, kind, n):
        return self.have.get((kind, n))

    def is_currency(self, n):
        c = self.get(2, n)
        return c is not None and c['space'] == 'CURRENCY'

    def numbers(self):
        """All numbers that are below the next one."""
        for k in range(2, 11):
            for n, x in self.kinds[k]:
                yield n
                if k == 4:
                    yield from (s['id'] for s in x['splits'])
                if k == 6:
                    yield x['made']
                if k == 10:
                    yield from (s for s, _ in x['marked'])

    def roots(self):
        return [n for n, x in self.kinds[3] if x['kind'] == 'ROOT']

    def head(self, next_number):
        numbers = all(n < next_number for n in self.numbers())
        return self.is_currency(self.currency) and bool(self.roots()) and numbers

    def broken(self):
        """The keys of kinds 2 to 10 that break a rule."""
        out = set()
        for k in range(2, 11):
            keeps = getattr(self, 'kind_%d' % k)
            for place, (n, x) in enumerate(self.kinds[k]):
                if place >= COUNTS[k] or not keeps(n, x):
                    out.add((k, n))
        twice(self.kinds[2], lambda x: (x['space'], x['name']), lambda n: out.add((2, n)))
        twice(self.kinds[3], lambda x: (x['parent'], x['name']), lambda n: out.add((3, n)))
        twice(self.kinds[5], lambda x: (x['commodity'], x['currency'], x['day']), lambda n: out.add((5, n)))
        twice(self.kinds[7], lambda x: tuple(sorted(x.items(), key=lambda p: p[0])), lambda n: out.add((7, n)))
        key = ('account', 'ordinal', 'day', 'amount', 'kind', 'ref_own', 'ref_bank', 'text')
        twice(self.kinds[8], lambda x: tuple(x[f] for f in key), lambda n: out.add((8, n)))
        twice([p for p in self.kinds[8] if p[1]['state'] == 'matched'], lambda x: x['split'], lambda n: out.add((8, n)))
        twice(self.kinds[9], lambda x: x['text'], lambda n: out.add((9, n)))
        seen, count = set(), 0
        for n, x in self.kinds[4]:
            count += len(x['splits'])
            ids = [s['id'] for s in x['splits']]
            if count > MOST_SPLITS or len(set(ids)) < len(ids) or seen & set(ids):
                out.add((4, n))
            seen |= set(ids)
        return out

    def kind_2(self, n, x):
        return 1 <= x['fraction'] <= 10 ** 9

    def kind_3(self, n, x):
        group = lambda kind: 1 if kind in ('INCOME', 'EXPENSE') else 2 if kind == 'EQUITY' else 0
        if self.get(2, x['commodity']) is None:
            return False
        if x['kind'] in ('STOCK', 'MUTUAL'):
            if x['basis'] is None or not self.is_currency(x['basis']):
                return False
        elif x['basis'] is not None:
            return False
        if x['kind'] == 'ROOT':
            return x['parent'] is None and x['placeholder'] and n == self.roots()[0]
        if x['parent'] is None or self.get(3, x['parent']) is None:
            return False
        above = self.get(3, x['parent'])
        if above['kind'] != 'ROOT' and group(above['kind']) != group(x['kind']):
            return False
        seen = set()
        while n not in seen:
            seen.add(n)
            y = self.get(3, n)
            if y is None:
                return False
            if y['kind'] == 'ROOT':
                return True
            n = y['parent']
        return False

    def post(self, x):
        """Whether it keeps the rules of a post."""
        if not 1 <= len(x['splits']) <= 500 or not self.is_currency(x['currency']):
            return False
        for s in x['splits']:
            a = self.get(3, s['account'])
            if a is None or a['placeholder'] or abs(s['value']) > MOST or abs(s['quantity']) > MOST:
                return False
            if a['kind'] in ('STOCK', 'MUTUAL') and a['basis'] != x['currency']:
                return False
            if a['commodity'] == x['currency'] and s['value'] != s['quantity']:
                return False
        return sum(s['value'] for s in x['splits']) == 0

    def kind_4(self, n, x):
        if x['voided'] is None:
            return self.post(x) and all(map(self.is_marked, x['splits']))
        return all(map(self.is_empty, x['splits'])) and self.keeps(x)

    def is_empty(self, s):
        """Whether it is voided as the splits of a voided transaction are."""
        return (s['mark'], s['value'], s['quantity'], s['recon']) == ('v', 0, 0, None)

    def keeps(self, x):
        """Whether the amounts of each split are kept, and the transaction with them keeps the rules of a post."""
        kept = x['voided']['kept']
        if len(kept) != len(x['splits']):
            return False
        return self.post(dict(x, splits=[dict(s, value=v, quantity=q) for s, (v, q) in zip(x['splits'], kept)]))

    def is_marked(self, s):
        if s['mark'] == 'v':
            return False
        if s['mark'] != 'y':
            return s['recon'] is None
        r = None if s['recon'] is None else self.get(10, s['recon'])
        return r is not None and r['account'] == s['account'] and (s['id'], s['quantity']) in r['marked']

    def kind_5(self, n, x):
        return self.get(2, x['commodity']) is not None and self.is_currency(x['currency']) and \
            x['commodity'] != x['currency'] and 1 <= x['num'] <= 10 ** 9 and 1 <= x['denom'] <= 10 ** 9

    def kind_6(self, n, x):
        if not all(1 <= r['every'] <= 10_000 for r in x['recurrences']) or not 1 <= len(x['recurrences']) <= 12:
            return False
        if x['end'] == ('after', 0) or x['advance'] > 366:
            return False
        t = x['template']
        return t['voided'] is None and self.post(t) and \
            all((s['id'], s['mark'], s['recon']) == (0, 'n', None) for s in t['splits'])

    def kind_7(self, n, x):
        return self.get(3, x['account']) is not None

    def kind_8(self, n, x):
        if self.get(3, x['account']) is None or self.get(7, x['statement']) is None or abs(x['amount']) > MOST_OF_LINE:
            return False
        if x['state'] != 'matched':
            return True
        found = [s for _, t in self.kinds[4] for s in t['splits'] if s['id'] == x['split']]
        return bool(found) and found[0]['mark'] != 'v' and \
            (found[0]['account'], found[0]['quantity']) == (x['account'], x['amount'])

    def kind_9(self, n, x):
        a = self.get(3, x['account'])
        return a is not None and not a['placeholder']

    def kind_10(self, n, x):
        marked = [s for s, _ in x['marked']]
        return self.get(3, x['account']) is not None and len(set(marked)) == len(marked) and \
            x['opening'] + sum(q for _, q in x['marked']) == x['closing']


def step(have, currency, body, form, next_number):
    """The things and the currency to which a step leads; None where it breaks its rule."""
    leaves, depth = Whole(body[1:], form).leaves()
    keys = [key for key, _ in leaves]
    if any(a >= b for a, b in zip(keys, keys[1:])) or depth > 8:
        return None
    have = dict(have)
    for key, value in leaves:
        if key == (1, 0):
            currency = value
        elif value is None:
            if key not in have:
                return None
            del have[key]
        else:
            have[key] = value
    check = Check(have, currency)
    if not check.head(next_number) or check.broken():
        return None
    return have, currency


def answer(rows):
    """`opened`, `bad KIND ID` or `unsound KIND ID`."""
    if not rows:
        return 'opened'
    key = bad_key(rows)
    if key is not None:
        return 'bad %d %d' % key
    form = rows[1, 0][0]
    head = Reader(rows[1, 0][1:], form)
    next_number, version, position, past, later, currency = (head.u() for _ in range(6))
    have = {key: Whole(body[1:], form).thing(key[0]) for key, body in rows.items() if 2 <= key[0] <= 10}
    check = Check(have, currency)
    if position > version or past > position or past + later > 256 or not check.head(next_number):
        return 'unsound 1 0'
    broken = check.broken()
    if broken:
        return 'unsound %d %d' % min(broken)
    for kind, numbers in ((11, range(position, position - past, -1)), (12, range(position + 1, position + later + 1))):
        at = have, currency
        for n in numbers:
            at = step(*at, rows[kind, n], form, next_number)
            if at is None:
                return 'unsound %d %d' % (kind, n)
    return 'opened'

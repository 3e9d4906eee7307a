"""An independent model of the book's commands: a machine of whole books, written from the rules alone.

    python3 model.py < commands > answers
    python3 model.py --import FORMAT ACCOUNT CURRENCY < file      one import over a fresh book
    from model import Machine; Machine().line(b'{"do":..}') -> answer text or None for a blank line
"""
import datetime as dt
import json
import math
import re
import sys
import readers
import reports as rp

sys.setrecursionlimit(20000)
TOP = 2 ** 62
SIZE = 10 ** 13
LIMITS = dict(transactions=200_000, splits=1_000_000, accounts=10_000, commodities=10_000, prices=1_000_000, schedules=1_000,
              lines=1_000_000, statements=100_000, bindings=10_000, recons=100_000)
KINDS = 'ROOT ASSET BANK CASH CREDIT LIABILITY STOCK MUTUAL RECEIVABLE PAYABLE INCOME EXPENSE EQUITY'.split()
RECURRENCES = ['once', 'day', 'week', 'month', 'end of month', 'nth weekday', 'last weekday', 'year']


class NotJson(Exception):
    pass


class NotCommand(Exception):
    pass


class Broken(Exception):
    def __init__(self, rule, **fields):
        Exception.__init__(self, rule)
        self.rule, self.fields = rule, fields


class Float:
    pass


# ---------------------------------------------------------------- JSON

def number(text):
    if text == '-0':
        return Float()
    n = int(text) if len(text) < 400 else None
    if n is not None and -2 ** 63 <= n < 2 ** 64:
        return n
    return floating(text)


def floating(text):
    if math.isinf(float(text)):
        raise NotJson()
    return Float()


def no_constant(text):
    raise NotJson()


def lone(value):
    if isinstance(value, str):
        return any('\ud800' <= c <= '\udfff' for c in value)
    if isinstance(value, list):
        return any(lone(v) for v in value)
    return False


def pairs(items):
    for k, v in items:
        if lone(k) or lone(v):
            raise NotJson()
    return dict(items)


DECODER = json.JSONDecoder(object_pairs_hook=pairs, parse_int=number, parse_float=floating, parse_constant=no_constant)


def depth(text):
    level = most = 0
    for token in re.findall(r'"(?:[^"\\]|\\.)*"|[\[\]{}]', text, re.S):
        if token in '[{':
            level += 1
            most = max(most, level)
        elif token in ']}':
            level -= 1
    return most


def parse_json(data):
    try:
        text = data.decode('utf-8', 'strict')
        if re.search('[^ \t\r\n]', text) is None or text[0] == '\ufeff':
            raise NotJson()
        value, end = DECODER.raw_decode(text, re.match('[ \t\r\n]*', text).end())
        if text[end:].strip(' \t\r\n') != '' or depth(text) > 127 or lone(value):
            raise NotJson()
        return value
    except (ValueError, RecursionError):
        raise NotJson()


# ---------------------------------------------------------------- forms of members

MISS = object()


class Bad(Exception):
    pass


def N(v):
    if isinstance(v, bool) or not isinstance(v, int) or not 0 <= v < TOP:
        raise Bad()
    return v


def I(v):
    if isinstance(v, bool) or not isinstance(v, int) or not -2 ** 63 <= v < 2 ** 63:
        raise Bad()
    return v


def T(v):
    if not isinstance(v, str):
        raise Bad()
    return v


def TP(v):
    if not isinstance(v, str) or v == '':
        raise Bad()
    return v


def B(v):
    if not isinstance(v, bool):
        raise Bad()
    return v


def D(v):
    if not isinstance(v, str) or not re.fullmatch('[0-9]{4}-[0-9]{2}-[0-9]{2}', v):
        raise Bad()
    d = readers.date_of(int(v[:4]), int(v[5:7]), int(v[8:]))
    if d is None:
        raise Bad()
    return d


def word(*words):
    def form(v):
        if not isinstance(v, str) or v not in words:
            raise Bad()
        return v
    return form


def obj(v, members):
    """members: name -> (form, needed, absent)"""
    if not isinstance(v, dict) or any(k not in members for k in v):
        raise Bad()
    out = {}
    for k, (form, needed, absent) in members.items():
        if k in v:
            out[k] = form(v[k])
        elif needed:
            raise Bad()
        else:
            out[k] = absent
    return out


def splits(with_id):
    def form(v):
        if not isinstance(v, list):
            raise Bad()
        out = []
        for item in v:
            members = dict(account=(N, True, None), value=(I, True, None), quantity=(I, False, None), memo=(T, False, ''),
                           action=(T, False, ''))
            if with_id:
                members['id'] = (N, False, None)
            s = obj(item, members)
            s.setdefault('id', None)
            if s['quantity'] is None:
                s['quantity'] = s['value']
            out.append(s)
        return out
    return form


def others(v):
    if not isinstance(v, list):
        raise Bad()
    return [obj(i, dict(account=(N, True, None), value=(I, True, None), memo=(T, False, ''))) for i in v]


def recurrences(v):
    if not isinstance(v, list):
        raise Bad()
    return [obj(i, dict(kind=(word(*RECURRENCES), True, None), every=(N, True, None), start=(D, True, None),
                        adjust=(word('none', 'back', 'forward'), False, 'none'))) for i in v]


def end(v):
    if not isinstance(v, dict) or len(v) != 1:
        raise Bad()
    (k, x), = v.items()
    if k == 'until':
        return ('until', D(x))
    if k == 'after':
        return ('after', N(x))
    raise Bad()


R, O = True, False
TXN = [('day', D, R), ('currency', N, R), ('num', T, O, ''), ('description', T, O, ''), ('splits', splits(False), R)]
EDIT = TXN[:-1] + [('splits', splits(True), R)]
COMMANDS = {
    'book_currency': [('commodity', N, R)],
    'commodity_add': [('space', TP, R), ('name', TP, R), ('full_name', T, O, ''), ('fraction', N, R)],
    'account_add': [('name', TP, R), ('kind', word(*KINDS), R), ('commodity', N, R), ('parent', N, R), ('code', T, O, ''),
                    ('note', T, O, ''), ('hidden', B, O, False), ('placeholder', B, O, False), ('basis', N, O)],
    'account_edit': [('account', N, R), ('name', TP, O), ('parent', N, O), ('code', T, O), ('note', T, O), ('hidden', B, O),
                     ('placeholder', B, O)],
    'account_drop': [('account', N, R)],
    'post': TXN,
    'edit': [('transaction', N, R), ('force', B, O, False)] + EDIT,
    'drop': [('transaction', N, R), ('force', B, O, False)],
    'mark': [('split', N, R), ('state', word('n', 'c'), R), ('force', B, O, False)],
    'void': [('transaction', N, R), ('reason', T, R), ('force', B, O, False)],
    'unvoid': [('transaction', N, R)],
    'price_set': [('commodity', N, R), ('currency', N, R), ('day', D, R), ('num', N, R), ('denom', N, R)],
    'price_drop': [('price', N, R)],
    'schedule_add': [('name', T, R), ('recurrences', recurrences, R), ('end', end, O), ('advance', N, O, 0)] + TXN[1:],
    'schedule_drop': [('schedule', N, R)],
    'schedule_run': [('upto', D, R), ('schedule', N, O)],
    'bind': [('text', T, R), ('account', N, R)],
    'import': [('format', word('mt940', 'bai2', 'qif-md', 'qif-dm'), R), ('text', T, R), ('account', N, O), ('currency', N, O)],
    'line_match': [('line', N, R), ('split', N, R)],
    'line_add': [('line', N, R), ('others', others, R), ('description', T, O)],
    'line_dismiss': [('line', N, R)],
    'line_reopen': [('line', N, R)],
    'match_auto': [('account', N, R), ('window', N, R)],
    'reconcile': [('account', N, R), ('day', D, R), ('closing', I, R)],
    'reconcile_statement': [('statement', N, R)],
    'undo': [], 'redo': [],
    'register': [('account', N, R), ('from', D, O), ('to', D, O), ('csv', B, O, False)],
    'trial': [('day', D, R), ('csv', B, O, False)],
    'sheet': [('day', D, R), ('csv', B, O, False)],
    'income': [('from', D, R), ('to', D, R), ('csv', B, O, False)],
    'lots': [('account', N, R), ('csv', B, O, False)],
    'gains': [('account', N, R), ('from', D, R), ('to', D, R)],
    'lines': [('account', N, R)],
    'statements': [('account', N, R)],
    'recons': [('account', N, R)],
    'voided': [('account', N, R)],
    'due': [('upto', D, R)],
    'price': [('commodity', N, R), ('currency', N, R), ('day', D, R)],
    'status': [],
}
NAMED = {'schedule_add': TP}  # a schedule's name: see name_of


def command_of(value):
    """(word, members, at)"""
    if not isinstance(value, dict):
        raise NotCommand('')
    do = value.get('do')
    if not isinstance(do, str) or do not in COMMANDS:
        raise NotCommand('do')
    at = None
    if 'at' in value:
        try:
            at = N(value['at'])
        except Bad:
            raise NotCommand('at')
    got = {}
    for entry in COMMANDS[do]:
        name, form, needed = entry[:3]
        if do == 'schedule_add' and name == 'name':
            form = TP
        absent = entry[3] if len(entry) > 3 else None
        if do == 'import' and name == 'currency':
            needed = got['format'].startswith('qif')
            if not needed and 'currency' in value:
                raise NotCommand('currency')
        if name not in value:
            if needed:
                raise NotCommand(name)
            got[name] = absent
            continue
        try:
            got[name] = form(value[name])
        except Bad:
            raise NotCommand(name)
    listed = {'do', 'at'} | {e[0] for e in COMMANDS[do]}
    rest = sorted((k.encode() for k in value if k not in listed))
    if rest:
        raise NotCommand(rest[0].decode())
    return do, got, at


# ---------------------------------------------------------------- the book

MAPS = ['commodities', 'accounts', 'txns', 'prices', 'schedules', 'statements', 'lines', 'bindings', 'recons']


class Book:
    def __init__(self):
        for m in MAPS:
            setattr(self, m, {})
        self.commodities[1] = dict(space='CURRENCY', name='EUR', full_name='', fraction=100)
        self.accounts[2] = dict(name='Root', kind='ROOT', commodity=1, parent=None, code='', note='', hidden=False,
                                placeholder=True, basis=None)
        self.currency = 1

    def copy(self):
        b = Book.__new__(Book)
        b.__dict__.update(self.__dict__)
        return b

    def put(self, name, number, value):
        m = dict(getattr(self, name))
        m[number] = value
        setattr(self, name, m)

    def gone(self, name, number):
        m = dict(getattr(self, name))
        del m[number]
        setattr(self, name, m)

    def same(self, other):
        return all(a is b or a == b for a, b in ((getattr(self, m), getattr(other, m)) for m in MAPS + ['currency']))

    def is_currency(self, n):
        return self.commodities[n]['space'] == 'CURRENCY'

    def count_splits(self):
        return sum(len(t['splits']) for t in self.txns.values())

    def find_split(self, n):
        for t, txn in self.txns.items():
            for s in txn['splits']:
                if s['id'] == n:
                    return t, s
        return None


def need(book, name, kind, n):
    if n not in getattr(book, name):
        raise Broken('Unknown', kind=kind, id=n)


def group(kind):
    return 1 if kind in ('INCOME', 'EXPENSE') else 2 if kind == 'EQUITY' else 0


def security(account):
    return account['kind'] in ('STOCK', 'MUTUAL')


def least(numbers):
    numbers = list(numbers)
    return min(numbers) if numbers else None


def check_txn(book, txn):
    n = len(txn['splits'])
    if not 1 <= n <= 500:
        raise Broken('SplitCount', count=n)
    need(book, 'commodities', 'commodity', txn['currency'])
    if not book.is_currency(txn['currency']):
        raise Broken('WrongCurrency', commodity=txn['currency'])
    for place, s in enumerate(txn['splits']):
        need(book, 'accounts', 'account', s['account'])
        a = book.accounts[s['account']]
        if a['placeholder']:
            raise Broken('Placeholder', account=s['account'])
        if abs(s['value']) > SIZE or abs(s['quantity']) > SIZE:
            raise Broken('Limit', which='amount', at=SIZE)
        if security(a) and a['basis'] != txn['currency']:
            raise Broken('Basis', account=s['account'])
        if a['commodity'] == txn['currency'] and s['value'] != s['quantity']:
            raise Broken('ValueNotQuantity', place=place)
    total = sum(s['value'] for s in txn['splits'])
    if total != 0:
        raise Broken('Unbalanced', sum=str(total))


def refuse_voided(book, t):
    if book.txns[t]['voided'] is not None:
        raise Broken('Voided', transaction=t)


def refuse_reconciled(txn, force):
    """Without force the first reconciled split by place is in the way."""
    for s in txn['splits']:
        if s['mark'] == 'y' and not force:
            raise Broken('Reconciled', split=s['id'])


def dismiss_lines(old, book):
    """Dismisses the lines that are matched with a split that is gone, or has another account or quantity."""
    had = {s['id']: s for t in old.txns.values() for s in t['splits']}
    has = {s['id']: s for t in book.txns.values() for s in t['splits']}
    for n, line in book.lines.items():
        if line['state'] == 'matched':
            a, b = had.get(line['split']), has.get(line['split'])
            if b is None or a is not None and (a['account'], a['quantity']) != (b['account'], b['quantity']):
                book.put('lines', n, dict(line, state='dismissed', split=None))


def in_use(book, account):
    for kind, has in (
            ('schedule', [n for n, s in book.schedules.items() if any(x['account'] == account for x in s['template']['splits'])]),
            ('statement', [n for n, s in book.statements.items() if s['account'] == account]),
            ('line', [n for n, s in book.lines.items() if s['account'] == account]),
            ('binding', [n for n, s in book.bindings.items() if s['account'] == account]),
            ('reconciliation', [n for n, s in book.recons.items() if s['account'] == account])):
        if has:
            raise Broken('InUse', kind=kind, id=min(has))


def has_split(book, account):
    return any(s['account'] == account for t in book.txns.values() for s in t['splits'])


KEY = ('day', 'amount', 'kind', 'ref_own', 'ref_bank', 'text')


class Step:
    """One command at a book; `next` is the number to draw."""

    def __init__(self, old, next_number, past, later):
        self.old, self.book, self.next, self.past, self.later = old, old.copy(), next_number, past, later

    def draw(self):
        self.next += 1
        return self.next - 1

    def limit(self, which, count):
        if count > LIMITS[which]:
            raise Broken('Limit', which=which, at=LIMITS[which])

    def limit_grown(self, which, old, new):
        if new > old:
            self.limit(which, new)

    def all_limits(self):
        old, new = self.old, self.book
        for which, name in (('transactions', 'txns'), ('splits', None), ('accounts', 'accounts'), ('commodities', 'commodities'),
                            ('prices', 'prices'), ('schedules', 'schedules'), ('lines', 'lines'), ('statements', 'statements'),
                            ('bindings', 'bindings'), ('recons', 'recons')):
            if name is None:
                if old.txns is not new.txns:
                    self.limit_grown(which, old.count_splits(), new.count_splits())
            else:
                self.limit_grown(which, len(getattr(old, name)), len(getattr(new, name)))

    # ---- commodities and accounts

    def book_currency(self, c):
        need(self.book, 'commodities', 'commodity', c['commodity'])
        if not self.book.is_currency(c['commodity']):
            raise Broken('WrongCurrency', commodity=c['commodity'])
        self.book.currency = c['commodity']
        return {}

    def commodity_add(self, c):
        n = least(k for k, v in self.book.commodities.items() if (v['space'], v['name']) == (c['space'], c['name']))
        if n is not None:
            raise Broken('NameTaken', id=n)
        if not 1 <= c['fraction'] <= 10 ** 9:
            raise Broken('FractionShape')
        n = self.draw()
        self.book.put('commodities', n, dict(c))
        return dict(commodity=n)

    def taken(self, name, parent, but=None):
        n = least(k for k, v in self.book.accounts.items() if (v['name'], v['parent']) == (name, parent) and k != but)
        if n is not None:
            raise Broken('NameTaken', id=n)

    def account_add(self, c):
        b = self.book
        need(b, 'commodities', 'commodity', c['commodity'])
        need(b, 'accounts', 'account', c['parent'])
        if c['basis'] is not None:
            need(b, 'commodities', 'commodity', c['basis'])
        self.taken(c['name'], c['parent'])
        p = b.accounts[c['parent']]['kind']
        if c['kind'] == 'ROOT' or p != 'ROOT' and group(p) != group(c['kind']):
            raise Broken('ParentKind')
        if security(c):
            if c['basis'] is None or not b.is_currency(c['basis']):
                raise Broken('BasisShape')
        elif c['basis'] is not None:
            raise Broken('BasisShape')
        n = self.draw()
        b.put('accounts', n, dict(c))
        return dict(account=n)

    def account_edit(self, c):
        b, n = self.book, c['account']
        need(b, 'accounts', 'account', n)
        if c['parent'] is not None:
            need(b, 'accounts', 'account', c['parent'])
        a = b.accounts[n]
        if a['kind'] == 'ROOT':
            raise Broken('Root')
        new = dict(a, **{k: v for k, v in c.items() if k != 'account' and v is not None})
        self.taken(new['name'], new['parent'], n)
        at = new['parent']
        while at is not None:
            if at == n:
                raise Broken('Cycle')
            at = b.accounts[at]['parent']
        p = b.accounts[new['parent']]['kind']
        if p != 'ROOT' and group(p) != group(a['kind']):
            raise Broken('ParentKind')
        if new['placeholder'] and not a['placeholder']:
            if has_split(b, n):
                raise Broken('NotEmpty', account=n)
            in_use(b, n)
        b.put('accounts', n, new)
        return {}

    def account_drop(self, c):
        b, n = self.book, c['account']
        need(b, 'accounts', 'account', n)
        if b.accounts[n]['kind'] == 'ROOT':
            raise Broken('Root')
        if any(a['parent'] == n for a in b.accounts.values()) or has_split(b, n):
            raise Broken('NotEmpty', account=n)
        in_use(b, n)
        b.gone('accounts', n)
        return {}

    # ---- transactions

    def new_txn(self, currency, day, num, description, parts, marks=None):
        """Draws the numbers and puts a transaction: its number and its splits' numbers."""
        t = self.draw()
        made = []
        for i, s in enumerate(parts):
            made.append(dict(id=self.draw(), account=s['account'], memo=s['memo'], action=s['action'],
                             mark=marks[i] if marks else 'n', recon=None, value=s['value'], quantity=s['quantity']))
        self.book.put('txns', t, dict(currency=currency, day=day, num=num, description=description, splits=tuple(made), voided=None))
        return t, [s['id'] for s in made]

    def balances(self, parts):
        sums = rp.balances(self.book, rp.FIRST, rp.LAST)
        return [str(sums.get(s['account'], 0)) for s in parts]

    def post(self, c):
        check_txn(self.book, c)
        t, ids = self.new_txn(c['currency'], c['day'], c['num'], c['description'], c['splits'])
        return dict(transaction=t, splits=ids, balances=self.balances(c['splits']))

    def edit(self, c):
        b, t = self.book, c['transaction']
        need(b, 'txns', 'transaction', t)
        refuse_voided(b, t)
        old = b.txns[t]
        had, named = {s['id']: s for s in old['splits']}, set()
        for s in c['splits']:
            if s['id'] is not None:
                if s['id'] not in had or s['id'] in named:
                    raise Broken('Unknown', kind='split', id=s['id'])
                named.add(s['id'])
        check_txn(b, c)
        given = {s['id']: s for s in c['splits'] if s['id'] is not None}
        moved = lambda s: s['id'] not in given or (given[s['id']]['account'], given[s['id']]['quantity']) != (s['account'], s['quantity'])
        if not c['force']:
            for s in old['splits']:
                if s['mark'] == 'y' and moved(s):
                    raise Broken('Reconciled', split=s['id'])
        made = []
        for s in c['splits']:
            if s['id'] is None:
                n, mark, recon = self.draw(), 'n', None
            else:
                n, mark, recon = s['id'], had[s['id']]['mark'], had[s['id']]['recon']
                if mark == 'y' and moved(had[n]):
                    mark, recon = 'n', None
            made.append(dict(id=n, account=s['account'], memo=s['memo'], action=s['action'], mark=mark, recon=recon,
                             value=s['value'], quantity=s['quantity']))
        b.put('txns', t, dict(currency=c['currency'], day=c['day'], num=c['num'], description=c['description'], splits=tuple(made),
                              voided=None))
        dismiss_lines(self.old, b)
        return dict(splits=[s['id'] for s in made], balances=self.balances(c['splits']))

    def drop(self, c):
        need(self.book, 'txns', 'transaction', c['transaction'])
        refuse_voided(self.book, c['transaction'])
        refuse_reconciled(self.book.txns[c['transaction']], c['force'])
        self.book.gone('txns', c['transaction'])
        dismiss_lines(self.old, self.book)
        return {}

    def set_split(self, n, **fields):
        t, s = self.book.find_split(n)
        txn = self.book.txns[t]
        self.book.put('txns', t, dict(txn, splits=tuple(dict(x, **fields) if x['id'] == n else x for x in txn['splits'])))

    def mark(self, c):
        found = self.book.find_split(c['split'])
        if found is None:
            raise Broken('Unknown', kind='split', id=c['split'])
        refuse_voided(self.book, found[0])
        if found[1]['mark'] == 'y' and not c['force']:
            raise Broken('Reconciled', split=c['split'])
        self.set_split(c['split'], mark=c['state'], recon=None)
        return {}

    def void(self, c):
        b, t = self.book, c['transaction']
        need(b, 'txns', 'transaction', t)
        refuse_voided(b, t)
        txn = b.txns[t]
        refuse_reconciled(txn, c['force'])
        kept = tuple((s['value'], s['quantity']) for s in txn['splits'])
        b.put('txns', t, dict(txn, splits=tuple(dict(s, value=0, quantity=0, mark='v', recon=None) for s in txn['splits']),
                              voided=dict(reason=c['reason'], kept=kept)))
        ids = {s['id'] for s in txn['splits']}
        for n, line in b.lines.items():
            if line['state'] == 'matched' and line['split'] in ids:
                b.put('lines', n, dict(line, state='dismissed', split=None))
        return {}

    def unvoid(self, c):
        b, t = self.book, c['transaction']
        need(b, 'txns', 'transaction', t)
        txn = b.txns[t]
        if txn['voided'] is None:
            raise Broken('NotVoided', transaction=t)
        b.put('txns', t, dict(txn, splits=tuple(dict(s, value=v, quantity=q, mark='n', recon=None)
                                                for s, (v, q) in zip(txn['splits'], txn['voided']['kept'])), voided=None))
        return {}

    # ---- prices and schedules

    def price_set(self, c):
        b = self.book
        need(b, 'commodities', 'commodity', c['commodity'])
        need(b, 'commodities', 'commodity', c['currency'])
        if not b.is_currency(c['currency']):
            raise Broken('WrongCurrency', commodity=c['currency'])
        if not (1 <= c['num'] <= 10 ** 9 and 1 <= c['denom'] <= 10 ** 9) or c['commodity'] == c['currency']:
            raise Broken('PriceShape')
        triple = lambda p: (p['commodity'], p['currency'], p['day'])
        n = least(k for k, p in b.prices.items() if triple(p) == triple(c))
        if n is None:
            n = self.draw()
        b.put('prices', n, dict(c))
        return dict(price=n)

    def price_drop(self, c):
        need(self.book, 'prices', 'price', c['price'])
        self.book.gone('prices', c['price'])
        return {}

    def schedule_add(self, c):
        count = len(c['recurrences'])
        for place, r in enumerate(c['recurrences']):
            if not 1 <= r['every'] <= 10_000:
                raise Broken('RecurrenceShape', place=place)
        if not 1 <= count <= 12 or c['end'] == ('after', 0) or c['advance'] > 366:
            raise Broken('RecurrenceShape', place=count)
        template = dict(currency=c['currency'], day=c['recurrences'][0]['start'], num=c['num'], description=c['description'],
                        splits=c['splits'])
        check_txn(self.book, template)
        n = self.draw()
        self.book.put('schedules', n, dict(name=c['name'], recurrences=c['recurrences'], end=c['end'], advance=c['advance'],
                                           last=None, made=0, template=template))
        return dict(schedule=n)

    def schedule_drop(self, c):
        need(self.book, 'schedules', 'schedule', c['schedule'])
        self.book.gone('schedules', c['schedule'])
        return {}

    def schedule_run(self, c):
        if c['schedule'] is not None:
            need(self.book, 'schedules', 'schedule', c['schedule'])
        todo, made = [], []
        for n in sorted(self.book.schedules) if c['schedule'] is None else [c['schedule']]:
            days = rp.due(self.book.schedules[n], c['upto'])
            if days is None:
                raise Broken('Limit', which='days', at=1000)
            todo.append((n, days))
        for n, days in todo:
            s = self.book.schedules[n]
            t = s['template']
            for day in days:
                made.append(self.new_txn(t['currency'], day, t['num'], t['description'], t['splits'])[0])
            if days:
                self.book.put('schedules', n, dict(s, last=days[-1], made=s['made'] + len(days)))
        return dict(transactions=made)

    # ---- the bank's file

    def bind(self, c):
        b = self.book
        need(b, 'accounts', 'account', c['account'])
        if b.accounts[c['account']]['placeholder']:
            raise Broken('Placeholder', account=c['account'])
        n = least(k for k, v in b.bindings.items() if v['text'] == c['text'])
        b.put('bindings', self.draw() if n is None else n, dict(text=c['text'], account=c['account']))
        return {}

    def read(self, c):
        known = {v['name']: v['fraction'] for v in self.book.commodities.values() if v['space'] == 'CURRENCY'}
        if c['format'] == 'mt940':
            return readers.read_mt940(c['text'], known)
        if c['format'] == 'bai2':
            return readers.read_bai2(c['text'], known)
        v = self.book.commodities[c['currency']]
        return readers.read_qif(c['text'], v['name'], v['fraction'], c['format'] == 'qif-md')

    def do_import(self, c):
        b = self.book
        if c['account'] is not None:
            need(b, 'accounts', 'account', c['account'])
        if c['currency'] is not None:
            need(b, 'commodities', 'commodity', c['currency'])
            if not b.is_currency(c['currency']):
                raise Broken('WrongCurrency', commodity=c['currency'])
        try:
            statements = self.read(c)
        except readers.Fault as f:
            raise Broken('BadStatement', bad=f.bad, line=f.line,
                         **{k: v if k in ('level', 'what') else str(v) for k, v in f.fields.items()})
        bound = {v['text']: v['account'] for v in b.bindings.values()}
        accounts = []
        for s in statements:
            if c['account'] is None and s['account_text'] not in bound:
                raise Broken('Unbound', text=s['account_text'])
            a = c['account'] if c['account'] is not None else bound[s['account_text']]
            own = b.commodities[b.accounts[a]['commodity']]
            if (own['space'], own['name']) != ('CURRENCY', s['currency']):
                raise Broken('WrongCurrency', commodity=b.accounts[a]['commodity'])
            accounts.append(a)
        fields = ('account', 'account_text', 'number', 'opening', 'closing', 'day', 'ties')
        held = {tuple(v[f] for f in fields): n for n, v in b.statements.items()}
        keys = {(v['account'], v['ordinal']) + tuple(v[k] for k in KEY) for v in b.lines.values()}
        new_statements, new_lines, seen = dict(b.statements), dict(b.lines), 0
        made_statements, made_lines = [], []
        for a, s in zip(accounts, statements):
            h = dict(account=a, **{f: s[f] for f in fields[1:]})
            hk = tuple(h[f] for f in fields)
            if hk not in held:
                held[hk] = self.draw()
                new_statements[held[hk]] = h
                made_statements.append(held[hk])
            ordinals = {}
            for line in s['lines']:
                k = tuple(line[x] for x in KEY)
                ordinal = ordinals.get(k, 0)
                ordinals[k] = ordinal + 1
                key = (a, ordinal) + k
                if key in keys:
                    seen += 1
                    continue
                keys.add(key)
                n = self.draw()
                new_lines[n] = dict(line, account=a, statement=held[hk], ordinal=ordinal, state='open', split=None)
                made_lines.append(n)
        b.statements, b.lines = new_statements, new_lines
        return dict(lines=made_lines, seen=seen, statements=made_statements)

    def open_line(self, n):
        need(self.book, 'lines', 'line', n)
        if self.book.lines[n]['state'] != 'open':
            raise Broken('LineTaken', line=n)
        return self.book.lines[n]

    def line_add(self, c):
        b = self.book
        line = self.open_line(c['line'])
        for o in c['others']:
            need(b, 'accounts', 'account', o['account'])
        commodity = b.accounts[line['account']]['commodity']
        for o in c['others']:
            own = b.accounts[o['account']]['commodity']
            if own != commodity:
                raise Broken('WrongCurrency', commodity=own)
        parts = [dict(account=line['account'], value=line['amount'], quantity=line['amount'], memo='', action='')]
        parts += [dict(account=o['account'], value=o['value'], quantity=o['value'], memo=o['memo'], action='') for o in c['others']]
        check_txn(b, dict(currency=commodity, splits=parts))
        description = line['text'] if c['description'] is None else c['description']
        t, ids = self.new_txn(commodity, line['day'], line['ref_own'], description, parts, ['c'] + ['n'] * len(c['others']))
        b.put('lines', c['line'], dict(line, state='matched', split=ids[0]))
        return dict(transaction=t, splits=ids)

    def line_dismiss(self, c):
        line = self.open_line(c['line'])
        self.book.put('lines', c['line'], dict(line, state='dismissed', split=None))
        return {}

    def line_reopen(self, c):
        need(self.book, 'lines', 'line', c['line'])
        self.book.put('lines', c['line'], dict(self.book.lines[c['line']], state='open', split=None))
        return {}

    def matched(self):
        return {v['split']: n for n, v in self.book.lines.items() if v['state'] == 'matched'}

    def join_line(self, n, split):
        self.book.put('lines', n, dict(self.book.lines[n], state='matched', split=split))
        if self.book.find_split(split)[1]['mark'] == 'n':
            self.set_split(split, mark='c')

    def line_match(self, c):
        b = self.book
        need(b, 'lines', 'line', c['line'])
        found = b.find_split(c['split'])
        if found is None:
            raise Broken('Unknown', kind='split', id=c['split'])
        refuse_voided(b, found[0])
        line = self.open_line(c['line'])
        if c['split'] in self.matched():
            raise Broken('LineTaken', line=self.matched()[c['split']])
        if (found[1]['account'], found[1]['quantity']) != (line['account'], line['amount']):
            raise Broken('LineAmount', line=c['line'])
        self.join_line(c['line'], c['split'])
        return {}

    def match_auto(self, c):
        b = self.book
        need(b, 'accounts', 'account', c['account'])
        if c['window'] > 366:
            raise Broken('Limit', which='window', at=366)
        used = self.matched()
        free = [(s['id'], t['day'], s['quantity'], t['num']) for t in b.txns.values() for s in t['splits']
                if s['account'] == c['account'] and s['mark'] in 'nc' and s['id'] not in used]
        lines = sorted((v['day'], n) for n, v in b.lines.items() if v['account'] == c['account'] and v['state'] == 'open')
        made = []
        for day, n in lines:
            v = b.lines[n]
            can = [(abs((d - day).days), 0 if num == v['ref_own'] and num != '' else 1, s) for s, d, q, num in free
                   if q == v['amount'] and abs((d - day).days) <= c['window']]
            if can:
                s = min(can)[2]
                free = [f for f in free if f[0] != s]
                made.append([n, s])
        for n, s in made:
            self.join_line(n, s)
        return dict(pairs=made)

    def finish(self, account, day, closing):
        rows = rp.register(self.book, account)
        opening = sum(r[3]['quantity'] for r in rows if r[3]['mark'] == 'y')
        marked = [r[3] for r in rows if r[3]['mark'] == 'c' and r[0] <= day]
        by = closing - opening - sum(s['quantity'] for s in marked)
        if by != 0:
            raise Broken('Difference', by=str(by))
        n = self.draw()
        self.book.put('recons', n, dict(account=account, day=day, opening=opening, closing=closing,
                                        marked=tuple((s['id'], s['quantity']) for s in marked)))
        for s in marked:
            self.set_split(s['id'], mark='y', recon=n)
        return dict(reconciliation=n, marked=[s['id'] for s in marked])

    def reconcile(self, c):
        need(self.book, 'accounts', 'account', c['account'])
        return self.finish(c['account'], c['day'], c['closing'])

    def reconcile_statement(self, c):
        need(self.book, 'statements', 'statement', c['statement'])
        s = self.book.statements[c['statement']]
        if s['closing'] is None:
            raise Broken('NoClosing', statement=c['statement'])
        return self.finish(s['account'], s['day'], s['closing'])

    # ---- questions

    def range(self, c):
        first, last = c['from'] or rp.FIRST, c['to'] or rp.LAST
        if first > last:
            raise Broken('DayRange')
        return first, last

    def register(self, c):
        need(self.book, 'accounts', 'account', c['account'])
        return dict(text=rp.register_text(self.book, c['account'], *self.range(c), c['csv']))

    def trial(self, c):
        return dict(text=rp.trial(self.book, c['day'], c['csv']))

    def sheet(self, c):
        return dict(text=rp.sheet(self.book, c['day'], c['csv']))

    def income(self, c):
        return dict(text=rp.income(self.book, *self.range(c), c['csv']))

    def security_account(self, c):
        need(self.book, 'accounts', 'account', c['account'])
        if not security(self.book.accounts[c['account']]):
            raise Broken('Basis', account=c['account'])

    def lots(self, c):
        self.security_account(c)
        return dict(text=rp.lots_text(self.book, c['account'], c['csv']))

    def gains(self, c):
        self.security_account(c)
        first, last = self.range(c)
        return dict(gain=str(sum(p[4] for p in rp.lots(self.book, c['account'])[0] if first <= p[3] <= last)))

    def lines(self, c):
        need(self.book, 'accounts', 'account', c['account'])
        out = []
        for n in sorted(self.book.lines):
            v = self.book.lines[n]
            if v['account'] == c['account']:
                out.append({k: v[k] for k in ('amount', 'category', 'kind', 'ordinal', 'ref_bank', 'ref_own', 'split', 'state',
                                              'statement', 'text')}
                           | dict(id=n, day=str(v['day']), value_day=str(v['value_day']), parts=[list(p) for p in v['parts']]))
        return dict(lines=out)

    def statements(self, c):
        need(self.book, 'accounts', 'account', c['account'])
        return dict(statements=[
            {k: v[k] for k in ('account_text', 'closing', 'number', 'opening', 'ties')} | dict(id=n, day=str(v['day']))
            for n, v in sorted(self.book.statements.items()) if v['account'] == c['account']])

    def recons(self, c):
        need(self.book, 'accounts', 'account', c['account'])
        has = {s['id']: s for t in self.book.txns.values() for s in t['splits']}
        out = []
        for n, r in sorted(self.book.recons.items()):
            if r['account'] == c['account']:
                intact = all(s in has and (has[s]['account'], has[s]['mark'], has[s]['recon'], has[s]['quantity']) ==
                             (r['account'], 'y', n, q) for s, q in r['marked'])
                out.append(dict(id=n, day=str(r['day']), opening=str(r['opening']), closing=r['closing'],
                                marked=len(r['marked']), intact=intact))
        return dict(recons=out)

    def voided(self, c):
        need(self.book, 'accounts', 'account', c['account'])
        return dict(voided=[[t, s['id'], *amounts, txn['voided']['reason']] for t, txn in sorted(self.book.txns.items())
                            if txn['voided'] is not None
                            for s, amounts in zip(txn['splits'], txn['voided']['kept']) if s['account'] == c['account']])

    def due(self, c):
        out = []
        for n in sorted(self.book.schedules):
            days = rp.due(self.book.schedules[n], c['upto'])
            if days is None:
                raise Broken('Limit', which='days', at=1000)
            out += [[n, str(d)] for d in days]
        return dict(due=out)

    def price(self, c):
        need(self.book, 'commodities', 'commodity', c['commodity'])
        need(self.book, 'commodities', 'commodity', c['currency'])
        r = rp.rate(self.book, c['commodity'], c['currency'], c['day'])
        return dict(rate=list(r) if r else None)

    def status(self, c):
        b = self.book
        return dict(accounts=len(b.accounts), later=self.later, lines=len(b.lines), past=self.past, recons=len(b.recons),
                    splits=b.count_splits(), transactions=len(b.txns))


def dumps(answer):
    return json.dumps(answer, ensure_ascii=False, sort_keys=True, separators=(',', ':'))


class Machine:
    def __init__(self):
        self.book, self.past, self.later, self.next, self.version = Book(), [], [], 3, 0
        self.position = 0

    def turn(self, do):
        source, target = (self.past, self.later) if do == 'undo' else (self.later, self.past)
        if not source:
            raise Broken('NothingToUndo' if do == 'undo' else 'NothingToRedo')
        self.numbers(self.next, self.version + 1)
        target.append(self.book)
        self.book = source.pop()
        self.version += 1
        self.position += -1 if do == 'undo' else 1
        return {}

    def numbers(self, next_number, version):
        if next_number >= TOP or version >= TOP:
            raise Broken('Limit', which='numbers', at=TOP)

    def act(self, do, members, at):
        if at is not None and at != self.version:
            raise Broken('Stale', now=self.version)
        if do in ('undo', 'redo'):
            return self.turn(do)
        step = Step(self.book, self.next, len(self.past), len(self.later))
        answer = getattr(step, 'do_import' if do == 'import' else do)(members)
        if not step.book.same(self.book):
            step.all_limits()
            self.numbers(step.next, self.version + 1)
            self.past.append(self.book)
            del self.past[:-256]
            self.later, self.book, self.next = [], step.book, step.next
            self.version += 1
            self.position += 1
        return answer

    def command(self, do, members, at):
        try:
            return dumps(dict(self.act(do, members, at), ok=do, version=self.version))
        except Broken as b:
            return dumps(dict(b.fields, broken=b.rule, version=self.version))

    def line(self, data):
        """The answer to a line (bytes, without line feed), or None for a blank one."""
        if data.strip(b' \t\r') == b'':
            return None
        if len(data) > 8 * 1024 * 1024:
            return dumps(dict(length=len(data), refused='too long'))
        try:
            do, members, at = command_of(parse_json(data))
        except NotJson:
            return dumps(dict(refused='not json'))
        except NotCommand as e:
            return dumps(dict(field=str(e), refused='not command'))
        return self.command(do, members, at)

    def run(self, data):
        lines = data.split(b'\n')
        if lines[-1] == b'':
            lines.pop()
        answers = [self.line(x) for x in lines]
        return ''.join(a + '\n' for a in answers if a is not None)

    def import_words(self, data, fmt, account, currency):
        """The answer of `book import BOOK FORMAT ACCOUNT CURRENCY` with these bytes as input."""
        return self.command('import', dict(format=fmt, text=readers.as_text(data), account=account or None,
                                           currency=currency if fmt.startswith('qif') else None), None)


if __name__ == '__main__':
    words = sys.argv[1:]
    machine = Machine()
    if '--import' in words:
        i = words.index('--import')
        print(machine.import_words(sys.stdin.buffer.read(), words[i + 1], int(words[i + 2]), int(words[i + 3])))
    else:
        sys.stdout.write(machine.run(sys.stdin.buffer.read()))

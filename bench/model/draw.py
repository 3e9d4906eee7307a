"""Draws a list of command lines: python3 draw.py SEED COUNT [reconciling|voiding] > lines
The draw follows the model, so that most numbers that are named are live. All commands are drawn; those on statements, and
what acts on their lines, most often. With the word `reconciling` it is those that match, mark and reconcile, and commands
that break a rule; with `voiding` those that void and bring back, and what acts on the same transactions. Some lines are no
commands, or name what isn't there."""
import json
import os
import random
import sys
sys.path.insert(0, os.path.dirname(os.path.abspath(__file__)))
from model import Broken, Machine, Step
import datetime as dt


def js(c):
    return json.dumps(c, ensure_ascii=False, separators=(',', ':'))


def eur(cents):
    return '%d,%02d' % divmod(abs(cents), 100)


class Draw:
    def __init__(self, seed, reconciling=False, voiding=False):
        self.r = random.Random(seed)
        self.reconciling = reconciling or voiding
        self.voiding = voiding
        self.m = Machine()
        self.files = []
        self.names = 0

    def pick(self, items, odd=0.05):
        """One of the numbers; seldom one that may be none."""
        items = list(items)
        if not items or self.r.random() < odd:
            return self.r.choice([0, 1, 2, 3, 99999, self.m.next, self.m.next - 1, 2 ** 62 - 1])
        return self.r.choice(items)

    def day(self):
        return str(dt.date(2024, 1, 1) + dt.timedelta(self.r.randrange(60)))

    def cents(self):
        return self.r.choice([0, 1, 100, 250, 300, 300, 999, 12345, self.r.randrange(1, 100000)])

    def commodity(self):
        return self.pick(self.m.book.commodities, 0.03)

    def account(self, odd=0.04):
        return self.pick(self.m.book.accounts, odd)

    # ---- files

    def known(self, codes):
        have = {v['name'] for v in self.m.book.commodities.values() if v['space'] == 'CURRENCY'}
        return self.r.choice([c for c in codes if c in have or self.r.random() < 0.05] or ['EUR'])

    def money(self, code):
        f = next((v['fraction'] for v in self.m.book.commodities.values() if v['name'] == code and v['space'] == 'CURRENCY'), 100)
        return lambda v: eur(v) if f == 100 else '%d,' % abs(v) if f == 1 else '%d,%03d' % divmod(abs(v), 1000)

    def in_currency(self, code):
        near = [n for n, a in self.m.book.accounts.items() if self.m.book.commodities[a['commodity']]['name'] == code and n != 2]
        return self.pick(near, 0.06)

    def open_account(self):
        return self.pick([n for n, a in self.m.book.accounts.items() if not a['placeholder']], 0.06)

    def mt940(self):
        r, out = self.r, []
        for _ in range(r.choice([1, 1, 1, 2, 3])):
            code = self.known(['EUR'] * 8 + ['USD', 'USD', 'JPY', 'KWD'])
            eur = self.money(code)
            opening = r.choice([0, 100000, -5000])
            show = lambda v: '%s240131%s%s' % ('D' if v < 0 else 'C', code, eur(v))
            lines, total = [], opening
            for _ in range(r.choice([0, 1, 2, 2, 3, 5])):
                v, mark = self.cents(), r.choice(['C', 'D', 'D', 'RC', 'RD', 'DR', 'CR'])
                total += v if mark in ('C', 'RD', 'CR') else -v
                day = r.randrange(1, 5)
                entry = r.choice(['', '010%d' % day, '1231'])
                line = ':61:24010%d%s%s%s%s%s' % (day, entry, mark, eur(v), r.choice(['NTRF', 'NMSC', 'NCHG']),
                                               r.choice(['', 'A', 'NONREF', 'A//B', '//B', 'RÜCK//77']))
                text = r.choice(['', '', ':86:January rent\n', ':86:Café\nzwei  Zeilen \n', 'more\n', 'more\n:86:\n:86x\n'])
                lines += [line + '\n' + text] * r.choice([1, 1, 1, 1, 2])
                if len(lines) > 1 and lines[-1] == lines[-2]:
                    total += v if mark in ('C', 'RD', 'CR') else -v
            out.append(':20:S\n:25:%s\n:28C:%s\n:60F:%s\n%s:62F:%s\n%s' % (
                r.choice(['NL01', 'NL01', 'NL02', 'ä', 'NL01 ']), r.choice(['1/1', '1', '2/1', '/']), show(opening), ''.join(lines),
                show(total).replace('240131', r.choice(['240131', '240131', '240229'])), r.choice(['', '-\n', '-}{5:}\n\n'])))
        return ''.join(out)

    def bai2(self):
        r = self.r
        out, total, records, groups = ['01,B,F,240105,1200,%s,80,1,2/' % r.choice('12')], 0, 1, 0
        for _ in range(r.choice([1, 1, 2])):
            out.append('02,F,B,1,24010%d,1200,%s,2/' % (r.randrange(1, 4), r.choice(['USD', 'USD', '', 'EUR'])))
            g, n, accounts = 0, 1, 0
            for _ in range(r.choice([1, 1, 2])):
                opening, closing, lines = r.choice([None, 500]), r.choice([None, 500]), []
                sums = [v for v in (opening, closing) if v is not None]
                for _ in range(r.choice([0, 1, 2, 3])):
                    v = self.cents()
                    sums.append(v)
                    lines.append('16,%s,%d,%s,%s,%s,%s' % (r.choice(['165', '475', '475', '890', '698', '920']), v, r.choice(['', 'Z', 'V,240106,', '0', 'S,1,2,3']),
                                                       r.choice(['', 'B1']), r.choice(['', '1234']), r.choice(['CHECK', 'FEE/', ''])))
                    if r.random() < 0.2:
                        lines.append('88,' + r.choice(['MORE, AND MORE', '']))
                    if r.random() < 0.15 and lines[-1].startswith('16'):
                        lines.append(lines[-1])
                        sums.append(v)
                head = '03,%s,%s' % (r.choice(['123456789', 'NL01']), r.choice(['', 'USD', 'EUR']))
                head += ''.join(',%s,%d,,' % (k, v) for k, v in (('010', opening), ('015', closing)) if v is not None)
                out.append(head + '/')
                out += lines
                count = len(lines) + 2
                out.append('49,%d,%d/' % (sum(sums), count))
                g, n, accounts = g + sum(sums), n + count, accounts + 1
            out.append('98,%d,%d,%d/' % (g, accounts, n + 1))
            total, records, groups = total + g, records + n + 1, groups + 1
        out.append('99,%d,%d,%d/' % (total, groups, records + 1))
        return '\n'.join(out) + '\n'

    def qif(self):
        r, out = self.r, []
        if r.random() < 0.5:
            out.append('!Account\nN%s\n^' % r.choice(['Visa', 'NL01', '']))
        out.append(r.choice(['!Type:Bank', '!Type:CCard', '!type:cash']))
        for _ in range(r.choice([1, 1, 2, 3])):
            v = self.cents() * r.choice([1, -1, -1])
            entry = ["D%d/%d'24" % (r.randrange(1, 5), r.choice([1, 1, 2, 3, 12, 13])), 'T%s%d.%02d' % ('-' if v < 0 else '', *divmod(abs(v), 100))]
            entry += r.choice([[], ['PShop'], ['PShop', 'MMore'], ['POpening Balance', 'L[Visa]'], ['N7', 'PShop', 'LFood']])
            if r.random() < 0.2:
                entry += ['SFood', '$%s%d.%02d' % ('-' if v < 0 else '', *divmod(abs(v), 100)), 'SHome', 'ENothing', '$0']
            out += entry + ['^']
            if r.random() < 0.2:
                out += entry + ['^']
        return '\n'.join(out) + '\n'

    def file(self):
        r = self.r
        if self.files and r.random() < 0.4:
            fmt, text = r.choice(self.files)
            if r.random() < 0.15:
                fmt = r.choice(['mt940', 'bai2', 'qif-md', 'qif-dm'])
        else:
            fmt = r.choice(['mt940', 'mt940', 'mt940', 'bai2', 'bai2', 'qif-md', 'qif-dm'])
            text = self.mt940() if fmt == 'mt940' else self.bai2() if fmt == 'bai2' else self.qif()
            self.files.append((fmt, text))
        if r.random() < 0.12:
            n = r.randrange(len(text) + 1)
            text = r.choice([text[:n], text[:n] + r.choice('0:,\n^/-X9') + text[n:], text[:n] + text[n + 1:], text.replace('\n', '\r\n'), '\ufeff' + text,
                             text + text])
        return fmt, text

    # ---- commands

    def do_import(self):
        r = self.r
        fmt, text = self.file()
        c = dict(do='import', format=fmt, text=text)
        code = text[text.index(':60F:') + 12:][:3] if ':60F:' in text else 'USD' if ',USD' in text else 'EUR'
        if fmt.startswith('qif') != (r.random() < 0.02):
            c['currency'] = self.pick([n for n, v in self.m.book.commodities.items() if v['space'] == 'CURRENCY'], 0.04)
            code = self.m.book.commodities.get(c['currency'], {}).get('name')
        if r.random() < 0.55:
            c['account'] = self.in_currency(code) if r.random() < 0.9 else self.account()
        return c

    def do_bind(self):
        return dict(do='bind', text=self.r.choice(['NL01', 'NL02', 'ä', '123456789', 'Visa', '']), account=self.open_account())

    def line(self, state=None):
        lines = [n for n, v in self.m.book.lines.items() if state is None or v['state'] == state]
        return self.pick(lines or self.m.book.lines, 0.04)

    def do_line_add(self):
        r = self.r
        n = self.line('open') if r.random() < 0.9 else self.line()
        line = self.m.book.lines.get(n)
        amount = line['amount'] if line else 100
        own = self.m.book.accounts[line['account']]['commodity'] if line else 1
        near = [a for a, v in self.m.book.accounts.items() if v['commodity'] == own and not v['placeholder']]
        pick = lambda: self.pick(near, 0.08)
        others = r.choice([
            [dict(account=pick(), value=-amount)],
            [dict(account=pick(), value=-amount)],
            [dict(account=pick(), value=-amount, memo='m')],
            [dict(account=pick(), value=-amount + 1), dict(account=pick(), value=-1, memo='é')],
            [dict(account=pick(), value=amount)],
            [],
        ])
        c = dict(do='line_add', line=n, others=others)
        if r.random() < 0.3:
            c['description'] = r.choice(['', 'Fee', 'Ü'])
        return c

    def do_post(self):
        r = self.r
        currency = self.pick([n for n, v in self.m.book.commodities.items() if v['space'] == 'CURRENCY'], 0.03)
        v = self.cents() * r.choice([1, -1])
        near = [a for a, x in self.m.book.accounts.items() if not x['placeholder'] and (x['commodity'] == currency or r.random() < 0.1)]
        s = [dict(account=self.pick(near), value=v), dict(account=self.pick(near), value=-v if r.random() < 0.95 else v)]
        return dict(do='post', day=self.day(), currency=currency, num=r.choice(['', '7']), description=r.choice(['', 'Pay']), splits=s)

    def do_edit(self):
        r = self.r
        matched = [v['split'] for v in self.m.book.lines.values() if v['state'] == 'matched']
        t = self.pick(self.m.book.txns)
        if matched and r.random() < 0.6:
            t = self.m.book.find_split(r.choice(matched))[0]
        txn = self.m.book.txns.get(t)
        if txn is None:
            return dict(do='edit', transaction=t, day=self.day(), currency=1, splits=[dict(account=self.account(), value=0)])
        splits = [dict(account=s['account'], value=s['value'], quantity=s['quantity'], memo=s['memo'], id=s['id']) for s in txn['splits']]
        how = r.randrange(6)
        if how == 0 and splits:
            del splits[0]['id']
        elif how == 1 and len(splits) > 1:
            splits[0]['value'] += 5
            splits[0]['quantity'] += 5
            splits[1]['value'] -= 5
            splits[1]['quantity'] -= 5
        elif how == 2:
            splits[0]['account'] = self.account()
        elif how == 3:
            splits.reverse()
        return self.forced(dict(do='edit', transaction=t, day=self.day() if how == 4 else str(txn['day']), currency=txn['currency'],
                                num=txn['num'], description=r.choice([txn['description'], 'x']), splits=splits))

    def forced(self, c):
        """The command, sometimes with force."""
        return c | dict(force=self.r.random() < 0.8) if self.r.random() < 0.35 else c

    # ---- marks, matches and reconciliations

    def splits(self, test=lambda txn, split: True):
        return [s['id'] for t in self.m.book.txns.values() for s in t['splits'] if test(t, s)]

    def do_mark(self):
        ids = self.splits(lambda t, s: s['mark'] == 'y') if self.r.random() < 0.25 else self.splits(lambda t, s: s['mark'] == 'n')
        return self.forced(dict(do='mark', split=self.pick(ids or self.splits(), 0.06), state=self.r.choice('cccnnnn' if self.r.random() < 0.3 else 'ccccc')))

    def do_line_match(self):
        n = self.line('open') if self.r.random() < 0.85 else self.line()
        line = self.m.book.lines.get(n)
        fits = self.splits(lambda t, s: line is not None and (s['account'], s['quantity']) == (line['account'], line['amount']))
        return dict(do='line_match', line=n, split=self.pick(fits if self.r.random() < 0.85 else self.splits(), 0.04))

    def post_line(self):
        """A post of what an open line says, as a person enters it who did not wait for the bank."""
        lines = [v for v in self.m.book.lines.values() if v['state'] == 'open']
        if not lines:
            return self.do_post()
        line, r = self.r.choice(lines), self.r
        own = self.m.book.accounts[line['account']]['commodity']
        near = [a for a, x in self.m.book.accounts.items() if not x['placeholder'] and x['commodity'] == own]
        day = line['day'] + dt.timedelta(r.choice([0, 0, 1, 2, -1, -3, 10]))
        return dict(do='post', day=str(day), currency=own, num=r.choice(['', line['ref_own'], line['ref_own'], '7']),
                    splits=[dict(account=line['account'], value=line['amount']), dict(account=self.pick(near, 0), value=-line['amount'])])

    def do_match_auto(self):
        accounts = {v['account'] for v in self.m.book.lines.values()} if self.r.random() < 0.85 else self.m.book.accounts
        return dict(do='match_auto', account=self.pick(sorted(accounts), 0.03), window=self.r.choice([0, 1, 2, 3, 3, 5, 10, 30, 366, 367]))

    def closing(self, account, day):
        """What the cleared splits up to the day come to with the reconciled ones."""
        return sum(s['quantity'] for t in self.m.book.txns.values() for s in t['splits'] if s['account'] == account and
                   (s['mark'] == 'y' or s['mark'] == 'c' and str(t['day']) <= day))

    def do_reconcile(self):
        marked = {s['account'] for t in self.m.book.txns.values() for s in t['splits'] if s['mark'] == 'c'}
        account = self.pick(sorted(marked), 0.05) if marked and self.r.random() < 0.9 else self.account()
        day = self.day() if self.r.random() < 0.6 else '2024-12-31'
        closing = self.closing(account, day) if self.r.random() < 0.75 else self.r.choice([0, 1, -1, 85000, 2 ** 63 - 1, -2 ** 63])
        return dict(do='reconcile', account=account, day=day, closing=closing)

    def do_reconcile_statement(self):
        held = self.m.book.statements
        good = [n for n, v in held.items() if v['closing'] is not None and v['closing'] == self.closing(v['account'], str(v['day']))]
        return dict(do='reconcile_statement', statement=self.pick(good if good and self.r.random() < 0.7 else held, 0.05))

    # ---- voided transactions

    def do_void(self):
        """A void, mostly of a transaction that is not voided; else of one that is, or of none."""
        live = [n for n, t in self.m.book.txns.items() if t['voided'] is None]
        reason = self.r.choice(['wrong', 'twice', '', 'é "x"\n', 'wrong'])
        return self.forced(dict(do='void', transaction=self.pick(live if self.r.random() < 0.85 else self.m.book.txns, 0.04),
                                reason=reason))

    def do_unvoid(self):
        gone = [n for n, t in self.m.book.txns.items() if t['voided'] is not None]
        return dict(do='unvoid', transaction=self.pick(gone if self.r.random() < 0.85 else self.m.book.txns, 0.04))

    def voided_split(self):
        """A command on a voided transaction or one of its splits, that names it as if it were not voided."""
        ids = self.splits(lambda t, s: s['mark'] == 'v')
        gone = [n for n, t in self.m.book.txns.items() if t['voided'] is not None]
        return self.r.choice([
            lambda: self.forced(dict(do='mark', split=self.pick(ids), state=self.r.choice('nc'))),
            lambda: dict(do='line_match', line=self.line('open'), split=self.pick(ids)),
            lambda: self.forced(dict(do='drop', transaction=self.pick(gone))),
            lambda: self.forced(dict(do='edit', transaction=self.pick(gone), day=self.day(), currency=1,
                                     splits=[dict(account=self.account(), value=0, id=self.pick(ids))])),
            lambda: dict(do='account_drop', account=self.account()),
            lambda: dict(do='line_reopen', line=self.line('dismissed')),
        ])()

    def odd(self):
        """A command that mostly breaks one of the rules which the others seldom break."""
        r, b = self.r, self.m.book
        post = lambda splits: dict(do='post', day=self.day(), currency=1, splits=splits)
        security = [n for n, a in b.accounts.items() if a['kind'] in ('STOCK', 'MUTUAL')]
        return r.choice([
            lambda: dict(do='account_add', name='Bank', kind='BANK', commodity=1, parent=2),
            lambda: dict(do='account_add', name='Under', kind='INCOME', commodity=1, parent=3),
            lambda: dict(do='account_add', name='Fund', kind='STOCK', commodity=1, parent=2),
            lambda: dict(do='account_edit', account=3, parent=3),
            lambda: dict(do='account_edit', account=2, name='Top'),
            lambda: dict(do='account_drop', account=r.choice([2, 3, 4, 10, max(b.accounts)])),
            lambda: dict(do='commodity_add', space='NYSE', name='ZERO', fraction=0),
            lambda: dict(do='price_set', commodity=1, currency=1, day=self.day(), num=1, denom=1),
            lambda: dict(do='register', account=3, **{'from': '2024-02-02', 'to': '2024-02-01'}),
            lambda: dict(do='income', **{'from': '2024-01-01', 'to': r.choice(['2023-12-31', '2024-12-31'])}),
            lambda: dict(do='lots', account=r.choice([3] + security)),
            lambda: dict(do='gains', account=r.choice([4] + security), **{'from': '2024-01-01', 'to': '2024-12-31'}),
            lambda: post([]),
            lambda: post([dict(account=3, value=1, quantity=2), dict(account=4, value=-1)]),
            lambda: post([dict(account=3, value=10 ** 13 + 1), dict(account=4, value=-10 ** 13 - 1)]),
            lambda: post([dict(account=n, value=5, quantity=1) for n in security] + [dict(account=3, value=-5 * len(security))]),
            lambda: dict(do='schedule_add', name='Odd', recurrences=[dict(kind='day', every=r.choice([0, 1]), start='2020-01-01')],
                         currency=1, splits=[dict(account=3, value=0)]),
            lambda: dict(do='due', upto='2024-03-01'),
            lambda: dict(do='price', commodity=1, currency=self.commodity(), day=self.day()),
            lambda: dict(do='price_drop', price=self.pick(b.prices, 0.1)) if b.prices else
            dict(do='price_set', commodity=9, currency=1, day=self.day(), num=3, denom=2),
            lambda: dict(do='price_set', commodity=9, currency=1, day=self.day(), num=150, denom=100),
            lambda: dict(do='schedule_drop', schedule=self.pick(b.schedules, 0.1)),
        ])()

    def do_account_add(self):
        r = self.r
        self.names += 1
        return dict(do='account_add', name='A%d' % self.names, kind=r.choice(['BANK', 'BANK', 'CASH', 'CREDIT', 'EXPENSE', 'INCOME', 'STOCK']),
                    commodity=self.commodity(), parent=self.pick([2] * 6 + list(self.m.book.accounts))) | \
            (dict(placeholder=True) if r.random() < 0.15 else {}) | (dict(basis=1) if r.random() < 0.1 else {})

    def do_commodity_add(self):
        return dict(do='commodity_add', space=self.r.choice(['CURRENCY', 'CURRENCY', 'NYSE']), name=self.r.choice(['USD', 'JPY', 'KWD', 'ACME', 'GBP', 'EUR']),
                    fraction=self.r.choice([100, 100, 1, 1000]))

    def other(self):
        r = self.r
        return r.choice([
            lambda: dict(do='account_edit', account=self.account(), placeholder=r.random() < 0.7),
            lambda: dict(do='account_drop', account=self.account()),
            lambda: dict(do='book_currency', commodity=self.commodity()),
            lambda: dict(do='price_set', commodity=self.commodity(), currency=self.commodity(), day=self.day(), num=r.randrange(1, 200), denom=100),
            lambda: dict(do='schedule_add', name='S', recurrences=[dict(kind='month', every=1, start=self.day())], currency=1,
                         splits=[dict(account=self.account(), value=0)]),
            lambda: dict(do='schedule_run', upto='2024-03-01'),
            lambda: dict(do='trial', day=self.day()),
            lambda: dict(do='register', account=self.account(), csv=r.random() < 0.5),
            lambda: dict(do='sheet', day=self.day()),
            lambda: dict(do='status'),
        ])()

    def kinds(self):
        """The commands that are drawn, each with how often it is."""
        voiding = [(self.do_void, 24), (self.do_unvoid, 12), (self.voided_split, 12),
                   (lambda: dict(do='voided', account=self.account()), 12),
                   (lambda: dict(do='register', account=self.account(), csv=True), 6)] if self.voiding else \
            [(self.do_void, 4), (self.do_unvoid, 3), (self.voided_split, 2), (lambda: dict(do='voided', account=self.account()), 2)]
        return voiding + self.other_kinds()

    def other_kinds(self):
        if self.reconciling:
            return [(self.do_import, 9), (self.post_line, 14), (self.do_post, 4), (self.do_match_auto, 9), (self.do_line_match, 7), (self.do_mark, 12),
                    (self.do_reconcile, 9), (self.do_reconcile_statement, 6), (self.do_line_add, 7), (self.do_edit, 9), (self.odd, 10), (self.other, 5),
                    (self.do_account_add, 2), (self.do_commodity_add, 1), (self.do_bind, 1),
                    (lambda: dict(do='line_dismiss', line=self.line('open')), 1),
                    (lambda: dict(do='line_reopen', line=self.line(self.r.choice(['matched', 'dismissed', None]))), 3),
                    (lambda: self.forced(dict(do='drop', transaction=self.pick(self.m.book.txns))), 4),
                    (lambda: dict(do='recons', account=self.pick(sorted({v['account'] for v in self.m.book.recons.values()}) or self.m.book.accounts)), 6), (lambda: dict(do='lines', account=self.account()), 2),
                    (lambda: dict(do='statements', account=self.account()), 1),
                    (lambda: dict(do='undo'), 5), (lambda: dict(do='redo' if self.m.later or self.r.random() < 0.3 else 'status'), 5 + 15 * bool(self.m.later))]
        return [(self.do_import, 22), (self.do_bind, 7), (self.do_line_add, 16), (self.do_post, 6), (self.do_edit, 8), (self.do_account_add, 4),
                (self.do_commodity_add, 2), (self.other, 8),
                (lambda: dict(do='line_dismiss', line=self.line('open')), 5),
                (lambda: dict(do='line_reopen', line=self.line(self.r.choice(['matched', 'dismissed', None]))), 6),
                (lambda: self.forced(dict(do='drop', transaction=self.pick(self.m.book.txns))), 5),
                (self.do_match_auto, 3), (self.do_line_match, 3), (self.post_line, 3), (self.do_mark, 4), (self.do_reconcile, 3),
                (self.do_reconcile_statement, 2), (lambda: dict(do='recons', account=self.account()), 2),
                (lambda: dict(do='lines', account=self.account()), 5), (lambda: dict(do='statements', account=self.account()), 4),
                (lambda: dict(do='undo'), 6), (lambda: dict(do='redo' if self.m.later or self.r.random() < 0.3 else 'status'), 5)]

    def command(self):
        r, kinds = self.r, self.kinds()
        c = r.choices([k for k, _ in kinds], [n for _, n in kinds])[0]()
        if r.random() < 0.03:
            c['at'] = r.choice([self.m.version, self.m.version - 1, 0])
        if r.random() < 0.02:
            c[r.choice(['x', '', 'currency', 'others', 'text'])] = r.choice([None, 1, 'x', [], -1])
        if r.random() < 0.02 and len(c) > 1:
            del c[r.choice([k for k in c if k != 'do'])]
        return js(c)

    def lines(self, count):
        start = [dict(do='account_add', name='Bank', kind='BANK', commodity=1, parent=2), dict(do='account_add', name='Rent', kind='EXPENSE', commodity=1, parent=2),
                 dict(do='commodity_add', space='CURRENCY', name='USD', fraction=100), dict(do='account_add', name='Checking', kind='BANK', commodity=5, parent=2),
                 dict(do='bind', text='NL01', account=3), dict(do='bind', text='123456789', account=6)]
        if self.reconciling:
            if self.r.random() < 0.3:
                start.insert(0, dict(do='undo'))
            start += [dict(do='commodity_add', space='NYSE', name='ACME', fraction=1),
                      dict(do='account_add', name='Broker', kind='STOCK', commodity=9, parent=2, basis=1)]
        for i in range(count):
            if i < len(start):
                line = js(start[i])
            elif self.reconciling and i < len(start) + 5:
                line = js(self.good_file() if i == len(start) else self.post_line())
            else:
                line = self.command()
            self.m.line(line.encode())
            yield line

    def good_file(self):
        """An import of some lines that breaks no rule."""
        while True:
            c = dict(do='import', format='mt940', text=self.mt940(), account=3)
            trial = Step(self.m.book, self.m.next, 0, 0)
            try:
                if 3 < len(trial.do_import(c | dict(currency=None))['lines']) < 7 and 'C240131EUR0,00' in c['text']:
                    self.files.append(('mt940', c['text']))
                    return c
            except Broken:
                pass


if __name__ == '__main__':
    for line in Draw(int(sys.argv[1]), 'reconciling' in sys.argv[3:], 'voiding' in sys.argv[3:]).lines(int(sys.argv[2])):
        print(line)

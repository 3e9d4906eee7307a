"""Texts of reports, lots and rates, written from the rules alone."""
import datetime as dt

FIRST, LAST = dt.date(1900, 1, 1), dt.date(2199, 12, 31)


def amount_text(v, fraction):
    k, f = 0, fraction
    while f % 10 == 0:
        f //= 10
        k += 1
    if f != 1:
        return f'{v}/{fraction}'
    if k == 0:
        return str(v)
    s = str(abs(v)).rjust(k + 1, '0')
    return ('-' if v < 0 else '') + s[:-k] + '.' + s[-k:]


def plain(text):
    return ''.join(' ' if c < ' ' else c for c in text)


def csv_field(text):
    return '"' + text.replace('"', '""') + '"' if any(c in text for c in ',"\r\n') else text


def csv_text(rows):
    return ''.join(','.join(csv_field(f) for f in row) + '\n' for row in rows)


def order(book):
    children = {}
    for n in sorted(book.accounts):
        children.setdefault(book.accounts[n]['parent'], []).append(n)
    out, stack = [], list(reversed(children.get(None, [])))
    while stack:
        n = stack.pop()
        out.append(n)
        stack.extend(reversed(children.get(n, [])))
    return out


def path_of(book, n):
    names = []
    while book.accounts[n]['parent'] is not None:
        names.append(book.accounts[n]['name'])
        n = book.accounts[n]['parent']
    return ':'.join(reversed(names))


def rate(book, commodity, currency, day):
    if commodity == currency:
        return (1, 1)
    best = None
    for p in book.prices.values():
        if p['commodity'] == commodity and p['currency'] == currency and p['day'] <= day:
            if best is None or p['day'] > best['day']:
                best = p
    if best:
        return (best['num'], best['denom'])
    for p in book.prices.values():
        if p['commodity'] == currency and p['currency'] == commodity and p['day'] <= day:
            if best is None or p['day'] > best['day']:
                best = p
    return (best['denom'], best['num']) if best else None


def scale(v, num, denom, from_fraction, to_fraction):
    top, bottom = v * num * to_fraction, denom * from_fraction
    q = (2 * abs(top) + bottom) // (2 * bottom)
    if q > 10 ** 30:
        return None
    return -q if top < 0 else q


def worth(book, account, balance, day):
    """A number, 'no price' or 'over'."""
    if balance == 0:
        return 0
    c = book.accounts[account]['commodity']
    r = rate(book, c, book.currency, day)
    if r is None:
        return 'no price'
    w = scale(balance, r[0], r[1], book.commodities[c]['fraction'], book.commodities[book.currency]['fraction'])
    return 'over' if w is None else w


def register(book, account):
    """The splits of the account that are not voided, by day, transaction number and place."""
    rows = []
    for t, txn in book.txns.items():
        for place, s in enumerate(txn['splits']):
            if s['account'] == account and s['mark'] != 'v':
                rows.append((txn['day'], t, place, s, txn))
    rows.sort(key=lambda r: r[:3])
    return rows


def balance(book, account, first=FIRST, last=LAST):
    return sum(s['quantity'] for t in book.txns.values() if first <= t['day'] <= last for s in t['splits']
               if s['account'] == account)


def balances(book, first, last):
    out = {}
    for t in book.txns.values():
        if first <= t['day'] <= last:
            for s in t['splits']:
                out[s['account']] = out.get(s['account'], 0) + s['quantity']
    return out


def trial(book, day, csv):
    sums = {}
    for t in book.txns.values():
        if t['day'] <= day:
            for s in t['splits']:
                key = (t['currency'], s['account'])
                sums[key] = sums.get(key, 0) + s['value']
    out, rows = ['Trial balance %s\n' % day], [['currency', 'account', 'debit', 'credit']]
    accounts = order(book)
    for c in sorted({k[0] for k, v in sums.items() if v}):
        name, f = book.commodities[c]['name'], book.commodities[c]['fraction']
        out.append(plain(name) + '\n')
        debit = credit = 0
        for a in accounts:
            v = sums.get((c, a), 0)
            if v == 0:
                continue
            d, k = (amount_text(v, f), '') if v > 0 else ('', amount_text(-v, f))
            debit, credit = debit + max(v, 0), credit + max(-v, 0)
            path = path_of(book, a)
            out.append(d.rjust(24) + k.rjust(24) + '  ' + plain(path) + '\n')
            rows.append([name, path, d, k])
        d, k = amount_text(debit, f), amount_text(credit, f)
        out.append(d.rjust(24) + k.rjust(24) + '  Total\n')
        rows.append([name, 'Total', d, k])
    return csv_text(rows) if csv else ''.join(out)


ASSETS = {'ASSET', 'BANK', 'CASH', 'STOCK', 'MUTUAL', 'RECEIVABLE'}
LIABILITIES = {'CREDIT', 'LIABILITY', 'PAYABLE'}


def section(book, title, kinds, sign, sums, day, out, rows):
    f = book.commodities[book.currency]['fraction']
    out.append(title + '\n')
    total = left = 0
    for a in order(book):
        if book.accounts[a]['kind'] not in kinds or sums.get(a, 0) == 0:
            continue
        w = worth(book, a, sums[a], day)
        if isinstance(w, str):
            left += 1
            text = w
        else:
            total += sign * w
            text = amount_text(sign * w, f)
        path = path_of(book, a)
        out.append(text.rjust(24) + '  ' + plain(path) + '\n')
        rows.append([title, path, text])
    out.append(amount_text(total, f).rjust(24) + '  Total ' + title + '\n')
    rows.append([title, 'Total', amount_text(total, f)])
    return total, left


def sheet(book, day, csv):
    sums = balances(book, FIRST, day)
    f, name = book.commodities[book.currency]['fraction'], book.commodities[book.currency]['name']
    out, rows = ['Balance sheet %s %s\n' % (day, plain(name))], [['section', 'account', 'worth']]
    assets, l1 = section(book, 'Assets', ASSETS, 1, sums, day, out, rows)
    liabilities, l2 = section(book, 'Liabilities', LIABILITIES, -1, sums, day, out, rows)
    equity, l3 = section(book, 'Equity', {'EQUITY'}, -1, sums, day, out, rows)
    retained, left = 0, l1 + l2 + l3
    for a in order(book):
        if book.accounts[a]['kind'] in ('INCOME', 'EXPENSE'):
            w = worth(book, a, sums.get(a, 0), day)
            if isinstance(w, str):
                left += 1
            else:
                retained -= w
    unbooked = assets - liabilities - equity - retained
    for word, v in (('Retained earnings', retained), ('Unbooked gains', unbooked)):
        out.append(amount_text(v, f).rjust(24) + '  ' + word + '\n')
        rows.append(['Summary', word, amount_text(v, f)])
    out.append('Left out: %d\n' % left)
    rows.append(['Summary', 'Left out', str(left)])
    return csv_text(rows) if csv else ''.join(out)


def income(book, first, last, csv):
    sums = balances(book, first, last)
    f, name = book.commodities[book.currency]['fraction'], book.commodities[book.currency]['name']
    out, rows = ['Income and expenses %s %s %s\n' % (first, last, plain(name))], [['section', 'account', 'worth']]
    got, l1 = section(book, 'Income', {'INCOME'}, -1, sums, last, out, rows)
    spent, l2 = section(book, 'Expenses', {'EXPENSE'}, 1, sums, last, out, rows)
    out.append(amount_text(got - spent, f).rjust(24) + '  Net\n')
    rows.append(['Summary', 'Net', amount_text(got - spent, f)])
    out.append('Left out: %d\n' % (l1 + l2))
    rows.append(['Summary', 'Left out', str(l1 + l2)])
    return csv_text(rows) if csv else ''.join(out)


def register_text(book, account, first, last, csv):
    c = book.commodities[book.accounts[account]['commodity']]
    out = ['Register %s %s\n' % (plain(path_of(book, account)), plain(c['name']))]
    rows, total = [['day', 'mark', 'quantity', 'balance', 'num', 'description']], 0
    for day, _, _, s, t in register(book, account):
        total += s['quantity']
        if first <= day <= last:
            q, b = amount_text(s['quantity'], c['fraction']), amount_text(total, c['fraction'])
            out.append('%s  %s  %s  %s  %s  %s\n' % (day, s['mark'], q.rjust(20), b.rjust(24), plain(t['num']),
                                                    plain(t['description'])))
            rows.append([str(day), s['mark'], q, b, t['num'], t['description']])
    return csv_text(rows) if csv else ''.join(out)


def lots(book, account):
    """(pairs, open lots, adjustments): pairs (plus, minus, units, day, gain), open (split, units, cost)."""
    plus, minus, at, adjustments = [], [], {1: 0, -1: 0}, 0
    for i, (day, _, _, s, _) in enumerate(register(book, account)):
        q = s['quantity']
        if q == 0:
            adjustments += s['value']
            continue
        sign = 1 if q > 0 else -1
        (plus if q > 0 else minus).append((at[sign], at[sign] + abs(q), s, i, day))
        at[sign] += abs(q)

    def share(s, a, b):
        q, v = abs(s['quantity']), s['value']
        cut = lambda t: (abs(v) * t // q) * (1 if v >= 0 else -1)
        return cut(b) - cut(a)

    pairs, i, j = [], 0, 0
    while i < len(plus) and j < len(minus):
        p, m = plus[i], minus[j]
        a, b = max(p[0], m[0]), min(p[1], m[1])
        if a < b:
            gain = -(share(p[2], a - p[0], b - p[0]) + share(m[2], a - m[0], b - m[0]))
            pairs.append((p[2]['id'], m[2]['id'], b - a, (p if p[3] > m[3] else m)[4], gain))
        if p[1] <= m[1]:
            i += 1
        if m[1] <= p[1]:
            j += 1
    opened = []
    for side, other, sign in ((plus, -1, 1), (minus, 1, -1)):
        for a, b, s, place, _ in side:
            start = max(a, at[other])
            if start < b:
                opened.append((place, s['id'], sign * (b - start), share(s, start - a, b - a)))
    opened.sort()
    return pairs, [o[1:] for o in opened], adjustments


def lots_text(book, account, csv):
    a = book.accounts[account]
    f, g = book.commodities[a['commodity']]['fraction'], book.commodities[a['basis']]['fraction']
    pairs, opened, adjustments = lots(book, account)
    gains, cost = sum(p[4] for p in pairs), sum(o[2] for o in opened)
    out, rows = ['Lots %s\n' % plain(path_of(book, account))], [['what', 'plus', 'minus', 'units', 'day', 'amount']]
    for p, m, n, day, gain in pairs:
        out.append('pair %d %d %s %s %s\n' % (p, m, amount_text(n, f), day, amount_text(gain, g)))
        rows.append(['pair', str(p), str(m), amount_text(n, f), str(day), amount_text(gain, g)])
    for s, n, c in opened:
        out.append('open %d %s %s\n' % (s, amount_text(n, f), amount_text(c, g)))
        rows.append(['open', str(s) if n > 0 else '', '' if n > 0 else str(s), amount_text(n, f), '', amount_text(c, g)])
    for word, v in (('Adjustments', adjustments), ('Gains', gains), ('Open cost', cost)):
        out.append(word + ' ' + amount_text(v, g) + '\n')
        rows.append([word, '', '', '', '', amount_text(v, g)])
    return csv_text(rows) if csv else ''.join(out)


# ---------------------------------------------------------------- schedules

def month_later(start, months):
    m = start.year * 12 + start.month - 1 + months
    return m // 12, m % 12 + 1


def month_length(y, m):
    nxt = dt.date(y + 1, 1, 1) if m == 12 else dt.date(y, m + 1, 1)
    return (nxt - dt.timedelta(1)).day


def occurrence(r, k):
    start, every, kind = r['start'], r['every'], r['kind']
    if kind == 'once':
        return start if k == 0 else None
    if kind in ('day', 'week'):
        n = start.toordinal() + k * every * (7 if kind == 'week' else 1)
        return dt.date.fromordinal(n) if n <= LAST.toordinal() else None
    y, m = month_later(start, k * every * (12 if kind == 'year' else 1))
    if y > 2199:
        return None
    n = month_length(y, m)
    if kind in ('month', 'year'):
        d = dt.date(y, m, min(start.day, n))
    elif kind == 'end of month':
        d = dt.date(y, m, n)
    else:
        days = [x for x in range(1, n + 1) if dt.date(y, m, x).weekday() == start.weekday()]
        if kind == 'last weekday' or start.day >= 29:
            d = dt.date(y, m, days[-1])
        else:
            d = dt.date(y, m, days[(start.day + 6) // 7 - 1])
    if kind in ('month', 'end of month', 'year') and d.weekday() >= 5:
        over = d.weekday() - 4
        if r['adjust'] == 'back':
            n = d.toordinal() - over
        elif r['adjust'] == 'forward':
            n = d.toordinal() + 3 - over
        else:
            n = d.toordinal()
        if not FIRST.toordinal() <= n <= LAST.toordinal():
            return None
        d = dt.date.fromordinal(n)
    return d


def due(s, upto):
    """The due days in order; None where there are more than 1,000."""
    last = dt.date.fromordinal(min(LAST.toordinal(), upto.toordinal() + s['advance']))
    days = set()
    for r in s['recurrences']:
        k = 0
        while True:
            d = occurrence(r, k)
            if d is None and k > 0 or d is not None and d.toordinal() > last.toordinal() + 10:
                break
            if d is not None and d <= last and (s['last'] is None or d > s['last']):
                days.add(d)
            k += 1
    days = sorted(days)
    end = s['end']
    if end is not None and end[0] == 'until':
        days = [d for d in days if d <= end[1]]
    elif end is not None:
        days = days[:max(0, end[1] - s['made'])]
    return None if len(days) > 1000 else days

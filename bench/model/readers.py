"""Readers of MT940, BAI2 and QIF, written from the rules alone (no code of the repository was used)."""
import datetime as dt
import re

SIZE = 10 ** 12
LINES_OF_STATEMENT = 10_000
STATEMENTS_OF_FILE = 1_000


class Fault(Exception):
    def __init__(self, bad, line, **fields):
        Exception.__init__(self, bad)
        self.bad, self.line, self.fields = bad, line, fields


def lines_of(text):
    pieces = text.split('\n')
    if pieces[-1] == '':
        pieces.pop()
    return [(p[:-1] if p.endswith('\r') else p).rstrip(' ') for p in pieces]


def join(pieces):
    return ' '.join(p for p in pieces if p != '')


def date_of(year, month, day):
    try:
        d = dt.date(year, month, day)
    except (ValueError, OverflowError):
        return None
    return d if 1900 <= d.year <= 2199 else None


def window(yy):
    return 1900 + yy if 80 <= yy <= 99 else 2000 + yy


def yymmdd(text):
    if not re.fullmatch(r'[0-9]{6}', text):
        return None
    return date_of(window(int(text[:2])), int(text[2:4]), int(text[4:]))


def units(whole, decimals, fraction):
    """The count of smallest units, or None where it isn't a whole number."""
    k = len(decimals)
    total = int((whole or '0') + decimals) * fraction
    return total // 10 ** k if total % 10 ** k == 0 else None


def line_value(day, value_day, amount, kind='', ref_own='', ref_bank='', text='', category='', parts=()):
    return dict(day=day, value_day=value_day, amount=amount, kind=kind, ref_own=ref_own, ref_bank=ref_bank, text=text,
                category=category, parts=tuple(parts))


# ---------------------------------------------------------------- MT940

KNOWN_TAGS = {'20', '21', '25', '25P', '28', '28C', '60F', '60M', '61', '86', '62F', '62M', '64', '65'}
# after which stage a tag may stand, and the stage that it leads to
NEXT = {
    'start': {'20': '20'},
    '20': {'21': '21', '25': '25', '25P': '25'},
    '21': {'25': '25', '25P': '25'},
    '25': {'28': '28', '28C': '28'},
    '28': {'60F': '60', '60M': '60'},
    '60': {'61': '61', '62F': '62', '62M': '62'},
    '61': {'61': '61', '86': '86', '62F': '62', '62M': '62'},
    '86': {'61': '61', '62F': '62', '62M': '62'},
    '62': {'64': '64', '65': '65', '86': 'end'},
    '64': {'65': '65', '86': 'end'},
    '65': {'65': '65', '86': 'end'},
    'end': {},
}
CLOSED = {'62', '64', '65', 'end'}


def messages_of(lines):
    """Each message: its fields as [tag, line number, [texts]], and the line at which it is cut off if it lacks its 62."""
    messages, current = [], None
    for number, line in enumerate(lines, 1):
        if line.startswith(':20:'):
            if current is not None:
                current['cut'] = number - 1
                messages.append(current)
            current = {'fields': [['20', number, [line[4:]]]]}
            continue
        if current is None:
            continue
        if line == '-' or line.startswith('-}'):
            current['cut'] = number - 1
            messages.append(current)
            current = None
            continue
        m = re.match(r':([0-9]{2}[A-Z]?):', line)
        if m:
            current['fields'].append([m.group(1), number, [line[m.end():]]])
        else:
            current['fields'][-1][2].append(line)
    if current is not None:
        current['cut'] = len(lines)
        messages.append(current)
    return messages


def comma_amount(text):
    m = re.fullmatch(r'([0-9]{1,12}),([0-9]{0,9})', text)
    return m.groups() if m else None


def balance_field(text, number, known, currency):
    if len(text) < 10 or text[0] not in 'CD' or not re.fullmatch('[A-Z]{3}', text[7:10]):
        raise Fault('FieldForm', number)
    day = yymmdd(text[1:7])
    if day is None:
        raise Fault('DateForm', number)
    parts = comma_amount(text[10:])
    if parts is None:
        raise Fault('AmountForm', number)
    code = text[7:10]
    if code not in known:
        raise Fault('UnknownCurrency', number)
    if currency is not None and code != currency:
        raise Fault('CurrencyDiffers', number)
    amount = units(*parts, known[code])
    if amount is None:
        raise Fault('TooManyDecimals', number)
    if amount > SIZE:
        raise Fault('AmountForm', number)
    return day, code, -amount if text[0] == 'D' else amount


def entry_day(value_day, mmdd):
    best = None
    for year in (value_day.year - 1, value_day.year, value_day.year + 1):
        d = date_of(year, int(mmdd[:2]), int(mmdd[2:]))
        if d is not None:
            distance = abs((d - value_day).days)
            if best is None or distance < best[0]:
                best = (distance, d)
    return best[1] if best else None


def line_61(text, number, fraction):
    value_text, rest = text[:6], text[6:]
    entry = None
    if re.match('[0-9]{4}', rest):
        entry, rest = rest[:4], rest[4:]
    for mark in ('RC', 'RD', 'C', 'D'):
        if rest.startswith(mark):
            rest = rest[len(mark):]
            break
    else:
        raise Fault('FieldForm', number)
    if re.match('[A-Z]', rest):
        rest = rest[1:]
    amount_text = re.match('[0-9,]*', rest).group()
    rest = rest[len(amount_text):]
    if not re.match('[A-Z][A-Z0-9]{3}', rest):
        raise Fault('FieldForm', number)
    kind, references = rest[:4], rest[4:]
    value_day = yymmdd(value_text)
    if value_day is None:
        raise Fault('DateForm', number)
    day = value_day if entry is None else entry_day(value_day, entry)
    if day is None:
        raise Fault('DateForm', number)
    parts = comma_amount(amount_text)
    if parts is None:
        raise Fault('AmountForm', number)
    amount = units(*parts, fraction)
    if amount is None:
        raise Fault('TooManyDecimals', number)
    if amount > SIZE:
        raise Fault('AmountForm', number)
    own, _, bank = references.partition('//')
    return line_value(day, value_day, amount if mark in ('C', 'RD') else -amount, kind, own, bank)


def read_mt940(text, known):
    """known: code of a currency -> fraction"""
    lines = lines_of(text)
    messages = messages_of(lines)
    if not messages:
        raise Fault('NoStatement', 0)
    statements, before = [], None
    for message in messages:
        stage, st, page = 'start', None, {}
        account_text = number_text = None
        for tag, number, texts in message['fields']:
            if tag not in KNOWN_TAGS:
                continue
            if tag not in NEXT[stage]:
                raise Fault('FieldOrder', number)
            was, stage = stage, NEXT[stage][tag]
            first = texts[0]
            if stage == '25':
                if first == '':
                    raise Fault('FieldForm', number)
                account_text = first
            elif stage == '28':
                if first == '':
                    raise Fault('FieldForm', number)
                number_text = first.split('/')[0]
            elif stage == '60':
                day, code, amount = balance_field(first, number, known, None)
                page = dict(account=account_text, code=code, opening=amount, sum=amount)
                if before and before['account'] == account_text and (before['more'] or tag == '60M'):
                    if not (before['more'] and tag == '60M' and before['closing'] == amount and before['code'] == code):
                        raise Fault('PageOrder', number)
                    st = statements[-1]
                else:
                    if len(statements) >= STATEMENTS_OF_FILE:
                        raise Fault('TooMany', number)
                    st = dict(account_text=account_text, number=number_text, currency=code, opening=amount, closing=None,
                              day=None, ties=True, lines=[], pieces=[])
                    statements.append(st)
            elif stage == '61':
                line = line_61(first, number, known[page['code']])
                if len(st['lines']) >= LINES_OF_STATEMENT:
                    raise Fault('TooMany', number)
                page['sum'] += line['amount']
                st['lines'].append(line)
                st['pieces'].append(texts[1:])
            elif stage == '86':
                st['pieces'][-1] = st['pieces'][-1] + texts
            elif stage in ('62', '64', '65'):
                day, code, amount = balance_field(first, number, known, page['code'])
                if stage == '62':
                    if amount != page['sum']:
                        raise Fault('BalanceMismatch', number, said=amount, reckoned=page['sum'])
                    st['closing'], st['day'] = amount, day
                    before = dict(account=account_text, more=tag == '62M', closing=amount, code=code)
        if stage not in CLOSED:
            raise Fault('CutOff', message['cut'])
    for st in statements:
        for line, pieces in zip(st['lines'], st.pop('pieces')):
            line['text'] = join(pieces)
    return statements


# ---------------------------------------------------------------- BAI2

def signed(text, digits):
    return int(text) if re.fullmatch(r'[+-]?[0-9]{1,%d}' % digits, text) else None


def count_of(text):
    return int(text) if re.fullmatch('[0-9]{1,9}', text) else None


class Faults:
    """The faults of one record; the first by the order of the kinds is raised."""
    ORDER = ['RecordOrder', 'FieldForm', 'Version', 'GroupStatus', 'DateForm', 'AmountForm', 'UnknownCurrency', 'ControlTotal',
             'Count', 'TooMany']

    def __init__(self, line):
        self.line, self.found = line, []

    def add(self, bad, **fields):
        self.found.append((self.ORDER.index(bad), len(self.found), bad, fields))

    def check(self):
        if self.found:
            _, _, bad, fields = min(self.found, key=lambda f: f[:2])
            raise Fault(bad, self.line, **fields)


def funds(fields, at, faults):
    """Reads a funds type at a place: the place behind it and the V date's text."""
    kind = fields[at] if at < len(fields) else ''
    at += 1
    if kind in ('', '0', '1', '2', 'Z'):
        return at, None
    if kind == 'S':
        if at + 3 > len(fields):
            faults.add('FieldForm')
        return at + 3, None
    if kind == 'V':
        text = fields[at] if at < len(fields) else ''
        day = None
        if text != '':
            day = yymmdd(text)
            if day is None:
                faults.add('DateForm')
        return at + 2, day
    if kind == 'D':
        n = count_of(fields[at] if at < len(fields) else '')
        if n is None:
            faults.add('FieldForm')
            return at + 1, None
        if at + 1 + 2 * n > len(fields):
            faults.add('FieldForm')
        return at + 1 + 2 * n, None
    faults.add('FieldForm')
    return at, None


def reach_16(fields):
    """How many fields reach the customer reference: None where the funds type isn't known yet or is none."""
    if len(fields) < 3:
        return None
    kind = fields[2]
    if kind in ('', '0', '1', '2', 'Z'):
        return 5
    if kind == 'S':
        return 8
    if kind == 'V':
        return 7
    if kind == 'D':
        if len(fields) < 4:
            return None
        n = count_of(fields[3])
        return None if n is None else 6 + 2 * n
    return None


def take_16(fields, pieces, content):
    """Adds a line's content (a text without the code, or None) to a 16."""
    if content is None:
        return
    for_text = None
    parts = content.split(',')
    while parts:
        need = reach_16(fields)
        if need is not None and len(fields) >= need:
            for_text = ','.join(parts)
            break
        fields.append(parts.pop(0))
    if for_text is not None:
        pieces.append(for_text)


def records_of(lines):
    """The records up to the first line that is none: (code, first line, [contents], lines), and what stops: a fault or None."""
    records, first = [], True
    for number, line in enumerate(lines, 1):
        if line == '':
            continue
        if line.endswith('/'):
            line = line[:-1]
        m = re.match(r'([0-9]{2})(?:,(.*))?$', line, re.S)
        if first:
            if not m or m.group(1) != '01':
                return [], Fault('NoStatement', 0)
            first = False
        if not m:
            return records, Fault('FieldForm', number)
        code, content = m.groups()
        if code == '88':
            if not records or records[-1][0] not in ('01', '02', '03', '16'):
                return records, Fault('RecordOrder', number)
            records[-1][2].append(content)
        else:
            records.append((code, number, [content]))
    if first:
        return [], Fault('NoStatement', 0)
    return records, None


FOLLOWS = {'01': ('02',), '02': ('03', '98'), '03': ('16', '49'), '16': ('16', '49'), '49': ('03', '98'), '98': ('02', '99'),
           '99': ()}


def read_bai2(text, known):
    lines = lines_of(text)
    records, stop = records_of(lines)
    if stop is not None and not records:
        raise stop
    statements = []
    st, before = None, None
    file_id, group_currency, group_day = '', '', None
    acc_sum = acc_records = 0
    group_sum = group_accounts = group_records = 0
    file_sum = file_groups = file_records = 0
    for code, number, contents in records:
        faults = Faults(number)
        if (before is None and code != '01') or (before is not None and code not in FOLLOWS[before]):
            raise Fault('RecordOrder', number)
        before = code
        count = len(contents)
        file_records += count
        group_records += count
        acc_records += count
        if code == '16':
            fields, pieces = [], []
            for content in contents:
                take_16(fields, pieces, content)
        else:
            fields = [f for c in contents if c is not None for f in c.split(',')]

        def field(i):
            return fields[i] if i < len(fields) else ''

        if code == '01':
            file_id = field(4)
            if field(7) != '2':
                faults.add('Version')
        elif code == '02':
            group_sum = group_accounts = 0
            group_records = count
            if field(2) != '1':
                faults.add('GroupStatus')
            group_day = yymmdd(field(3))
            if group_day is None:
                faults.add('DateForm')
            group_currency = field(5)
        elif code == '03':
            acc_records = count
            acc_sum = 0
            if field(0) == '':
                faults.add('FieldForm')
            currency = field(1) or group_currency or 'USD'
            st = dict(account_text=field(0), number=file_id, currency=currency, opening=None, closing=None, day=group_day,
                      ties=None, lines=[])
            at, seen = 2, set()
            while at < len(fields):
                kind = field(at)
                if kind == '':
                    at += 4
                    continue
                text = field(at + 1)
                amount = None
                if text != '':
                    amount = signed(text, 15)
                    if amount is None or abs(amount) > SIZE:
                        faults.add('AmountForm')
                if field(at + 2) != '' and count_of(field(at + 2)) is None:
                    faults.add('FieldForm')
                at, _ = funds(fields, at + 3, faults)
                if amount is not None:
                    acc_sum += amount
                if kind in ('010', '015') and kind not in seen:
                    seen.add(kind)
                    st['opening' if kind == '010' else 'closing'] = amount
            if currency not in known:
                faults.add('UnknownCurrency')
            if len(statements) >= STATEMENTS_OF_FILE:
                faults.add('TooMany')
            statements.append(st)
        elif code == '16':
            kind = field(0)
            if not re.fullmatch('[0-9]{3}', kind):
                faults.add('FieldForm')
                kind = '000'
            amount = 0
            if field(1) != '':
                amount = signed(field(1), 15)
                if amount is None or abs(amount) > SIZE:
                    faults.add('AmountForm')
                    amount = 0
            at, value_day = funds(fields, 2, faults)
            acc_sum += amount
            k = int(kind)
            credit = 100 <= k <= 399 or 920 <= k <= 959
            debit = 400 <= k <= 699 or 960 <= k <= 999
            if credit or debit:
                if len(st['lines']) >= LINES_OF_STATEMENT:
                    faults.add('TooMany')
                st['lines'].append(line_value(group_day, value_day or group_day, amount if credit else -amount, kind, field(at + 1),
                                              field(at), join(pieces)))
        else:
            total = signed(field(0), 18)
            if total is None:
                faults.add('AmountForm')
            reckoned = {'49': acc_sum, '98': group_sum, '99': file_sum}[code]
            if total is not None and total != reckoned:
                level = {'49': 'Account', '98': 'Group', '99': 'File'}[code]
                faults.add('ControlTotal', level=level, said=total, reckoned=reckoned)
            counts = {'49': [('AccountRecords', acc_records)],
                      '98': [('GroupAccounts', group_accounts), ('GroupRecords', group_records)],
                      '99': [('FileGroups', file_groups), ('FileRecords', file_records)]}[code]
            for i, (what, have) in enumerate(counts, 1):
                said = count_of(field(i))
                if said is None:
                    faults.add('FieldForm')
                elif said != have:
                    faults.add('Count', what=what, said=said, reckoned=have)
            if code == '49' and total is not None:
                group_sum += total
                group_accounts += 1
            if code == '98' and total is not None:
                file_sum += total
                file_groups += 1
        faults.check()
    if stop is not None:
        raise stop
    if before != '99':
        raise Fault('CutOff', len(lines))
    for st in statements:
        if st['opening'] is not None and st['closing'] is not None:
            st['ties'] = st['opening'] + sum(x['amount'] for x in st['lines']) == st['closing']
    return statements


# ---------------------------------------------------------------- QIF

SECTIONS = {'!type:bank', '!type:cash', '!type:ccard', '!type:oth a', '!type:oth l'}
SWITCHES = {'!option:autoswitch', '!clear:autoswitch'}


def ascii_lower(text):
    return ''.join(chr(ord(c) + 32) if 'A' <= c <= 'Z' else c for c in text)


def qif_day(text, month_first):
    m = re.fullmatch(r" *([0-9]{1,2})([/.-]) *([0-9]{1,2})([/.'-]) *([0-9]{4}|[0-9]{1,2})", text)
    if not m:
        return None
    a, _, b, mark, y = m.groups()
    year = int(y) if len(y) == 4 else 2000 + int(y) if mark == "'" else window(int(y))
    month, day = (int(a), int(b)) if month_first else (int(b), int(a))
    return date_of(year, month, day)


def qif_amount(text, fraction, number):
    m = re.fullmatch(r'([+-]?)([0-9,]*)(?:\.([0-9]{0,9}))?', text)
    if not m:
        raise Fault('AmountForm', number)
    sign, whole, decimals = m.group(1), m.group(2), m.group(3) or ''
    if ',' in whole:
        head, *groups = whole.split(',')
        if any(len(g) != 3 for g in groups):
            raise Fault('AmountForm', number)
    whole = whole.replace(',', '')
    if len(whole) > 12 or whole + decimals == '':
        raise Fault('AmountForm', number)
    amount = units(whole, decimals, fraction)
    if amount is None:
        raise Fault('TooManyDecimals', number)
    if amount > SIZE:
        raise Fault('AmountForm', number)
    return -amount if sign == '-' else amount


def qif_blocks(lines):
    """Sections and account lists, each as [kind, name or None, records]; a record is ([(number, line)], end line or None, cut)."""
    blocks, record, mode = [], [], None
    for number, line in enumerate(lines, 1):
        if line.startswith('!'):
            if record and mode:
                blocks[-1][1].append((record, None, number - 1))
                record = []
            low = ascii_lower(line)
            if low in SWITCHES:
                continue
            if low in SECTIONS:
                mode = 'section'
                blocks.append(['section', []])
            elif low == '!account':
                mode = 'accounts'
                blocks.append(['accounts', []])
            else:
                mode = None
                blocks.append(['other', []])
            continue
        if mode is None or line == '':
            continue
        if line.startswith('^'):
            if record:
                blocks[-1][1].append((record, number, None))
                record = []
            continue
        record.append((number, line))
    if record and mode:
        blocks[-1][1].append((record, None, len(lines)))
    return blocks


def read_qif(text, code, fraction, month_first):
    blocks = qif_blocks(lines_of(text))
    if not any(kind == 'section' and records for kind, records in blocks):
        raise Fault('NoStatement', 0)
    statements, name = [], ''
    for kind, records in blocks:
        if kind == 'other':
            name = ''
            continue
        if kind == 'accounts':
            name = ''
            for record, end, cut in records:
                if cut is not None:
                    raise Fault('CutOff', cut)
                name = next((line[1:] for _, line in record if line[0] == 'N'), '')
            continue
        st = dict(account_text=name, number='', currency=code, opening=None, closing=None, day=None, ties=None, lines=[])
        name = ''
        for place, (record, end, cut) in enumerate(records):
            got, parts = {}, []
            for number, line in record:
                c, rest = line[0], line[1:]
                if c == 'D':
                    day = qif_day(rest, month_first)
                    if day is None:
                        raise Fault('DateForm', number)
                    got.setdefault('D', day)
                elif c in 'TU':
                    got.setdefault(c, qif_amount(rest, fraction, number))
                elif c in 'NPML':
                    got.setdefault(c, rest)
                elif c == 'S':
                    parts.append({'S': rest})
                elif c == 'E':
                    if not parts:
                        raise Fault('FieldForm', number)
                    parts[-1].setdefault('E', rest)
                elif c == '$':
                    if not parts:
                        raise Fault('FieldForm', number)
                    parts[-1].setdefault('$', qif_amount(rest, fraction, number))
            if cut is not None:
                raise Fault('CutOff', cut)
            if 'D' not in got or ('T' not in got and 'U' not in got) or any('$' not in p for p in parts):
                raise Fault('FieldForm', end)
            amount = got['T'] if 'T' in got else got['U']
            if parts and sum(p['$'] for p in parts) != amount:
                raise Fault('SplitSum', end, said=amount, reckoned=sum(p['$'] for p in parts))
            if place == 0 and len(statements) >= STATEMENTS_OF_FILE:
                raise Fault('TooMany', end)
            st['day'] = got['D'] if st['day'] is None else max(st['day'], got['D'])
            category = got.get('L', '')
            if place == 0 and got.get('P') == 'Opening Balance' and len(category) >= 2 and category[0] == '[' \
                    and category[-1] == ']' and st['account_text'] in ('', category[1:-1]):
                st['opening'] = amount
                st['account_text'] = st['account_text'] or category[1:-1]
                continue
            if len(st['lines']) >= LINES_OF_STATEMENT:
                raise Fault('TooMany', end)
            st['lines'].append(line_value(got['D'], got['D'], amount, '', got.get('N', ''), '',
                                          join([got.get('P', ''), got.get('M', '')]), category,
                                          [(p['S'], p.get('E', ''), p['$']) for p in parts]))
        if records:
            statements.append(st)
    return statements


def as_text(data):
    """Bytes as the program's word `import` reads them."""
    try:
        text = data.decode('utf-8', 'strict')
    except UnicodeDecodeError:
        text = data.decode('latin-1')
    return text[1:] if text.startswith('\ufeff') else text

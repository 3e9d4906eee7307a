"""Runs the cases of files of runs over the model, and compares answers and rows: python3 check_runs.py FILE.runs ..
Cases with calls that fail (but for commits), databases, links, damaged rows and the sample are passed over, and
counted. Rows of format 1 are written anew in format 2 by the first commit of a run, and stay where it fails."""
import re, sys
from formats import all_in_second
from model import dumps
from rows import rows, opened


def expand(text, k):
    return re.sub(r'#(\d+)\+(\d+)#', lambda m: str(int(m.group(1)) + int(m.group(2)) * k), text)


def sections(path):
    parts, cases, current = {}, [], None
    for number, raw in enumerate(open(path, encoding='utf-8', newline='\n').read().split('\n'), 1):
        if raw == '' or raw.startswith('#'):
            continue
        mark, _, rest = raw.partition(' ')
        if mark in ('case', 'part'):
            current = []
            if mark == 'part':
                assert rest not in parts, (path, number, 'part twice')
                parts[rest] = current
            else:
                cases.append((rest, number, current))
        elif mark == 'with':
            current.extend(parts[rest])
        else:
            current.append((number, mark, rest))
    return cases


class Skip(Exception):
    pass


class Run:
    def __init__(self):
        self.data, self.wants, self.rows_want, self.count = b'', [], [], None
        self.fail_commits, self.fails_first_write, self.words, self.ends = set(), False, None, 'done'
        self.unread = None


def answers_of(machine, run, commits):
    """The answers of a run before whose first line so many commits were made."""
    if run.words and not run.words.startswith('run'):
        words = re.findall(r'"[^"]*"|\S+', run.words)
        if words[0] != 'import':
            raise Skip()
        lines = [None]
    else:
        lines = run.data.split(b'\n')
        if lines[-1] == b'':
            lines.pop()
    out = []
    for x in lines:
        keep = (machine.book, list(machine.past), list(machine.later), machine.next, machine.version, machine.position)
        if x is None:
            a = machine.import_words(run.data, words[2], int(words[3]), int(words[4]))
        else:
            a = machine.line(x)
        if machine.version != keep[4]:
            commits += 1
            if commits in run.fail_commits:
                machine.book, machine.past, machine.later, machine.next, machine.version, machine.position = keep
                a = dumps(dict(refused='keeper'))
        if a is not None and not run.fails_first_write:
            out.append(a)
    return out


def check(path, name, number, lines, fill):
    have, run, runs = {}, Run(), 0

    def finish():
        nonlocal have, run, runs
        runs += 1
        is_first = have.get((1, 0), b'').startswith(b'\1')
        fails = is_first and 1 in run.fail_commits
        if run.ends == 'keeper fault' or run.unread is not None:
            if not fails:
                raise Skip()
        if fails and (run.ends != 'keeper fault' or run.unread not in (None, len(run.data))):
            fill.append((path, name, number, 'the first commit fails, and nothing is read'))
        if is_first and not fails:
            have = all_in_second(have)
        machine = opened(have)
        version = machine.version
        got = [] if fails else answers_of(machine, run, 1 if is_first else 0)
        wants = run.wants
        if len(got) != len(wants):
            fill.append((path, name, number, f'{len(got)} answers, wanted {len(wants)}: {got[len(wants):][:1]}'))
        for g, (n, test, text) in zip(got, wants):
            if not test(g):
                fill.append((path, name, n, f'got {g[:300]}\n      want {text[:300]}'))
                break
        if machine.version != version:
            have = rows(machine)
        elif machine.version:
            again = rows(machine, have[1, 0][0])
            if any(have[key] != again[key] for key in again if key[0] <= 10):
                fill.append((path, name, number, 'a thing that is read is written otherwise'))
        if run.count is not None and run.count != len(have):
            fill.append((path, name, number, f'{len(have)} rows, wanted {run.count}'))
        for n, key, body in run.rows_want:
            if have.get(key) != body:
                fill.append((path, name, n, f'row {key}: got {have[key].hex() if key in have else None}\n      want {body.hex() if body is not None else None}'))
        run = Run()

    for n, mark, rest in lines:
        if mark == 'put':
            kind, ids, body = (rest + ' ').split(' ')[:3]
            first, _, last = ids.partition('-')
            for i in range(int(first), int(last or first) + 1):
                have[int(kind), i] = bytes.fromhex(body)
        elif mark == 'gone':
            kind, i = rest.split(' ')
            del have[int(kind), int(i)]
        elif mark in ('sql', 'copy', 'empty', 'same', 'absent', 'link', 'each'):
            if mark != 'each':
                raise Skip()
        elif mark in ('over', 'piece', 'killed'):
            pass
        elif mark == 'words':
            run.words = rest
        elif mark == 'fails':
            sort, *numbers = rest.split(' ')
            if sort == 'write' and numbers == ['1'] and run.words and run.words.startswith('import'):
                run.fails_first_write = True
            elif sort == 'commit':
                run.fail_commits = set(map(int, numbers))
            else:
                raise Skip()
        elif mark in ('>', '-'):
            run.data += rest.encode() + (b'\n' if mark == '>' else b'')
        elif mark in ('>*', '-*'):
            count, _, text = rest.partition(' ')
            run.data += b''.join(expand(text, k).encode() + (b'\n' if mark == '>*' else b'') for k in range(int(count)))
        elif mark == 'x':
            run.data += bytes.fromhex(rest)
        elif mark == 'x*':
            count, _, text = rest.partition(' ')
            run.data += bytes.fromhex(text) * int(count)
        elif mark == '<':
            run.wants.append((n, lambda g, r=rest: g == r, rest))
        elif mark == '<^':
            run.wants.append((n, lambda g, r=rest: g.startswith(r), rest))
        elif mark == '<$':
            if run.wants and run.wants[-1][2].startswith('\0') is False and lines[[x[0] for x in lines].index(n) - 1][1] == '<^':
                prior = run.wants.pop()
                run.wants.append((n, lambda g, p=prior[1], r=rest: p(g) and g.endswith(r), prior[2] + ' .. ' + rest))
            else:
                run.wants.append((n, lambda g, r=rest: g.endswith(r), rest))
        elif mark == '<*':
            count, _, text = rest.partition(' ')
            for k in range(int(count)):
                run.wants.append((n, (lambda g, r=expand(text, k): g == r) if text else (lambda g: True), expand(text, k)))
        elif mark == 'ends':
            run.ends = rest
            if rest not in ('done', 'keeper fault') and not (rest == 'output fault' and run.fails_first_write):
                raise Skip()
        elif mark == 'unread':
            run.unread = int(rest)
        elif mark == 'rows':
            run.count = int(rest)
        elif mark == 'row':
            kind, i, *body = rest.split(' ')
            run.rows_want.append((n, (int(kind), int(i)), bytes.fromhex(body[0]) if body else None))
        elif mark == 'again':
            finish()
        else:
            raise SystemExit(f'{path}:{n}: {mark}?')
    finish()
    return runs


if __name__ == '__main__':
    for path in sys.argv[1:]:
        bad, runs, skipped, cases = [], 0, 0, sections(path)
        total = sum(1 + sum(1 for x in lines if x[1] == 'again') for _, _, lines in cases)
        for name, number, lines in cases:
            try:
                runs += check(path, name, number, lines, bad)
            except Skip:
                skipped += 1
        for p, name, n, text in bad:
            print(f'{p}:{n}: {name}: {text}')
        size = open(path, 'rb').read().count(b'\n')
        print(f'{path.split("/")[-1]}: {total} runs of {size} lines; {runs} made, {skipped} cases passed over, {len(bad)} differ')

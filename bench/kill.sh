#!/bin/sh
# kill.sh [KILLS [N]]: kills `acqd replay --db --group N` at random moments (20 unless said otherwise) with
# SIGKILL, on a real file, and looks each time at a copy of the book: that each event whose line was
# written is in it, the group in hand (of N events, 1 unless said otherwise) whole or not at all, and none
# in part. It goes on from there each time. At the end the book's clearing file has to be that of a run
# that nobody killed. ACQD may name another program than the built one. It needs python3.
set -eu
unset CDPATH
top=$(cd "$(dirname "$0")/.." && pwd)
program=${ACQD:-$top/crates/acqd/out/acqd}
[ -x "$program" ] || "$top/acqd" build
python3 - "$program" "${1:-20}" "${2:-1}" <<'PY'
import os, random, shutil, signal, sqlite3, subprocess, sys, tempfile, time

PROGRAM = os.path.abspath(sys.argv[1])
KILLS, GROUP = int(sys.argv[2]), int(sys.argv[3])
MERCHANTS = 50
MOMENT = 1714555800
DAY = '2024-05-01'


def sale(merchant, trace):
    message = (f'02007220000000C08000164111111111111111000000000000001000'
               f'0501093000{trace:06}TERM0001MERCHANT{merchant:07}978')
    return f'frame,{MOMENT},{message.encode().hex()},,,'


def lines_of_day(sales):
    """Event lines: merchants, and sales that are answered, one behind the other."""
    lines = ['addrange,40000000,49999999,12345,7,']
    for merchant in range(MERCHANTS):
        lines += [f'enrol,MERCHANT{merchant:07},978,1,,', f'terminal,MERCHANT{merchant:07},TERM0001,,,']
    for number in range(sales):
        merchant, reference = number % MERCHANTS, number // MERCHANTS + 1
        lines += [sale(merchant, reference),
                  f'answer,{MOMENT},MERCHANT{merchant:07},{reference},approved,A1B2C3']
    return lines


def state_after(lines):
    """How many merchants, terminals, requests and postings there are, and how many are pending."""
    kinds = [line.split(',')[0] for line in lines]
    asked, answered = kinds.count('frame'), kinds.count('answer')
    return (kinds.count('enrol'), kinds.count('terminal'), asked, answered, asked - answered)


def state_of(book, scratch):
    """The same of the book, of which a copy is opened; and whether its sums fit its rows."""
    copy = os.path.join(scratch, 'copy.db')
    for end in ('', '-wal', '-shm'):
        if os.path.exists(copy + end):
            os.remove(copy + end)
        if os.path.exists(book + end):
            shutil.copyfile(book + end, copy + end)
    found = sqlite3.connect(copy)
    one = lambda text: found.execute(text).fetchone()[0]
    assert one('PRAGMA integrity_check') == 'ok'
    state = (one('SELECT count(*) FROM merchants'), one('SELECT count(*) FROM terminals'),
             one('SELECT count(*) FROM requests'), one('SELECT count(*) FROM postings'),
             one('SELECT count(*) FROM requests WHERE status = 1'))
    sums = found.execute('SELECT merchant, debits, debit_amount FROM running WHERE debits > 0 '
                         'ORDER BY merchant').fetchall()
    rows = found.execute('SELECT merchant, count(*), sum(amount) FROM postings WHERE leg = 2 '
                         'GROUP BY merchant ORDER BY merchant').fetchall()
    used = found.execute('SELECT merchant, used FROM running ORDER BY merchant').fetchall()
    admitted = found.execute('SELECT merchant, sum(admitted) FROM requests GROUP BY merchant '
                             'ORDER BY merchant').fetchall()
    assert sums == rows and used == admitted, 'the running totals are not the sums over the rows'
    found.close()
    return state


def run(arguments, lines):
    text = ''.join(line + '\n' for line in lines).encode()
    return subprocess.run([PROGRAM, *arguments], input=text, stdout=subprocess.PIPE, check=True).stdout


scratch = tempfile.mkdtemp(dir=os.environ.get('BENCH_DIR'))
try:
    lines = lines_of_day(20_000)
    want = run(['replay', '--day', DAY], lines).split(b'\n')[:-1]
    book = os.path.join(scratch, 'book.db')
    run(['init', '--db', book, '--limit', '999999', '--day', DAY], [])
    at, runs, killed, unsaid = 0, 0, 0, 0
    while at < len(lines):
        runs += 1
        with open(os.path.join(scratch, 'input'), 'w') as file:
            file.write(''.join(line + '\n' for line in lines[at:]))
        output = os.path.join(scratch, 'output')
        with open(os.path.join(scratch, 'input')) as source, open(output, 'wb') as sink:
            words = [PROGRAM, 'replay', '--db', book, '--group', str(GROUP)]
            child = subprocess.Popen(words, stdin=source, stdout=sink)
            if killed < KILLS:
                time.sleep(random.uniform(0.02, 0.6))
                child.send_signal(signal.SIGKILL)
            child.wait()
        killed += killed < KILLS
        with open(output, 'rb') as file:
            said = file.read().split(b'\n')[:-1]
        assert said == want[at:at + len(said)], 'lines that were not to be expected'
        # The groups of which lines were written, and the next one.
        whole = min(at + -(-len(said) // GROUP) * GROUP, len(lines))
        written, at, state = at + len(said), whole, state_of(book, scratch)
        if written == whole and state != state_after(lines[:at]):
            at = min(at + GROUP, len(lines))
        unsaid += at != written
        assert state == state_after(lines[:at]), f'{state} after {written} lines'
        print(f'run {runs}: {len(said)} lines written, {at} of {len(lines)} events in the book')
    cutover = [f'cutover,{MOMENT},,,,']
    run(['replay', '--db', book], cutover)
    cleared = run(['clearing', '--db', book, '--day', DAY], [])
    alone = run(['replay', '--day', DAY, '--clearing', DAY], lines + cutover)
    assert cleared == alone, 'another clearing file'
    print(f'{killed} kills: no event lost whose line was written, no group of {GROUP} in part; {unsaid} times the '
          f'group in hand was in the book already')
finally:
    shutil.rmtree(scratch)
PY

#!/usr/bin/env python3
"""Lines of test_conformance on calls that fail, with their answers, worked out from the table of statuses and the order of a run:
failing_calls.py prints the questions, failing_calls.py --answers each with its answer.

An edit of three values by two lines: FILE and SCRIPT are fetched (calls 0 and 1) and read (0 and 1: FILE and its end; 2 and 3: SCRIPT and
its end), the input comes in three chunks of one value each (takes 0 to 2) and its end (3), and each value is one write (0 to 2)."""
import sys
row3 = '8495a6be00000005000000020000000600000006a041a04240'
v0 = '8495a6be00000005000000020000000600000006a041a04740'   # 0 set .1 = ::(7, [])
v1 = row3
v2 = '8495a6be00000006000000020000000600000006a041a0420402' # 2 link .1.1 = .
script = b'0 set .1 = ::(7, [])\n2 link .1.1 = .\n'.hex()
decls = 'type t = int list'
rows, want = [], []
def row(settings, text, words, answer):
    q = 'run ' + settings + '\t' + text[0] + '\t' + text[1] + '\t' + '\t'.join(words)
    rows.append(q); want.append(q + '\n' + answer)
edit = ['edit', 'f.ml', 't', 'script']
given = (row3 * 3, '=' + decls)
s = ' script=' + script
def outcome(values, err, status, faults=''):
    a = ''
    if values: a += 'values: ' + ''.join(values) + '\n'
    if err: a += 'err: omarshal: ' + err + '\n'
    return a + f'status {status}\n' + faults
all3 = [v0, v1, v2]
row('piece=25' + s, given, edit, outcome(all3, '', 0))
row('piece=25 fetch=0' + s, given, edit, outcome([], 'cannot open f.ml', 8, 'failed to fetch: 1\n'))
row('piece=25 fetch=1' + s, given, edit, outcome([], 'cannot open script', 8, 'failed to fetch: 1\n'))
row('piece=25 fetch=2' + s, given, edit, outcome(all3, '', 0))
for n in range(4):
    row(f'piece=25 read={n}' + s, given, edit, outcome([], 'read fault', 6, 'failed to read: 1\n'))
row('piece=25 read=4' + s, given, edit, outcome(all3, '', 0))
for n in range(4):
    row(f'piece=25 take={n}' + s, given, edit, outcome(all3[:n], 'read fault', 6, 'failed to take: 1\n'))
row('piece=25 take=4' + s, given, edit, outcome(all3, '', 0))
for n in range(3):
    row(f'piece=25 put={n}' + s, given, edit, outcome(all3[:n], '', 7))
row('piece=25 put=3' + s, given, edit, outcome(all3, '', 0))
for room in (0, 1, 24, 25, 26, 50, 75):   # out is full
    full = ''.join(all3)[:2 * room]
    row(f'piece=25 out={room}' + s, given, edit, outcome([full] if full else [], '', 7))
row('piece=25 out=76' + s, given, edit, outcome(all3, '', 0))
# SCRIPT is missing; a call fails before the first value, within a line on err, and after the first line.
row('piece=25', given, edit, outcome([], 'cannot open script', 8))
one = '8495a6be0000000100000000000000000000000041'
row('take=0', (one, '='), ['check', 'f.ml', 'int'], 'err: omarshal: read fault\nstatus 6\nfailed to take: 1\n')
row('put=0', ('8495a6', '='), ['check', 'f.ml', 'int'], 'status 7\n')
row('piece=21 put=1', (one * 2, '='), ['check', 'f.ml', 'int'], 'yes\nstatus 7\n')
# Every other command: a take that fails after the first value, and a write.
for words, first in ((['check', 'f.ml', 'int'], 'yes\n'), (['show', 'f.ml', 'int'], '1\n'), (['get', 'f.ml', 'int', '.'], '1\n'), (['dump'], 'root 1\n')):
    row('piece=21 take=1', (one * 2, '='), words, first + 'err: omarshal: read fault\nstatus 6\nfailed to take: 1\n')
    row('piece=21 put=0', (one * 2, '='), words, 'status 7\n')
row('piece=21 take=2', (one * 2, '='), ['same'], 'err: omarshal: read fault\nstatus 6\nfailed to take: 1\n')
row('piece=21 put=0', (one * 2, '='), ['same'], 'status 7\n')
row('fetch=0', (one, '='), ['get', 'f.ml', 'int', '1.'], 'err: omarshal: bad path\nstatus 2\n')
# err fails alone: its line is lost, and what is on out stays.
no_err = 'status 7\n'
row('put_err=0', ('8495a6', '='), ['check', 'f.ml', 'int'], no_err)
row('piece=21 put_err=0', (one + '8495a6', '='), ['check', 'f.ml', 'int'], 'yes\n' + no_err)
row('put_err=0', ('', 'none'), ['help'], no_err)
row('put_err=1', ('', 'none'), ['help'], 'err: omarshal: usage\nstatus 2\n')
wrong = ' script=' + b'2 set . = true\n'.hex()
row('piece=25 put_err=0' + wrong, given, edit, outcome([v1, v1], '', 7))
# out fails alone: nothing is written to err.
row('put_out=0', (one, '='), ['check', 'f.ml', 'int'], no_err)
row('piece=25 put_out=1' + s, given, edit, outcome(all3[:1], '', 7))
# Two calls fail: nothing more is asked of what failed, and the last failure that is met is reported.
row('piece=21 take=1,2', (one * 3, '='), ['check', 'f.ml', 'int'], 'yes\nerr: omarshal: read fault\nstatus 6\nfailed to take: 1\n')
row('piece=25 fetch=0,1' + s, given, edit, outcome([], 'cannot open f.ml', 8, 'failed to fetch: 1\n'))
row('piece=25 read=0,1' + s, given, edit, outcome([], 'read fault', 6, 'failed to read: 1\n'))
row('piece=25 put_out=0,1' + s, given, edit, outcome([], '', 7))
row('take=0 put_err=0', (one, '='), ['check', 'f.ml', 'int'], no_err + 'failed to take: 1\n')
row('piece=25 fetch=0 put_err=0' + s, given, edit, outcome([], '', 7, 'failed to fetch: 1\n'))
row('piece=25 read=0 put_err=0' + s, given, edit, outcome([], '', 7, 'failed to read: 1\n'))
row('piece=25 take=2 put_out=1' + s, given, edit, outcome(all3[:1], '', 7))
sys.stdout.write(''.join(want) if '--answers' in sys.argv[1:] else '\n'.join(rows) + '\n')

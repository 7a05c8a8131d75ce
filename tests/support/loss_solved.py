"""What ./loss shows of losses solved together (rules 14.2 and 14.3): its host that solves, and the column of what only solving brings back.
A part of checks/loss.py."""

from independent.calls import Calls
from independent.receiving import LOST, UNKNOWN
from support.loss_tool import SPARES, Loss, refused
from support.real import must
from support.standing_in import number_of


def solved_together(loss):
    """Each row has what only solving brings back, as the independent program has it; no number is given up before all is solved."""
    solved = 0
    for name, lines, patience in (('spares', loss.spares, 8), ('parity', loss.parity, 8), ('parity', loss.parity, 5)):
        ran = loss.table(lines, '--steps', '2', '--patience', str(patience))
        must(len(ran.talks) == len(ran.calls) == 3, '%s: %d talks', name, len(ran.talks))
        for row, call, talk in zip(ran.rows, ran.calls, ran.talks):
            where = '%s, patience %d, %g %%' % (name, patience, row[0])
            heard = [line for line in lines if number_of(line) not in call.numbers]
            session = talked(where, talk, heard, patience)
            must(session.total() == len(lines), '%s: %d numbers left', where, session.total())
            alone, lost = sum(result[:2] == b'03' for result in call.results), session.counts[LOST]
            must(row[5:] == [alone - lost, lost], '%s: solved and lost %s, not %s', where, row[5:], [alone - lost, lost])
            solved += alone - lost
    must(solved > 0, 'nothing is solved')
    return '%d numbers' % solved


def talked(where, talk, heard, patience):
    """The session after a talk with calls: what was heard, and in due time solved and then given up; all answered as it must be."""
    must([line[2:] for line in talk.asked if line[:2] == b'11'] == heard, '%s: another trace is heard', where)
    last = max(at for at, line in enumerate(talk.asked) if line[:2] == b'11')
    calls, highest, solved = Calls(), -1, False
    for at, asked in enumerate(talk.asked):
        session = calls.receiving
        late = highest - session.total() >= patience
        must(not late or asked[:2] != b'11', '%s, line %d: not given up in time', where, at)
        if asked == b'1A' or asked[:4] == b'1201':
            must(late or at > last, '%s, line %d: too early', where, at)
            must(session.place(session.base).state == UNKNOWN, '%s, line %d: the base is known', where, at)
            must(solved or asked == b'1A', '%s, line %d: given up before all is solved', where, at)
        answer = calls.answer(asked)
        must(talk.answered[at:at + 1] == [answer], '%s, line %d: answered %s', where, at, talk.answered[at:at + 1])
        solved = asked[:2] != b'11' and (solved or asked == b'1A')
        highest = max(highest, number_of(asked[2:])) if asked[:2] == b'11' else highest
    return calls.receiving


def wrong_calls(loss):
    """A program calls that ends, is not there, has not the new call, or does not answer as it must."""
    for name, calls, words in (
            ('calls that ends', 'sed -u 5q | %s', 'calls ended before its time\n'),
            ('calls that is not there', 'exit 3; %s', 'calls ended before its time\n'),
            ('calls that does not begin', '%s | sed -u 1s/00/EE/', 'calls does not begin: EE\n'),
            ('calls that does not read', 'sed -u s/^11/1100/ | %s', 'calls does not read what receive reads: FF'),
            ('calls that does not release', '%s | sed -u s/^FF0A/FF10/', 'calls does not release: FF100000\n'),
            ('calls without the new call', 'sed -u s/^1A/1B/ | %s', 'calls does not solve: EE\n'),
            ('calls that does not give up', 'sed -u s/^1201/1200/ | %s', 'calls does not give up: FF0A0000\n'),
            ('other counts', "%s | sed -u -E 's/^(00[0-9A-F]{31})[0-9A-F]$/\\1F/'", 'calls reports other counts than its releases have\n')):
        refused(name, Loss(loss.receive, loss.replay, calls % loss.calls, loss.tools), SPARES[8:31], words)

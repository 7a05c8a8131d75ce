"""Wrong solvers (rules 14.1 to 14.8). Each row is one edit of the independent program's text: a name, the module, the text, its
replacement."""

SOLE = 'return {number: value for number, value in values.items() if not any(number in change for change in changes)}'
FILLED = 'Place(REPAIRED, value.to_bytes(PACKET_LIMIT, \'big\'), 0)'
TAKEN = 'changes = [change for change in changes if change not in noticed] + [change ^ taken for change in others]'
RANGE = 'for number in range(session.base - BEFORE, session.base + AFTER) '
MEMBER = 'if session.place(member).state == UNKNOWN:'
MESSAGE = 'total, unknown = padded(mark.messages[i].bytes()), set()'

IMPORTED = 'from .receiving import AFTER, BEFORE, REPAIRED, UNKNOWN, Place\n'
BOTH = '''

class Either:
    def __eq__(self, other):
        return other in (0, REPAIRED)


UNKNOWN = Either()
'''

SOLVE_MUTANTS = (
    ('a place filled that two solutions give differently', 'solving', SOLE, 'return values'),
    ('a place filled that is in one change', 'solving', 'not any(number in change for change in changes)',
     'sum(number in change for change in changes) < 2 and any(number in equation.unknown for equation in equations)'),
    ('places filled with zeros that no equation has', 'solving', 'not any(number in change for change in changes)',
     'not any(number in change and len(change) > 1 for change in changes)'),
    ('a determined place left unknown', 'solving', SOLE,
     SOLE.replace('return {', 'found = {') + '\n    return dict(list(found.items())[:-1]) if len(found) > 1 else found'),
    ('one place at a time', 'solving',
     SOLE, SOLE.replace('return {', 'return dict(list({').replace('changes)}', 'changes)}.items())[:1])')),
    ('nothing filled', 'solving', SOLE, 'return {}'),
    ('places before the base left unknown', 'solving', RANGE, RANGE.replace('session.base - BEFORE', 'session.base')),
    ('places from the base on left unknown', 'solving', '    for number, value in sole_values(unknown, equations_of(session)).items():\n',
     '    for number, value in sole_values(unknown, equations_of(session)).items():\n'
     '        if (number - session.base) % 65536 < AFTER:\n            continue\n'),
    ('23 missed', 'solving', '        elif off:\n            raise Refusal(CONTRADICTION)\n', ''),
    ('23 missed where all members are known', 'solving', '        elif off:\n', '        elif off and equation.unknown:\n'),
    ('23 missed where some members are unknown', 'solving', '        elif off:\n', '        elif off and not equation.unknown:\n'),
    ('23 after what was filled', 'solving', 'raise Refusal(CONTRADICTION)', 'break'),
    ('23 for places that stay unknown', 'solving',
     '    ' + SOLE, "    refuse_if(changes and equations and len(changes) == len(values), CONTRADICTION)\n    " + SOLE),
    ('an equation that says nothing new is 23', 'solving', '        elif off:\n', '        elif equation.unknown:\n'),
    ('23 by the octets of the message alone', 'solving', '        elif off:\n', '        elif off >> 8 * (PACKET_LIMIT - 8):\n'),
    ('the fill cut of its zeros', 'solving', FILLED, FILLED.replace("'big')", "'big').rstrip(b'\\0') or b'\\0'")),
    ('the fill one octet short', 'solving', FILLED, FILLED.replace("'big')", "'big')[:-1]")),
    ('filled as a spare', 'solving', FILLED, FILLED.replace('REPAIRED', '2')),
    ('filled as received', 'solving', FILLED, FILLED.replace('REPAIRED', '1')),
    ('its own number as its note', 'solving', FILLED, FILLED.replace(', 0)', ', number)')),
    ('the base as its note', 'solving', FILLED, FILLED.replace(', 0)', ', session.base)')),
    ('a known number overwritten', 'solving', IMPORTED, IMPORTED + BOTH),
    ('a repaired number taken for unknown', 'solving', MEMBER, 'if session.place(member).state in (UNKNOWN, REPAIRED):'),
    ('a spare taken for unknown', 'solving', MEMBER, 'if session.place(member).state in (UNKNOWN, 2):'),
    ('a blank number taken for unknown', 'solving', MEMBER, 'if session.place(member).state in (UNKNOWN, 4):'),
    ('known members without a note left on', 'solving', 'total ^= padded(session.place(member).bytes())',
     "total ^= padded(session.place(member).bytes() if session.place(member).note else b'')"),
    ('members over the message only', 'solving', 'total ^= padded(session.place(member).bytes())',
     'total ^= padded(session.place(member).bytes()[:mark.messages[i].length])'),
    ('padded in front', 'solving', 'octets.ljust(PACKET_LIMIT', 'octets.rjust(PACKET_LIMIT'),
    ('messages of length 0 skipped', 'solving',
     '            ' + MESSAGE, '            if not mark.messages[i].length:\n                continue\n            ' + MESSAGE),
    ('the first message of each datagram alone', 'solving', 'for i in range(mark.m):', 'for i in range(min(mark.m, 1)):'),
    ('the last message of each datagram left out', 'solving',
     'for i in range(mark.m):', 'for i in range(max(mark.m - 1, 1) if mark.m else 0):'),
    ('messages of the first 16 numbers', 'solving', 'for number in range(session.base, session.base + AFTER):\n        mark',
     'for number in range(session.base, session.base + 16):\n        mark'),
    ('64 equations', 'solving', '    return equations\n', '    return equations[:64]\n'),
    ('127 equations', 'solving', '    return equations\n', '    return equations[:127]\n'),
    ('16 equations', 'solving', '    return equations\n', '    return equations[:16]\n'),
    ('equations with two unknown members at most', 'solving', 'equations.append(Equation(frozenset(unknown), total))',
     'equations.extend([Equation(frozenset(unknown), total)] * (len(unknown) < 3))'),
    ('equations without unknown members left out', 'solving', 'equations.append(Equation(frozenset(unknown), total))',
     'equations.extend([Equation(frozenset(unknown), total)] * (len(unknown) > 0))'),
    ('rows that are left as they are', 'solving', '[change ^ taken for change in others]', 'others'),
    ('rows that are lost', 'solving', ' + [change ^ taken for change in others]', ''),
    ('the rows put together, not exclusively', 'solving', 'change ^ taken for', 'change | taken for'),
    ('what is off put into one number alone', 'solving',
     '            for number in taken:\n', '            for number in list(taken)[:1]:\n'),
    ('repairs by single messages alone', 'solving', SOLE,
     'return {number: values[number] for equation in equations for number in equation.unknown if len(equation.unknown) == 1}'),
    ('17 not given', 'solving', '    refuse_if(not session.in_ranges(), RANGES)\n', ''),
    ('23 before 17', 'solving', '    refuse_if(not session.in_ranges(), RANGES)\n',
     '    sole_values([n % 65536 for n in range(session.base - BEFORE, session.base + AFTER)], equations_of(session))\n'
     '    refuse_if(not session.in_ranges(), RANGES)\n'),
    ('23 as 17', 'solving', 'raise Refusal(CONTRADICTION)', 'raise Refusal(RANGES)'),
    ('23 with a place', 'solving', 'raise Refusal(CONTRADICTION)', 'raise Refusal(CONTRADICTION, 1)'),
    ('1A: no call', 'calls', '0x1A: self.solve, ', ''),
    ('1A: whatever follows', 'calls', "        arguments.end()\n        solve(self.receiving)", '        solve(self.receiving)'),
)

"""Wrong replays (rules 21.1 to 21.6). Each row is one edit of the independent program's text: a name, the module, the text, its
replacement."""

KEPT = '    kept = [line for line in lines_of(trace) if not is_dropped(line, numbers)]\n'
REPLAY_MUTANTS = (
    ('nothing is dropped', 'replaying', KEPT, '    kept = lines_of(trace)\n'),
    ('only the first listed number is dropped', 'replaying', 'is_dropped(line, numbers)]', 'is_dropped(line, numbers[:1])]'),
    ('the last listed number is not dropped', 'replaying', 'is_dropped(line, numbers)]', 'is_dropped(line, numbers[:-1])]'),
    ('a number listed twice is not dropped', 'replaying',
     'is_dropped(line, numbers)]', 'is_dropped(line, [number for number in numbers if numbers.count(number) == 1])]'),
    ('a listed number is dropped as often as it is listed', 'replaying',
     KEPT,
     '    kept, left = [], list(numbers)\n    for line in lines_of(trace):\n        if is_dropped(line, left):\n'
     '            left.remove(int(line[:4], 16))\n        else:\n            kept.append(line)\n'),
    ('numbers by their low octet', 'replaying',
     'read_datagram(octets_of(line)).number in numbers',
     'any(read_datagram(octets_of(line)).number % 256 == number % 256 for number in numbers)'),
    ('an unreadable line with a listed number is dropped', 'replaying',
     "return line != b'' and read_datagram(octets_of(line)).number in numbers",
     "return len(line) > 3 and int.from_bytes(octets_of(line)[:2], 'big') in numbers"),
    ('a line that is no hexadecimal, with a listed number, is dropped', 'replaying',
     '        return False\n', '        return line[:4] in [b\'%04X\' % number for number in numbers] and len(line) % 2 == 1\n'),
    ('an unreadable line is dropped', 'replaying', '        return False\n', '        return True\n'),
    ('an unreadable line is dropped if anything is', 'replaying', '        return False\n', '        return numbers != []\n'),
    ('spares with a listed number are dropped too', 'replaying',
     'read_datagram(octets_of(line)).number in numbers',
     'any((read_datagram(octets_of(line)).number - j) % 65536 in numbers for j in range(1 + (read_datagram(octets_of(line)).n == 0)))'),
    ('a give-up is dropped', 'replaying', "return line != b'' and", "return line == b'' or"),
    ('a give-up of a listed number is dropped', 'replaying',
     '    kept = [line for line in lines_of(trace) if not is_dropped(line, numbers)]\n'
     "    written = b''.join(result + b'\\n' for line in kept for result in program.results(line))\n",
     "    written = b''\n    for line in lines_of(trace):\n"
     "        if not is_dropped(line, numbers) and (line != b'' or program.session.base not in numbers):\n"
     "            written += b''.join(result + b'\\n' for result in program.results(line))\n"),
    ('a dropped line is a give-up', 'replaying',
     KEPT, "    kept = [b'' if is_dropped(line, numbers) else line for line in lines_of(trace)]\n"),
    ('a dropped line is a refusal', 'replaying',
     KEPT, "    kept = [b'0' if is_dropped(line, numbers) else line for line in lines_of(trace)]\n"),
    ('7 of a listed number', 'replaying',
     KEPT,
     '    kept, before = [], []\n    for line in lines_of(trace):\n        if not is_dropped(line, numbers) or line in before:\n'
     '            kept.append(line)\n        before.append(line)\n'),
    ('8 and 9 of a listed number', 'replaying',
     "return line != b'' and read_datagram(octets_of(line)).number in numbers",
     "return line != b'' and read_datagram(octets_of(line)).number in numbers and read_datagram(octets_of(line)).number < 32"),
    ('a refused line is dropped', 'replaying',
     "program.results(line))\n    return", "program.results(line) if not result.startswith(b'FF'))\n    return"),
    ('no line of a give-up', 'replaying',
     "program.results(line))\n    return", "program.results(line) if not result.startswith(b'03'))\n    return"),
    ('no line feeds', 'replaying', "result + b'\\n' for", 'result for'),
    ('no last line feed', 'replaying', 'must_fit(written, room)', 'must_fit(written[:-1], room)'),
    ('room by the lines without their line feeds', 'replaying',
     'must_fit(written, room)', "written if must_fit(written.replace(b'\\n', b''), room) is not None else b''"),
    ('what has no room is cut off', 'replaying', 'must_fit(written, room)', 'written[:room]'),
    ('exactly enough room is too little', 'replaying', 'must_fit(written, room)', 'must_fit(written, room - 1)'),
    ('13 after writing', 'calls',
     '        return lent(cap, call, size_width=4)\n',
     '        answer = lent(cap, call, size_width=4)\n'
     '        return answer if answer[0] == 0 else answer[:4] + replay(numbers, trace, 1 << 20)[1][:cap]\n'),
    ('13 after writing whole lines', 'calls',
     '        return lent(cap, call, size_width=4)\n',
     '        answer = lent(cap, call, size_width=4)\n        if answer[0] == 0:\n            return answer\n'
     "        front = replay(numbers, trace, 1 << 20)[1][:cap].rpartition(b'\\n')\n"
     "        return answer[:4] + (front[0] + front[1]).ljust(cap, b'\\xA5')\n"),
    ('counts of what is lost alone', 'replaying',
     'list(program.session.counts.values())', '[0, 0, 0] + list(program.session.counts.values())[3:]'),
    ('counts of the whole trace', 'replaying',
     '    return list(program.session.counts.values())',
     '    whole = Program()\n    for line in lines_of(trace):\n        whole.results(line)\n'
     '    return list(whole.session.counts.values())'),
    ('a last line without line feed left out', 'program',
     'return lines if lines[-1] else lines[:-1]', 'return lines[:-1]'),
    ('an empty last part is a give-up', 'program',
     'return lines if lines[-1] else lines[:-1]', 'return lines'),
    ('a carriage return ends a line', 'program', "lines = text.split(b'\\n')", "lines = text.replace(b'\\r', b'').split(b'\\n')"),
    ('the session held is played to', 'calls',
     '            counts, octets = replay(numbers, trace, cap)\n',
     '            from . import replaying\n            made = replaying.Program\n'
     '            def held():\n                program = made()\n                program.session = self.receiving\n'
     '                return program\n'
     '            replaying.Program = held\n            counts, octets = replay(numbers, trace, cap)\n'
     '            replaying.Program = made\n'),
    ('the session held becomes a fresh one', 'calls',
     '            counts, octets = replay(numbers, trace, cap)\n',
     '            self.receiving = Receiving()\n            counts, octets = replay(numbers, trace, cap)\n'),
    ('the number of numbers in one octet', 'calls', 'arguments.numbers(2, 2)', 'arguments.numbers(2, 1)'),
    ('a size of two octets', 'calls', 'lent(cap, call, size_width=4)', 'lent(cap, call)'),
    ('a cap of 120,001', 'arguments', '4: 120000}', '4: 120001}'),
    ('a cap of 119,999', 'arguments', '4: 120000}', '4: 119999}'),
    ('a line of 16,000 characters is the greatest', 'calls', 'LINE_LIMIT = 240000', 'LINE_LIMIT = 16000'),
    ('a line of 239,998 characters is the greatest', 'calls', 'LINE_LIMIT = 240000', 'LINE_LIMIT = 239998'),
    ('a line of 240,002 characters', 'calls', 'LINE_LIMIT = 240000', 'LINE_LIMIT = 240002'),
)

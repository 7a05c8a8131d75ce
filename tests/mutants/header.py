"""Wrong headers and wrong bookings, for the self-test of checks/host.py (rules 24.1 to 24.12)."""

# The program of checks/host.py that finds it, what is wrong, the call of include/tubarexi.h in which it is ('' for the whole header), a
# text that occurs there once, and its replacement.
HEADER_EDITS = (
    ('overwritten', 'an offer reports no place', 'tbx_offer', 'r.place, place', '0, place'),
    ('sessions', 'an unchecked offer reports no place', 'tbx_offer_unchecked', 'r.place, place', '0, place'),
    ('overwritten', 'an offer without its check', 'tbx_offer', 'tbx_core_offer_checked', 'tbx_core_offer'),
    ('overwritten', 'a release without its check', 'tbx_release', 'tbx_core_release_checked', 'tbx_core_release'),
    ('overwritten', 'a base that stays', 'tbx_release', 'if (!r.left.refusal) s->head = r.head;', ''),
    ('sessions', 'a base that stays, unchecked', 'tbx_release_unchecked', 'if (!r.left.refusal) s->head = r.head;', ''),
    ('overwritten', 'a release that is always done', 'tbx_release', 'return r.left.refusal;', 'return 0;'),
    ('sessions', 'a release that is always done, unchecked', 'tbx_release_unchecked', 'return r.left.refusal;', 'return 0;'),
    ('overwritten', 'leave to skip', 'tbx_release', 'skip, out', 'true, out'),
    ('sessions', 'leave to skip, unchecked', 'tbx_release_unchecked', 'skip, out', 'true, out'),
    ('edges', 'a head stored with a refusal', 'tbx_release', 'if (!r.left.refusal) s->head', 's->head'),
    ('edges', 'a head stored with a refusal, unchecked', 'tbx_release_unchecked', 'if (!r.left.refusal) s->head', 's->head'),
    ('edges', 'a number that is not written with a refusal', 'tbx_release', '*left = r.left;', 'if (!r.left.refusal) *left = r.left;'),
    ('overwritten', 'spares without the check', 'tbx_send_spares', 'tbx_core_send_checked', 'tbx_core_send'),
    ('overwritten', 'parity without the check', 'tbx_send_parity', 'tbx_core_send_checked', 'tbx_core_send'),
    ('overwritten', 'a sender that stays', 'tbx_send_spares', 's->sent = r.sent;', ''),
    ('overwritten', 'a sender that stays with parity', 'tbx_send_parity', 's->sent = r.sent;', ''),
    ('edges', 'a sender that stays, unchecked', 'tbx_send_spares_unchecked', 's->sent = r.sent;', ''),
    ('edges', 'a sender that stays with parity, unchecked', 'tbx_send_parity_unchecked', 's->sent = r.sent;', ''),
    ('edges', 'n and m exchanged', 'tbx_send_parity', 'tbx_octet(m), tbx_octet(n)', 'tbx_octet(n), tbx_octet(m)'),
    ('edges', 'n and m exchanged, unchecked', 'tbx_send_parity_unchecked', 'tbx_octet(m), tbx_octet(n)', 'tbx_octet(n), tbx_octet(m)'),
    ('edges', 'spares cut to an octet', 'tbx_send_spares', 'tbx_octet(k)', '(uint8_t)k'),
    ('edges', 'spares cut to an octet, unchecked', 'tbx_send_spares_unchecked', 'tbx_octet(k)', '(uint8_t)k'),
    ('edges', 'n cut to an octet', 'tbx_send_parity', 'tbx_octet(n)', '(uint8_t)n'),
    ('edges', 'm cut to an octet', 'tbx_send_parity', 'tbx_octet(m)', '(uint8_t)m'),
    ('overwritten', 'no size of a datagram', 'tbx_send_spares', 'r.wrote.size, written', '0, written'),
    ('edges', 'no size written with a refusal', '', 'if (place) *place = at;', 'if (place && !refusal) *place = at;'),
    ('edges', 'a size that must be written', '', 'if (place) *place = at;', '*place = at;'),
    ('sessions', 'an image without its size', 'tbx_image_write', 'r.size, written', '0, written'),
    ('sessions', 'an image that is always written', 'tbx_image_write', 'tbx_told(r.refusal', 'tbx_told(0'),
    ('sessions', 'an image given more room than there is', 'tbx_image_write', 'out, room)', 'out, room + 1)'),
    ('sessions', 'a base that stays as an image is read', 'tbx_image_read', 'if (!r.answer.refusal) s->head = r.head;', ''),
    ('sessions', 'an image that is always read', 'tbx_image_read', 'return r.answer.refusal;', 'return 0;'),
    ('sessions', 'an image cut by one', 'tbx_image_read', 'text, size);', 'text, size ? size - 1 : 0);'),
    ('sessions', 'nothing solved', 'tbx_solve', 'tbx_core_solve_checked(s->head, s->table, s->octets, s->messages).refusal', '0'),
    ('sessions', 'messages that are always solved', 'tbx_solve', '.refusal', '.place'),
    ('packets', 'the edition not passed on', 'tbx_packet_read', 'tbx_octet((unsigned)edition)', '0'),
    ('edges', 'the edition cut to an octet', 'tbx_packet_read', 'tbx_octet((unsigned)edition)', '(uint8_t)edition'),
    ('packets', 'repaired exchanged', 'tbx_packet_read', ', repaired);', ', !repaired);'),
    ('packets', 'a packet written by the old edition', 'tbx_packet_write', 'tbx_octet((unsigned)edition)', '0'),
    ('edges', 'the edition of a written packet cut to an octet', 'tbx_packet_write', 'tbx_octet((unsigned)edition)', '(uint8_t)edition'),
    ('edges', 'the kind cut to an octet', 'tbx_packet_write', 'tbx_octet((unsigned)kind)', '(uint8_t)kind'),
    ('edges', 'the value cut to an octet', 'tbx_packet_write', 'tbx_octet(value)', '(uint8_t)value'),
    ('packets', 'a packet without its size', 'tbx_packet_write', 'r.size, written', '0, written'),
    ('packets', 'a packet that is always written', 'tbx_packet_write', 'tbx_told(r.refusal', 'tbx_told(0'),
    ('edges', 'the editions exchanged', '', 'TBX_EDITION_1998 = 0, TBX_EDITION_2002 = 1', 'TBX_EDITION_1998 = 1, TBX_EDITION_2002 = 0'),
    ('edges', 'another number for an indicator', '', 'TBX_INDICATOR = 0', 'TBX_INDICATOR = 2'),
    ('edges', 'good and bad frames exchanged', '', 'TBX_GOOD_FRAME = 1, TBX_BAD_FRAME = 2', 'TBX_GOOD_FRAME = 2, TBX_BAD_FRAME = 1'),
    ('edges', 'another number for no frame', '', 'TBX_NO_FRAME = 0', 'TBX_NO_FRAME = 7'),
    ('edges', 'spare and repaired exchanged', '', 'TBX_SPARE = 1, TBX_REPAIRED = 2', 'TBX_SPARE = 2, TBX_REPAIRED = 1'),
    ('edges', 'another version', '', 'TBX_VERSION_MINOR 9', 'TBX_VERSION_MINOR 8'),
    ('joiner', 'the taint not stored', 'tbx_joiner_field', 'j->tainted = r.head.tainted;', ''),
    ('joiner', 'the taint of a loss not stored', 'tbx_joiner_lost', 'j->tainted = r.head.tainted;', ''),
    ('joiner', 'the taint of 18 forgotten', 'tbx_joiner_field', 'j->tainted = r.head.tainted;',
     'if (!r.frame.refusal) j->tainted = r.head.tainted;'),
    ('joiner', 'the size not stored', 'tbx_joiner_field', 'j->size = r.head.size;', ''),
    ('joiner', 'a frame that is not reported', 'tbx_joiner_field', '*frame = r.frame;', '*frame = (tbx_frame){0, 0, 0};'),
    ('joiner', 'a field that is always taken', 'tbx_joiner_field', 'return r.frame.refusal;', 'return 0;'),
    ('edges', 'the type cut to an octet', 'tbx_joiner_field', 'tbx_octet((unsigned)type)', '(uint8_t)type'),
    ('joiner', 'a fresh joiner of any size', 'tbx_joiner_fresh', 'j->size = r.size;', ''))

# What is wrong, as above, of a header that must not compile, and the words of the compiler.
NO_HEADERS = (
    ('a session of another size', 'TBX_KEPT = 64,', 'TBX_KEPT = 62,', 'tbx_assert_session'),
    ('kind and value exchanged', 'uint8_t refusal, kind, value; size_t place', 'uint8_t refusal, value, kind; size_t place',
     'tbx_assert_packet'),
    ('place and count exchanged', 'size_t place, count; tbx_field', 'size_t count, place; tbx_field', 'tbx_assert_packet'),
    ('number and note exchanged', 'uint16_t number, note;', 'uint16_t note, number;', 'tbx_assert_number'),
    ('another target', '!defined __x86_64__', 'defined __x86_64__', 'libtubarexi.a is built for x86-64'))

# The mistakes that host/thousand.c can make.
MISTAKES = 'octet', 'swapped', 'lost', 'unmended', 'kept', 'refused', 'passed', 'unchecked'

# What is wrong, a text of examples/policy.h that occurs once in it, and its replacement: each drops a rule of docs/HOST.md, and
# host/policy.c must find it.
POLICY_EDITS = (
    ('P1, given up early', '+ p->patience : LONG_MAX', '+ p->patience - 1 : LONG_MAX'),
    ('P1, given up late', '+ p->patience : LONG_MAX', '+ p->patience + 1 : LONG_MAX'),
    ('P1, a later number begins the wait again', 'if (!policy_behind(p)) p->newest = (uint16_t)(policy_base(p) - 1);',
     'p->newest = (uint16_t)(policy_base(p) - 1);'),
    ('P2, not solved before a number is given up', '(now >= policy_due(p)) {\n        policy_solve(p);', '(now >= policy_due(p)) {'),
    ('P2, not solved at the end', '{\n    policy_solve(p);\n    while', '{\n    while'),
    ('P2, not solved before room is made', '/* P3 */\n        policy_solve(p);', ''),
    ('P3, no room', 'TBX_HEARD + POLICY_NEAR) { /* P3 */', '1) {'),
    ('P3, room without bound', 'TBX_HEARD + POLICY_NEAR) { /* P3 */', '65535) {'),
    ('P3, more room than is needed', '>= TBX_HEARD && policy_release(p, true)', '>= TBX_HEARD - 1 && policy_release(p, true)'),
    ('P3, not offered again', 'true)) {}\n        why = tbx_offer_unchecked(&p->session, octets, size, NULL);', 'true)) {}'),
    ('P4, two agree', 'POLICY_AGREE = 3', 'POLICY_AGREE = 2'),
    ('P4, strangers need not follow each other', '- 1) >= POLICY_STEP) p->strangers = 0;', '- 1) > 65535) p->strangers = 0;'),
    ('P4, others may come between them', 'p->strangers = 0, p->solved = false;', 'p->solved = false;'),
    ('P4, what was held back agrees at once', '(near && now - p->since < p->patience)', '(near && !now)'),
    ('P4, late ones never agree', '(near && now - p->since < p->patience)', 'near'),
    ('P4, no peer begins again', 'policy_restart(p, now);\n    return 0;', 'return why;'),
    ('P4, a repeated stranger breaks the row', 'if (p->strangers && number == p->last_strange) return why;', ''),
    ('P4, the strangers are forgotten', '(size_t i = 0; i < count; i++) policy_offer', '(size_t i = count; i < count; i++) policy_offer'),
    ('P4, what waits is forgotten', 'policy_end(p, (uint16_t)(policy_behind(p) ? p->newest + 1 : policy_base(p)));', ''),
    ('P4, begun before the peer', 'first < TBX_HEARD ? 0 : first', 'first < TBX_HEARD ? 0 : (uint16_t)(first - 1)'),
    ('P5, begun at 0', 'policy_begin_at(p, policy_base(p));', 'policy_begin_at(p, 0);'),
    ('P5, stopped at the last number', 'if (why == TBX_ALL_PASSED) {', 'if (why == TBX_NO_ROOM) {'),
    ('P6, sent again once', 'POLICY_REPEATS = 2', 'POLICY_REPEATS = 1'),
    ('P6, sent again without end', 'if (!l->left || now < l->due)', 'if (now < l->due)'),
    ('P6, sent again too soon', 'if (!l->left || now < l->due)', 'if (!l->left)'))

# For host/missed: a policy without some of its rules, by replacements as above.
SOLVE = 'if (!p->solved) tbx_solve_unchecked(&p->session);', ''
ROOM = 'if (why == TBX_TOO_FAR && (uint16_t)(number - policy_base(p)) < TBX_HEARD + POLICY_NEAR) {'
POLICIES = (
    ('the policy', ()),
    ('without solving', (SOLVE,)),
    ('and room only for a second datagram that is too far', (SOLVE, (ROOM, 'if (why == TBX_TOO_FAR && p->strangers) {'))),
    ('and no room: what is too far is dropped', (SOLVE, (ROOM, 'if (why == TBX_TOO_FAR) return why; if (0) {'))))

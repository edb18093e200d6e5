"""Frames that a client must refuse, each with its error line, and those beside them that it must take. Where several reasons stand against
a frame, the case says which goes first."""
from frames import ALL_COLUMNS, Ask, Hello, Holding, Lapse, Notice, Part, Refused, Reply, Resume, Rows, Tell, Welcome, Write, Written, frame, number
from told import ANSWERED, QUERY, told_fault

JOIN = 'query 1 SELECT p.id, q.title FROM p JOIN q ON p.age = q.no'
WRITE = 'write 1 DELETE FROM p'
WELCOME = Welcome(0, 4, False)
WHOLE = (None, None, None)

# A moment has the script, what comes before, the lines until then, and the number of what is laid by.
WELCOMED = ['0 resume 1 sent 0', '0 toclient 1 welcome 4 fresh']
MOMENTS = {
    'resume': ([], [], ['0 resume 1 sent 0'], '0'),
    'ask': ([QUERY], [[WELCOME]], WELCOMED + ['1 ask 1 1 fresh 1', '1 part p (id,age) {age 30..40}', '1 query 1 asked 1'], '1'),
    'join': ([JOIN], [[WELCOME]],
             WELCOMED + ['1 ask 1 1 fresh 2', '1 part p (id,age) {}', '1 part q (no,title) {}', '1 query 1 asked 1'], '1'),
    'write': ([WRITE], [[WELCOME]], WELCOMED + ['1 write 1 sent 1'], '1'),
    'second resume': ([QUERY, 'cut 1', 'resume 1'], [[WELCOME], [Rows(1, 0, [(1, 35)]), Reply(1, 4)]], ANSWERED, '3'),
}


# ---- messages

# what a client sends never comes to one, whatever is out and whatever it says
DIRECTION = {
    'resume': [Hello(1, 0), Resume(1, 0, 0, [Holding(0, [0], [WHOLE])]), Ask(0, True, [Part(0, [0], [WHOLE])]), Write(0, b'')],
    'ask': [Hello(1, 1), Ask(1, True, [Part(0, [0, 1], [(None, (30, 40), None)])]), Write(9, b'DELETE FROM p')],
    'write': [Write(1, b'DELETE FROM p'), Hello(1, 1, 1), Resume(1, 9, 9, [Holding(9, ALL_COLUMNS, [(None,)])], 1)],
}
# the last of each goes before what else is wrong: the number, the version, the shape
STATE = {
    'resume': [Rows(0, 0, [(1, 35)]), Reply(0, 4), Written(0, 4), Refused(0, 3, 0), Rows(9, 3, [(5000,)])],
    'ask': [Welcome(1, 4, False), Written(1, 4), Refused(1, 3, 0), Welcome(9, 3, True), Written(9, 3), Refused(9, 3, 0)],
    'write': [Welcome(1, 4, True), Reply(1, 4), Rows(1, 0, [(1, 35)]), Reply(9, 3), Rows(9, 3, [(5000,)])],
}
NUMBER = {
    'resume': [Welcome(1, 4, False)],
    'ask': [Reply(0, 4), Reply(2, 4), Rows(0, 0, [(1, 35)]), Rows(2, 0, [(1, 35)]), Reply(2 ** 64 - 1, 3), Rows(2, 3, [(5000,)])],
    'write': [Written(0, 4), Written(2, 4), Refused(2, 3, 0), Refused(0, 3, 0), Written(2, 3)],
    'second resume': [Welcome(0, 4, True), Welcome(3, 3, True)],
}
# behind what is laid by; a notice at the client's own version is refused, and a reply is not
VERSION = {
    'resume': [[Notice(0, [])], [Lapse(0)], [Notice(2, []), Welcome(0, 1, True)], [Lapse(2), Welcome(0, 1, False)], [Lapse(2), Lapse(2)]],
    'ask': [[Notice(4, [])], [Notice(3, [])], [Lapse(4)], [Lapse(3)], [Reply(1, 3)],
            [Notice(6, []), Notice(6, [])], [Notice(6, []), Notice(5, [])], [Notice(6, []), Lapse(6)], [Lapse(6), Notice(6, [])],
            [Notice(6, []), Rows(1, 0, [(1, 35)]), Reply(1, 5)], [Notice(4, [Tell(7, b'x', None)])]],
    'write': [[Written(1, 3)], [Notice(6, []), Written(1, 5)], [Lapse(6), Written(1, 5)], [Notice(4, [Tell(0, 1, None)])]],
    'second resume': [[Notice(4, [])], [Lapse(4)], [Welcome(2, 3, True)], [Welcome(2, 3, False)], [Notice(6, []), Welcome(2, 5, True)]],
}
ROW = (1, 35, b'ann')
SHAPE = {
    'ask': [
        # rows: their part, their cells, their rects, and how they ascend
        [Rows(1, 1, [(1, 35)])], [Rows(1, 0, [(1,)])], [Rows(1, 0, [(1, 35, b'ann')])],
        [Rows(1, 0, [(1, b'ann')])], [Rows(1, 0, [(b'ann', 35)])],
        [Rows(1, 0, [(1000, 35)])], [Rows(1, 0, [(-1, 35)])], [Rows(1, 0, [(1, 151)])], [Rows(1, 0, [(1, 29)])], [Rows(1, 0, [(1, 41)])],
        [Rows(1, 0, [(1, 35), (2, 41)])], [Rows(1, 0, [(2, 35), (1, 35)])], [Rows(1, 0, [(1, 35), (1, 36)])],
        [Rows(1, 0, [(2, 35)]), Rows(1, 0, [(1, 35)])], [Rows(1, 0, [(2, 35)]), Notice(6, []), Rows(1, 0, [(2, 36)])],
        # tells: their table, their key, their row, and how they ascend
        [Notice(6, [Tell(2, 1, None)])], [Notice(6, [Tell(255, 1, None)])], [Notice(6, [Tell(0, 1000, None)])],
        [Notice(6, [Tell(0, b'ann', None)])], [Notice(6, [Tell(0, 1, (1, 35))])],
        [Notice(6, [Tell(0, 1, (1, 35, b'ann', 0))])], [Notice(6, [Tell(0, 1, (1, b'ann', 35))])], [Notice(6, [Tell(0, 1, (1, 151, b'ann'))])],
        [Notice(6, [Tell(0, 2, ROW)])], [Notice(6, [Tell(0, 2, None), Tell(0, 1, None)])], [Notice(6, [Tell(0, 1, None), Tell(0, 1, ROW)])],
        [Notice(6, [Tell(1, 1, None), Tell(0, 2, None)])], [Notice(6, [Tell(0, 1, ROW), Tell(1, 100, None)])],
    ],
    'join': [
        [Rows(1, 2, [(1, b'a')])], [Rows(1, 0, [(1, b'a')])], [Rows(1, 1, [(1, 35)])], [Rows(1, 1, [(100, b'a')])],
        [Rows(1, 1, [(1, b'a')]), Rows(1, 0, [(1, 35)])], [Rows(1, 0, [(1, 35)]), Rows(1, 1, [(2, b'a')]), Rows(1, 1, [(1, b'a')])],
    ],
    'resume': [[Notice(6, [Tell(2, 1, None)])]],
    'write': [[Notice(5, [Tell(0, 1, None)]), Notice(6, [Tell(0, 1, None), Tell(0, 1, None)])]],
}


# ---- bytes

def with_length(size, message):
    """The frame of a message with another length."""
    return number(size, 4) + frame(message)[4:]


def with_byte(place, byte, message):
    """The frame of a message with another byte in this place; -1 is the last."""
    whole = bytearray(frame(message))
    whole[place] = byte
    return bytes(whole)


def asks(*span):
    """The frame of an ask of one column; its span begins at byte 23."""
    return frame(Ask(1, True, [Part(0, [0], [(span,)])]))


# what is sent while an ask is out, and the error line; what cannot be judged yet does not delay what can
BYTES = [
    (b'\0\0\0\0', 'field 0'), (b'\0\0\0\0\x55', 'field 0'), (number(134217729, 4), 'long 134217729'), (b'\xff\xff\xff\xff', 'long 4294967295'),
    (number(134217729, 4) + b'\x55', 'long 134217729'), (number(100, 4) + b'\x00', 'kind 0'), (number(134217728, 4) + b'\x05', 'kind 5'),
    (b'\0\0\0\x01\x10', 'kind 16'), (b'\0\0\0\x01\x18', 'kind 24'), (b'\0\0\0\x01\xff', 'kind 255'),
    # a field that the frame has not, in part or as a whole, and a byte that is left over
    (b'\0\0\0\x01\x14', 'field 5'), (with_length(5, Reply(1, 4))[:9], 'field 5'), (with_length(16, Reply(1, 4))[:20], 'field 13'),
    (with_length(18, Reply(1, 4)) + b'\0', 'field 21'), (with_length(19, Welcome(1, 4, True)) + b'\0', 'field 22'),
    # one that is outside of the rules, and of two the left one
    (with_byte(-1, 2, Welcome(1, 4, True)), 'field 21'), (frame(Notice(6, []))[:-4] + number(10001, 4), 'field 13'),
    (frame(Rows(1, 4, [(1, 35)])), 'field 13'), (frame(Rows(1, 0, [])), 'field 14'), (frame(Rows(1, 0, [(1, 35)] * 257)), 'field 14'),
    (frame(Rows(1, 4, [])), 'field 13'), (frame(Rows(1, 0, [()])), 'field 16'), (frame(Rows(1, 0, [(1,) * 13])), 'field 16'),
    (with_byte(17, 3, Rows(1, 0, [(1, 35)])), 'field 17'), (frame(Rows(1, 0, [(1, b'a' * 121)])), 'field 27'),
    (frame(Rows(1, 0, [(1, b'a\xff')])), 'field 28'), (frame(Refused(1, 0, 0)), 'field 13'), (frame(Refused(1, 34, 0)), 'field 13'),
    (with_byte(-1, 2, Notice(6, [Tell(0, 1, None)])), 'field 27'), (frame(Notice(6, [Tell(0, None, None)])), 'field 18'),
    # of two ends the second, where it does not lie behind the first
    (asks(5, 4), 'field 32'), (asks(b'b', b'a'), 'field 26'), (asks(b'b', b'b'), 'field 26'), (asks(b'', b''), 'field 25'),
    (asks(b'a' * 122, None), 'field 24'), (asks(b'a', b'b' * 122), 'field 26'),
    (with_byte(23, 5, Ask(1, True, [Part(0, [0], [(None,)])])), 'field 23'),
    # before all that can stand against a message
    (frame(Hello(0, 0)), 'field 6'), (frame(Hello(65, 0)), 'field 6'), (with_byte(5, 0, Hello(1, 0)), 'field 5'), (with_byte(5, 3, Hello(1, 0)), 'field 5'),
    (frame(Resume(1, 0, 0, [])), 'field 23'), (frame(Resume(1, 0, 0, [Holding(16, [0], [WHOLE])])), 'field 27'),
    (with_byte(28, 16, Resume(1, 0, 0, [Holding(0, [0], [WHOLE])])), 'field 28'), (frame(Ask(1, True, [])), 'field 14'), (frame(Write(1, b'\xff')), 'field 17'),
    (frame(Rows(9, 4, [(5000,)])), 'field 13'), (with_byte(-1, 7, Welcome(9, 3, True)), 'field 21'),
]

# what begins a frame, and no more comes: nothing is wrong with it yet, though its fields are
TORN = [b'\0', b'\0\0\0', b'\0\0\0\x01', with_length(20, Reply(9, 3)), with_length(20, Welcome(1, 4, True))[:-1] + b'\x02',
        frame(Rows(1, 4, []))[:-1]]

# what must be taken, and the lines of it: each stands beside something that is refused
LAID, DONE = '1 toclient 1 laid', '1 toclient 1 answered'
TAKEN = {
    'resume': ([Notice(1, [Tell(0, 1, ROW)]), Lapse(2), Notice(3, []), Welcome(0, 3, True)],
               ['0 toclient 1 laid'] * 3 + ['0 toclient 1 welcome 3 kept']),
    'ask': ([Notice(5, [Tell(0, 1, None), Tell(0, 2, (2, 0, b'')), Tell(1, 0, (0, b'x'))]), Rows(1, 0, [(0, 30)]), Lapse(6),
             Rows(1, 0, [(1, 40), (999, 35)]), Reply(1, 6)],
            [LAID] * 4 + ['1 answer 1 1 6 3', '1 row 0, 30', '1 row 1, 40', '1 row 999, 35', '1 held 1 p (id,age) {age 30..40}', DONE]),
    'join': ([Rows(1, 0, [(1, 35), (2, 99)]), Rows(1, 1, [(35, b'a')]), Rows(1, 1, [(99, b'')]), Reply(1, 4)],
             [LAID] * 3 + ['1 answer 1 1 4 2', "1 row 1, 'a'", "1 row 2, ''", '1 held 1 p (id,age) {}', '1 held 1 q (no,title) {}', DONE]),
    'write': ([Notice(5, []), Notice(7, []), Written(1, 7)], [LAID] * 2 + ['1 toclient 1 written 1 7']),
}


# ---- cases

def refused_fault(program, moment, sent, error, taken=0):
    """What is wrong with a run in which so many of these frames are taken at that moment, and then one is refused with this line."""
    script, replies, lines, laid = MOMENTS[moment]
    return told_fault(program, script, replies + [sent], lines + ['%s toclient 1 laid' % laid] * taken, (8, 'frame %s\n' % error))


def torn_fault(program, sent):
    """What is wrong with a run whose link ends inside of a frame, while an ask is out."""
    script, replies, lines, _ = MOMENTS['ask']
    budget = len(frame(WELCOME)) + len(sent)
    return told_fault(program, script, replies + [[sent]], lines + ['1 fail 1 query 1', '1 cut 1 1'], (5, 'link\n'), [budget])


def taken_fault(program, moment, sent, behind):
    """What is wrong with a run in which all of these frames are taken."""
    script, replies, lines, _ = MOMENTS[moment]
    return told_fault(program, script, replies + [sent], lines + behind)


def refused():
    """The moment, the frames that come, of which the last is refused, and why."""
    for reason, cases_of in [('direction', DIRECTION), ('state', STATE), ('number', NUMBER)]:
        for moment, messages in cases_of.items():
            for message in messages:
                yield moment, [message], reason
    for reason, cases_of in [('version', VERSION), ('shape', SHAPE)]:
        for moment, lists in cases_of.items():
            for sent in lists:
                yield moment, sent, reason
    for sent, error in BYTES:
        yield 'ask', [sent], error


def cases(program):
    """A name and what tells what is wrong, for each case."""
    for moment, sent, error in refused():
        yield ('client, %s out, refuses %s: %s' % (moment, sent[-1], error),
               lambda moment=moment, sent=sent, error=error: refused_fault(program, moment, sent, error, len(sent) - 1))
    for sent in TORN:
        yield 'client, torn behind %s' % sent.hex(), lambda sent=sent: torn_fault(program, sent)
    for moment, (sent, behind) in TAKEN.items():
        yield ('client, %s out, takes what comes' % moment,
               lambda moment=moment, sent=sent, behind=behind: taken_fault(program, moment, sent, behind))

"""The program `client`, which dials the peer of this folder; its lines are those of the rules as tests/oracle states them."""
# it makes the modules of tests/oracle known
from model import Model

import compare
from client import Limits
from frames import frame
from runs import ending_fault, run
from served import LOG, ROWS
from wanted import linked, same_request, told

LIMITS = Limits(10000, 64, 'recency')

ASKS = ['query 1 SELECT id, age FROM p WHERE age BETWEEN 30 AND 40', 'query 1 SELECT id, age FROM p WHERE age BETWEEN 35 AND 50',
        'write 1 UPDATE p SET age = 38 WHERE id = 2', 'query 1 SELECT id, age FROM p WHERE age BETWEEN 36 AND 40', 'evict 1 0',
        "query 1 SELECT id, age, name FROM p WHERE name >= 'b'"]
EXPLAIN = 'explain 1 SELECT id, age FROM p WHERE age BETWEEN 33 AND 60'
QUERIES = [EXPLAIN] + ASKS[:2] + [EXPLAIN] + ASKS[2:5] + [EXPLAIN] + ASKS[5:] + [EXPLAIN]
RESUMED = (ASKS[:2] + ['cut 1', EXPLAIN, ASKS[0], 'resume 1', EXPLAIN, 'write 1 UPDATE p SET age = 31 WHERE id = 300', 'cut 1', 'cut 1', 'resume 1', 'resume 1']
           + ASKS[3:] + [EXPLAIN])


# three ranges, of which the first was asked first, and the second lies farthest from the third; and a write that brings a row into one
RANGES = ['query 1 SELECT id, age FROM p WHERE age BETWEEN %d AND %d' % ends for ends in [(30, 34), (100, 110), (35, 45)]]
KEPT = RANGES + [EXPLAIN, 'write 1 UPDATE p SET age = 105 WHERE id = 3', EXPLAIN, 'cut 1', RANGES[0], RANGES[2], 'resume 1'] + RANGES
BUDGETS = [Limits(*limits) for limits in [
    (10000, 2, 'recency'), (10000, 2, 'distance'), (10000, 1, 'recency'), (10000, 0, 'recency'), (3, 64, 'recency'), (3, 64, 'distance'),
    (2, 64, 'recency'), (2, 64, 'distance'), (1, 64, 'distance'), (0, 64, 'distance'), (2, 1, 'distance')]]


# ---- runs

def words_of(limits):
    return ['--rows', str(limits.rows), '--regions', str(limits.classes), '--policy', limits.policy] if limits else []


def fault_of(program, script, budgets, limits=None):
    """What is wrong with a run whose peer keeps to the rules, but gives up its connections after these bytes. Without limits the words
    have none."""
    done, peer = run(program, script, Model(ROWS, LOG), budgets, options=words_of(limits))
    world, lines = linked(script, limits or LIMITS, peer.connections)
    if peer.fault:
        return 'it sent what must be refused: ' + peer.fault
    fault = ending_fault(done, world.ending()) or compare.difference(done.stdout.decode().splitlines(), lines, world.client.tables)
    return fault or sent_fault(peer, world)


def sent_fault(peer, world):
    """What is wrong with the requests that the client sent, as the peer read them, or None."""
    requests = [request for connection in peer.connections for request in connection.requests]
    if len(requests) != len(world.taken):
        return 'sent %d requests, wanted %d' % (len(requests), len(world.taken))
    for request, (ours, classes) in zip(requests, world.taken):
        if not same_request(request, ours, classes, world.client.tables):
            return 'sent %s, wanted %s, with these classes: %s' % (request, ours, classes)
    return None


def bytes_sent(program, script):
    """What an honest peer sends on the one connection of a script without cuts, as one list of bytes."""
    _, peer = run(program, script, Model(ROWS, LOG), [None])
    model, stream, session = Model(ROWS, LOG), b'', None
    for request in peer.connections[0].requests if peer.connections else []:
        session, messages = model.take(session, request)
        stream += b''.join(map(frame, messages))
    return stream


def fault_of_turned(program, place, bits):
    """What is wrong with a run whose peer turns bits of one byte. What comes may be no frame, a message that must be refused, one that
    never comes whole, or another one."""
    done, peer = run(program, ASKS[:2], Model(ROWS, LOG), [None], turned=(place, bits))
    world, lines = told(ASKS[:2], LIMITS, [peer.first])
    return ending_fault(done, world.ending()) or compare.difference(done.stdout.decode().splitlines(), lines, world.client.tables)


# ---- cases

def cases(program):
    """A name and what tells what is wrong, for each case."""
    stream, first = bytes_sent(program, QUERIES), bytes_sent(program, ASKS[:2])
    yield 'client, honest', lambda: fault_of(program, QUERIES, [None])
    yield 'client, cut and resumed', lambda: fault_of(program, RESUMED, [None, None, None])
    yield 'client, without a peer', lambda: fault_of(program, QUERIES, [])
    for limits in BUDGETS:
        yield ('client, which may keep %d rows and %d regions, by %s' % limits,
               lambda limits=limits: fault_of(program, KEPT, [None, None], limits))
    for size in range(len(stream)):
        yield 'client, cut after byte %d' % size, lambda size=size: fault_of(program, QUERIES, [size])
        yield 'client, cut after byte %d, and resumed' % size, lambda size=size: fault_of(program, RESUMED, [size, size // 2, None])
    for place in range(len(first)):
        bits = (0x80, 0x01, 0x02)[place % 3]
        yield 'client, byte %d turned by %d' % (place, bits), lambda place=place, bits=bits: fault_of_turned(program, place, bits)

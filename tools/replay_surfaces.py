"""The cases of surface files for tools/make-replay-list, read into held words and written of them: the oracle's, and cases
at the limits, whose answers follow from documents 01 and 02; and document 02's cases of lanes, as `probes` has them.

A case of `held` is a file as bytes and the room in words, one of `file` a list of held words and the room in bytes. The
answer is that of a call that writes; the memory stands in it as words, and as bytes. Bytes stand in words behind their
number, filled up with 0.
"""
import struct
from replay_sentences import BLANK_BYTE, read_words, words
from replay_shapes import BLANK_WORD, Stream, lent, refused, singles

def packed(held):
    return struct.pack(f'<{len(held)}I', *held)

def read(file, room, made=(), fault=None):
    """A file, and the words held of it or why there are none."""
    return words(file) + [room], (fault or [0, len(made)]) + [*made] + [BLANK_WORD] * (room - len(made))

def written(held, room, made=b'', fault=None):
    """Held words, as a list of a case, and the file of them or why there is none."""
    return held + [room], (fault or [0, len(made)]) + words(made + bytes([BLANK_BYTE] * (room - len(made))))

def held_case(s, answer, spare):
    file, number = read_words(s), answer.number()
    if number:
        return read(file, len(file) // 4 + spare, fault=refused(number, answer.number()))
    held = answer.items(1)
    return read(file, len(held) + spare, held)

def file_case(s, answer, spare):
    held, number = s.items(1), answer.number()
    if number:
        return written(lent(held), 4 * len(held) + spare, fault=refused(number, answer.number()))
    file = read_words(answer)
    return written(lent(held), len(file) + spare, file)

# number: name, cases made, how a case is read
SURFACES = {48: ('held', 150, held_case), 49: ('file', 250, file_case)}
MOST = 600  # words of a case: the longer ones are left out

def cases(number, given, answered):
    """The cases of an operation from the oracle's two streams: pairs of input and answer words."""
    s, answer = Stream(given), Stream(answered)
    n = s.number()
    assert answer.number() == n
    found = [SURFACES[number][2](s, answer, k % 3) for k in range(n)]
    assert s.at == len(given) and answer.at == len(answered)
    return [case for case in found if len(case[0]) + len(case[1]) <= MOST]

# ---- cases at the limits

def record(kind, *rest):
    return [kind, *rest] + [0] * (7 - len(rest))

def vertex(x, y):
    return record(1, *singles(x, y, 2, 0, 0, 1))

def triangle(id, told=0, corners=(0, 1, 2)):
    return record(2, *corners, id, 0, 0, told)

def question(x, y):
    return record(3, *singles(x, y))

def square(one, other, *asked):
    """Document 01's square, with words 4 and 7 of its triangles and the points asked."""
    corners = vertex(0, 0) + vertex(4, 0) + vertex(4, 4) + vertex(0, 4)
    return corners + triangle(*one) + triangle(*other, corners=(0, 2, 3)) + sum((question(*p) for p in asked), [])

# A triangle of each lane in a file, and as it is held: word 4, and words 4 and 7.
LAST = 2 ** 32 - 2
LANES = {0: (0, 0), 1: (0, 1), 2: (1, 1), 6: (5, 1), 2 ** 31: (2 ** 31 - 1, 1), LAST: (LAST - 1, 1), LAST + 1: (LAST, 1)}
PAST = triangle(LAST + 1, 1)  # held, and in no file
VERTEX, QUESTION = vertex(0, 0), question(3, 1)

# Records that are bad in a file and held, and the first words of one that breaks off.
BAD = [record(0), record(4), record(2 ** 32 - 1), VERTEX[:7] + [1], QUESTION[:3] + [1, 0, 0, 0, 0], QUESTION[:7] + [1],
       record(2, 0, 1, 2, 0, 1), record(2, 0, 1, 2, 0, 0, 1), [3] * 7, [1], triangle(0, 2), triangle(0, 2 ** 32 - 1)]
BAD_IN_FILE = [triangle(0, 1), triangle(6, 1), triangle(LAST + 1, 1)]
BAD_HELD = [triangle(id, told) for id in (1, 5, LAST, LAST + 1) for told in (0, 2, 2 ** 8, 2 ** 31, 2 ** 32 - 1)] + [
    triangle(0, 3), triangle(0, 2 ** 8), triangle(0, 2 ** 31), triangle(9, 3)]

def held_limits():
    def case(file, made=(), spare=0, fault=None):
        return read(packed(file), (len(file) if fault else len(made)) + spare, made, fault)
    asked = (3, 1), (9, 9)
    file, held = square((6,), (0,), *asked), square((5, 1), (0, 0), *asked)
    found = [case([]), case([], (), 3), case(file, held), case(file, held, 5)]
    found += [case(triangle(word), triangle(*pair)) for word, pair in LANES.items()]
    for bad in BAD + BAD_IN_FILE:
        first = VERTEX if bad[0] == 1 else triangle(1)
        found += [case(bad, fault=refused(5, 0)), case(first + bad + bad, fault=refused(5, 1))]
    wanted = refused(3, len(held))
    short = [case(file, spare=room - len(file), fault=wanted) for room in (len(held) - 1, 1, 0)]
    return found + short + [
        # kinds fall
        case(QUESTION + triangle(1), fault=refused(5, 1)), case(triangle(1) + VERTEX + VERTEX, fault=refused(5, 1)),
        # before the room
        case(file + triangle(6, 1), spare=-len(file) - 8, fault=refused(5, 8)), case(VERTEX + [1], spare=-9, fault=refused(5, 1)),
        # a part record, to the byte, and one that is past the most
        read(b'\3', 8, fault=refused(5, 0)), read(packed(VERTEX)[:31], 8, fault=refused(5, 0)),
        read(packed(VERTEX) + b'\1', 8, fault=refused(5, 1)), read(bytes(65537), 8, fault=refused(1, 2048)),
    ]

def file_limits():
    def case(held, made=(), spare=0, fault=None):
        return written(lent(held), 4 * (len(held) if fault else len(made)) + spare, packed(made), fault)
    asked = (3, 1), (9, 9)
    held, file = square((5, 1), (0, 0), *asked), square((6,), (0,), *asked)
    found = [case([]), case([], (), 3), case(held, file), case(held, file, 5)]
    found += [case(triangle(*pair), triangle(word)) for word, pair in LANES.items()]
    for bad in BAD + BAD_HELD:
        first = VERTEX if bad[0] == 1 else triangle(0, 1)
        found += [case(bad, fault=refused(5, 0)), case(first + bad + bad, fault=refused(5, 1))]
        # behind an id that no file has, or before it, the bad record is told
        found.append(case(PAST + bad, fault=refused(5, 1)))
        if bad in BAD_HELD:
            found.append(case(bad + PAST, fault=refused(5, 0)))
    large, wanted = refused(1, LAST), refused(3, 4 * len(held))
    short = [case(held, spare=room - 4 * len(held), fault=wanted) for room in (4 * len(held) - 1, 1, 0)]
    past = [case(x, spare=spare - 4 * len(x), fault=large) for spare in (0, 31, 32, 64)
            for x in (PAST, VERTEX + PAST, PAST + PAST, triangle(0, 1) + PAST + QUESTION)]
    return found + short + past + [
        # kinds fall
        case(QUESTION + triangle(0, 1), fault=refused(5, 1)), case(PAST + VERTEX, fault=refused(5, 1)),
        # before the room
        case(held + triangle(0, 2), spare=-4 * len(held) - 32, fault=refused(5, 8)),
        # the most records, and a part one more
        written(lent(QUESTION, 16384), 9, fault=refused(3, 65536)), written(lent(PAST, 16384), 9, fault=large),
        written(lent(triangle(0, 2), 16384), 9, fault=refused(5, 0)),
        *(written(lent(x, n), 9, fault=refused(1, 2048)) for x in (QUESTION, PAST, [0]) for n in (16385, 16392)),
    ]

def probe_limits():
    def case(file, *lines):
        return words(packed(file)), words(''.join(line + '\n' for line in lines).encode())
    def lines(one, other=None):
        """What is printed of (3, 1), and then of (1, 3) or of (9, 9)."""
        at = lambda k, lane: f'at {k} height 40000000 normal 00000000 00000000 3f800000 triangle {k} lane {lane}'
        last = ['at 1 none', 'asked 2 found 1'] if other is None else [at(1, other), 'asked 2 found 2']
        return [at(0, one)] + last
    asked, both = ((3, 1), (9, 9)), ((3, 1), (1, 3))
    return [
        case(square((6,), (6,), *asked), *lines(5)), case(square((5,), (5,), *asked), *lines(4)),
        case(square((1,), (0,), *both), *lines(0, '-')), case(square((0,), (1,), *both), *lines('-', 0)),
        case(square((LAST + 1,), (LAST,), *both), *lines(LAST, LAST - 1)),
        case(square((6,), (6, 1), *both), 'refused 5 at 5'), case(square((0, 1), (0,), *both), 'refused 5 at 4'),
    ]

SURFACE_LIMITS = {342: probe_limits, 348: held_limits, 349: file_limits}

"""The cases of the lookup layer for tools/make-replay-list: the oracle's, with the lists laid out as the calls want
them lent; document 01's case of the slack; and cases at the limits of each call, whose answers follow from document
01's table.

A case is the four lists of a mesh; then the points asked (`height_at`, `indexed`), the room for an index
(`sampler`), or the words of an index and the points (`lookup_words`). To each point the answer is 0 and what the
call answers, or a refusal's number and place, filled up with 0 to the same width. A list stands in a case, and the
lent memory in an answer, as tools/replay_shapes.py says. A case of `probes` is a surface file, and its answer the text.

`tops` and `tops_words` take the cases of `indexed` and `lookup_words` and ask all points in one call: behind them stands
the room for the records, and the answer is that of a call that writes. A record is what the oracle answers to a point.
What is wrong with the first words of the index turns the call back, before a room too short.
"""
import math
from replay_shapes import BLANK_WORD, Stream, bits, lent, mesh, mesh_limits, refused, singles, struct

def question_case(width):
    def case(s, answer, spare):
        given = sum(map(lent, mesh(s)), []) + lent(s.items(2))
        return given, answers(answer, width)
    return case

def answers(answer, width):
    """The oracle's answers of `width` words each, with 0 in front of those that are no refusal."""
    words = [answer.number()]
    for _ in range(words[0]):
        one = answer.take(width)
        words += one[1:3] + [0] * (width - 1) if one[0] == 2 else [0] + one
    return words

def build_case(s, answer, spare):
    given, made = sum(map(lent, mesh(s)), []), answer.items(1)
    return given + [len(made) + spare], [0, len(made)] + made + [BLANK_WORD] * spare

def words_case(s, answer, spare):
    given = sum(map(lent, mesh(s)), []) + lent(s.items(1)) + lent(s.items(2))
    return given, answers(answer, 8)

def tops_case(s, answer, spare):
    given = sum(map(lent, mesh(s)), []) + lent(s.items(2))
    records = answer.items(8)
    return given + [len(records) + spare], called(records, spare)

def tops_words_case(s, answer, spare):
    lists, index, points = mesh(s), s.items(1), s.items(2)
    records = answer.items(8)
    given = sum(map(lent, lists), []) + lent(index) + lent(points) + [len(records) + spare]
    fault = head_fault(index, len(lists[2]) // 3)
    if not fault:
        return given, called(records, spare)
    # the oracle says the same of each point
    assert records == ([2] + fault + [0] * 5) * (len(records) // 8)
    return given, fault + [BLANK_WORD] * (len(records) + spare)

def called(records, spare):
    """The answer of a call for many points that is taken."""
    return [0, len(records) // 8] + records + [BLANK_WORD] * spare

def head_fault(index, triangles):
    """What is wrong with the first words of an index, as a refusal's number and place, or nothing."""
    if len(index) < 9:
        return refused(4, len(index))
    if index[0] != triangles:
        return refused(4, 0)
    columns, rows = index[1:3]
    if columns > 1024:
        return refused(4, 1)
    if rows > 1024 or (columns == 0) != (rows == 0):
        return refused(4, 2)
    if columns and len(index) < 10 + columns * rows + index[8]:
        return refused(4, len(index))
    return None

def probe_case(s, answer, spare):
    """A surface file and its text, both as bytes in words behind their number."""
    return text(s), text(answer)

def text(s):
    n = s.number()
    return [n] + s.take((n + 3) // 4)

# number: name, cases made, how a case is read, and the oracle's operation whose cases it takes (where it is not its own)
LOOKUPS = {
    38: ('height_at', 40, question_case(6)), 39: ('sampler', 40, build_case), 40: ('indexed', 40, question_case(8)),
    41: ('lookup_words', 40, words_case), 42: ('probes', 120, probe_case),
    43: ('tops', 20, tops_case, 'indexed'), 44: ('tops_words', 20, tops_words_case, 'lookup_words'),
}
MOST = 1500  # words of a case: the longer ones are left out

# Document 01's case of the slack: the plain lookup answers, the indexed gives none.
SLACK = [3] + singles(0, 0, 0, 0, 1, 0, 10, 0, 0) + [3] + singles(0, 0, 1) * 3 + [3, 0, 1, 2, 0]
SLACK_POINT = [1] + singles(10.0015, -0.000075)

def inputs(number, generated):
    """The oracle's cases for an operation, and document 01's where it is one of it."""
    if number in (38, 40, 43):
        return [generated[0] + 1] + generated[1:] + SLACK + SLACK_POINT
    return generated

def cases(number, given, answered):
    """The cases of an operation from the oracle's two streams: pairs of input and answer words."""
    s, answer = Stream(given), Stream(answered)
    n = s.number()
    assert answer.number() == n
    found = [LOOKUPS[number][2](s, answer, k % 3) for k in range(n)]
    assert s.at == len(given) and answer.at == len(answered)
    if number == 38:
        assert found[-1][1][:3] == [1, 0, 1]
    if number == 40:
        assert found[-1][1] == [1] + [0] * 9
    if number == 43:
        assert found[-1][1][:10] == [0, 1] + [0] * 8
    return [case for case in found if len(case[0]) + len(case[1]) <= MOST]

# ---- cases at the limits. The mesh is one triangle with the corners (0, 0), (4, 0), (0, 4), of lane 7.

CORNER, UP = singles(0, 0, 0, 4, 0, 0, 0, 4, 0), singles(0, 0, 1) * 3
SPAN = lent([7, 0, 3, 0, 3])
TRIANGLE = lent(CORNER) + lent(UP) + lent([0, 1, 2]) + SPAN
INSIDE, NOWHERE = lent(singles(1, 1)), lent(singles(9, 9))
FOUND = [0, 1] + singles(0, 0, 0, 1) + [0]

def single(x):
    return struct.unpack('<f', struct.pack('<f', x))[0]

def one_cell():
    """The index of the triangle: one cell over its grown box."""
    slack = single(single(1e-4) * 8)
    low, high = single(0 - slack), single(4 + slack)
    side = single(high - low)
    cell = single(math.sqrt(single(side * side)))
    assert side <= cell
    return [1, 1, 1] + singles(low, low, high, high, side) + [1, 0, 1, 0]

INDEX = one_cell()

def filled(words, width):
    """An answer to one point."""
    return [1] + words + [0] * (width - len(words))

def on_meshes(rest, answer, width):
    """The lists of a mesh at their limits, for a call that is asked of one point."""
    return [(given + rest, filled(words, width)) for given, words in mesh_limits(answer)]

def plain_limits():
    return on_meshes(INSIDE, lambda *lists: FOUND, 7) + [
        (TRIANGLE + NOWHERE, filled([], 7)), (TRIANGLE + lent([]), [0]),
        (TRIANGLE + lent([0x7fc00000, bits(1.0)]), filled([], 7)),
        # no triangle, and one with a corner past the vertices
        (lent([]) * 4 + INSIDE, filled([], 7)),
        (lent(CORNER) + lent(UP) + lent([0, 1, 3]) + lent([]) + INSIDE, filled([], 7)),
    ]

def build_limits():
    room = 14
    def answer(vertices, normals, indices, spans):
        # 65,536 triangles over each other: the cells are so small that each is in thousands
        return refused(1, 4194304) if indices[0] == 196608 else [0, 12] + INDEX
    def case(given, words, room=room):
        return given + [room], words + [BLANK_WORD] * (room + 2 - len(words))
    none = [0, 9, 1] + [0] * 8
    hollow = lent(CORNER) + lent(UP) + lent([0, 1, 3]) + lent([])
    return [case(*one) for one in mesh_limits(answer)] + [
        case(TRIANGLE, [0, 12] + INDEX, 12), case(TRIANGLE, refused(3, 12), 11), case(TRIANGLE, refused(3, 12), 0),
        # no boxes: nine words
        case(hollow, none), case(hollow, none, 9), case(hollow, refused(3, 9), 8), case(hollow, refused(3, 9), 0),
        case(lent([]) * 4, [0, 9] + [0] * 9), case(lent([]) * 4, refused(3, 9), 8),
    ]

def top_answer(vertices, normals, indices, spans):
    """What the triangle's index, lent with a mesh, answers. It is foreign to one of 65,536 triangles. Of the spans
    that are taken only the triangle's own has index 0."""
    if indices[0] == 196608:
        return refused(4, 0)
    return FOUND + ([1, 7] if spans == SPAN else [0, 0])

def but(**words):
    """The triangle's index with some words changed."""
    return [words.get(f'w{k}', w) for k, w in enumerate(INDEX)]

def lent_indices():
    """Words lent as the triangle's index, the points asked, and the answer to each: a record without its first word, a
    refusal, or nothing for none."""
    found, none, wrong = FOUND[1:] + [1, 7], [], lambda place: refused(4, place)
    return [(words, points[0] if points else INSIDE, answer) for words, answer, *points in [
        (INDEX, found), (INDEX + [9, 9], found), (INDEX, none, NOWHERE),
        # under nine words, before anything else
        ([], wrong(0)), (INDEX[:8], wrong(8)), ([5] * 8, wrong(8)),
        # word 0; words 1 and 2 neither both 0 nor both 1..1,024
        (but(w0=0), wrong(0)), (but(w0=2, w1=1025), wrong(0)),
        (but(w1=1025), wrong(1)), (but(w1=1025, w2=0), wrong(1)), (but(w1=0), wrong(2)),
        (but(w2=0), wrong(2)), (but(w2=1025), wrong(2)), (but(w1=0, w2=1025), wrong(2)),
        # words 1 and 2 both 0: nine words are enough, and nothing is found
        (but(w1=0, w2=0)[:9], none), (but(w1=0, w2=0, w8=9), none), (but(w1=0, w2=0)[:8], wrong(8)),
        # the slice under the words declared: 10 + 1 * 1 + 1
        (INDEX[:11], wrong(11)), (INDEX[:9], wrong(9)), (but(w8=2), wrong(12)),
        (but(w8=0xffffffff), wrong(12)), (but(w1=1024, w2=1024), wrong(12)),
        # the starts of the cell consulted: past word 8, falling; then its entries
        (but(w9=2), wrong(9)), (but(w9=2, w10=0), wrong(9)), (but(w9=1, w10=0), wrong(10)),
        (but(w10=2), wrong(10)), (but(w11=1), wrong(11)), (but(w11=0xffffffff), wrong(11)),
        (but(w10=0), none), (but(w9=1), none),
        # no cell is consulted where the point is outside the bounds, or where one or the other is a NaN
        (but(w9=2, w11=1), none, NOWHERE), (but(w9=2, w3=0x7fc00000), none),
        (but(w9=2), none, lent([0x7fc00000, bits(1.0)])),
        # a cell of NaN, 0 or below: the first column and row
        (but(w7=0x7fc00000), found), (but(w7=0), found), (but(w7=bits(-1.0)), found),
    ]]

def foreign_limits():
    def told(answer):
        return [0] + answer if len(answer) == 8 else answer
    return on_meshes(lent(INDEX) + INSIDE, top_answer, 9) + [
        (TRIANGLE + lent(words) + points, filled(told(answer), 9)) for words, points, answer in lent_indices()]

def record(answer):
    """The record of an answer as `lent_indices` has it."""
    return answer if len(answer) == 8 else ([2] + answer + [0] * 5 if answer else [0] * 8)

def tops_limits():
    def case(words, points, answer, room=8, lists=TRIANGLE):
        return lists + lent(words) + points + [room], answer + [BLANK_WORD] * (room + 2 - len(answer))
    def of_mesh(*lists):
        answer = top_answer(*lists)
        return answer if len(answer) == 2 else [0, 1] + answer[1:]
    cases = [(given + lent(INDEX) + INSIDE + [8], answer + [BLANK_WORD] * (10 - len(answer)))
             for given, answer in mesh_limits(of_mesh)]
    # what is wrong with the first words turns the call back, and what is wrong with a cell stands in the record
    for words, points, answer in lent_indices():
        cases.append(case(words, points, head_fault(words, 1) or [0, 1] + record(answer)))
    found, none, cell = (record(x) for x in (FOUND[1:] + [1, 7], [], refused(4, 10)))
    three = lent(singles(1, 1, 9, 9, 1, 1))
    return cases + [
        case(INDEX, three, [0, 3] + found + none + found, 24), case(INDEX, three, [0, 3] + found + none + found, 27),
        case(but(w10=2), three, [0, 3] + cell + none + cell, 24), case(INDEX, lent([]), [0, 0], 0),
        case(INDEX, lent([]), [0, 0], 5),
        # room under eight words a point
        case(INDEX, INSIDE, refused(3, 8), 7), case(INDEX, INSIDE, refused(3, 8), 0),
        case(INDEX, three, refused(3, 24), 23), case(but(w10=2), INSIDE, refused(3, 8), 7),
        case(but(w1=0, w2=0), INSIDE, refused(3, 8), 7),
        # an odd number, before the index and the room; after the mesh's lists
        case(INDEX, lent(singles(1)), refused(2, 5), 0), case(INDEX, lent(singles(1, 1, 1)), refused(2, 5), 16),
        case([], lent(singles(1)), refused(2, 5)),
        case(INDEX, lent(singles(1)), refused(2, 3), 8, lent(CORNER) + lent(UP) + lent([0, 1, 2]) + lent([7])),
        # the index before the room, with no points too
        case([], INSIDE, refused(4, 0), 7), case(but(w0=2), three, refused(4, 0), 23),
        case(but(w2=0), INSIDE, refused(4, 2), 0), case(INDEX[:11], three, refused(4, 11), 0),
        case([], lent([]), refused(4, 0)), case(but(w1=1025), lent([]), refused(4, 1), 0),
        case(INDEX[:9], lent([]), refused(4, 9), 3),
        # no triangles: an index of no words, and the one that is built
        case([], lent(singles(0, 0)), refused(4, 0), 7, lent([]) * 4),
        case([0] * 9, lent(singles(0, 0)), refused(3, 8), 7, lent([]) * 4),
        case([0] * 9, lent(singles(0, 0)), [0, 1] + none, 8, lent([]) * 4),
    ]

def planted():
    """One case of `tops_words` whose answer is wrong on purpose: the last word, the lane, is 8 and not 7. `replay` must
    show it, or it compares nothing."""
    return [(TRIANGLE + lent(INDEX) + INSIDE + [8], [0, 1] + FOUND[1:] + [1, 8])]

PLANTED = 45
LOOKUP_LIMITS = {338: plain_limits, 339: build_limits, 341: foreign_limits, 344: tops_limits, PLANTED: planted}

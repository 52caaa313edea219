"""The cases of joining two meshes for tools/make-replay-list: the oracle's, document 01's lane and a junction's mesh either
part first, and cases at the limits, whose answers follow from the documents' table and document 02.

A case is the four lists of each part, the room in each output, and the points asked of the whole. The answer to a joining
that is taken is 0 and the counts, the lent memory whole, and what the plain lookup gives at each point, as of `height_at`;
to one that is turned back, the refusal's number and place, and the lent memory. Lists and memory stand as
tools/replay_shapes.py says.
"""
from replay_lookups import answers
from replay_shapes import STRIP, Stream, lent, memory, mesh, meshed, refused, singles

def join_case(s, answer, spare):
    first, second, points = mesh(s), mesh(s), s.items(2)
    given = sum(map(lent, [*first, *second]), [])
    number = answer.number()
    if number:
        return given + [spare] * 4 + lent(points), refused(number, answer.number(), memory(([], [], [], []), spare))
    made, sizes, rooms = meshed(answer, spare)
    return given + rooms + lent(points), [0] + sizes + memory(made, spare) + answers(answer, 6)

# number: name, cases made, how a case is read
JOINS = {50: ('join', 150, join_case)}

def cases(number, given, answered):
    """The cases of an operation from the oracle's two streams: pairs of input and answer words."""
    s, answer = Stream(given), Stream(answered)
    n = s.number()
    assert answer.number() == n
    found = [JOINS[number][2](s, answer, k % 3) for k in range(n)]
    assert s.at == len(given) and answer.at == len(answered)
    return found

# ---- cases at the limits

UP = singles(0, 0, 1)
# the square from (10, -2) to (14, 2), each triangle with vertices of its own, as a junction's mesh is
CORNERS = singles(10, 2, 0, 10, -2, 0, 14, -2, 0, 14, -2, 0, 14, 2, 0, 10, 2, 0)
SQUARE = (CORNERS, UP * 6, [0, 1, 2, 3, 4, 5], [])
EMPTY = ([], [], [], [])
ALONG = (5, 0, 10, 0, 12, 0, 13, 1, 15, 0)

def lists(part, **other):
    """The lists of a part, those named by their words, or by a list of a case, as these."""
    named = dict(zip(('vertices', 'normals', 'indices', 'spans'), map(lent, part)))
    return sum({**named, **other}.values(), [])

def case(a, b, answer=None, made=EMPTY, rooms=None, points=(), found=()):
    """A joining of lists a and b. Where it is taken, the whole and the triangles found at the points; all lie at height 0."""
    rooms = rooms or [len(x) for x in made]
    told = answer or [0, len(made[0]) // 3, len(made[1]) // 3, len(made[2]), len(made[3]) // 5]
    words, blanks = list(told), memory(EMPTY, 1)
    for x, room, blank in zip(made, rooms, blanks):
        words += x + [blank] * (room - len(x))
    if not answer:
        words += [len(found)]
        for t in found:
            words += [0, 0, 0, 0, 0, 0, 0] if t is None else [0, 1, 0] + UP + [t]
    return a + b + list(rooms) + lent(singles(*points)), words

def moved(words, by):
    return [w + by for w in words]

def join_limits():
    lane, square, empty = lists(STRIP), lists(SQUARE), lists(EMPTY)
    both = (STRIP[0] + CORNERS, UP * 10, STRIP[2] + moved(SQUARE[2], 4), STRIP[3])
    turned = (CORNERS + STRIP[0], UP * 10, SQUARE[2] + moved(STRIP[2], 6), [7, 6, 10, 6, 12])
    twice = (STRIP[0] * 2, UP * 8, STRIP[2] + moved(STRIP[2], 4), STRIP[3] + [7, 4, 8, 6, 12])
    rooms = [30, 30, 12, 5]
    no = lambda number, place, a=lane, b=square, rooms=rooms: case(a, b, refused(number, place), rooms=rooms)
    found = [
        case(lane, square, made=both, points=ALONG, found=(0, 1, 2, 3, None)),
        case(lane, square, made=both, rooms=[31, 33, 13, 9], points=ALONG, found=(0, 1, 2, 3, None)),
        case(square, lane, made=turned, points=ALONG, found=(2, 0, 0, 1, None)),
        case(lane, lane, made=twice, points=(5, 0), found=(0,)),
        # an empty part changes nothing
        case(empty, lane, made=STRIP), case(lane, empty, made=STRIP), case(empty, square, made=SQUARE, rooms=[19, 18, 6, 1]),
        case(empty, empty), case(empty, empty, rooms=[1, 2, 3, 4]),
        # short outputs, the first of several
        no(3, 30, rooms=[29, 30, 12, 5]), no(3, 30, rooms=[30, 29, 12, 5]), no(3, 12, rooms=[30, 30, 11, 5]),
        no(3, 5, rooms=[30, 30, 12, 4]), no(3, 30, rooms=[0, 0, 0, 0]), no(3, 12, rooms=[30, 30, 0, 0]),
        # 7: a normal too few, one too many; the first part
        no(7, 0, lists(STRIP, normals=lent(UP * 3))), no(7, 1, b=lists(SQUARE, normals=lent(UP * 7))),
        no(7, 0, lists(STRIP, normals=lent([])), lists(SQUARE, normals=lent([]))), no(7, 0, lists(STRIP, vertices=lent([]), spans=lent([]))),
        # 8: by the part's own vertices, in the two lists laid end to end; the first; after 7
        no(8, 11, b=lists(SQUARE, indices=lent([0, 1, 2, 3, 4, 6]))),
        no(8, 6, b=lists(SQUARE, indices=lent([9, 1, 2, 3, 4, 6]))),
        no(8, 2, lists(STRIP, indices=lent([0, 1, 4, 9, 3, 2]))), no(8, 4, lists(STRIP, indices=lent([0, 1, 3, 0, 2 ** 32 - 1, 2]))),
        no(8, 5, lists(STRIP, indices=lent([0, 1, 3, 0, 3, 4])), lists(SQUARE, indices=lent([6] * 6))),
        no(8, 0, lists(EMPTY, indices=lent([0] * 3))),
        no(7, 1, lists(STRIP, indices=lent([0, 1, 4, 0, 3, 2])), lists(SQUARE, normals=lent(UP * 5))),
    ]
    # 2: list by list of each part, the first part's before the second's, before 7 and 8
    odd = {'vertices': lent(CORNERS + [0]), 'normals': lent(UP * 6 + [0, 0]), 'indices': lent([0, 1, 2, 3, 9]), 'spans': lent([0] * 6)}
    names = list(odd)
    for k, name in enumerate(names):
        found += [no(2, k, lists(SQUARE, **{name: odd[name]})), no(2, 4 + k, b=lists(SQUARE, **{name: odd[name]}))]
        some = {other: odd[other] for other in names[k:]}
        found += [no(2, k, lists(SQUARE, **some), lists(SQUARE, **odd))]
        found += [no(2, 4 + k, b=lists(SQUARE, **some))] if len(some) > 1 else []
    for run in ([7, 1, 0, 0, 0], [7, 0, 7, 0, 0], [7, 0, 0, 1, 0], [7, 0, 0, 0, 7], [7, 0, 2, 0, 0, 8, 1, 2, 0, 0]):
        found += [no(2, 3, lists(SQUARE, spans=lent(run))), no(2, 7, b=lists(SQUARE, spans=lent(run)))]
    # 1: a list past its limit, by a word and by an element; before 2, the first part's first
    for name, limit, size in (('vertices', 65536, 3), ('normals', 65536, 3), ('indices', 196608, 1), ('spans', 1024, 5)):
        for more in sorted({1, size}):
            long = {name: lent([0], size * limit + more)}
            found += [no(1, limit, lists(SQUARE, **long)), no(1, limit, b=lists(SQUARE, **long)),
                      no(1, limit, lists(SQUARE, **{**odd, **long}), lists(SQUARE, **odd))]
    found += [no(1, 1024, lists(SQUARE, spans=lent([0], 5121)), lists(SQUARE, vertices=lent([0], 196609))),
              no(1, 196608, lists(STRIP, vertices=lent([0])), lists(SQUARE, indices=lent([0], 196609)))]
    # a list of either part at its limit, or a result at it, is no oversize, so that the room is what is short; with one
    # more the result is
    points = lambda n: lists(EMPTY, vertices=lent([0], 3 * n), normals=lent([0], 3 * n))
    corners = lambda n: lists((UP, UP, [], []), indices=lent([0], n))
    runs = lambda n: lists(EMPTY, spans=lent([7, 0, 0, 0, 0], 5 * n))
    found += [
        no(3, 196608, points(65536), empty), no(3, 196608, empty, points(65536)), no(3, 196608, points(40000), points(25536)),
        no(1, 65536, points(40000), points(25537)), no(1, 65536, points(1), points(65536)),
        no(3, 196608, corners(196608), empty), no(3, 196608, empty, corners(196608)),
        no(3, 196608, corners(98304), corners(98304)), no(1, 196608, corners(98304), corners(98307)),
        no(3, 5120, runs(1024), empty), no(3, 5120, empty, runs(1024)), no(3, 5120, runs(512), runs(512)), no(1, 1024, runs(512), runs(513)),
        no(1, 1024, runs(1024), runs(1), rooms=[0, 0, 0, 0]),
    ]
    return found

JOIN_LIMITS = {350: join_limits}

"""The cases of the shape layer for tools/make-replay-list: the oracle's, with the lists laid out as the calls want
them lent, and cases at the limits of each call, whose answers follow from document 01's table.

A list stands in a case as its length, the count of the words given of it, and these; where the list is longer they
repeat. Then comes the room in each output. The answer to a call that writes is 0 and what the call answers, or a
refusal's number and place; and then the lent memory whole, which held BLANK or BLANK_WORD before.
"""
import struct

BLANK, BLANK_WORD = 0x449a5000, 0x5a5a5a5a  # 1234.5 as a single, and a word

def bits(x):
    return struct.unpack('<I', struct.pack('<f', x))[0]

def wide(x):
    return list(struct.unpack('<2I', struct.pack('<d', x)))

def singles(*xs):
    return [bits(x) for x in xs]

def lent(words, length=None):
    """A list of a case. A length past the words repeats them."""
    return [len(words) if length is None else length, len(words)] + words

def lent_doubles(words, length=None):
    return [len(words) // 2 if length is None else length, len(words)] + words

class Stream:
    """Reads the oracle's words."""
    def __init__(self, words):
        self.words, self.at = words, 0

    def take(self, n):
        self.at += n
        assert self.at <= len(self.words)
        return self.words[self.at - n:self.at]

    def number(self):
        return self.take(1)[0]

    def items(self, width):
        """A list of elements of `width` words, flat."""
        return self.take(width * self.number())

# ---- inputs and answers, from the oracle's layout to that of the calls

def grid(s):
    """The grid's numbers, rows, left and right heights."""
    numbers, rows, left, right = s.take(12), [], [], []
    for _ in range(s.number()):
        centre, a, b = s.take(2), s.items(2), s.items(2)
        rows += centre + [len(left) // 2, (len(left) + len(a)) // 2, len(right) // 2, (len(right) + len(b)) // 2]
        left, right = left + a, right + b
    return numbers, rows, left, right

def mesh(s):
    return s.items(3), s.items(3), s.items(1), s.items(5)

def elevation_case(s, answer, spare):
    numbers, rows, left, right = grid(s)
    questions = s.items(4)
    found = answer.items(3)
    words = [len(found) // 3]
    for k in range(0, len(found), 3):
        words += [0] + found[k:k + 3]
    return numbers + lent(rows) + lent_doubles(left) + lent_doubles(right) + lent_doubles(questions), words

def ring_case(s, answer, spare):
    segments, points = [], []
    for _ in range(s.number()):
        run = s.items(3)
        segments += [len(points) // 3, (len(points) + len(run)) // 3]
        points += run
    made = answer.items(3)
    words = [0, len(made) // 3] + answer.take(4) + made + [BLANK] * spare
    return lent(segments) + lent(points) + [len(made) + spare], words

def ear_case(s, answer, spare):
    ring, ears = s.items(3), answer.items(3)
    return lent(ring) + [len(ears) + spare], [0, len(ears) // 3] + ears + [BLANK_WORD] * spare

def meshed(answer, spare):
    """The room in each output, and the answer: counts and memory."""
    made = mesh(answer)
    sizes = [len(made[0]) // 3, len(made[1]) // 3, len(made[2]), len(made[3]) // 5]
    return made, sizes, [len(x) + spare for x in made]

def memory(made, spare):
    blanks = (BLANK, BLANK, BLANK_WORD, BLANK_WORD)
    return sum((x + [blank] * spare for x, blank in zip(made, blanks)), [])

def surface_case(s, answer, spare):
    points, tangents, widths, banks, lanes = [], [], [], [], []
    for _ in range(s.number()):
        lane = s.take(1)
        for whole, size in ((points, 3), (tangents, 3), (widths, 1)):
            run = s.items(size)
            lane += [len(whole) // size, (len(whole) + len(run)) // size]
            whole += run
        default = s.take(1)
        run = s.items(2)
        lanes += lane + [len(banks) // 2, (len(banks) + len(run)) // 2] + default
        banks += run
    made, sizes, rooms = meshed(answer, spare)
    given = lent(points) + lent(tangents) + lent(widths) + lent(banks) + lent(lanes)
    return given + rooms, [0] + sizes + memory(made, spare)

def junction_case(s, answer, spare):
    ring, present = s.items(3), s.number()
    numbers, rows, left, right = grid(s) if present else ([0] * 12, [], [], [])
    made, sizes, rooms = meshed(answer, spare)
    assert sizes[0] == sizes[1] == sizes[2] and sizes[3] == 0
    given = [present] + numbers + lent(ring) + lent(rows) + lent_doubles(left) + lent_doubles(right)
    return given + rooms[:3], [0, sizes[0]] + memory(made[:3], spare)

def validate_case(s, answer, spare):
    return sum(map(lent, mesh(s)), []), [0] + answer.take(4)

def plain(size, answer_size):
    def case(s, answer, spare):
        return s.take(size), answer.take(answer_size)
    return case

# number: name, cases made, how a case is read; and where it is given, the most words that an answer may have: the
# longer cases are left out
SHAPES = {
    27: ('no_area', 300, plain(9, 1)), 28: ('patch', 100, plain(32, 32)), 29: ('slopes', 300, plain(12, 5)),
    30: ('elevation_height', 60, elevation_case), 31: ('elevation_height_at', 60, elevation_case),
    33: ('ring', 150, ring_case), 34: ('ear_clip', 120, ear_case), 35: ('junction_mesh', 60, junction_case, 1800),
    36: ('surface_mesh', 80, surface_case), 37: ('validate', 100, validate_case),
}

def cases(number, inputs, answers):
    """The cases of an operation from the oracle's two streams: pairs of input and answer words."""
    s, answer = Stream(inputs), Stream(answers)
    n = s.number()
    assert answer.number() == n
    found = [SHAPES[number][2](s, answer, k % 3) for k in range(n)]
    assert s.at == len(inputs) and answer.at == len(answers)
    most = SHAPES[number][3] if len(SHAPES[number]) > 3 else None
    return [case for case in found if most is None or len(case[1]) <= most]

# ---- cases at the limits

def refused(number, place, memory=()):
    return [number, place] + list(memory)

def patch_limits():
    """The coefficients of 0 to 15, and those of an infinity with zeros: a product with 0 is worked out, and NaN there."""
    inf, nan, neg = float('inf'), float('nan'), -float('inf')
    def case(given, *made):
        return sum(map(wide, given), []), sum(map(wide, made), [])
    return [
        case([float(n) for n in range(16)], 0, 2, -4, 3, 8, 10, -28, 19, -16, -22, 60, -41, 12, 16, -44, 30),
        case([inf] + [0.0] * 15, inf, nan, neg, inf, nan, nan, nan, nan, neg, nan, inf, neg, inf, nan, neg, inf),
    ]

FLAT = wide(0.0)

def elevation_limits():
    """Document 01's case of two rows of centre 0 and left 10, asked at (5, 5): 5. A third row changes nothing of
    it, as the rows before the first are missing."""
    numbers = sum(map(wide, (0.0, 0.0, 0.0, 1.0, 0.0, 10.0)), [])
    two = FLAT + [0, 1, 0, 0] + FLAT + [1, 2, 0, 0]
    ten = wide(10.0)
    asked = lent_doubles(wide(5.0) + wide(5.0))
    def case(answer, rows, left=lent_doubles(ten + ten), right=lent_doubles([])):
        return numbers + rows + left + right + asked, [1] + answer
    five, none = [0, 1] + wide(5.0), [0, 0, 0, 0]
    oversize, ragged = [1, 1024, 0, 0], [2, 0, 0, 0]
    third = lambda *run: lent(two + FLAT + list(run))
    many = lent_doubles(ten, 1026)
    return [
        case(five, lent(two)),
        # a list or a run at its limit, and past it
        case(none, lent(FLAT + [0, 0, 0, 0], 6 * 1024)),
        case(oversize, lent(FLAT + [0, 0, 0, 0], 6 * 1024 + 1)),
        case(oversize, lent(FLAT + [0, 0, 0, 0], 6 * 1024 + 6)),
        case(five, third(2, 1026, 0, 0), many),
        case(five, third(2, 2, 0, 1024), right=lent_doubles(ten, 1024)),
        case(oversize, third(2, 1027, 0, 0), lent_doubles(ten, 1027)),
        case(oversize, third(2, 2, 0, 1025), right=lent_doubles(ten, 1025)),
        # a run that is too long is so where it leaves its list, too, and before anything is ragged
        case(oversize, third(2, 1027, 0, 0)),
        case(oversize, lent(FLAT + [1, 0, 0, 1025])),
        case(oversize, lent(FLAT + [0, 1, 0, 0] + FLAT + [0, 1, 0, 1025] + [0])),
        # a part row
        case(ragged, lent(two + [0])),
        case(ragged, lent(two + FLAT + [2, 2, 0])),
        # left and right: ends before it starts, starts before the last one's end, ends past its list
        case(ragged, third(2, 1, 0, 0)), case(ragged, third(1, 2, 0, 0)), case(ragged, third(2, 3, 0, 0)),
        case(ragged, lent(FLAT + [0, 1, 1, 0] + FLAT + [1, 2, 1, 1]), right=lent_doubles(ten)),
        case(ragged, lent(FLAT + [0, 1, 0, 1] + FLAT + [1, 2, 0, 1]), right=lent_doubles(ten)),
        case(ragged, lent(FLAT + [0, 1, 0, 0] + FLAT + [1, 2, 0, 1])),
        # gaps, and heights past the last run, are no fault
        case(five, lent(FLAT + [1, 2, 0, 0] + FLAT + [3, 4, 0, 0]), lent_doubles(ten, 6)),
        case(five, lent(FLAT + [0, 1, 1, 1] + FLAT + [1, 2, 2, 2]), right=lent_doubles(ten, 2)),
    ]

def ring_limits():
    square = singles(0, 0, 0, 4, 0, 0, 4, 4, 0, 0, 4, 0)
    # from (0, 4) back to (0, 0): the greatest gap
    whole = [0, 4, 0, bits(4.0), 0, 0] + square
    def case(answer, segments, points, room=12):
        size = len(answer) - (2 if answer[0] else 6)
        return segments + points + [room], answer + [BLANK] * (room - size)
    one, points = lent([0, 4]), lent(square)
    return [
        case(whole, one, points), case(whole, one, points, 14), case(refused(3, 12), one, points, 11),
        case(refused(3, 12), one, points, 0),
        # a list at its limit, and past it
        case([0, 0, 256, 0, 1, 0], lent([0, 0], 512), points),
        case(refused(1, 256), lent([0, 0], 513), points), case(refused(1, 256), lent([0, 0], 514), points),
        case([0, 1, 0, 0, 1, 0, 0, 0, 0], lent([0, 4096]), lent([0], 12288)),
        case(refused(1, 4096), lent([0, 4096]), lent([0], 12289)),
        case(refused(1, 4096), lent([0, 4096]), lent([0], 12291)),
        # size before raggedness, in the order of the lists
        case(refused(1, 256), lent([4, 0], 513), lent([0], 12289)),
        case(refused(1, 4096), lent([4, 0, 9]), lent([0], 12291)),
        # a part segment; a run that ends before it starts, starts before the last one's end, ends past its list
        case(refused(2, 0), lent([0, 4, 4]), points), case(refused(2, 0), lent([3, 2]), points),
        case(refused(2, 0), lent([0, 2, 1, 4]), points), case(refused(2, 0), lent([0, 5]), points),
        case(refused(2, 0), lent([0, 2, 2, 4, 5, 5]), points),
        # coordinates not in threes: the list of segments is named first where its run ends past the whole points
        case(refused(2, 1), lent([0, 3]), lent(square[:11])), case(refused(2, 1), one, lent(square + [0])),
        case(refused(2, 0), one, lent(square[:11])),
        # gaps between runs, and points past the last, are no fault; an empty segment at the end is dropped
        case([0, 1, 1, 0, 1, 0] + square[3:6], lent([1, 2, 4, 4]), points),
        case([0, 0, 0, 0, 1, 0], lent([]), lent([])), case([0, 0, 0, 0, 1, 0], lent([]), lent([]), 0),
    ]

def ear_limits():
    square = singles(0, 0, 0, 4, 0, 0, 4, 4, 0, 0, 4, 0)
    ears = [0, 2, 3, 0, 1, 1, 2, 3]
    def case(answer, ring, room=6):
        return ring + [room], answer + [BLANK_WORD] * (room - len(answer) + 2)
    return [
        case(ears, lent(square)), case(ears, lent(square), 8), case(refused(3, 6), lent(square), 5),
        case(refused(3, 6), lent(square), 0),
        case([0, 0], lent([0], 3072)), case(refused(1, 1024), lent([0], 3073)), case(refused(1, 1024), lent([0], 3075)),
        case(refused(2, 0), lent(square + [0])), case(refused(2, 0), lent(square + [0, 0])),
        case(refused(2, 0), lent([0], 3071)),
        case([0, 0], lent(square[:6])), case([0, 0], lent(square[:6]), 0), case([0, 0], lent([]), 0),
    ]

# Document 01's lane from (0, 0, 0) to (10, 0, 0), 4 wide, and its strip.
LINE, AHEAD, FOUR = singles(0, 0, 0, 10, 0, 0), singles(1, 0, 0, 1, 0, 0), bits(4.0)
LANE = [7, 0, 2, 0, 2, 0, 2, 0, 0, 0]
STRIP = (singles(0, 2, 0, 0, -2, 0, 10, 2, 0, 10, -2, 0), singles(0, 0, 1) * 4, [0, 1, 3, 0, 3, 2], [7, 0, 4, 0, 6])
NOTHING = [0, 0, 0, 0, 0]

def lanes_case(answer, points=lent(LINE), tangents=lent(AHEAD), widths=lent([FOUR, FOUR]), banks=lent([]),
               lanes=lent(LANE), rooms=(12, 12, 6, 5), made=([], [], [], [])):
    """A case of surface_mesh: what is not given is as in document 01's lane. `made` is what is written."""
    words = list(answer)
    for x, room, blank in zip(made, rooms, (BLANK, BLANK, BLANK_WORD, BLANK_WORD)):
        words += x + [blank] * (room - len(x))
    return points + tangents + widths + banks + lanes + list(rooms), words

def lane_list_limits(place, name, size):
    """The runs that lanes have of one list, with all other lists empty. The points all lie in one place, so that a
    lane that is taken is skipped."""
    lists = {'points': lent([]), 'tangents': lent([]), 'widths': lent([]), 'banks': lent([])}
    def case(answer, elements, *runs):
        words = []
        for a, e in runs:
            words += [7] + [0, 0] * place + [a, e] + [0, 0] * (3 - place) + [FOUR]
        return lanes_case(answer, lanes=lent(words), **{**lists, name: lent([0], elements * size)})
    return [
        case(NOTHING, 4096, (0, 4096)), case(refused(1, 4096), 4097, (0, 4097)),
        # too long where it leaves its list, too
        case(refused(1, 4096), 4096, (0, 4097)), case(refused(1, 4096), 4, (5, 4), (4, 4101)),
        # ends before it starts, starts before the last one's end, ends past its list
        case(refused(2, 4), 4, (3, 2)), case(refused(2, 4), 4, (0, 3), (2, 4)), case(refused(2, 4), 4, (0, 5)),
        case(refused(2, 4), 4, (0, 2), (3, 5)),
        # gaps, and elements past the last run, are no fault
        case(NOTHING, 4, (0, 0), (4, 4)), case(NOTHING, 4, (1, 1), (2, 2)),
    ]

def tours(lanes, last=4096):
    """Lanes of 4,096 points, the last one of `last`. The points go to and fro, so that each is kept."""
    words = []
    for k in range(lanes):
        words += [k, 4096 * k, 4096 * k + (last if k == lanes - 1 else 4096), 0, 0, 0, 0, 0, 0, FOUR]
    return {'points': lent(singles(0, 0, 0, 1, 0, 0), 3 * 4096 * lanes), 'tangents': lent([]), 'widths': lent([]),
            'banks': lent([]), 'lanes': lent(words)}

def surface_limits():
    case, good = lanes_case, [0, 4, 4, 6, 1]
    odd = {'points': lent(LINE + [0]), 'tangents': lent([0]), 'banks': lent([0]), 'lanes': lent([0])}
    but = lambda *names: {name: value for name, value in odd.items() if name not in names}
    found = [
        case(good, made=STRIP), case(good, made=STRIP, rooms=(13, 12, 7, 9)),
        # missing widths: the default; missing banks: level
        case(good, lanes=lent([7, 0, 2, 0, 2, 0, 0, 0, 0, FOUR]), made=STRIP),
        case(good, lanes=lent([7, 0, 2, 0, 2, 0, 2, 0, 2, 0]), banks=lent(singles(0, 1, 0, 1)), made=STRIP),
        # short outputs
        case(refused(3, 12), rooms=(11, 12, 6, 5)), case(refused(3, 12), rooms=(12, 11, 6, 5)),
        case(refused(3, 6), rooms=(12, 12, 5, 5)), case(refused(3, 5), rooms=(12, 12, 6, 4)),
        case(refused(3, 12), rooms=(0, 0, 0, 0)), case(refused(3, 6), rooms=(12, 12, 0, 0)),
        # the list of lanes
        case(NOTHING, lanes=lent([0], 10240)), case(refused(1, 1024), lanes=lent([0], 10241)),
        case(refused(1, 1024), lanes=lent([0], 10250)),
        case(refused(2, 4), lanes=lent(LANE + [0])), case(refused(2, 4), lanes=lent(LANE[:9])),
        # not in threes, not in pairs; the first list is named
        case(refused(2, 0), **odd), case(refused(2, 1), **but('points')),
        case(refused(2, 3), **but('points', 'tangents')),
        case(refused(2, 0), points=odd['points']), case(refused(2, 1), tangents=lent(AHEAD + [0, 0])),
        case(refused(2, 3), banks=odd['banks']),
        # size before raggedness
        case(refused(1, 4096), **but('lanes'), lanes=lent([7, 0, 2, 0, 2, 0, 2, 0, 4097, FOUR])),
        case(refused(1, 1024), **but('lanes'), lanes=lent([0], 10241)),
        # a result of 65,536 vertices is no oversize, so that the room is what is short; with more it is
        case(refused(3, 196608), **tours(8)), case(refused(3, 196608), **tours(9, 0)),
        case(refused(1, 65536), **tours(9, 2)), case(refused(1, 65536), **tours(9)),
        case(refused(1, 65536), rooms=(0, 0, 0, 0), **tours(9)),
    ]
    for place, (name, size) in enumerate((('points', 3), ('tangents', 3), ('widths', 1), ('banks', 2))):
        found += lane_list_limits(place, name, size)
    return found

def junction_limits():
    """The ring of four points has two ears, six vertices where there is no grid."""
    square = singles(0, 0, 0, 4, 0, 0, 4, 4, 0, 0, 4, 0)
    ten = wide(10.0)
    def case(answer, ring=lent(square), rows=lent([]), left=lent_doubles([]), right=lent_doubles([]), spacing=None,
             rooms=(18, 18, 6)):
        numbers = sum(map(wide, (0.0, 0.0, 0.0, 1.0, 0.0, spacing or 0.0)), [])
        blanks = [BLANK] * (rooms[0] + rooms[1]) + [BLANK_WORD] * rooms[2]
        return [0 if spacing is None else 1] + numbers + ring + rows + left + right + list(rooms), answer + blanks
    row = FLAT + [0, 0, 0, 0]
    two = FLAT + [0, 1, 0, 0] + FLAT + [1, 2, 0, 0]
    sides = {'left': lent_doubles(ten + ten), 'spacing': 4.0}
    # convex rings of 7 and 8 points: 5 and 6 ears, each of 4,096 triangles where the spacing is 0
    seven = singles(0, 0, 0, 4, 0, 0, 8, 4, 0, 8, 8, 0, 4, 12, 0, 0, 12, 0, -4, 8, 0)
    eight = seven + singles(-4, 4, 0)
    return [
        case(refused(3, 18), rooms=(17, 18, 6)), case(refused(3, 18), rooms=(18, 17, 6)),
        case(refused(3, 6), rooms=(18, 18, 5)), case(refused(3, 18), rooms=(0, 0, 0)),
        case(refused(3, 6), rooms=(18, 18, 0)),
        # with spacing 4: 24 vertices
        case(refused(3, 72), spacing=4.0, rooms=(71, 72, 24)), case(refused(3, 72), spacing=4.0, rooms=(72, 71, 24)),
        case(refused(3, 24), spacing=4.0, rooms=(72, 72, 23)),
        # a list or a run at its limit, and past it
        case([0, 0], lent([0], 3072)), case(refused(1, 1024), lent([0], 3073)), case(refused(1, 1024), lent([0], 3075)),
        case([0, 0], lent([]), lent(row, 6144), spacing=4.0),
        case(refused(1, 1024), rows=lent(row, 6145), spacing=4.0),
        case(refused(1, 1024), rows=lent(row, 6150), spacing=4.0),
        case([0, 0], lent([]), lent(FLAT + [0, 1024, 0, 1024]), lent_doubles(ten, 1024), lent_doubles(ten, 1024), 4.0),
        case(refused(1, 1024), rows=lent(FLAT + [0, 1025, 0, 0]), left=lent_doubles(ten, 1025), spacing=4.0),
        case(refused(1, 1024), rows=lent(FLAT + [0, 0, 0, 1025]), spacing=4.0),
        # size before raggedness, in the order of the lists
        case(refused(1, 1024), lent(square + [0]), lent(FLAT + [1, 0, 0, 1025]), spacing=4.0),
        case(refused(1, 1024), lent([0], 3073), lent([0]), spacing=4.0),
        case(refused(2, 0), lent(square + [0])), case(refused(2, 0), lent(square[:11]), lent([0]), spacing=4.0),
        case(refused(2, 0), lent(square + [0, 0]), lent(FLAT + [1, 0, 0, 0]), spacing=4.0),
        # a part row; left and right: ends before it starts, starts before the last one's end, ends past its list
        case(refused(2, 1), rows=lent(two + [0]), **sides), case(refused(2, 1), rows=lent(two[:11]), **sides),
        case(refused(2, 1), rows=lent(FLAT + [1, 0, 0, 0]), **sides),
        case(refused(2, 1), rows=lent(FLAT + [0, 1, 0, 0] + FLAT + [0, 2, 0, 0]), **sides),
        case(refused(2, 1), rows=lent(FLAT + [0, 3, 0, 0]), **sides),
        case(refused(2, 1), rows=lent(FLAT + [0, 0, 1, 0]), right=lent_doubles(ten), **sides),
        case(refused(2, 1), rows=lent(FLAT + [0, 0, 0, 1] + FLAT + [0, 0, 0, 1]), right=lent_doubles(ten), **sides),
        case(refused(2, 1), rows=lent(FLAT + [0, 0, 0, 1]), **sides),
        # the result: 61,440 vertices are no oversize, 73,728 are
        case(refused(3, 184320), lent(seven), spacing=0.0), case(refused(1, 65536), lent(eight), spacing=0.0),
        case(refused(1, 65536), lent(eight), spacing=0.0, rooms=(0, 0, 0)),
    ]

def mesh_limits(answer):
    """The lists of a mesh at their limits, for a call that takes one. `answer` gives what is answered of a mesh whose
    lists are taken: it gets vertices, normals, indices and spans as they stand in the case."""
    corner = singles(0, 0, 0, 4, 0, 0, 0, 4, 0)
    up = singles(0, 0, 1) * 3
    def case(number, place, vertices=lent(corner), normals=lent(up), indices=lent([0, 1, 2]),
             spans=lent([7, 0, 3, 0, 3])):
        words = refused(number, place) if number else answer(vertices, normals, indices, spans)
        return vertices + normals + indices + spans, words
    taken = lambda **lists: case(0, 0, **lists)
    found = [
        taken(), taken(spans=lent([])), taken(normals=lent([])),
        # each list at its limit, and past it
        taken(vertices=lent(corner, 196608)), case(1, 65536, vertices=lent(corner, 196609)),
        case(1, 65536, vertices=lent(corner, 196611)),
        taken(normals=lent(up, 196608)), case(1, 65536, normals=lent(up, 196609)),
        case(1, 65536, normals=lent(up, 196611)),
        taken(indices=lent([0, 1, 2], 196608)), case(1, 196608, indices=lent([0, 1, 2], 196609)),
        taken(spans=lent([0], 5120)), case(1, 1024, spans=lent([0], 5121)), case(1, 1024, spans=lent([0], 5125)),
        # size before raggedness, in the order of the lists
        case(1, 65536, vertices=lent([0], 196609), indices=lent([0], 196609)),
        case(1, 196608, normals=lent([0]), indices=lent([0], 196609), spans=lent([0], 5121)),
        case(1, 1024, vertices=lent([0]), spans=lent([0], 5121)),
        # not in threes, not in fives; indices need not be in threes
        case(2, 0, vertices=lent(corner + [0])),
        case(2, 0, vertices=lent(corner[:8]), normals=lent([0]), spans=lent([0])),
        case(2, 1, normals=lent(up + [0, 0])), case(2, 1, normals=lent(up[:8]), spans=lent([0])),
        case(2, 3, spans=lent([7, 0, 3, 0])), case(2, 3, spans=lent([7, 0, 3, 0, 3, 0])),
        taken(indices=lent([0, 1, 2, 1])),
        # gaps, and elements past the last run, are no fault
        taken(spans=lent([7, 1, 1, 1, 2, 8, 2, 2, 3, 3])),
    ]
    # each run of a span: ends before it starts, starts before the last one's end, ends past its list
    for first, second in (([3, 2], [3, 3]), ([0, 2], [1, 3]), ([0, 2], [2, 4])):
        found.append(case(2, 3, spans=lent([7] + first + [0, 0] + [8] + second + [0, 0])))
        found.append(case(2, 3, spans=lent([7, 0, 0] + first + [8, 0, 0] + second)))
    return found

def validate_limits():
    return mesh_limits(validate_answer)

def validate_answer(vertices, normals, indices, spans):
    """The corners (0, 0), (4, 0), (0, 4): sound but for a short last triple, which has no area (its indices name
    vertices)."""
    triples, left = divmod(indices[0], 3)
    return [0, 4, triples, 0, 0] if left else [0, 0, 0, 0, 0]

LIMITS = {328: patch_limits, 330: elevation_limits, 331: elevation_limits, 333: ring_limits, 334: ear_limits,
          335: junction_limits, 336: surface_limits, 337: validate_limits}

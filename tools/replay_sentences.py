"""The cases of sentences for tools/make-replay-list: the oracle's, and cases at the limits, whose answers follow from
document 02.

A case of `sentence` is a verdict's kind, three counts of two words, the low one first, and the room; its answer is that of
a call that writes, with the memory as bytes. A case of `read_sentence` is bytes, and its answer 0, kind and three counts,
or a refusal's number and place. Bytes stand in words behind their number, filled up with 0.
"""
import struct
from replay_shapes import Stream, refused

BLANK_BYTE = 0x5a

def words(data):
    """Bytes in words behind their number."""
    filled = data + bytes(-len(data) % 4)
    return [len(data)] + list(struct.unpack(f'<{len(filled) // 4}I', filled))

def read_words(s):
    n = s.number()
    return struct.pack(f'<{(n + 3) // 4}I', *s.take((n + 3) // 4))[:n]

def write_case(s, answer, spare):
    kind, *counts = s.take(4)
    sentence = read_words(answer)
    return written(kind, counts, len(sentence) + spare, sentence)

def read_case(s, answer, spare):
    given, told = words(read_words(s)), answer.take(5)
    return given, told if told[0] == 0 else told[:2]

def written(kind, counts, room, sentence=None, fault=None):
    """A verdict, and its sentence or why there is none; the memory is what it was behind what is written."""
    counts = (counts + [0, 0, 0])[:3]
    given = [kind] + [w for n in counts for w in (n & 0xffffffff, n >> 32)] + [room]
    front = sentence if sentence is not None else b''
    answer = fault or [0, len(sentence)]
    return given, answer + words(front + bytes([BLANK_BYTE] * (room - len(front))))

# number: name, cases made, how a case is read
SENTENCES = {46: ('sentence', 120, write_case), 47: ('read_sentence', 400, read_case)}

def cases(number, given, answered):
    """The cases of an operation from the oracle's two streams: pairs of input and answer words."""
    s, answer = Stream(given), Stream(answered)
    n = s.number()
    assert answer.number() == n
    found = [SENTENCES[number][2](s, answer, k % 3) for k in range(n)]
    assert s.at == len(given) and answer.at == len(answered)
    return found

# ---- cases at the limits

MOST = 2 ** 32 - 1
PAST = b'triangle 1 indexes vertex 2, past the 1 vertices present.'
LONGEST = b'triangle 4294967295 indexes vertex 4294967295, past the 4294967295 vertices present.'

def write_limits():
    large = refused(1, MOST)
    return [
        written(0, [], 14, b'mesh is sound.'), written(0, [], 13, fault=refused(3, 14)), written(0, [], 0, fault=refused(3, 14)),
        written(1, [], 22, b'mesh has no triangles.'), written(1, [], 21, fault=refused(3, 22)),
        # no plural rule
        written(3, [1, 2, 1], 57, PAST), written(3, [1, 2, 1], 56, fault=refused(3, 57)), written(3, [1, 2, 1], 90, PAST),
        written(3, [MOST] * 3, 84, LONGEST), written(3, [MOST] * 3, 83, fault=refused(3, 84)),
        written(2, [0], 23, b'vertex 0 is not finite.'), written(2, [MOST], 32, b'vertex 4294967295 is not finite.'),
        written(4, [10], 24, b'triangle 10 has no area.'),
        # a count that has more than 32 bits, before the room
        written(2, [MOST + 1], 90, fault=large), written(2, [MOST + 1], 0, fault=large), written(4, [2 ** 64 - 1], 90, fault=large),
        written(3, [MOST + 1, 0, 0], 90, fault=large), written(3, [0, MOST + 1, 0], 90, fault=large),
        written(3, [0, 0, MOST + 1], 5, fault=large), written(3, [2 ** 33 + 3] * 3, 90, fault=large),
    ]

def read_limits():
    def verdict(text, kind, *counts):
        return words(text), ([0, kind] + list(counts) + [0, 0, 0])[:5]
    def no(text, place):
        return words(text), refused(6, place)
    return [
        verdict(b'mesh is sound.', 0), verdict(b'mesh has no triangles.', 1), verdict(b'vertex 0 is not finite.', 2, 0),
        verdict(b'triangle 3 indexes vertex 7, past the 4 vertices present.', 3, 3, 7, 4),
        verdict(b'triangle 3 has no area.', 4, 3), verdict(b'vertex 4294967295 is not finite.', 2, MOST),
        verdict(LONGEST, 3, MOST, MOST, MOST), verdict(PAST, 3, 1, 2, 1),
        # no bytes; what breaks off; what goes on
        no(b'', 0), no(b'mesh is sound', 13), no(b'mesh is sound. ', 14), no(b'mesh is sound.\n', 14), no(b'mesh h', 6),
        no(b'mesh ', 5), no(b'mesh x', 5), no(b'vertex', 6), no(b'vertex ', 7), no(LONGEST[:-1], 83), no(LONGEST + b'.', 84),
        no(LONGEST + b' ' * 900, 84), no(b'm' * 999, 1), no(b'Mesh is sound.', 0),
        # counts: no leading zero, none missing, none too large, no sign
        no(b'vertex 00 is not finite.', 8), no(b'vertex 0', 8), no(b'vertex  is not finite.', 7), no(b'vertex -1 is not finite.', 7),
        no(b'triangle 3 x', 11), no(b'triangle 3 ', 11), no(b'triangle 3 i', 12), no(b'triangle 3 h', 12),
        no(b'triangle 9999999999 has no area.', 18), no(b'vertex 4294967296 is not finite.', 16),
        no(b'vertex 42949672950 is not finite.', 17), no(b'triangle 3 indexes vertex 01', 27),
        no(b'triangle 3 has no area', 22), no(b'triangle 3 has no area..', 23),
    ]

SENTENCE_LIMITS = {346: write_limits, 347: read_limits}

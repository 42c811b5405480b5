"""Files and rows of statements for tools/crosscheck.py, made from document 02 (W-204) alone: right ones, and ones with each part spoilt, one
fault at a time, two at a time, and at random."""
import struct

HEAD, MOVEMENT = 74, 75
MOST, MOST_AMOUNT = 10 ** 14 - 1, 10 ** 12 - 1
RECORD, ROW = 130, 136
# places and lengths of the read fields of a record; a sign is a field of its own
FIELDS = {HEAD: [(3, 16), (45, 14), (59, 1), (60, 14), (74, 1), (75, 14), (89, 1), (90, 14), (104, 1)],
          MOVEMENT: [(3, 16), (19, 16), (48, 12), (60, 1), (61, 10)]}
# the most that each word of a row may be; balances and turnovers below zero too
MOSTS = {HEAD: [10 ** 6 - 1, 10 ** 10 - 1, MOST, MOST, MOST, MOST], MOVEMENT: [10 ** 6 - 1, 10 ** 10 - 1] * 2 + [MOST_AMOUNT, 5, 10 ** 10 - 1]}
# where an account's sixteen digits, C10 C8 C9 C6 C1 C2 C3 C4 C5 C7 P1 to P6, stand in prefix and base
INTERNAL = "FDEB6789AC012345"


def put(data, at, new):
    return data[:at] + new + data[at + len(new):]


class Head:
    kind = HEAD

    def __init__(self, account, old, new, debit, credit, kept):
        self.numbers = [*account, old, new, debit, credit]
        self.kept, self.minus_zero = kept, [False] * 4

    def record(self):
        def sign(x, plus, minus_zero):
            return b"%014d%c" % (abs(x), b"-" if x < 0 or minus_zero and x == 0 else plus)
        signed = b"".join(map(sign, self.numbers[2:], [b"+", b"+", b"0", b"0"], self.minus_zero))
        return b"074" + internal(*self.numbers[:2]) + self.kept[:26] + signed + self.kept[26:49] + b"\r\n"


class Movement:
    kind = MOVEMENT

    def __init__(self, account, other, amount, code, variable, kept):
        self.numbers = [*account, *other, amount, code, variable]
        self.kept = kept

    def record(self):
        prefix, base, other_prefix, other_base, amount, code, variable = self.numbers
        return (b"075" + internal(prefix, base) + internal(other_prefix, other_base) + self.kept[:13]
                + b"%012d%d%010d" % (amount, code, variable) + self.kept[13:70] + b"\r\n")


def internal(prefix, base):
    edited = "%06d%010d" % (prefix, base)
    return "".join(edited[int(c, 16)] for c in INTERNAL).encode()


def row(thing, unused=b"\0"):
    """a row; what its kind does not use is `unused`"""
    words = [thing.kind] + [n % 2 ** 64 for n in thing.numbers]
    words += [unused[0]] * (8 - len(words))
    return (struct.pack("<8Q", *words) + thing.kept[:70 if thing.kind == MOVEMENT else 49]).ljust(ROW, unused)


def file_of(things):
    return b"".join(t.record() for t in things)


def rows_of(things, unused=b"\0"):
    return b"".join(row(t, unused) for t in things)


class Inputs:
    def __init__(self, rnd):
        self.rnd = rnd

    def kept(self):
        """what is neither tested nor changed: mostly letters, seldom any bytes, line ends and the beginning of a record among them"""
        if self.rnd.random() < 0.85:
            return bytes(self.rnd.choice(b"0123456789 ABCDEFGHIJ") for _ in range(70))
        return bytes(self.rnd.choice([13, 10, 0, 255, 32, 48, 200]) for _ in range(67)) + b"074"

    def account(self):
        return self.rnd.choice([(0, 0), (19, 19), (123456, 7890123456), (999999, 9999999999), (self.rnd.randrange(10 ** 6), self.rnd.randrange(10 ** 10))])

    def statement(self, moves, old=0):
        """a head whose sums agree, and its movements, of (code, amount)"""
        account = self.account()
        debit = sum({1: n, 4: -n}.get(c, 0) for c, n in moves)
        credit = sum({2: n, 5: -n}.get(c, 0) for c, n in moves)
        head = Head(account, old, old - debit + credit, debit, credit, self.kept())
        return [head] + [Movement(account, self.account(), n, c, self.rnd.choice([0, 42, 10 ** 10 - 1]), self.kept()) for c, n in moves]

    def some(self):
        """a statement drawn at random"""
        moves = [(self.rnd.choice([1, 2, 4, 5]), self.rnd.choice([0, 1, 5001, MOST_AMOUNT, self.rnd.randrange(10 ** 12)]))
                 for _ in range(self.rnd.choice([0, 1, 2, 3]))]
        things = self.statement(moves, self.rnd.choice([0, 1, -1, 5001, -700000, self.rnd.randrange(-10 ** 13, 10 ** 13)]))
        things[0].minus_zero = [self.rnd.random() < 0.5 for _ in range(4)]
        return things

    def right(self):
        """lists of heads and movements whose sums agree"""
        one = self.statement
        yield one([])
        yield one([], MOST)
        yield one([], -MOST)
        yield one([(1, MOST_AMOUNT)], -MOST + MOST_AMOUNT)
        yield one([(2, MOST_AMOUNT)], MOST - MOST_AMOUNT)
        yield one([(1, 5), (4, 5), (2, 7), (5, 7)])
        yield one([(4, 900), (5, 300)], -1)
        yield one([]) + one([(1, 1), (2, 2)], 1) + one([]) + one([(4, 3)])
        for minus in range(4):
            things = one([])
            things[0].minus_zero[minus] = True
            yield things
        for _ in range(12):
            yield sum([self.some() for _ in range(self.rnd.choice([1, 2]))], [])

    def at_the_most(self):
        """turnovers of fourteen nines, which take a hundred and one movements: a debit, a credit below zero, and one haléř too many"""
        for code, last in ((1, 99), (5, 99), (2, 100)):
            things = self.statement([(code, MOST_AMOUNT)] * 100 + [(code, last)])
            debit, credit = {1: (MOST, 0), 5: (0, -MOST), 2: (0, MOST)}[code]
            things[0].numbers[2:] = [debit - credit, 0, debit, credit]
            for thing in things:
                thing.kept = b" " * 70
            yield things

    # ---- one fault in an example of two statements, five records: heads are 0 and 3

    def example(self):
        return self.statement([(1, 5001), (2, 700)], 100000) + self.statement([(5, 20)], -3)

    def spoilt_sums(self):
        """each of the sums off by one, and all of two at a time; the second statement's too"""
        for head in (0, 3):
            for word in (2, 3, 4, 5):
                for by in (1, -1):
                    things = self.example()
                    things[head].numbers[word] += by
                    yield things
            for first, second in ((3, 4), (3, 5), (4, 5)):
                things = self.example()
                things[head].numbers[first] += 1
                things[head].numbers[second] += 1
                yield things
        for word in (3, 4, 5):  # both statements
            things = self.example()
            things[0].numbers[word] += 1
            things[3].numbers[7 - word if word < 5 else 3] -= 1
            yield things
        for code in (1, 2, 4, 5):  # another code, another amount
            things = self.example()
            things[1].numbers[5] = code
            yield things
            things[1].numbers[4] += 1
            yield things
        yield self.example()[:2] + self.example()[3:]
        yield self.example()[:4]

    def off(self):
        """an example whose first statement is off: by debit, credit or balance"""
        things = self.example()
        things[0].numbers[self.rnd.choice([3, 4, 5])] += 1
        return things

    def spoilt_files(self):
        whole = file_of(self.example())
        first = whole[:3 * RECORD]
        for file, at, kind in ((first, 0, HEAD), (first, RECORD, MOVEMENT), (whole, 3 * RECORD, HEAD)):
            for place, size in FIELDS[kind]:
                for byte in (place, place + size - 1) if size > 1 else (place,):
                    yield put(file, at + byte, bytes([self.rnd.choice(b"/: A\0\xff+")]))
            for byte in (0, 1, 2, 128, 129):
                for new in (b"\r", b"\n", b"0", b"4", b"\xb0")[self.rnd.randrange(2):]:
                    yield put(file, at + byte, new)
            yield put(file, at, b"075" if kind == HEAD else b"074")
            yield put(file, at, self.rnd.choice([b"076", b"073", b"078"]))
        for place in (59, 74, 89, 104):
            for sign in b"+-0 ":
                yield put(first, place, bytes([sign]))
        for code in b"0123456789/:-":
            yield put(first, RECORD + 60, bytes([code]))
        for size in (0, 1, 3, 127, 128, 129, 131, 133, 2 * RECORD - 1, 3 * RECORD, 3 * RECORD + 1, 5 * RECORD - 2, 5 * RECORD - 1):
            yield whole[:size]
        for extra in (b"\n", b"\r\n", b"\0", b"074", whole[:RECORD - 1], whole[RECORD:2 * RECORD]):
            yield whole + extra
        yield whole[RECORD:]
        yield whole.replace(b"\r\n", b"\n")
        # 52 and 53 against the next record's 50 and 51, and against those of the statement's own records
        for fault in ((3 * RECORD, b"076"), (3 * RECORD, b"075"), (3 * RECORD + 128, b"\n\n"), (3 * RECORD + 129, b"\r"), (3 * RECORD + 3, b"x"),
                      (3 * RECORD + 59, b"0"), (3 * RECORD + 90, b" "), (2 * RECORD + 61, b" "), (2 * RECORD, b"076"), (2 * RECORD + 129, b"\0"),
                      (45, b"x"), (104, b"x"), (RECORD + 60, b"3"), (4 * RECORD + 48, b"-"), (4 * RECORD, b"999")):
            yield put(file_of(self.off()), *fault)
        for size in (3 * RECORD, 3 * RECORD + 1, 3 * RECORD + 129, 2 * RECORD, 2 * RECORD - 1, 4 * RECORD):
            yield file_of(self.off())[:size]
        # two faults of one record
        for kind, at in ((HEAD, 0), (MOVEMENT, RECORD)):
            for _ in range(6):
                spoilt = first
                for place, size in self.rnd.sample(FIELDS[kind], 2):
                    spoilt = put(spoilt, at + place + self.rnd.randrange(size), b"x")
                yield spoilt
            yield put(put(first, at + 3, b"x"), at + 128, b"\n")
        # anything
        for _ in range(20):
            spoilt = file_of(self.some() + self.some())
            for _ in range(self.rnd.choice([1, 2])):
                spoilt = put(spoilt, self.rnd.randrange(len(spoilt)), bytes([self.rnd.choice([self.rnd.randrange(256), 48, 49, 45, 43, 13, 10])]))
            yield spoilt
        yield bytes(self.rnd.randrange(256) for _ in range(RECORD))
        yield self.rnd.choice([b"0", b"7"]) * 2 * RECORD

    def spoilt_rows(self):
        whole = rows_of(self.example())

        def word(at, i, value):
            return put(whole[:3 * ROW] if at < 3 else whole, ROW * at + 8 * i, struct.pack("<Q", value % 2 ** 64))
        for at, kind in ((0, HEAD), (1, MOVEMENT)):
            for i, most in enumerate(MOSTS[kind], 1):
                values = [most, most + 1, 2 ** 63, -1] + [2 ** 63 - 1, 2 ** 63 + 1, -most, -most - 1, self.rnd.getrandbits(64)][self.rnd.randrange(3):]
                for value in values:
                    yield word(at, i, value)
            for value in (0, HEAD, MOVEMENT, 76, 73, HEAD + 2 ** 8, MOVEMENT + 2 ** 32, MOVEMENT + 2 ** 63, -1):
                yield word(at, 0, value)
        for code in range(8):
            yield word(1, 6, code)
        yield word(3, 0, 0)
        yield word(3, 0, MOVEMENT)
        for size in (0, 1, 8, ROW - 1, ROW + 1, 2 * ROW, 3 * ROW - 1, 3 * ROW, 3 * ROW + 8, 5 * ROW - 1):
            yield whole[:size]
        for extra in (b"\0", struct.pack("<Q", HEAD), whole[:ROW - 1], whole[ROW:2 * ROW], bytes(ROW)):
            yield whole + extra
        yield whole[ROW:]
        # 52 and 53 against 50 and 51
        for at, i, value in ((3, 0, 0), (3, 0, MOVEMENT), (3, 1, 10 ** 6), (3, 6, 2 ** 63), (2, 5, 10 ** 12), (2, 0, 76), (0, 3, MOST + 1), (1, 6, 3),
                             (4, 7, 10 ** 10), (4, 0, 1)):
            yield put(rows_of(self.off()), ROW * at + 8 * i, struct.pack("<Q", value))
        for size in (3 * ROW, 3 * ROW + 1, 3 * ROW - 1, 4 * ROW):
            yield rows_of(self.off())[:size]
        # anything: words at their limits and over all 64 bits
        for _ in range(25):
            spoilt = rows_of(self.some() + self.some(), self.rnd.choice([b"\0", b"\xff"]))
            for _ in range(self.rnd.choice([1, 2, 3])):
                at = 8 * self.rnd.randrange(8) + ROW * self.rnd.randrange(len(spoilt) // ROW)
                most = self.rnd.choice([10 ** 6, 10 ** 10, 10 ** 12, 10 ** 14, 6])
                value = self.rnd.choice([most, most - 1, -most, 1 - most, self.rnd.getrandbits(64), HEAD, MOVEMENT])
                spoilt = put(spoilt, at, struct.pack("<Q", value % 2 ** 64))
            yield spoilt
        yield bytes(self.rnd.randrange(256) for _ in range(ROW))

    # ---- all of them

    def files(self):
        for things in self.right():
            yield file_of(things)
        for things in self.spoilt_sums():
            yield file_of(things)
        yield from self.spoilt_files()

    def rows(self):
        for things in self.right():
            yield rows_of(things, self.rnd.choice([b"\0", b"\xff", b"7"]))
        for things in self.spoilt_sums():
            yield rows_of(things)
        yield from self.spoilt_rows()

#!/usr/bin/env python3
"""tools/crosscheck.py LIBPEER FOLDER SEED FILES BATCHES

Writes what the second program (LIBPEER) answers as equations: FOLDER/Cases.antt for random files and batches, over the definitions of
crates/paper; FOLDER/FoundCases.antt for what is found in such files, over those of crates/why; FOLDER/StatementCases.antt for statements and
their rows (statement_inputs.py), over those of crates/gpc; FOLDER/RegisterCases.antt for registers of a day's numbers, over those of
crates/register; and FOLDER/RegisteredCases.antt for files that are read against one, over those of crates/against. Prints how many equations
there are. tools/crosscheck.sh has them checked."""
import ctypes
import random
import re
import struct
import sys

import statement_inputs

U64, SIZE, BYTES = ctypes.c_uint64, ctypes.c_size_t, ctypes.c_char_p
ROW = 192


class Header(ctypes.Structure):
    _fields_ = [("date", U64), ("client", U64), ("start", U64), ("end", U64), ("name", ctypes.c_uint8 * 20)]


class Answer(ctypes.Structure):
    _fields_ = [(n, U64) for n in ("number", "line", "byte", "rows", "warnings", "needed")] + [("header", Header)]


class List(ctypes.Structure):
    _fields_ = [(n, U64) for n in ("number", "refused", "count", "needed", "sheets")]


class Finding(ctypes.Structure):
    _fields_ = [(n, U64) for n in ("number", "cause", "line", "byte", "length", "field", "least", "most")]


class StatementAnswer(ctypes.Structure):
    _fields_ = [(n, U64) for n in ("number", "line", "byte", "rows", "needed")]


class RegisterAnswer(ctypes.Structure):
    _fields_ = [("number", U64), ("value", U64)]


class Written(ctypes.Structure):
    _fields_ = [(n, U64) for n in ("number", "row", "field", "bytes")]


def load(path):
    lib = ctypes.CDLL(path)
    lib.peer_read.restype = Answer
    lib.peer_read.argtypes = [BYTES, SIZE, U64, U64, BYTES, SIZE]
    lib.peer_write.restype = Written
    lib.peer_write.argtypes = [BYTES, SIZE, BYTES, SIZE, U64, BYTES, SIZE, U64, U64, U64, U64, U64, BYTES, SIZE]
    lib.peer_findings.restype = List
    lib.peer_findings.argtypes = lib.peer_read.argtypes
    lib.peer_read_registered.restype = Answer
    lib.peer_read_registered.argtypes = [*lib.peer_read.argtypes, BYTES, SIZE]
    for call, given in (("start", [U64, BYTES, SIZE]), ("lowest", [BYTES, SIZE]), ("free", [BYTES, SIZE]), ("give_back", [BYTES, SIZE, U64])):
        function = getattr(lib, "peer_register_" + call)
        function.restype, function.argtypes = RegisterAnswer, given
    lib.peer_statement_read.restype = StatementAnswer
    lib.peer_statement_write.restype = Written
    lib.peer_statement_read.argtypes = lib.peer_statement_write.argtypes = [BYTES, SIZE, BYTES, SIZE]
    return lib


# ---- files: the pieces of which lines are made, the usual one first

HEAD = b"UHL1010118" + b"RYBNIKY".ljust(20) + b"1234567890" + b"001900" + b"000000000000"
BANK = {1: b"8100", 2: b"0800", 3: b"0300", 4: b"6100", 5: b"0300"}
LETTERS = {1: "K", 2: "S", 3: "C", 4: "E", 5: "P"}
LAST_SHEET = max(BANK)
ACCOUNTS = [b"19-19", b"5152046", b"174-1999738514", b"500005-2267100237", b"705", b"000019-0000000019", b"190000000019",
            b"0", b"00", b"000-00", b"9", b"1234567890", b"19-", b"-19", b"1-9-9", b"", b"0" * 17, b"0" * 18, b"2267100237"]
AMOUNTS = [b"5001", b"1", b"0", b"0005001", b"50,01", b",50", b"3500,0", b"9" * 14, b"9" * 12, b"1" + b"0" * 12,
           b"1" + b"0" * 14, b"5001a"]
DATES = [b"020118", b"20180102", b"311218", b"010119", b"020119", b"311217", b"290218", b"20191231", b"320118", b"0201180",
         b"20180132", b"200102"]
BANKS = [b"03000558", b"0781000558", b"0181000558", b"00000558", b"1081000558", b"981000558", b"0281000558", b"0300055",
         b"03000558x", b"00003000558"]
# on C and P collections are judged one by one: for a today, days at and beside the ends of those that they may be due on
COLLECTS = (3, 5)
TERMS = {20180101: [20180102, 20180101, 20180201, 20180202, 20171231], 20180131: [20180228, 20180301, 20180131],
         20240131: [20240229, 20240301], 20180228: [20180328, 20180329, 20180331], 20180331: [20180430, 20180501],
         20181231: [20190131, 20190201, 20181231], 20991231: [20991231, 20991230]}
TERM_BANKS = [300, 800]
SYMBOLS = [b"42", b"0042", b"0", b"12345678901", b"", b"x"]
TAILS = [b"", b" 17", b" 17 AV:led", b" AV:led", b" 17 led", b" ", b" 17 ", b" 12345678901", b"  led", b" 0  ", b"  a|b",
         b" 17 AV:a|b|c|d", b" 17 AV:a|b|c|d|e", b" 1 AV:" + b"x" * 36, b" 1 AV: NP:Jan", b" 1 NP:Jan",
         b" 1 AV:a|b NP:Jan NP:K", b"  ", b" 5 " + b"z" * 35, b"  " + b"z" * 36, b" 1 AV:||||", b" 1 AV:|||", b" 1 AV:\x01",
         b" 1  AV:x", b" 1 AV:" + b"y" * 36 + b" NP:" + b"n" * 36, b" 1 AV:a#", b" 1 AV:a|~", b" 1 AV:a NP:b"]
USUAL_TAILS = {1: [b"", b" 17 AV:led"], 2: [b"  ", b" 17 led"], 3: [b"", b" led"], 4: [b"", b" 17 AV:led"],
               5: [b"", b" 17 AV:led", b" 17 AV:a NP:b"]}
NO_PAYER = {1: [b"", b"0 "], 2: [b" "], 3: [b""], 4: [b" ", b"00-0 "], 5: [b""]}
ENDS = [b"\n", b"\r\n", b"\r"]


def short(day):
    return b"%02d%02d%02d" % (day % 100, day // 100 % 100, day // 10000 % 100)


def draw_term(rnd, sheet):
    """today, and days of collections for it; mostly none of these"""
    if sheet not in COLLECTS or rnd.random() < 0.6:
        return 20180101, []
    today = rnd.choice(list(TERMS))
    return today, TERMS[today]


class Files:
    def __init__(self, rnd):
        self.rnd = rnd

    def one(self, pieces, usual=1):
        """one of the usual pieces, seldom another"""
        return self.rnd.choice(pieces[:usual] if self.rnd.random() < self.good else pieces)

    def item(self, sheet, single, term):
        payer = self.one(ACCOUNTS) + b" " if single else b""
        bank = self.one([b"%04d0558" % n for n in TERM_BANKS] + BANKS, len(TERM_BANKS)) if term else self.one(BANKS)
        tail = self.rnd.choice(USUAL_TAILS[sheet]) if self.rnd.random() < self.good else self.rnd.choice(TAILS)
        return payer + b" ".join([self.one(ACCOUNTS, 5), self.one(AMOUNTS), self.one(SYMBOLS), bank]) + tail

    def group(self, sheet, term):
        single = self.rnd.random() < 0.4
        count = self.rnd.choice([1, 1, 2])
        payer = self.rnd.choice(NO_PAYER[sheet]) if single else self.one(ACCOUNTS) + b" "
        total = self.one([b"%d" % (5001 * count)] + AMOUNTS)
        date = self.one([short(day) for day in term] + DATES, len(term)) if term else self.one(DATES)
        lines = [b"2 " + payer + total + b" " + date]
        lines += [self.item(sheet, single, term) for _ in range(count)]
        return lines + [self.one([b"3 +", b"3+", b"3 ", b"3 x", b"3+x", b"3 + ", b"3", b""])]

    def first(self):
        chance = self.rnd.random()
        if chance < 0.1:
            return HEAD[:self.rnd.choice([46, 52, 57, 40, 30, 4, 12])]
        if chance < 0.15:
            at = self.rnd.randrange(len(HEAD))
            return HEAD[:at] + self.rnd.choice([b"0", b"9", b" ", b"\x01", b"A"]) + HEAD[at + 1:]
        return HEAD

    def file(self, sheet, term):
        """with a term, of collections due on one of its days"""
        self.good = self.rnd.choice([1.0, 0.97, 0.9, 0.8])
        lines = [self.first()]
        for i in range(self.rnd.choice([1, 1, 1, 2])):
            kind = self.one([b"1502" if term else b"1501", b"1502", b"1501", b"1505"])
            number = self.one([b"%03d000" % (i + 1), b"001000", b"950000", b"000000", b"00100", b"001500"])
            lines.append(b" ".join([b"1", kind, number, self.one([BANK[sheet], b"0300", b"08100", b"abcd"])]))
            for _ in range(self.rnd.choice([1, 1, 2])):
                lines += self.group(sheet, term)
            lines.append(self.one([b"5 +", b"5+", b"5 ", b"5x", b"5 ++"]))
        if self.rnd.random() < 0.05:
            lines.pop(self.rnd.randrange(len(lines)))
        if self.rnd.random() < 0.05:
            lines.insert(self.rnd.randrange(len(lines) + 1), self.rnd.choice([b"", b"3 +", b"x", b"2 5001 020118"]))
        end = self.rnd.choice(ENDS)
        text = b"".join(s + (end if self.rnd.random() < 0.95 else self.rnd.choice(ENDS)) for s in lines)
        if self.rnd.random() < 0.2:
            text = text.rstrip(b"\r\n")
        if text and self.rnd.random() < 0.15:
            at = self.rnd.randrange(len(text))
            text = text[:at] + bytes([self.rnd.choice([32, 48, 13, 10, 124, 1, 200, 43])]) + text[at + 1:]
        return text


# ---- batches: rows of words, the usual value first

TEXTS = b"led ryby NP:Jan|x" + b"abcdefghijklmnopqrstuvwxyzABCDEFGHIJKLMN" + b"\x01 NP: zz" + b"a#b~"
LAST = 2 ** 64 - 1
GOOD_ACCOUNTS = [(19, 19), (0, 705), (174, 1999738514), (500005, 2267100237)]
BAD_ACCOUNTS = [(0, 0), (19, 19), (1, 19), (19, 9), (10 ** 6, 19), (19, 10 ** 10), (LAST, LAST)]
SPANS = [(0, 0), (0, 3), (4, 12), (8, 7), (8, 9), (17, 35), (17, 36), (17, 0), (len(TEXTS), 0), (len(TEXTS) + 1, 0),
         (len(TEXTS) - 2, 3), (LAST, 2), (2 ** 63, 2 ** 63), (57, 1), (58, 4), (3, 1),
         (65, 1), (65, 2), (67, 2)]


class Batches:
    def __init__(self, rnd):
        self.rnd = rnd

    def one(self, values):
        return values[0] if self.rnd.random() < self.good else self.rnd.choice(values)

    def account(self, missing):
        if self.rnd.random() < self.good:
            return (0, 0) if missing else self.rnd.choice(GOOD_ACCOUNTS)
        return self.rnd.choice(BAD_ACCOUNTS)

    def span(self, usual):
        return self.rnd.choice(usual) if self.rnd.random() < self.good else self.rnd.choice(SPANS)

    def row(self, *words):
        """words that a row does not use may be anything"""
        return struct.pack("<24Q", *(list(words) + [self.rnd.choice([0, LAST])] * (24 - len(words))))

    def item(self, sheet, single, term):
        bank = self.rnd.choice(TERM_BANKS) if term else 300
        words = [self.one([3, 1, 2, 4]), *self.account(not single), *self.account(False), self.one([bank, 0, 1, 9999, 10000]),
                 self.one([5001, 0, 10 ** 12 - 1, 10 ** 12, 10 ** 14 - 1, 10 ** 14, LAST]), self.one([42, 10 ** 10, 0]),
                 self.one([17, 0, 10 ** 10, 5]), self.one([558, 10 ** 4, 9999]), self.one([5, 2, 3, 9, 10, 7])]
        for part in range(4):
            words += self.span([(0, 0), (0, 3), (4, 4)] if part == 0 else [(0, 0)])
        words += self.span([(0, 0), (0, 3)] if sheet == 3 else [(0, 0)])
        reference = self.rnd.choice([0, 5, 2 ** 32 - 1] * 8 + [2 ** 32, LAST])
        return self.row(*words, reference)

    def rows(self, sheet, term):
        self.good = self.rnd.choice([1.0, 0.99, 0.97, 0.9])
        rows = b""
        for i in range(self.rnd.choice([1, 1, 2])):
            rows += self.row(self.one([1, 0, 2, 3, 7]), self.one([1502 if term else 1501, 1502, 1504, 1505, 1500]),
                             self.one([1000 * (i + 1), 0, 999999, 1000000, 1999]))
            for _ in range(self.rnd.choice([1, 1, 2])):
                payer = self.account(self.rnd.random() < 0.4)
                due = self.rnd.choice(term) if term else 20180102
                date = self.one([due, 20180101, 20181231, 20190101, 20190102, 20171231, 20180229, 0])
                rows += self.row(self.one([2, 1, 3]), date, *payer)
                for _ in range(self.rnd.choice([1, 1, 2]) if self.rnd.random() < self.good else 0):
                    rows += self.item(sheet, payer == (0, 0), term)
        if self.rnd.random() < 0.05:
            rows = rows[:-self.rnd.randrange(1, 300)]
        return rows if self.rnd.random() < 0.97 else b""

    def header(self):
        return (self.one([20180101, 0, 20180230, 20991231]),
                self.one([b"FIRMA".ljust(20), b"JAN", b"\x7f" * 20, b""]),
                self.one([1234567890, 10 ** 10, 0]), self.one([0, 5, 999, 1000]), self.one([999, 0, 1000, 4]))


# ---- equations

def listed(data):
    return "".join("%d ∷ " % b for b in data) + "[]"


def quoted(data):
    """bytes as a definition has them: in quotes where they are plain letters"""
    if any(b > 126 or (b < 32 and b not in (10, 13)) for b in data):
        return listed(data)
    text = data.decode("ascii").replace("\\", "\\\\").replace('"', '\\"').replace("\n", "\\n").replace("\r", "\\r")
    return 'bytes "%s"' % text


def header_of(date, name, client, start, end):
    return "record { date = %d; name = %s; client = %d; from = %d; to = %d }" % (date, listed(name), client, start, end)


def answer_of(a):
    h = a.header
    return ("record { number = %d; line = %d; byte = %d; rows = %d; warnings = %d; needed = %d; header = %s }"
            % (a.number, a.line, a.byte, a.rows, a.warnings, a.needed, header_of(h.date, bytes(h.name), h.client, h.start, h.end)))


def file_cases(lib, rnd, count):
    make = Files(rnd)
    for _ in range(count):
        sheet = rnd.randrange(1, LAST_SHEET + 1) if rnd.random() < 0.97 else rnd.choice([0, LAST_SHEET + 1, 2 ** 63])
        day, term = draw_term(rnd, sheet)
        text = make.file(sheet if sheet in BANK else 3, term)
        today = day if rnd.random() < 0.97 else rnd.choice([20171231, 20180230, 0])
        room = rnd.choice([40, 40, 40, 3])
        lent = ctypes.create_string_buffer(ROW * room)
        a = lib.peer_read(text, len(text), sheet, today, lent, ROW * room)
        asked = "%d %d (%s)" % (sheet, today, quoted(text))
        yield "read_answer %s (blanks %d) ≡ %s" % (asked, ROW * room, answer_of(a))
        if a.number == 0:
            kept = min(ROW * a.rows + 3, ROW * room)
            yield "rows_after %s (blanks %d) ≡ (%s)" % (asked, kept, listed(lent.raw[:kept]))


MOST_FOUND = 64


def found_cases(lib, rnd, count):
    """the finding of a refused file, or the warnings of an accepted one; an accepted file in two, so that there are some"""
    make = Files(rnd)
    for i in range(count):
        sheet = rnd.randrange(1, LAST_SHEET + 1)
        today, term = draw_term(rnd, sheet)
        lent = ctypes.create_string_buffer(ctypes.sizeof(Finding) * MOST_FOUND)
        while True:
            text = make.file(sheet, term)
            a = lib.peer_findings(text, len(text), sheet, today, lent, len(lent.raw))
            if a.number == 0 and (a.refused == 1) == (i % 2 == 0):
                break
        found = [numbers(Finding.from_buffer(lent, ctypes.sizeof(Finding) * k)) for k in range(a.count)]
        asked = "sheet_%s %d (%s)" % (LETTERS[sheet].lower(), today, quoted(text))
        if a.refused == 1:
            yield "found_in %s ≡ %s" % (asked, found[0])
        else:
            yield "warned_in %s ≡ %s" % (asked, "".join("(%s) ∷ " % x for x in found) + "[]")


def batch_cases(lib, rnd, count):
    make = Batches(rnd)
    for _ in range(count):
        sheet = rnd.randrange(1, LAST_SHEET + 1) if rnd.random() < 0.97 else rnd.choice([0, LAST_SHEET + 1])
        day, term = draw_term(rnd, sheet)
        rows = make.rows(sheet, term)
        h = make.header()
        today = day if rnd.random() < 0.97 else rnd.choice([20180230, 0])
        room = rnd.choice([4096, 4096, 4096, 10, 0])
        out = ctypes.create_string_buffer(room)
        a = lib.peer_write(rows, len(rows), TEXTS, len(TEXTS), h[0], h[1], len(h[1]), h[2], h[3], h[4], sheet, today, out, room)
        asked = "(draft %d %d (%s) (%s) (%s))" % (sheet, today, header_of(*h), listed(rows), listed(TEXTS))
        yield "written_in %d %s ≡ record { number = %d; row = %d; field = %d; bytes = %d }" % (
            room, asked, a.number, a.row, a.field, a.bytes)
        if a.number == 0:
            yield "%s ≡ drafted (%s)" % (asked, quoted(out.raw[:a.bytes]))


# ---- equations of statements

OLD = b"U"  # what is lent to be filled is full of these
KEPT = {74: slice(64, 113), 75: slice(64, 134)}


def lend(call, data, room):
    """the answer for `data`, and what the call left of `room` bytes"""
    lent = ctypes.create_string_buffer(OLD * room, room)
    return call(data, len(data), lent, room), lent.raw


def lent_bytes(room):
    return "(%s)" % quoted(OLD * room)


def numbers(answer):
    return "record { %s }" % "; ".join("%s = %d" % (name, getattr(answer, name)) for name, _ in answer._fields_)


def reading(lib, text, room):
    """the answer, what is left of the lent bytes, and the equation of the answer"""
    a, lent = lend(lib.peer_statement_read, text, room)
    return a, lent, "statement_answer (%s) %s ≡ %s" % (quoted(text), lent_bytes(room), numbers(a))


def writing(lib, rows, room):
    a, lent = lend(lib.peer_statement_write, rows, room)
    return a, lent, "written_in %d (statement_draft (%s)) ≡ %s" % (room, quoted(rows), numbers(a))


def rooms(lib, rnd, case, data, plenty):
    """plenty of room, one byte too few, and sometimes none; for what is refused in any, one of some sizes"""
    if case(lib, data, plenty)[0].number != 0:
        return [rnd.choice([0, 3, 200])]
    return [plenty + 3, plenty - 1, 0][:rnd.choice([2, 2, 3])]


def statement_file_cases(lib, rnd, text):
    """what is lent is looked at where it may change, and now and then where it may not"""
    plenty = statement_inputs.ROW * (len(text) // statement_inputs.RECORD)
    for room in rooms(lib, rnd, reading, text, plenty):
        a, lent, equation = reading(lib, text, room)
        yield equation
        if a.number == 0 or rnd.random() < 0.1:
            yield "statement_rows (%s) %s ≡ (%s)" % (quoted(text), lent_bytes(room), quoted(lent))
        if a.number == 0 and rnd.random() < 0.4:
            rows = [lent[i:i + statement_inputs.ROW] for i in range(0, plenty, statement_inputs.ROW)]
            yield "plain (%s) ≡ (%s)" % (quoted(text), quoted(writing(lib, lent[:plenty], len(text))[1]))
            yield "kept (%s) ≡ %s" % (quoted(text), "".join("(%s) ∷ " % quoted(r[KEPT[r[0]]]) for r in rows) + "[]")


def statement_rows_cases(lib, rnd, rows):
    """writing, in the same way"""
    plenty = statement_inputs.RECORD * (len(rows) // statement_inputs.ROW)
    for room in rooms(lib, rnd, writing, rows, plenty):
        a, lent, equation = writing(lib, rows, room)
        yield equation
        if a.number == 0 or rnd.random() < 0.1:
            yield "output_after %s (statement_draft (%s)) ≡ (%s)" % (lent_bytes(room), quoted(rows), quoted(lent))


def statement_cases(lib, rnd):
    make = statement_inputs.Inputs(rnd)
    for text in make.files():
        yield from statement_file_cases(lib, rnd, text)
    for rows in make.rows():
        yield from statement_rows_cases(lib, rnd, rows)
    # these are long, and so have no room: 16 says that the sums agree
    debit, credit, over = make.at_the_most()
    for things in (debit, over):
        yield reading(lib, statement_inputs.file_of(things), 0)[2]
    yield writing(lib, statement_inputs.rows_of(credit), 0)[2]


# ---- equations of registers

def register(date, marked, behind=b""):
    """17 words: the date, and a bit for each number"""
    return struct.pack("<17Q", date, *(sum(1 << n % 64 for n in marked if n // 64 == i) for i in range(16))) + behind


def draw_register(rnd):
    """mostly for the files' date, with none, one or all of the numbers marked; at times no register"""
    marked = set(rnd.choice([[], [], [1], [2], [950], range(1000), range(1000)])) ^ set(rnd.sample(range(1000), rnd.choice([0, 0, 3])))
    lent = register(rnd.choice([20180101] * 8 + [20180102]), marked, rnd.choice([b"", b"", OLD * 3]))
    spoilt = [lent[:rnd.choice([0, 8, 135])], register(20180101, marked | {rnd.choice([1000, 1023])}),
              register(rnd.choice([0, 20180230, 2 ** 63 + 20180101]), marked)]
    return lent if rnd.random() < 0.75 else rnd.choice(spoilt)


def changed(call, lent, *arguments):
    """the answer of a call that changes a register, and what it left"""
    copy = ctypes.create_string_buffer(lent, len(lent))
    return call(copy, *arguments), copy.raw


def register_cases(lib, rnd, count):
    for _ in range(count):
        lent = draw_register(rnd)
        size, said = len(lent), "(%s)" % listed(lent)
        yield "lowest_answer %s ≡ %s" % (said, numbers(lib.peer_register_lowest(lent, size)))
        yield "free_answer %s ≡ %s" % (said, numbers(lib.peer_register_free(lent, size)))
        given = rnd.choice([1, 2, 5, 950, 999, 1000, 1023, 2 ** 63])
        a, left = changed(lambda r: lib.peer_register_give_back(r, size, given), lent)
        yield "give_answer %s %d ≡ %s" % (said, given, numbers(a))
        yield "give_after %s %d ≡ (%s)" % (said, given, listed(left))
        date = rnd.choice([20180102, 20240229, 20991231, 20180229, 0, 2 ** 63])
        a, left = changed(lambda r: lib.peer_register_start(date, r, size), lent)
        yield "start_answer %d %s ≡ %s" % (date, said, numbers(a))
        yield "start_after %d %s ≡ (%s)" % (date, said, listed(left))


def registered_cases(lib, rnd, count):
    """files of K for the most part, since no other sheet looks at the register"""
    make = Files(rnd)
    for _ in range(count):
        sheet = 1 if rnd.random() < 0.8 else rnd.randrange(0, LAST_SHEET + 2)
        text = make.file(sheet if sheet in BANK else 1, [])
        today = 20180101 if rnd.random() < 0.97 else 20180230
        room = rnd.choice([40, 40, 40, 3])
        rows, before = ctypes.create_string_buffer(ROW * room), draw_register(rnd)
        a, left = changed(lambda r: lib.peer_read_registered(text, len(text), sheet, today, rows, ROW * room, r, len(before)), before)
        asked, said = "%d %d (%s)" % (sheet, today, quoted(text)), "(%s)" % listed(before)
        yield "registered_answer %s (blanks %d) %s ≡ %s" % (asked, ROW * room, said, answer_of(a))
        yield "register_after %s (blanks %d) %s ≡ (%s)" % (asked, ROW * room, said, listed(left))
        if a.number == 0:
            kept = min(ROW * a.rows + 3, ROW * room)
            yield "registered_rows %s (blanks %d) %s ≡ (%s)" % (asked, kept, said, listed(rows.raw[:kept]))


# ---- modules

BASE = [("Rattle.base.specs." + m, "crates/base/specs/%s.antt" % m) for m in ("Pick", "Seek", "Put")]
SHEET = [("Rattle.sheet.specs.Sheets", "crates/sheet/specs/Sheets.antt")]
REGISTER = [("Rattle.fileline.specs.seen.Bits", "crates/fileline/specs/seen/Bits.antt")]
REGISTER += [("Rattle.register.specs." + m, "crates/register/specs/%s.antt" % m) for m in ("Marks", "Register")]
AGAINST = [("Rattle.against.specs." + m, "crates/against/specs/%s.antt" % m) for m in ("Against", "Registered")]


def specs(crate):
    found = re.findall(r"^pub mod (\w+)", open("crates/%s/specs/Lib.antt" % crate).read(), re.M)
    return [("Rattle.%s.specs.%s" % (crate, m), "crates/%s/specs/%s.antt" % (crate, m)) for m in found]


def below(crate, paths):
    """of these modules, those that the definitions of a crate name"""
    said = "".join(open(path).read() for _, path in specs(crate))
    return [(module, path) for module, path in paths if "use %s." % module in said]


def definitions(paths, both):
    """the modules to import, and every definition that the prover has to see through; of two with one name, the first is brought in, or both, the
    second by its module's name too"""
    uses, names = [], []
    for module, path in paths:
        found = re.findall(r"^\s*unfoldable pub (\S+) :", open(path).read(), re.M)
        again = [n for n in found if n in names and both]
        found = [n for n in found if n not in names]
        brought = found + ["%s as %s-%s" % (n, n, module.split(".")[-1]) for n in again]
        if brought:
            uses.append("use %s.{%s}" % (module, ", ".join(brought)))
        names += found + [b.split()[-1] for b in brought[len(found):]]
    return uses, names


def write_module(path, paths, also, cases, both=False):
    uses, names = definitions(paths, both)
    with open(path, "w") as f:
        f.write("use Prim.Native.Nat.{ℕ, suc}\nuse mathlib.Core.List.{List, [], ◌∷◌}\nuse mathlib.Core.Path.{◌≡◌, refl}\n")
        f.write("use Rattle.paper.specs.Bytes.{bytes}\n" + also + "\n".join(uses) + "\n")
        for i, case in enumerate(cases):
            f.write("\ncase%d : %s\nunfolding %s\ncase%d = refl\n" % (i, case, " ".join(names), i))


def main():
    lib, folder = load(sys.argv[1]), sys.argv[2]
    rnd = random.Random(int(sys.argv[3]))
    cases = list(file_cases(lib, rnd, int(sys.argv[4]))) + list(batch_cases(lib, rnd, int(sys.argv[5])))
    of_statements = list(statement_cases(lib, rnd))
    found = list(found_cases(lib, rnd, int(sys.argv[4]) // 2))
    registers, registered = list(register_cases(lib, rnd, 16)), list(registered_cases(lib, rnd, int(sys.argv[4]) // 4))
    with open(folder + "/Lib.antt", "w") as f:
        f.write("pub mod Cases\npub mod FoundCases\npub mod StatementCases\npub mod RegisterCases\npub mod RegisteredCases\n")
    write_module(folder + "/Cases.antt", BASE + SHEET + specs("paper"), "use Rattle.paper.specs.Writing.{drafted}\n", cases)
    write_module(folder + "/FoundCases.antt", BASE + SHEET + specs("paper") + specs("why"),
                 "use Rattle.sheet.specs.Sheets.{%s}\n" % ", ".join("sheet_" + c.lower() for c in LETTERS.values()), found)
    write_module(folder + "/StatementCases.antt", BASE + specs("gpc") + below("gpc", specs("paper")), "", of_statements)
    write_module(folder + "/RegisterCases.antt", BASE + below("register", specs("paper")) + REGISTER, "", registers, both=True)
    write_module(folder + "/RegisteredCases.antt", BASE + SHEET + specs("paper") + REGISTER + AGAINST, "", registered, both=True)
    print(len(cases) + len(found) + len(of_statements) + len(registers) + len(registered))


main()

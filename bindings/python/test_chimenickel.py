"""python3 -m unittest test_chimenickel, after bin/build-lib."""

import copy
import ctypes
import decimal
import fractions
import math
import os
import pathlib
import pickle
import re
import subprocess
import sys
import tempfile
import unittest
from array import array
from unittest import mock

try:
    import numpy
except ImportError:
    numpy = None
try:
    import pandas
except ImportError:
    pandas = None

import chimenickel
from chimenickel import (
    Bench,
    Campaign,
    Case,
    Channel,
    Record,
    Refusal,
    PeakPass,
    PeakSurvey,
    Standing,
    Sum,
    counted_times,
    envelope_peaks,
    first_crossing,
    extrapolate,
    fit_tail,
    from_degrees,
    judge_condition,
    lower_row,
    read_comma,
    read_records,
    upper_row,
    write_comma,
    write_report,
    write_sheet,
)

HERE = pathlib.Path(__file__).resolve().parent
ITEMS = (500, 0, 40_000, 2_000, 9_810)
ROLL = [0, 41_000, 39_000, 41_000, 39_000, 41_000, 0]
# above its level where the roll is, and where it has just been
ACCELERATION = [0, 0, 0, -9_811, 9_811, 0, 9_811]


# What test_threads runs, in processes of their own since a read out of bounds may end one.
MODULE = """
import pathlib, sys, threading, types
from array import array

path = pathlib.Path("chimenickel/__init__.py").resolve()
code = compile(path.read_text(), str(path), "exec")

def made():
    module = types.ModuleType("chimenickel")
    module.__file__ = code.co_filename
    exec(code, vars(module))
    return module
"""

# A record of 3 samples is fed up to its j-th line of the module, then one of 10,000 up to its k-th; then the first goes
# on to its end, and then the second: all j and k, each time in a module just made.
SCHEDULES = MODULE + """

failed = []

class Fed(threading.Thread):
    def __init__(self, module, n, lines):
        super().__init__()
        self.file, self.lines, self.n = module.__file__, lines, n
        self.record, self.quiet = module.Record(1, 0, 1, 0, 1), array("i", bytes(4 * n))
        self.stopped, self.onward = threading.Event(), threading.Event()
        self.start()
        self.stopped.wait()

    def trace(self, frame, event, _):
        if frame.f_code.co_filename != self.file:
            return None
        if event == "line":
            self.lines -= 1
            if self.lines == 0:
                self.stopped.set()
                self.onward.wait()
        return self.trace

    def run(self):
        sys.settrace(self.trace)
        try:
            self.record.feed(self.quiet)
        except Exception as error:
            failed.append(str(error))
        sys.settrace(None)
        if (self.record.samples, self.record.crossings) != (self.n, 0):
            failed.append(self.record.numbers)
        self.stopped.set()

    def end(self):
        self.onward.set()
        self.join()
        return self.lines > 0

def schedule(j, k):
    module = made()
    short = Fed(module, 3, j)
    long = Fed(module, 10_000, k)
    return short.end(), long.end()

j, done = 0, False
while not done:
    j, k, ended = j + 1, 0, False
    while not ended:
        k += 1
        done, ended = schedule(j, k)
print(j, k)
sys.exit(str(failed) if failed else 0)
"""

# The same by chance: six threads at a module just made, which are switched as often as can be.
THREADS = MODULE + """
sys.setswitchinterval(1e-6)
failed = []

def feed(module, n, start):
    record = module.Record(1, 0, 1, 0, 1)
    quiet = array("i", bytes(4 * n))
    start.wait()
    try:
        record.feed(*((quiet,) if n % 2 else (None, quiet)))
    except Exception as error:
        failed.append((n, error))
    if (record.samples, record.crossings) != (n, 0):
        failed.append((n, record.numbers))

for _ in range(25):
    module = made()
    lengths = (1_000_001, 3, 1_000_000, 10, 300_001, 2)
    start = threading.Barrier(len(lengths))
    threads = [threading.Thread(target=feed, args=(module, n, start)) for n in lengths]
    for thread in threads:
        thread.start()
    for thread in threads:
        thread.join()
sys.exit(str(failed) if failed else 0)
"""


def fed(roll, acceleration=None):
    record = Record(*ITEMS)
    record.feed(roll, acceleration)
    return record


class Records(unittest.TestCase):
    def refused(self, number, carried, call, *arguments):
        with self.assertRaises(Refusal) as caught:
            call(*arguments)
        self.assertEqual((caught.exception.number, caught.exception.carried), (number, carried))
        return caught.exception

    def test_every_cut_leads_to_the_whole(self):
        whole = fed(array("i", ROLL))
        self.assertEqual((whole.samples, whole.crossings, whole.counted, whole.largest_set, whole.first),
            (7, 3, 1, 2, 1))
        self.assertEqual((whole.end().counted, whole.end().largest_set), (1, 2))
        for cut in range(len(ROLL) + 1):
            record = fed(ROLL[:cut])
            record.feed(ROLL[cut:])
            self.assertEqual(record.numbers, whole.numbers)

    def test_both_channels(self):
        whole = fed(ROLL, array("i", ACCELERATION))
        self.assertEqual((whole.samples, whole.crossings, whole.counted, whole.largest_set, whole.first),
            (7, 2, 1, 1, 1))
        for cut in range(len(ROLL) + 1):
            record = fed(ROLL[:cut], ACCELERATION[:cut])
            record.feed(ROLL[cut:], ACCELERATION[cut:])
            self.assertEqual(record.numbers, whole.numbers)

    def test_either_channel_alone(self):
        self.assertEqual(fed(ROLL, [0] * 7).numbers, fed(ROLL).numbers)
        record = Record(500, 0, 1, 2_000, 40_000)
        record.feed(None, [-x for x in ROLL[:4]])
        record.feed(None, [-x for x in ROLL[4:]])
        self.assertEqual(record.end(), fed(ROLL).end())
        self.assertRaises(TypeError, record.feed, None)

    def test_a_refusal_leaves_the_record(self):
        record = fed(ROLL)
        before = record.numbers
        self.assertEqual(self.refused(2, 2, record.feed, [0, 0, 1_000_001]).channel, Channel.ROLL)
        self.assertEqual(self.refused(2, 1, record.feed, [0, 0, 1_000_001], [0, -1_000_001, 0]).channel,
            Channel.ACCELERATION)
        self.assertEqual(self.refused(2, 1, record.feed, [0, -1_000_001], [0, -1_000_001]).channel, Channel.ROLL)
        self.assertIsNone(self.refused(12, 0, record.feed, [0, 1_000_001], [0]).channel)
        self.assertRaises(OverflowError, record.feed, [1 << 31])
        self.assertRaises(OverflowError, record.feed, [0], [-(1 << 31) - 1])
        self.assertEqual(record.numbers, before)

    def test_items(self):
        self.refused(1, 3, Record, 500, 0, 0, 1 << 63, 0)
        self.refused(1, 6, Record, 500, 0, 1, 0, 1_000_001)
        self.refused(1, 5, Campaign, 0)
        self.assertRaises(OverflowError, Record, -1, 0, 1, 0, 1)

    def test_times(self):
        self.assertEqual((counted_times(*ITEMS, ROLL), counted_times(500, 0, 40_000, 0, 9_810, ROLL)),
            ([500], [500, 1_500, 2_500]))
        self.assertEqual(counted_times(500, 0, 40_000, 0, 9_810, ROLL, ACCELERATION), [500, 1_500])
        self.assertEqual(counted_times(*ITEMS, [0, 0]), [])
        self.refused(4, 0, counted_times, *ITEMS, ROLL[:1])
        self.refused(12, 0, counted_times, *ITEMS, ROLL, ACCELERATION[:6])
        self.assertEqual(self.refused(2, 0, counted_times, *ITEMS, [0, 1_000_001], [1_000_001, 0]).channel,
            Channel.ACCELERATION)
        self.assertEqual([first_crossing(ROLL, None, 0, level, 9_810) for level in (40_000, 41_000)], [1, None])
        self.assertEqual([first_crossing(ROLL, ACCELERATION[:n], 0, 41_000, 9_810) for n in (7, 4, 3, 0)],
            [3, 3, None, None])
        self.assertEqual((first_crossing([], None, 0, 1, 1), first_crossing(None, ACCELERATION, 0, 1, 9_810)),
            (None, 3))

    def test_sheets(self):
        records = [1_800_000, -933_980, 10_000_000, -1, 1]
        sheet = write_sheet(7_200_000, records)
        self.assertEqual(sheet, b"standard\t7200000\n1\t0\t1800000\n2\t1\t933980\n3\t0\t10000000\n4\t1\t1\n5\t0\t1\n")
        self.assertEqual(read_records(sheet), (7_200_000, records))
        self.assertEqual((write_sheet(1, []), read_records(b"standard\t1\n")), (b"standard\t1\n", (1, [])))
        self.refused(1, 5, write_sheet, 0, [0])
        self.refused(4, 0, write_sheet, 1, [1, 0, -(1 << 31)])
        self.refused(3, 0, write_sheet, 1, [1, -(1 << 31), 0])
        self.refused(5, 0, write_sheet, 1, [1] * 100_001)
        self.refused(6, 0, write_sheet, 1, [-1] * 65)
        full = [10_000_000] * 100_000
        self.assertEqual(read_records(write_sheet(100_000_000_000, full)), (100_000_000_000, full))
        with self.assertRaises(Refusal) as raised:
            read_records(b"standard\t1\n1\t0\tx\n")
        self.assertEqual((raised.exception.number, raised.exception.line, raised.exception.column), (9, 2, 5))

    def test_comma_files(self):
        samples = [0, -500, 41_500, 1_000_000, -1_000_000, 7]
        text = write_comma(samples, 50)
        self.assertEqual(text, b"0,0.000\n50,-0.500\n100,41.500\n150,1000.000\n200,-1000.000\n250,0.007\n")
        self.assertEqual(list(read_comma(text, 50)), samples)
        self.assertEqual((list(read_comma(b"", 50)), write_comma([], 50)), ([], b""))
        self.refused(1, 1, read_comma, b"0,-0\n", 0)
        self.refused(10, 2, read_comma, b"0,2000\n50,1.", 50)
        self.assertIsNone(self.refused(2, 1, read_comma, b"0,0\n50,1000.001\n", 50).channel)
        self.refused(2, 1, write_comma, [0, 1_000_001], 50)
        record = Record(*ITEMS)
        record.feed(read_comma(b"0,0\n500,41\n1000,39\n1500,41\n2000,39\n2500,41\n3000,0\n", 500))
        self.assertEqual(record.numbers, fed(ROLL).numbers)

    def test_degrees(self):
        self.assertEqual(list(from_degrees([0, -41.5, 0.0005, 0.0015])), [0, -41_500, 0, 2])
        for strange in (float("nan"), float("inf"), 1e9):
            self.assertRaises(OverflowError, from_degrees, [strange])
        for strange in map(decimal.Decimal, ("sNaN", "NaN", "-Infinity", "1E+999999", "-1E+999999999")):
            self.assertRaises(OverflowError, from_degrees, [strange])
        small = map(decimal.Decimal, ("1E-999999999", "-1E-21", "0E+999999999", "0E-99", "1E-4", "5.1E-4"))
        self.assertEqual(list(from_degrees(small)), [0, 0, 0, 0, 0, 1])
        with decimal.localcontext() as context:
            context.prec = 3
            self.assertEqual(list(from_degrees(map(decimal.Decimal, ("41.567", "-0.0005", "0.0015")))), [41_567, 0, 2])

    @unittest.skipUnless(numpy, "numpy is not there")
    def test_degrees_of_numpy(self):
        roll = numpy.array([0, 41, 39, 41, 39, 41, 0], dtype=numpy.float32)
        self.assertEqual(fed(from_degrees(roll)).numbers, fed(ROLL).numbers)
        degrees = numpy.linspace(-1000, 1000, 100_001)
        self.assertEqual(from_degrees(degrees).tolist(), from_degrees(degrees.tolist()).tolist())
        self.assertEqual(from_degrees(degrees).dtype, numpy.int32)
        self.assertEqual(len(from_degrees(degrees[:0])), 0)
        for form in ("f2", "f4", "g", ">f8", "i2", "u8"):
            self.assertEqual(from_degrees(numpy.array([0, 41, 7], dtype=form)).tolist(), [0, 41_000, 7_000])
        self.assertEqual(numpy.loadtxt([line.decode() for line in write_comma(from_degrees(degrees), 50).splitlines()],
            delimiter=",")[:, 1].tolist(), [x / 1000 for x in from_degrees(degrees)])
        for strange in (numpy.nan, numpy.inf, 1e9):
            self.assertRaises(OverflowError, from_degrees, numpy.array([strange]))

    def test_the_marked_verdicts(self):
        campaign = Campaign(7_200_000)
        self.assertEqual((campaign.verdict().case, campaign.rates(), campaign.censored()), (Case.NO_RECORD, None, 0))
        campaign.enter(True, 182_282)
        self.assertEqual(campaign.verdict().case, Case.REJECT)
        campaign = Campaign(7_200_000)
        for exposure in (8_853_312, 8_853_312, 8_853_313):
            campaign.enter(False, exposure)
        self.assertEqual((campaign.records, campaign.failures, campaign.exposure, campaign.censored()),
            (3, 0, 26_559_937, 1))
        self.assertEqual(campaign.verdict().case, Case.ACCEPT)
        self.assertEqual(campaign.rates().upper, campaign.verdict().upper)
        self.refused(8, 0, campaign.enter, False, 0)
        self.refused(8, 0, campaign.enter, False, 10_000_001)

    def test_a_result_enters_by_what_it_is(self):
        ended = fed(ROLL).end()
        whole, taken = Campaign(7_200_000), Campaign(7_200_000)
        whole.enter_result(ended)
        taken.enter(ended.failed, ended.exposure)
        self.assertEqual(whole.numbers, taken.numbers)
        # counted twice or not at all, with another largest set: a campaign does not look at it
        whole.enter_result(ended._replace(crossings=9, counted=2, first=None, exposure=1_000, largest_set=0))
        self.assertEqual((whole.records, whole.failures, whole.exposure), (2, 1, ended.exposure + 1_000))
        # the library's 0 for no place is no failure either
        none = ended._replace(first=0)
        whole.enter_result(none)
        self.assertEqual((whole.failures, none.failed), (1, False))
        before = whole.numbers
        self.refused(8, 0, whole.enter_result, ended._replace(exposure=0))
        self.refused(8, 0, whole.enter_result, ended._replace(exposure=10_000_001))
        self.refused(6, 0, Campaign.from_numbers([7_200_000, 64, 64, 64_000, 1]).enter_result, ended)
        with self.assertRaisesRegex(TypeError, "^result is five whole numbers: 0.5 given$"):
            whole.enter_result(ended._replace(exposure=0.5))
        self.assertEqual(whole.numbers, before)

    def test_whether_it_failed(self):
        """A truth value, a whole number, or None as a result without a first failure has it; a text is neither."""
        flags = [(True, 1), (False, 0), (1, 1), (0, 0), (7, 1), (None, 0)]
        strange = ["0", "no", "", b"1", 1.0, math.nan, [], [0], decimal.Decimal(0), object]
        if numpy:
            flags += [(numpy.bool_(False), 0), (numpy.bool_(True), 1), (numpy.int8(1), 1), (numpy.array(True), 1)]
            strange += [numpy.float64(0), numpy.str_("0"), numpy.array([True]), numpy.timedelta64(0)]
        campaign, bench = Campaign(7_200_000), Bench()
        bench.take(1, 7_200_000)
        for failed, wanted in flags:
            failures = campaign.failures
            campaign.enter(failed, 1_000)
            bench.enter(1, 0, failed, 1_000)
            self.assertEqual((campaign.failures - failures, bench.numbers[0][1:]), (wanted, campaign.numbers))
        for failed in strange:
            for call in (lambda: campaign.enter(failed, 1_000), lambda: bench.enter(1, 0, failed, 1_000)):
                self.assertRaisesRegex(TypeError, "^failed is true or false: .* given$", call)
        self.assertEqual((campaign.records, bench.numbers[0][1:]), (len(flags), campaign.numbers))

    def test_what_a_customer_may_rely_on(self):
        """The numbers of docs/RELY.md."""

        def verdict(standard, records, failures, exposure, failed):
            return Campaign.from_numbers([standard, records, failures, exposure, failed]).verdict()

        accepted = verdict(7_200_000, 3, 0, 26_559_937, 0)
        self.assertEqual(accepted.case, Case.ACCEPT)
        self.assertEqual(verdict(3_600_000, 3, 0, 26_559_937, 0), accepted)
        self.assertEqual(verdict(7_200_001, 3, 0, 26_559_937, 0).case, Case.CONTINUE)
        rejected = verdict(7_200_000, 1, 1, 182_282, 1)
        self.assertEqual(rejected.case, Case.REJECT)
        self.assertEqual(verdict(14_400_000, 1, 1, 182_282, 1), rejected)
        self.assertEqual(verdict(7_199_984, 1, 1, 182_282, 1).case, Case.CONTINUE)
        self.assertEqual(verdict(7_200_000, 4, 0, 26_560_937, 0).case, Case.ACCEPT)
        campaign = Campaign(7_200_000)
        for failed, exposure in ((False, 10_000_000), (False, 10_000_000), (True, 6_559_937)):
            campaign.enter(failed, exposure)
        self.assertEqual((campaign.failures, campaign.exposure, campaign.verdict().case), (1, 26_559_937, Case.ACCEPT))
        campaign.enter(False, 1_000)
        self.assertEqual((campaign.censored(), campaign.verdict().case), (2, Case.CONTINUE))

    def test_a_sheet_is_its_records(self):
        campaign = Campaign(7_200_000)
        campaign.enter(False, 1_800_000)
        campaign.enter(True, 933_980)
        self.assertEqual(Campaign.read_sheet(b"standard\t7200000\n1\t0\t1800000\n2\t1\t933980\n").numbers,
            campaign.numbers)
        with self.assertRaises(Refusal) as caught:
            Campaign.read_sheet(b"standard\t7200000\n1\t0\t0\n")
        self.assertEqual((caught.exception.number, caught.exception.line), (4, 2))
        with self.assertRaises(Refusal) as caught:
            Campaign.read_sheet(b"standard\t7200000\n1\t0\t18x0\n")
        self.assertEqual((caught.exception.number, caught.exception.line, caught.exception.column), (9, 2, 7))
        self.refused(9, 1, Campaign.read_sheet, b"")

    def test_numbers_that_are_no_state(self):
        for length in (10, 12):
            self.refused(8, 0, Record.from_numbers, fed(ROLL).numbers[:length])
        self.refused(8, 0, Record.from_numbers([(1 << 64) - 1] * 14).feed, [], [0])
        for place, number in ((11, 3), (12, 0), (13, 2_000_001)):
            numbers = fed(ROLL).numbers
            numbers[place] = number
            self.refused(8, 0, Record.from_numbers(numbers).end)
        self.refused(8, 0, Campaign.from_numbers([1, 1, 1, 1, 2]).verdict)
        self.assertEqual(Record.from_numbers(fed(ROLL).numbers).numbers, fed(ROLL).numbers)

    def test_two_bureaus(self):
        bench = Bench()
        self.assertEqual((bench.take(1, 7_200_000), bench.take(2, 600_000)), (0, 1))
        bench.enter(1, 0, True, 182_282)
        bench.enter(2, 1, False, 3_000_000)
        self.assertEqual((bench.verdict(1, 0).case, bench.verdict(2, 1).case), (Case.REJECT, Case.ACCEPT))
        self.assertEqual(bench.rates(1, 0).lower, bench.verdict(1, 0).lower)
        before = bench.numbers
        self.refused(13, 0, bench.take, 3, 0)
        self.refused(1, 5, bench.take, 1, 0)
        self.refused(15, 0, bench.verdict, 2, 0)
        self.refused(15, 0, bench.rates, 1, 32)
        self.refused(8, 0, bench.enter, 1, 0, False, 0)
        self.assertEqual(bench.numbers, before)
        bench.give_back(1, 0)
        self.refused(15, 0, bench.give_back, 1, 0)
        self.assertEqual([bench.take(1, 1) for _ in range(16)], [0, *range(2, 17)])
        self.refused(14, 0, bench.take, 1, 1)
        self.assertEqual(Bench.from_numbers(bench.numbers).verdict(2, 1), bench.verdict(2, 1))
        self.refused(8, 0, Bench.from_numbers, bench.numbers[:31])
        self.refused(8, 0, Bench.from_numbers([[0, 1, 0, 0, 0, 0]] + bench.numbers[1:]).take, 2, 1)

    def test_sums(self):
        record, total = Record(500, 2, 40_000, 1_000, 9_810), Sum(500)
        self.assertEqual((total.bounds(), total.rates()), (None, None))
        record.feed([0, 0, 0])
        self.refused(4, 0, total.add, record)
        record.feed([41_000, 0, 0, 0, 0, 0, 0], [0, 0, 0, -9_811, 0, 0, 0])
        total.add(record)
        total.add(record)
        self.assertEqual((total.failures, total.samples, total.numbers), (4, 16, [500, 4, 16]))
        # 1,960² · 4 · 12 / 16 is 3,394.8 squared
        self.assertEqual(total.bounds(), (4_000, 605, 7_395, 8_000))
        self.assertEqual(total.rates(), (0.5, 605 / 8_000, 7_395 / 8_000))
        other = Record(499, 2, 40_000, 1_000, 9_810)
        other.feed([0] * 4)
        self.refused(1, 1, total.add, other)
        full = Sum.from_numbers([500, 9_999, 20_000])
        self.refused(11, 0, full.add, record)
        self.assertEqual(full.numbers, [500, 9_999, 20_000])
        for broken in ([0, 0, 0], [500, 3, 2], [500, 10_001, 20_000], [500, 1, 100_000_001]):
            for call in (Sum.from_numbers(broken).rates, Sum.from_numbers(broken).bounds):
                self.refused(8, 0, call)
        self.refused(1, 1, Sum, 10_001)

    def test_conditions(self):
        def campaign(records, failures, exposure, failed):
            return Campaign.from_numbers([7_200_000, records, failures, exposure, failed])

        empty, going = Campaign(7_200_000), Campaign.read_sheet(b"standard\t7200000\n1\t0\t1800000\n2\t1\t933980\n")
        accepted, rejected = campaign(3, 0, 26_559_937, 0), campaign(1, 1, 182_282, 1)
        self.assertEqual(write_report([going, empty]),
            b"1\t1\t1\t2733980\tC\t1\n2\t0\t0\t0\tE\t0\ntotal\t2\t1\t2733980\t1\tO\n")
        self.assertEqual(write_report([accepted, rejected]),
            b"1\t0\t1\t26559937\tA\t0\n2\t1\t1\t182282\tR\t1\ntotal\t4\t1\t26742219\t1\tR\n")
        self.assertEqual(judge_condition([accepted] * 64), Standing.ACCEPTED)
        self.assertEqual(judge_condition([accepted] * 63 + [rejected]), Standing.REJECTED)
        self.assertEqual([judge_condition([accepted, other]) for other in (going, empty)], [Standing.OPEN] * 2)
        full = campaign(100_000, 64, 1_000_000_000_000, 1)
        self.assertEqual(len(write_report(full for _ in range(64))), 1_823)
        broken = campaign(1, 1, 182_282, 2)
        for call in (judge_condition, write_report):
            self.refused(18, 0, call, [])
            self.refused(18, 0, call, [broken] * 65)
            self.refused(8, 2, call, [going, broken, broken])

    def test_envelope(self):
        # the peaks are 7 1 9 8 1 9 9 1 8, of which 6 and more are high, and 9 and 9 stand between lower ones, 1500 ms
        # apart
        roll = [9, 0, 3, 5, 0, 5, -2, -7, 0, -7, 1, -9, 8, -1, 9, -9, 1, -8, 2]
        self.assertEqual(envelope_peaks(500, 1, 1_499, roll), [(9, 5_000), (9, 6_500)])
        self.assertEqual(envelope_peaks(500, 1, 1_500, roll), [(9, 5_000)])
        self.assertEqual(envelope_peaks(500, 1, 1_500, array("i", roll))[0].time, 5_000)
        self.assertEqual(envelope_peaks(500, 0, 0, [0, 0, 0]), [])
        self.refused(1, 4, envelope_peaks, 500, 0, 10_000_001, roll)
        self.refused(2, 1, envelope_peaks, 500, 0, 0, [0, 1_000_001])
        self.refused(3, 0, envelope_peaks, 10_000, 0, 0, [0] * 1_002)
        self.refused(4, 0, envelope_peaks, 500, 18, 0, roll)
        self.assertRaises(OverflowError, envelope_peaks, 500, -1, 0, roll)

    def test_peaks_in_pieces(self):
        roll = [9, 0, 3, 5, 0, 5, -2, -7, 0, -7, 1, -9, 8, -1, 9, -9, 1, -8, 2]
        for cut in range(len(roll) + 1):
            survey = PeakSurvey(500, 1)
            survey.feed(roll[:cut])
            survey.feed(array("i", roll[cut:]))
            for decorrelation in (1_499, 1_500):
                second = survey.begin(decorrelation)
                found = second.feed(roll[cut:][:0]) + second.feed(roll[: cut // 2]) + second.feed(roll[cut // 2 :])
                found += [peak for peak in [second.last()] if peak]
                self.assertEqual(found, envelope_peaks(500, 1, decorrelation, roll), cut)
                self.assertEqual(pickle.loads(pickle.dumps(second)), second)
        self.assertEqual(PeakSurvey.from_numbers(survey.numbers), survey)
        flat = PeakSurvey(500, 0)
        flat.feed([0, 0, 0])
        still = flat.begin(0)
        self.assertEqual((still.feed([0, 0, 0]), still.last()), ([], None))
        before = survey.numbers
        self.refused(1, 1, PeakSurvey, 0, 0)
        self.refused(1, 2, PeakSurvey, 500, 1_000_001)
        self.refused(2, 1, survey.feed, [0, 1_000_001])
        self.refused(3, 0, survey.feed, [0] * 20_001)
        self.refused(1, 4, survey.begin, 10_000_001)
        self.refused(4, 0, PeakSurvey(500, 0).begin, 0)
        self.refused(8, 0, PeakSurvey.from_numbers([1] * 10).feed, [])
        self.refused(8, 0, PeakPass.from_numbers([1] * 24).feed, [])
        self.refused(8, 0, PeakPass.from_numbers([0] * 24).last)
        self.refused(8, 0, PeakPass.from_numbers, [0] * 23)
        self.assertEqual(survey.numbers, before)
        self.assertRaises(OverflowError, PeakSurvey, 500, -1)
        self.assertRaises(TypeError, survey.feed, [1.5])

    def test_tail(self):
        tail = fit_tail([1, 4, 2, 8], 3)
        self.assertEqual((tail.sorted, tail.sum), ([8, 4, 2, 1], 3 * 65_536))
        self.assertAlmostEqual(tail.shape(), math.log(2))
        self.refused(16, 0, fit_tail, [1, 2], 3)
        self.refused(16, 0, fit_tail, [], 0)
        self.refused(17, 1, fit_tail, [1, 0, 1_000_001], 2)
        self.assertRaises(OverflowError, fit_tail, [1, -1], 2)

    def test_beyond(self):
        peaks = [31_000, 34_000, 33_000, 32_000, 31_500, 30_500, 30_000, 29_500, 29_000, 28_500, 28_000, 27_500]
        found = extrapolate(peaks, 10, 40_000, 500, 1_000_000, 7_200_000)
        self.assertEqual(found[:4], (3_569_418_850, 356_906_209, None, "A"))
        self.assertEqual(found.tail, fit_tail(peaks, 10))
        for standard, letter in ((29_289_438, "A"), (29_289_439, "C"), (170_706_725, "C"), (170_706_726, "R")):
            found = extrapolate(peaks, 10, 28_500, 500, 1_000_000, standard)
            self.assertEqual(found[:4], (50_000_000, 29_289_438, 170_706_726, letter))
        self.refused(1, 1, extrapolate, [], 0, 0, 0, 0, 0)
        self.refused(1, 3, extrapolate, [], 0, 1_000_001, 1, 0, 0)
        self.refused(1, 5, extrapolate, [0], 0, 40_000, 1, 0, 0)
        self.refused(16, 0, extrapolate, peaks, 13, 40_000, 500, 0, 1)
        self.refused(17, 1, extrapolate, [1, 0, 2], 2, 40_000, 500, 0, 1)
        self.refused(19, 0, extrapolate, peaks, 10, 20_000, 500, 9, 1)
        self.refused(20, 28_500, extrapolate, peaks, 10, 28_499, 500, 10, 1)
        self.refused(21, 0, extrapolate, [35_000] * 40, 10, 40_000, 500, 1_000_000, 1)
        self.assertRaises(OverflowError, extrapolate, peaks, 10, 40_000, 500, -1, 1)
        self.assertRaises(TypeError, extrapolate, peaks, 10, 40_000, 500, 1.5, 1)

    def test_threads(self):
        """A record of one channel is told of nothing in the other, whatever other threads feed meanwhile."""
        for script in (SCHEDULES, THREADS, THREADS):
            done = subprocess.run([sys.executable, "-c", script], cwd=HERE, capture_output=True, text=True, timeout=300)
            self.assertEqual((done.returncode, done.stderr), (0, ""))

    def test_other_threads_go_on(self):
        """A PyDLL, which is a CDLL too, would hold them while the library works."""
        self.assertIs(type(chimenickel._lib), ctypes.CDLL)

    def test_a_library_that_is_not_there(self):
        """An ImportError of one line says where it looked and what writes the library; of a bad or an old one too."""
        with tempfile.TemporaryDirectory() as folder:
            library = pathlib.Path(folder) / "libchimenickel.so"
            environment = dict(os.environ, CHIMENICKEL_LIB=folder)

            def said():
                words = [sys.executable, "-c", "import chimenickel"]
                done = subprocess.run(words, cwd=HERE, env=environment, capture_output=True, text=True)
                self.assertEqual((done.returncode, done.stdout), (1, ""))
                return done.stderr.splitlines()[-1]

            advice = ": bin/build-lib writes the library to target/lib, and CHIMENICKEL_LIB may name another folder"
            self.assertEqual(said(), f"ImportError: there is no {library}{advice}")
            library.write_bytes(b"no library")
            self.assertRegex(said(), f"^ImportError: {library} cannot be loaded \\(.*\\){advice}$")
            subprocess.run(["gcc", "-shared", "-x", "c", "/dev/null", "-o", library], check=True)
            older = "it is older than this module, and bin/build-lib writes it anew"
            self.assertEqual(said(), f"ImportError: {library} has no chim_record_open: {older}")
            # one of another version, whose arrays have other lengths
            names = re.findall(r"\b(chim_\w+)\(", (HERE.parents[1] / "include" / "chimenickel.h").read_text())
            source = "".join(f"long {name}(void) {{ return 2014000; }}\n" for name in sorted(set(names)))
            subprocess.run(["gcc", "-shared", "-x", "c", "-", "-o", library], input=source, text=True, check=True)
            version = f"is of version 2014000, and this module is of {chimenickel.__version__}: their arrays differ"
            self.assertEqual(said(), f"ImportError: {library} {version}")

    def test_a_module_near_the_top(self):
        """As pip install --target /app leaves it, there is no tree above it."""
        with mock.patch.dict(os.environ), mock.patch.object(chimenickel, "__file__", "/app/chimenickel/__init__.py"):
            os.environ.pop("CHIMENICKEL_LIB", None)
            self.assertEqual(chimenickel._library(), "libchimenickel.so.3")

    # every function that takes a row of whole numbers, by the name that it has for it
    ROWS = (
        ("roll", lambda row: Record(*ITEMS).feed(row)),
        ("roll", lambda row: Record(*ITEMS).feed(row, [0, 0])),
        ("acceleration", lambda row: Record(*ITEMS).feed(None, row)),
        ("acceleration", lambda row: Record(*ITEMS).feed([0, 0], row)),
        ("roll", lambda row: counted_times(*ITEMS, row)),
        ("acceleration", lambda row: counted_times(*ITEMS, None, row)),
        ("roll", lambda row: first_crossing(row, None, 0, 1, 1)),
        ("acceleration", lambda row: first_crossing(None, row, 0, 1, 1)),
        ("samples", lambda row: envelope_peaks(500, 0, 0, row)),
        ("samples", lambda row: PeakSurvey(500, 0).feed(row)),
        ("peaks", lambda row: fit_tail(row, 2)),
        ("samples", lambda row: write_comma(row, 500)),
        ("records", lambda row: write_sheet(7_200_000, row)),
    )

    def not_taken(self, rows, tables):
        """No function takes any of these; from_degrees takes the rows, of which some are degrees."""
        for name, call in self.ROWS + (("degrees", from_degrees),):
            sentence = f"^{name} (is|are) .*, in one dimension: .* given( at place [01])?$"
            for row in tables if name == "degrees" else tables + rows:
                with self.assertRaisesRegex((TypeError, ValueError), sentence, msg=repr(row)):
                    call(row)

    def taken(self, rows, wanted):
        """Each row, which is made anew for each call, reads as the wanted numbers wherever it is taken."""
        for make in rows:
            self.assertEqual(write_comma(make(), 500), write_comma(wanted, 500))
            self.assertEqual(write_sheet(1, make()), write_sheet(1, wanted))
            self.assertEqual(fit_tail(make(), 2), fit_tail(wanted, 2))
            self.assertEqual(fed(make()).numbers, fed(wanted).numbers)
            self.assertEqual(fed(wanted, make()).numbers, fed(wanted, wanted).numbers)
            self.assertEqual(list(from_degrees(make())), [1_000 * x for x in wanted])

    def test_rows_that_are_none(self):
        class Yields:
            def __iter__(self):
                return iter((1, [2]))

        row = array("i", [1, 2, 3, 4])
        tables = [[[1, 2], [3, 4]], [(1, 2), (3, 4)], ([1], [2]), [row, row], [[]], Yields(), [1, [2]]]
        tables += [memoryview(row).cast("B").cast("i", (2, 2)), ((ctypes.c_int32 * 2) * 2)(), (ctypes.c_bool * 2)()]
        tables += [5, b"12", bytearray(b"12"), memoryview(b"12"), "12", ["1", "2"], {1: 2, 3: 4}, {1, 2}, object()]
        tables += [[1, True], [1, None], [1, 2j], [1, b"2"]]
        rows = [[1, 2.0], (1, 2.0), [1, math.nan], [1, decimal.Decimal(2)], [1, fractions.Fraction(2)]]
        rows += [array(code, [1, 2]) for code in "dfbB"] + [memoryview(array("d", [1, 2])), (ctypes.c_double * 2)(1, 2)]
        self.not_taken(rows, tables)

    def test_rows_of_any_form(self):
        wanted = [1, 700, 3, 999, 5, 6]
        beside = array("i", [x for y in wanted for x in (y, 7)])
        rows = [lambda form=form: form(wanted) for form in (list, tuple, iter, lambda row: (x for x in row))]
        rows += [lambda code=code: array(code, wanted) for code in "hHiIlLqQ"]
        rows += [lambda: memoryview(array("h", wanted)), lambda: memoryview(beside)[::2]]
        rows += [lambda: memoryview(array("i", wanted[::-1]))[::-1], lambda: (ctypes.c_int32 * 6)(*wanted)]
        rows += [lambda: (ctypes.c_int32.__ctype_be__ * 6)(*wanted), lambda: (ctypes.c_uint16 * 6)(*wanted)]
        self.taken(rows, wanted)
        self.taken([lambda: range(1, 5)], [1, 2, 3, 4])
        self.assertEqual(fed(memoryview(array("q", ROLL))).numbers, fed(ROLL).numbers)
        numbers = (1, 2.5, fractions.Fraction(1, 2_000), decimal.Decimal("1.0015"))
        self.assertEqual(list(from_degrees(x for x in numbers)), [1_000, 2_500, 0, 1_002])
        for code, strange in (("q", 1 << 31), ("q", -(1 << 31) - 1), ("Q", (1 << 64) - 1), ("I", 1 << 31)):
            self.assertRaises(OverflowError, fed, array(code, [strange]))
        self.assertRaises(OverflowError, fit_tail, array("i", [1, -1]), 2)
        self.assertRaises(OverflowError, fit_tail, [1, 1 << 32], 2)
        for empty in ([], (), array("i"), array("q"), iter(())):
            self.assertEqual(write_comma(empty, 500), b"")

    @unittest.skipUnless(numpy, "numpy is not there")
    def test_rows_of_numpy(self):
        wanted = [1, 700, 3, 999, 5, 6]
        forms = [order + form for order in "<>" for form in ("i2", "i4", "i8", "u2", "u4", "u8")]
        table = numpy.array([[x, -x] for x in wanted], dtype="i4")
        column = table[:, 0]
        rows = [lambda form=form: numpy.array(wanted, dtype=form) for form in forms]
        rows += [lambda: column, lambda: numpy.asfortranarray(table)[:, 0], lambda: column[::-1][::-1]]
        rows += [lambda: table.astype(">i8")[:, 0], lambda: memoryview(column), lambda: memoryview(column.copy())]
        rows += [lambda: list(column), lambda: [*wanted[:3], *column[3:].astype("u2")]]
        self.taken(rows, wanted)
        # 1,000 quiet rows of time and roll, of which 199 failures were counted once
        times = numpy.array([[500 * i, 0] for i in range(1_000)], dtype="i4")
        tables = [times, table, table[:0], table.T, table[None], numpy.array(5), list(table), list(table[:, :1])]
        strange = ["?", "O", "c8", "c16", "M8[s]", "m8[s]", "S1", "U1", [("a", "i4")]]
        tables += [numpy.zeros(2, dtype=form) for form in strange]
        tables += [[1, x] for x in (numpy.bool_(True), numpy.timedelta64(2), numpy.array([2]))]
        tables += [numpy.ma.array([1, 2], mask=mask, dtype="i4") for mask in (False, [0, 1])]
        floats = [numpy.zeros(2, dtype=form) for form in ("f2", "f4", "f8", "g", ">f8")] + [[1, numpy.float32(2)]]
        self.not_taken(floats, tables + [numpy.zeros(2, dtype=form) for form in ("i1", "u1")])
        self.assertEqual(list(from_degrees(numpy.array([1.5, -2], dtype=">f8"))), [1_500, -2_000])
        self.assertEqual(fed(memoryview(numpy.array(ROLL, dtype=">i4"))).numbers, fed(ROLL).numbers)
        for form in (">f8", "f2", "g", ">i4"):
            foreign = memoryview(numpy.array([1, -2], dtype=form))
            self.assertRaisesRegex(TypeError, "^degrees are .*: memoryview given$", from_degrees, foreign)
        self.assertEqual(list(from_degrees(numpy.array([[1.5, 9], [-2, 9]])[:, 0])), [1_500, -2_000])
        # in 32 bits some of these times 1,000 are halves
        near = numpy.linspace(-999, 999, 9_999, dtype="f4")
        self.assertEqual(from_degrees(list(near)).tolist(), from_degrees(near).tolist())

    @unittest.skipUnless(numpy, "numpy is not there")
    def test_rows_of_32_bits_are_lent(self):
        """What the library is handed is where the array stands, of either channel, whoever may write to it."""
        roll = numpy.array(ROLL, dtype="i4")
        fixed = roll.copy()
        fixed.flags.writeable = False
        odd = numpy.frombuffer(b"-" + roll.tobytes(), dtype="i4", offset=1)
        held = array("i", ROLL)
        for row in (roll, fixed, roll[2:], held, memoryview(held)):
            lent = chimenickel._lent("roll", row)
            self.assertEqual(lent.first, numpy.asarray(row).ctypes.data)
        for row in (roll[::2], roll[::-1], roll.astype(">i4"), roll.astype("i8"), odd):
            lent = chimenickel._lent("roll", row)
            self.assertNotEqual(lent.first, row.ctypes.data)
            self.assertEqual(ctypes.string_at(lent.first, 4 * lent.length), row.astype("i4").tobytes())
            self.assertEqual(lent.first % 4, 0)
        for row in (memoryview(b"-" + roll.tobytes())[1:].cast("i"),
                memoryview(bytearray(b"-" + roll.tobytes()))[1:].cast("i")):
            lent = chimenickel._lent("roll", row)
            self.assertEqual((lent.first % 4, ctypes.string_at(lent.first, 4 * lent.length)), (0, roll.tobytes()))
        # as long as it is lent it stays where it is
        lent = chimenickel._lent("roll", held)
        self.assertRaises(BufferError, held.append, 0)
        # what looks twice has a copy of its own
        self.assertNotEqual(chimenickel._own("roll", roll).first, roll.ctypes.data)

    @unittest.skipUnless(numpy, "numpy is not there")
    def test_long_pieces_of_other_kinds(self):
        """Channels that are to be narrowed go in smaller pieces, and are answered as a whole."""
        n = 2 * chimenickel._PIECE + 5
        roll = numpy.zeros(n, dtype="i8")
        roll[::999] = 41_000
        narrow = roll.astype("i4")
        whole = Record(1, 0, 40_000, 2_000, 9_810)
        whole.feed(narrow, narrow)
        beside = numpy.zeros((n, 2), dtype="i4")
        beside[:, 1] = roll
        for first in (roll, roll.astype(">i4"), roll.astype("u8"), beside[:, 1], narrow):
            record = Record(1, 0, 40_000, 2_000, 9_810)
            record.feed(first, roll)
            self.assertEqual(record, whole)
            self.refused(12, 0, record.feed, first, roll[1:])
            self.assertEqual(record, whole)
        # a number that is too wide at the end goes before a sample out of range at the start, and one of these before 3
        roll[0], roll[-1] = 1_000_001, -1 << 31
        self.assertEqual(self.refused(2, 0, whole.feed, narrow, roll).channel, Channel.ACCELERATION)
        roll[-1] = 1 << 31
        with self.assertRaisesRegex(OverflowError, f"^acceleration is .*: 2147483648 given at place {n - 1}, which"):
            whole.feed(narrow, roll)
        self.refused(2, 0, Record(10_000, 0, 1, 0, 1).feed, roll[:-1])
        self.refused(3, 0, Record(10_000, 0, 1, 0, 1).feed, roll[1:-1])
        self.assertEqual(record, whole)

    @unittest.skipUnless(numpy, "numpy is not there")
    def test_long_pieces_of_one_channel(self):
        """A channel that is fed alone goes in smaller pieces, and is answered as a whole."""
        piece = chimenickel._PIECE
        for n in (piece - 1, piece, piece + 1, 2 * piece, 3 * piece + 7):
            roll = numpy.zeros(n, dtype="i4")
            roll[::1_001] = 41_000
            roll[-1] = 41_000
            quiet = numpy.zeros(n, dtype="i4")
            for one, both in (((roll,), (roll, quiet)), ((None, roll), (quiet, roll))):
                record, whole = Record(1, 0, 40_000, 2_000, 9_810), Record(1, 0, 40_000, 2_000, 9_810)
                record.feed(*one)
                whole.feed(*both)
                self.assertEqual(record, whole)
                before = record.numbers
                roll[n - 1] = -1_000_001
                channel = Channel.ROLL if one[0] is not None else Channel.ACCELERATION
                self.assertEqual(self.refused(2, n - 1, record.feed, *one).channel, channel)
                roll[n - 1] = 41_000
                self.assertEqual(record.numbers, before)
        record = Record(10_000, 0, 40_000, 0, 9_810)
        roll = numpy.zeros(2 * piece, dtype="i4")
        self.refused(3, 0, record.feed, roll)
        # 3 is met in the first smaller piece, 2 in the last, and 2 goes first
        roll[-1] = 1_000_001
        self.refused(2, 2 * piece - 1, record.feed, roll)
        self.assertEqual(record, Record(10_000, 0, 40_000, 0, 9_810))
        self.refused(8, 0, Record.from_numbers([(1 << 64) - 1] * 14).feed, roll)
        self.refused(8, 0, Record.from_numbers([(1 << 64) - 1] * 14).feed, [])

    @unittest.skipUnless(pandas, "pandas is not there")
    def test_rows_of_pandas(self):
        wanted = [1, 700, 3, 999, 5, 6]
        forms = ("int16", "int32", "int64", "uint32", "Int32", "Int64")
        table = pandas.DataFrame({"roll": wanted, "other": wanted})
        rows = [lambda form=form: pandas.Series(wanted, dtype=form) for form in forms]
        rows += [lambda: table["roll"], lambda: pandas.Index(wanted), lambda: pandas.Series(wanted[::-1])[::-1]]
        self.taken(rows, wanted)
        floats = [pandas.Series([1.0, 2.0])]
        absent = [pandas.Series([1, None], dtype="Int32"), pandas.Series([True, False]), pandas.Series(["1", "2"])]
        self.not_taken(floats, [table, *absent, pandas.Series(pandas.to_datetime(["2026-01-01"] * 2))])
        self.assertEqual(list(from_degrees(pandas.Series([0.5, -41.5]))), [500, -41_500])
        single = pandas.Series(wanted, dtype="int32")
        self.assertEqual(chimenickel._lent("roll", single).first, single.to_numpy().ctypes.data)

    def test_too_wide(self):
        """The first number that is none of 32 bits is told by its place."""
        rows = [[0, 1 << 31, 1 << 40], (0, 1 << 31), array("q", [0, 1 << 31]), iter([0, 1 << 31])]
        if numpy:
            rows += [numpy.array([0, 1 << 31, -1 << 40]), numpy.array([0, 1 << 31], dtype="u4"),
                [0, numpy.int64(1 << 31)]]
        for row in rows:
            with self.assertRaisesRegex(OverflowError,
                    "^roll is .*: 2147483648 given at place 1, which is no 32-bit number$"):
                Record(*ITEMS).feed(row)
        with self.assertRaisesRegex(OverflowError, "^peaks are .*: -1 given at place 1, which is no 32-bit number$"):
            fit_tail([1, -1], 2)

    def test_states_compare_print_and_pickle(self):
        campaign, total, bench = Campaign(7_200_000), Sum(500), Bench()
        campaign.enter(True, 7_000)
        total.add(fed(ROLL))
        bench.take(1, 7_200_000)
        for state in (fed(ROLL), campaign, total, bench):
            again = (pickle.loads(pickle.dumps(state)), eval(repr(state)), copy.copy(state), copy.deepcopy(state))
            for other in again:
                self.assertIs(type(other), type(state))
                self.assertEqual(other, state)
                self.assertEqual(other.numbers, state.numbers)
            self.assertFalse(state != again[0])
            self.assertNotEqual(state, state.numbers)
            self.assertRaises(TypeError, hash, state)
        again = copy.copy(campaign)
        again.enter(False, 1)
        self.assertNotEqual(again, campaign)
        self.assertNotEqual(Campaign.from_numbers([1, 0, 0, 0, 0]), Sum(1))
        self.assertEqual(repr(campaign), "Campaign.from_numbers([7200000, 1, 1, 7000, 1])")
        result = fed(ROLL).end()
        for value in (result, campaign.verdict(), campaign.rates(), total.bounds(), fit_tail([1, 2], 2)):
            self.assertEqual(pickle.loads(pickle.dumps(value)), value)
        refusal = self.refused(2, 1, fed(ROLL).feed, [0, -1_000_001])
        with self.assertRaises(Refusal) as caught:
            Campaign.read_sheet(b"standard\t7200000\n1\t0\t18x0\n")
        for raised in (refusal, caught.exception):
            other = pickle.loads(pickle.dumps(raised))
            self.assertEqual((str(other), vars(other)), (str(raised), vars(raised)))

    def test_everything_is_described(self):
        """What the module lists is there, and each name, with what is public of it, has words."""
        self.assertRegex(chimenickel.__version__, r"^\d+\.\d+\.\d+$")
        for name in chimenickel.__all__:
            thing = getattr(chimenickel, name)
            self.assertTrue(thing.__doc__, name)
            for part, value in vars(thing).items() if isinstance(thing, type) else ():
                if not part.startswith("_") and (callable(value) or isinstance(value, (property, classmethod))):
                    self.assertTrue(value.__doc__, f"{name}.{part}")

    def test_items_that_are_not_whole(self):
        bench, campaign = Bench(), Campaign(7_200_000)
        items = dict(step=500, ramp=0, level=40_000, decorrelation=2_000, acceleration_level=9_810)
        ms, whole = "is in whole ms", "is a whole number"
        units = dict(step=ms, ramp="is in whole samples", level="is in whole thousandths of a degree", decorrelation=ms)
        units.update(acceleration_level="is in whole mm/s2")
        calls = []
        for name, unit in units.items():
            calls.append((name, unit, lambda x, name=name: Record(**dict(items, **{name: x}))))
            calls.append((name, unit, lambda x, name=name: counted_times(**dict(items, **{name: x}), roll=ROLL)))
        calls += [
            ("ramp", units["ramp"], lambda x: first_crossing(ROLL, None, x, 1, 1)),
            ("level", units["level"], lambda x: first_crossing(ROLL, None, 0, x, 1)),
            ("acceleration_level", units["acceleration_level"], lambda x: first_crossing(ROLL, None, 0, 1, x)),
            ("step", ms, lambda x: envelope_peaks(x, 0, 0, ROLL)),
            ("ramp", units["ramp"], lambda x: envelope_peaks(500, x, 0, ROLL)),
            ("decorrelation", ms, lambda x: envelope_peaks(500, 0, x, ROLL)),
            ("standard", ms, Campaign),
            ("standard", ms, lambda x: write_sheet(x, [1])),
            ("exposure", ms, lambda x: campaign.enter(False, x)),
            ("step", ms, Sum),
            ("step", ms, lambda x: read_comma(b"", x)),
            ("step", ms, lambda x: write_comma([], x)),
            ("k", "is a whole number of peaks", lambda x: fit_tail([1, 2], x)),
            ("bureau", whole, lambda x: bench.take(x, 1)),
            ("standard", ms, lambda x: bench.take(1, x)),
            ("bureau", whole, lambda x: bench.enter(x, 0, False, 1)),
            ("place", whole, lambda x: bench.enter(1, x, False, 1)),
            ("exposure", ms, lambda x: bench.enter(1, 0, False, x)),
            ("place", whole, lambda x: bench.verdict(1, x)),
            ("place", whole, lambda x: bench.rates(1, x)),
            ("place", whole, lambda x: bench.give_back(1, x)),
            ("n", whole, upper_row),
            ("n", whole, lower_row),
            ("state", "is stored in whole numbers", lambda x: Campaign.from_numbers([7_200_000, 0, 0, 0, x])),
            ("state", "is stored in whole numbers", lambda x: Bench.from_numbers([[0, 0, 0, 0, 0, x]] * 32)),
        ]
        strange = [9.81, 500.0, True, False, None, "500", 5j, [500], decimal.Decimal(500)]
        if numpy:
            strange += [numpy.float64(9.81), numpy.bool_(True), numpy.array([500]), numpy.timedelta64(500)]
        for name, unit, call in calls:
            for x in strange:
                with self.assertRaises(TypeError, msg=(name, x)) as caught:
                    call(x)
                self.assertEqual(str(caught.exception), f"{name} {unit}: {x!r} given")
            for x in (-1, 1 << 64):
                with self.assertRaises(OverflowError, msg=(name, x)) as caught:
                    call(x)
                self.assertEqual(str(caught.exception), f"{name} is no 64-bit number: {x} given")
        if numpy:
            self.assertEqual(Record(*map(numpy.int32, ITEMS)).numbers, Record(*ITEMS).numbers)
            self.assertEqual(fit_tail([1, 2], numpy.uint8(2)), fit_tail([1, 2], 2))

    def test_texts(self):
        sheet, comma = b"standard\t7200000\n1\t0\t1800000\n", b"0,0\n500,41\n"
        for form in (bytearray, memoryview, lambda text: array("B", text)):
            self.assertEqual(Campaign.read_sheet(form(sheet)).numbers, Campaign.read_sheet(sheet).numbers)
            self.assertEqual(read_records(form(sheet)), read_records(sheet))
            self.assertEqual(read_comma(form(comma), 500), read_comma(comma, 500))
        strange = ["0,0\n", 5, None, [48, 44, 48, 10], array("i", [0]), memoryview(b"0,0\n").cast("B", (2, 2))]
        if numpy:
            strange += [numpy.zeros((2, 2), dtype="u1"), numpy.zeros(2, dtype="i4")]
        for text in strange:
            for call in (Campaign.read_sheet, read_records, lambda text: read_comma(text, 500)):
                self.assertRaisesRegex(TypeError, "^a file's text is bytes, in one dimension: .* given$", call, text)

    def test_rows(self):
        self.assertEqual((upper_row(1), lower_row(1), upper_row(0), lower_row(65)), (3_688_880, 25_317, 0, 0))


if __name__ == "__main__":
    unittest.main()

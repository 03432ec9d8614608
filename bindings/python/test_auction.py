"""The Python binding on the samples and on the books of the benchmark."""

import copy
import os
import pickle
import re
import struct
import subprocess
import sys
import tempfile
import threading
import unittest
from pathlib import Path

import auction

HERE = Path(__file__).resolve().parent
ROOT = HERE.parents[1]
SAMPLES = ROOT / "samples"

# The first edition whose published prices may be others than the middle ones.
FIRST_SHIFT_EDITION = 4


def sample(name: str) -> bytes:
    return (SAMPLES / name).read_bytes()


def books() -> dict:
    """The samples and the books of the benchmark, by name."""
    folders = SAMPLES, ROOT / "rust" / "bench-books"
    found = {path.name: path.read_bytes() for folder in folders for path in sorted(folder.glob("*.book"))}
    assert len(found) >= 24
    return found


def said(book: bytes) -> tuple:
    """What every call says of a book."""
    try:
        outcome = auction.clear(book)
        auction.read(book)
        prices = [auction.price(book, outcome.set, hour) for hour in hours_of(book)]
    except auction.Refused as refused:
        outcome, prices = refused.number, None
    texts = auction.sheet(book), auction.family_report(book), auction.cash_sheet(book)
    return outcome, prices, *texts, auction.price_range(full_list(book))


def list_of(*steps: tuple) -> bytes:
    """A list of steps: side, price, low and high of each."""
    return b"".join(struct.pack(">4I", *step) for step in steps)


def full_list(book: bytes) -> bytes:
    """A list of as many steps as there may be; a book's length says which."""
    steps = range(auction._NUMBERS["MOST_ENTRIES"])
    return list_of(*((at % 2, 1 + at * len(book) % 300_000, at, 99_999 - at) for at in steps))


def hours_of(book: bytes) -> list:
    """The hours of an accepted book that have a price."""
    return [hour for hour in range(1, 25) if (book[6], hour) != (23, 3)]


def refusal(call, *words) -> int:
    try:
        call(*words)
    except auction.Refused as refused:
        return refused.number
    return 0


class Calls(unittest.TestCase):
    def test_the_outcome_of_s5(self):
        outcome = auction.clear(sample("S5.book"))
        self.assertEqual(outcome.welfare, 410_000)
        self.assertEqual(outcome.hours[0], auction.Hour(price=3000, traded=100))
        self.assertEqual(set(outcome.hours[2:]), {auction.Hour(150_000, 0)})
        self.assertEqual(outcome.rows[1], auction.Row("step", 2, 50))
        self.assertEqual(outcome.rows[4], auction.Row("block", 1, 50))
        self.assertEqual((outcome.step(1), outcome.step(2), outcome.block(1)), (100, 50, 50))
        self.assertEqual((outcome.taken, outcome.set), ((1,), 1))
        for call in outcome.step, outcome.block:
            self.assertRaises(KeyError, call, 5)

    def test_the_outcome_of_a_day_of_edition_2(self):
        outcome = auction.clear(sample("edition-2.book"))
        self.assertEqual(outcome.welfare, 5_896_700)
        self.assertEqual(outcome.taken, (1, 2, 3, 4, 5, 7, 8, 9, 10))
        self.assertEqual([outcome.block(number) for number in (1, 5, 6)], [250, 51, 0])

    def test_the_outcomes_of_days_of_25_and_23_hours(self):
        outcome = auction.clear(sample("day-25.book"))
        self.assertEqual((outcome.welfare, outcome.taken), (615_000, (1,)))
        self.assertEqual(outcome.hours[2], auction.Hour(price=3000, traded=100))
        outcome = auction.clear(sample("day-23.book"))
        self.assertEqual((outcome.welfare, outcome.block(1)), (410_000, 50))
        self.assertEqual(outcome.hours[2], auction.Hour(price=0, traded=0))
        for set_ in 0, 1:
            self.assertEqual(refusal(auction.price, sample("day-23.book"), set_, 3), 8)

    def test_the_outcomes_of_linked_blocks(self):
        outcome = auction.clear(sample("linked-both.book"))
        self.assertEqual((outcome.welfare, outcome.taken), (500_000, (1, 2)))
        self.assertEqual(outcome.rows[6], auction.Row("link", 2, 0))
        outcome = auction.clear(sample("linked-left-out.book"))
        self.assertEqual((outcome.welfare, outcome.taken, outcome.block(2)), (400_000, (), 0))

    def test_prices_that_give_way(self):
        book = sample("shift-alone.book")
        outcome = auction.clear(book)
        self.assertEqual((outcome.welfare, outcome.taken), (200_000, (1, 2)))
        self.assertEqual({hour.price for hour in outcome.hours}, {4_800})
        # A single hour is answered with the middle price.
        self.assertEqual(auction.price(book, 3, 1), auction.Price(1, 300_000, 150_000))
        outcome = auction.clear(sample("shift-above.book"))
        self.assertEqual([outcome.hours[at].price for at in (0, 1, 2)], [188_700, 5_258, 5_774])
        outcome = auction.clear(sample("shift-linked.book"))
        self.assertEqual((outcome.welfare, outcome.taken), (60_000, (3, 4)))

    def test_the_shares_of_steps_at_the_price(self):
        outcome = auction.clear(sample("S10.book"))
        self.assertEqual([outcome.step(number) for number in (1, 2, 3)], [50, 50, 100])
        outcome = auction.clear(sample("fair-shares.book"))
        self.assertEqual([row.executed for row in outcome.rows], [1, 1, 1, 4, 2, 4, 1, 3, 2, 6, 1, 1, 1, 2])

    def test_families(self):
        gains = auction.Family(1, 64_500), auction.Family(6, 30_000)
        self.assertEqual(auction.families(sample("linked-generations.book")), gains)
        self.assertEqual(auction.families(sample("S1.book")), ())
        self.assertEqual(auction.families(sample("S6.book")), (auction.Family(1, 10_000), auction.Family(2, 0)))
        for path in SAMPLES.glob("*.families"):
            book, report = path.with_suffix(".book").read_bytes(), path.read_text()
            self.assertEqual(auction.family_report(book), report, path.name)
            if report.startswith("refused;"):
                self.assertEqual(f"refused;{refusal(auction.families, book)}\n", report, path.name)
            else:
                lines = [f"{family.block};{family.gain}" for family in auction.families(book)]
                self.assertEqual(report.split("\n"), ["block;gain", *lines, ""], path.name)

    def test_cash(self):
        cash = auction.cash(sample("S5.book"))
        self.assertEqual([number for number, _ in cash.portfolios], [1, 2, 3])
        self.assertEqual(cash.portfolio(1), auction.Account(bought=200, sold=0, paid=600_000, received=0))
        self.assertEqual(cash.portfolio(3), auction.Account(0, 100, 0, 300_000))
        self.assertEqual(cash.all, auction.Account(200, 200, 600_000, 600_000))
        cash = auction.cash(sample("cash-autumn.book"))
        self.assertEqual(cash.portfolio(4), auction.Account(160, 70, 320_000, 210_000))
        self.assertEqual(cash.portfolio(9), auction.Account(0, 0, 0, 0))  # its orders got nothing
        self.assertRaises(KeyError, cash.portfolio, 10)
        self.assertEqual(auction.cash(sample("head-alone.book")), auction.Cash((), auction.Account(0, 0, 0, 0)))
        title = "portfolio;bought;sold;paid;received"
        for path in SAMPLES.glob("*.cash"):
            book, sheet = path.with_suffix(".book").read_bytes(), path.read_text()
            self.assertEqual(auction.cash_sheet(book), sheet, path.name)
            if sheet.startswith("refused;"):
                self.assertEqual(f"refused;{refusal(auction.cash, book)}\n", sheet, path.name)
            else:
                cash = auction.cash(book)
                accounts = [*cash.portfolios, ("all", cash.all)]
                lines = [f"{name};{it.bought};{it.sold};{it.paid};{it.received}" for name, it in accounts]
                self.assertEqual(sheet.split("\n"), [title, *lines, ""], path.name)

    def test_price_ranges(self):
        self.assertEqual(auction.price_range(sample("wind.list")), auction.PriceRange(750, 2500))
        self.assertEqual(auction.price_range(b""), auction.PriceRange(150_000, 150_000))
        wind = list_of((0, 5000, 100, 100), (1, 3000, 60, 140))
        self.assertEqual(auction.price_range(wind), auction.PriceRange(least=3000, greatest=5000))
        for path in SAMPLES.glob("*.list"):
            try:
                found = auction.price_range(path.read_bytes())
                told = f"least;{found.least}\ngreatest;{found.greatest}\n"
            except auction.Refused as refused:
                told = f"refused;{refused.number}\n"
            self.assertEqual(told, path.with_suffix(".range").read_text(), path.name)

    def test_what_is_no_list(self):
        step = 1, 3000, 60, 140
        for at, wrong in (0, 2), (0, 1 << 24), (1, 0), (1, 300_001), (2, 141), (3, 100_000):
            other = [wrong if place == at else number for place, number in enumerate(step)]
            self.assertEqual(refusal(auction.price_range, list_of(step, other)), 17, other)
        full = list_of(*[step] * 257)
        for length in [*range(81), 4080, 4095, 4096, 4097, 4112]:
            expected = 0 if length % 16 == 0 and length <= 4096 else 17
            self.assertEqual(refusal(auction.price_range, full[:length]), expected, length)
        with self.assertRaisesRegex(auction.Refused, "^refused with 17: a list longer than 4096 bytes"):
            auction.price_range(b"no list")

    def test_the_sheets_of_the_samples(self):
        for path in SAMPLES.glob("*.sheet"):
            book = path.with_suffix(".book").read_bytes()
            self.assertEqual(auction.sheet(book), path.read_text(), path.name)

    def test_outcomes_and_prices_are_those_of_the_sheets(self):
        for name, book in books().items():
            outcome, prices, sheet, *_ = said(book)
            if prices is None:
                self.assertEqual(sheet, f"refused;{outcome}\n", name)
                continue
            hours = [f"{at};{hour.price};{hour.traded}" for at, hour in enumerate(outcome.hours, 1)]
            blocks = sorted(row.number for row in outcome.rows if row.kind == "block")
            taken = [f"{number};{int(number in outcome.taken)}" for number in blocks]
            lines = ["hour;cents;tenths", *hours, "block;taken", *taken, f"welfare;{outcome.welfare}", ""]
            self.assertEqual(sheet.split("\n"), lines, name)
            priced = [outcome.hours[hour - 1].price for hour in hours_of(book)]
            if book[7] < FIRST_SHIFT_EDITION:
                self.assertEqual([price.price for price in prices], priced, name)
            for price, published in zip(prices, priced):
                self.assertTrue(price.low <= published <= price.high, name)
                self.assertEqual(price.price, (price.low + price.high) // 2, name)

    def test_prices_under_sets(self):
        both, opposite = sample("S6.book"), sample("opposite-blocks.book")
        self.assertEqual(auction.price(both, 0, 1), auction.Price(3000, 5000, 4000))
        self.assertEqual(auction.price(both, 3, 1), auction.Price(1, 3000, 1500))
        self.assertEqual(auction.price(opposite, 3, 1), auction.Price(1, 300_000, 150_000))
        self.assertIsNone(auction.price(opposite, 1, 1))
        self.assertIsNone(auction.price(opposite, 2, 1))

    def test_each_refusal(self):
        names = {f"refused-{number}": number for number in range(1, 7)}
        names.update({"refused-4-edition-2": 4, "refused-6-edition-2": 6, "refused-9-step": 9, "refused-9-block": 9})
        names.update({"refused-2-edition-3": 2, "refused-10": 10, "refused-10-order": 10, "refused-11": 11})
        for name, number in names.items():
            book = sample(f"{name}.book")
            calls = (auction.read,), (auction.clear,), (auction.price, 0, 1), (auction.families,), (auction.cash,)
            for call, *words in calls:
                self.assertEqual(refusal(call, book, *words), number)
        for hour in 0, 25, 1 << 31:
            self.assertEqual(refusal(auction.price, sample("S5.book"), 0, hour), 8)
        self.assertEqual(refusal(auction.price, sample("S5.book"), 2, 1), 8)
        self.assertEqual(refusal(auction.read, b""), 1)

    def test_a_refusal_says_its_number_and_words(self):
        with self.assertRaises(auction.Refused) as caught:
            auction.clear(b"no book")
        words = "length not 16 x R, below 16 bytes, or R outside 1 to 2048"
        self.assertEqual((caught.exception.number, caught.exception.words), (1, words))
        self.assertEqual(str(caught.exception), f"refused with 1: {words}")
        for other in copy.copy(caught.exception), pickle.loads(pickle.dumps(caught.exception)):
            self.assertEqual((other.number, str(other)), (1, str(caught.exception)))

    def test_bytes_and_nothing_else(self):
        book = sample("S5.book")
        for other in None, "text", 5, bytearray(book), memoryview(book), [1, 2], SAMPLES / "S5.book":
            plain = auction.read, auction.clear, auction.sheet, auction.families, auction.cash
            calls = *((call,) for call in plain), (auction.price, 0, 1)
            for call, *words in calls:
                with self.assertRaisesRegex(TypeError, "a book is bytes, and not "):
                    call(other, *words)
            with self.assertRaisesRegex(TypeError, "a list is bytes, and not "):
                auction.price_range(other)
        for set_, hour in (-1, 1), (1 << 32, 1), (0, -1), (0, 1 << 32), (0.0, 1), (0, "1"):
            with self.assertRaisesRegex(ValueError, "expected a number of 32 bits"):
                auction.price(book, set_, hour)


class Header(unittest.TestCase):
    def setUp(self):
        self.text = (ROOT / "include" / "auction.h").read_text()

    def test_the_calls_have_their_parameters(self):
        kinds = {"const uint8_t *": auction._BYTES, "uint8_t *": auction._BYTES, "size_t ": auction._SIZE}
        kinds["uint32_t "] = auction._NUMBER
        declared = {}
        for name, inside in re.findall(r"^uint32_t (auction_\w+)\((.*)\);$", self.text, re.M):
            words = [re.fullmatch(r"(.*[ *])\w+", one).group(1) for one in inside.split(", ")]
            declared[name] = tuple(kinds[word] for word in words)
        self.assertEqual(auction._CALLS, declared)

    def test_every_refusal_has_words(self):
        defined = re.findall(r"#define AUCTION_REFUSED_\w+ +(\d+)", self.text)
        self.assertEqual(sorted(auction._REFUSALS), [int(number) for number in defined])
        self.assertTrue(all(auction._REFUSALS.values()))


class Threads(unittest.TestCase):
    """Threads that begin together, on the stack that the header says is enough."""

    def setUp(self):
        before = threading.stack_size(auction.STACK)
        self.addCleanup(threading.stack_size, before)

    def test_many_threads_get_what_one_gets(self):
        all_books = list(books().values())
        alone = [said(book) for book in all_books]
        for turn in range(3):
            start, wrong = threading.Barrier(24), []

            def run(at: int) -> None:
                start.wait()
                if said(all_books[at]) != alone[at]:
                    wrong.append(at)

            places = [(index + 7 * turn) % len(all_books) for index in range(24)]
            threads = [threading.Thread(target=run, args=(at,)) for at in places]
            for thread in threads:
                thread.start()
            for thread in threads:
                thread.join()
            self.assertEqual(wrong, [])

    def test_the_stated_stack_is_enough(self):
        done = []
        thread = threading.Thread(target=lambda: done.extend(map(said, books().values())))
        thread.start()
        thread.join()
        self.assertEqual(len(done), len(books()))


class Program(unittest.TestCase):
    """`python3 -m auction`: messages of one line, and nothing of Python."""

    def run_on(self, *words, command=(), **more) -> subprocess.CompletedProcess:
        environment = {**os.environ, "PYTHONPATH": str(HERE), **more.pop("env", {})}
        options = {"stdout": subprocess.PIPE, "stderr": subprocess.PIPE, "text": True, **more}
        words = [*command, sys.executable, "-m", "auction", *map(str, words)]
        return subprocess.run(words, env=environment, cwd="/", check=False, **options)

    def complaint(self, ended: subprocess.CompletedProcess, code: int) -> str:
        self.assertEqual((ended.returncode, ended.stderr.count("\n")), (code, 1), ended.stderr)
        self.assertTrue(ended.stderr.startswith("auction: "), ended.stderr)
        return ended.stderr[len("auction: ") : -1]

    def test_a_sheet(self):
        ended = self.run_on(SAMPLES / "S5.book")
        self.assertEqual((ended.returncode, ended.stderr), (0, ""))
        self.assertEqual(ended.stdout, (SAMPLES / "S5.sheet").read_text())

    def test_a_refusal(self):
        book = SAMPLES / "refused-3.book"
        ended = self.run_on(book)
        self.assertEqual(ended.stdout, "refused;3\n")
        self.assertIn(f"{book}: refused with 3: on a chain: ", self.complaint(ended, 1))

    def test_a_wrong_path_and_a_folder(self):
        ended = self.run_on("nowhere.book")
        self.assertEqual(self.complaint(ended, 2), "nowhere.book: No such file or directory")
        self.assertEqual(self.complaint(self.run_on(SAMPLES), 2), f"{SAMPLES}: Is a directory")

    def test_an_empty_file(self):
        with tempfile.NamedTemporaryFile() as empty:
            ended = self.run_on(empty.name)
            self.assertEqual(ended.stdout, "refused;1\n")
            self.assertIn("refused with 1: length not ", self.complaint(ended, 1))

    def test_a_standard_output_that_cannot_be_written(self):
        closed = self.run_on(SAMPLES / "S5.book", command=("sh", "-c", '"$@" >&-', "sh"))
        self.assertEqual(self.complaint(closed, 2), "there is no standard output to write to")
        reader, unread = os.pipe()
        os.close(reader)
        with open("/dev/full", "w") as full, open(unread, "w") as unread_pipe:
            for out, reason in (full, "No space left on device"), (unread_pipe, "Broken pipe"):
                ended = self.run_on(SAMPLES / "S5.book", stdout=out)
                self.assertEqual(self.complaint(ended, 2), f"cannot write standard output: {reason}")

    def test_wrong_words(self):
        for words in (), ("--help",), ("one", "two"):
            self.assertEqual(self.complaint(self.run_on(*words), 2), "usage: python3 -m auction BOOK")

    def test_no_library(self):
        ended = self.run_on(SAMPLES / "S5.book", env={"AUCTION_LIBRARY": "/nowhere.so"})
        self.assertEqual(self.complaint(ended, 2), "there is no /nowhere.so; `./build library` makes it")
        ended = self.run_on(SAMPLES / "S5.book", env={"AUCTION_LIBRARY": str(SAMPLES / "S5.book")})
        self.assertIn("S5.book is no library of this machine: ", self.complaint(ended, 2))


if __name__ == "__main__":
    unittest.main()

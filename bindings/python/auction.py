"""The proved clearing of a day-ahead auction: calls of libauction.so.

`./build library` makes the library at the root of the repository; the environment variable
AUCTION_LIBRARY names another file. A book is a `bytes`, and so is a list (docs/FORMATS.md), and
nothing else; what is none is refused, by an exception with the number and the words of the cause.

    import auction
    outcome = auction.clear(book)
    outcome.hours[0].price, outcome.welfare, outcome.taken
    auction.families(book)[0].gain
    auction.cash(book).portfolio(1).paid
    auction.price_range(struct.pack(">8I", 0, 5000, 100, 100, 1, 3000, 60, 140)).greatest

    python3 -m auction day.book         prints the sheet of a book's file

The calls share nothing: any number of threads may call at once, each with STACK bytes of stack.
"""

import ctypes
import functools
import os
import re
import sys
from dataclasses import dataclass
from pathlib import Path
from typing import Dict, List, Optional, Tuple

_ROOT = Path(__file__).resolve().parents[2]
_HEADER = _ROOT / "include" / "auction.h"
_DEFINITION = re.compile(r"#define AUCTION_(\w+) +(\d+) +/\* (.*) \*/")


class Missing(Exception):
    """The library or its header is not where it is looked for."""


class Refused(Exception):
    """A book, a call or a list that is refused: `number`, 1 to 10 or 17, and the `words` of the cause."""

    def __init__(self, number: int):
        self.number = number
        self.words = _REFUSALS[number]
        super().__init__(number)  # so that it can be copied and pickled

    def __str__(self) -> str:
        return f"refused with {self.number}: {self.words}"


def _definitions() -> Dict[str, Tuple[int, str]]:
    """The numbers of the header and the words behind them, by name."""
    try:
        text = _HEADER.read_text(encoding="ascii")
    except OSError as error:
        raise Missing(f"{_HEADER}: {error.strerror}") from None
    return {name: (int(number), words) for name, number, words in _DEFINITION.findall(text)}


_NUMBERS = {name: number for name, (number, _) in _definitions().items()}
_REFUSALS = {number: words for name, (number, words) in _definitions().items() if name.startswith("REFUSED_")}

HOURS = _NUMBERS["HOURS"]
STACK = _NUMBERS["STACK"]
"""The bytes of stack that a call needs at most."""

_BYTES, _SIZE, _NUMBER = ctypes.c_char_p, ctypes.c_size_t, ctypes.c_uint32
_CALLS = {
    "auction_read": (_BYTES, _SIZE),
    "auction_price": (_BYTES, _SIZE, _NUMBER, _NUMBER, _NUMBER),
    "auction_clear": (_BYTES, _SIZE, _BYTES, _SIZE),
    "auction_sheet": (_BYTES, _SIZE, _BYTES, _SIZE),
    "auction_families": (_BYTES, _SIZE, _BYTES, _SIZE),
    "auction_cash": (_BYTES, _SIZE, _BYTES, _SIZE),
    "auction_range": (_BYTES, _SIZE, _NUMBER),
}


@functools.lru_cache(maxsize=None)
def _library() -> ctypes.CDLL:
    """The library, loaded at the first call, with what each call takes and answers."""
    path = os.environ.get("AUCTION_LIBRARY") or str(_ROOT / "target" / "lib" / "libauction.so")
    if not os.path.exists(path):
        raise Missing(f"there is no {path}; `./build library` makes it")
    try:
        library = ctypes.CDLL(path)
    except OSError as error:
        raise Missing(f"{path} is no library of this machine: {error}") from None
    for name, arguments in _CALLS.items():
        call = getattr(library, name)
        call.argtypes, call.restype = arguments, _NUMBER
    return library


@dataclass(frozen=True)
class Price:
    """The least and the greatest clearing price of an hour and the price between them, in cents per MWh."""

    low: int
    high: int
    price: int


@dataclass(frozen=True)
class Hour:
    """What is published of an hour: cents per MWh and tenths of a MW; 0 and 0 of hour 3 on a day of 23 hours."""

    price: int
    traded: int


@dataclass(frozen=True)
class Row:
    """What an order gets: `kind` is "step" or "block", each numbered separately; `executed` are tenths of a MW
    in each of its hours, 0 for a block that is left out, its share for a step at the price. A row of kind "link" has its child's number and 0."""

    kind: str
    number: int
    executed: int


@dataclass(frozen=True)
class Outcome:
    """What is published of an accepted book: the welfare in tenths of a cent, the hours from hour 1 on, and the
    orders and links as they stand in the book."""

    welfare: int
    hours: Tuple[Hour, ...]
    rows: Tuple[Row, ...]

    def step(self, number: int) -> int:
        """What the step of this number gets; KeyError where there is none."""
        return self._executed("step", number)

    def block(self, number: int) -> int:
        """What the block of this number gets in each of its hours; KeyError where there is none."""
        return self._executed("block", number)

    def _executed(self, kind: str, number: int) -> int:
        for row in self.rows:
            if (row.kind, row.number) == (kind, number):
                return row.executed
        raise KeyError(f"no {kind} {number}")

    def _blocks(self) -> list:
        """The rows of the blocks in rising number, which is the order of their chain."""
        return sorted((row for row in self.rows if row.kind == "block"), key=lambda row: row.number)

    @property
    def taken(self) -> Tuple[int, ...]:
        """The numbers of the taken blocks, rising."""
        return tuple(row.number for row in self._blocks() if row.executed)

    @property
    def set(self) -> int:
        """The taken blocks as a set for `price`: the lowest bit is the first block of the chain."""
        return sum(1 << position for position, row in enumerate(self._blocks()) if row.executed)


@dataclass(frozen=True)
class Family:
    """A block without a parent, by its number, and what it and all blocks below it gain, in tenths of a cent."""

    block: int
    gain: int


@dataclass(frozen=True)
class Account:
    """What a portfolio, or all of them together, trades over the day: quantities in tenths of a MWh and cash in
    tenths of a cent, hour 3 as the day counts it."""

    bought: int
    sold: int
    paid: int
    received: int


@dataclass(frozen=True)
class Cash:
    """The accounts of an accepted book: each portfolio with an order, executed or not, in rising number, and all
    orders together. As much is bought as sold, and as much paid as received."""

    portfolios: Tuple[Tuple[int, Account], ...]
    all: Account

    def portfolio(self, number: int) -> Account:
        """The account of the portfolio of this number; KeyError where it has no order."""
        for other, account in self.portfolios:
            if other == number:
                return account
        raise KeyError(f"no order of portfolio {number}")


@dataclass(frozen=True)
class PriceRange:
    """The least and the greatest price of an hour whose quantities are uncertain, in cents per MWh."""

    least: int
    greatest: int


def read(book: bytes) -> None:
    """Reads a book, and raises Refused where it is not accepted."""
    _done(_library().auction_read(*_bytes(book)))


def price(book: bytes, set: int, hour: int) -> Optional[Price]:
    """The price of an hour, 1 to 24, under a set of blocks, whose lowest bit is the first block of the chain; None
    where no price clears the hour. Raises Refused, also for hour 3 of a day of 23 hours."""
    for number in (set, hour):
        if not isinstance(number, int) or not 0 <= number < 1 << 32:
            raise ValueError(f"expected a number of 32 bits, and not {number!r}")
    bytes_of_book = _bytes(book)

    def part(name: str) -> int:
        return _library().auction_price(*bytes_of_book, set, hour, _NUMBERS[name])

    answer = part("PART_ANSWER")
    if answer == _NUMBERS["DOES_NOT_CLEAR"]:
        return None
    _done(answer)
    return Price(part("PART_LOW"), part("PART_HIGH"), part("PART_PRICE"))


def clear(book: bytes) -> Outcome:
    """Clears the day: what is published of a book. Raises Refused."""
    records = len(_bytes(book)[0]) // _NUMBERS["RECORD_SIZE"]
    result = ctypes.create_string_buffer(_NUMBERS["RESULT_HEAD"] + _NUMBERS["RESULT_RECORD"] * records)
    _done(_library().auction_clear(book, len(book), result, len(result)))
    return _outcome(book, result.raw)


def sheet(book: bytes) -> str:
    """The sheet of a book, or the line `refused;` and the number."""
    return _text("auction_sheet", "MOST_SHEET", book)


def families(book: bytes) -> Tuple[Family, ...]:
    """The gain of each family at the published prices, in rising number of the block without a parent; a block
    without links is its own family. Raises Refused."""
    return tuple(Family(int(block), int(gain)) for block, gain in _fields(family_report(book)))


def family_report(book: bytes) -> str:
    """The family report of a book, or the line `refused;` and the number."""
    return _text("auction_families", "MOST_FAMILIES", book)


def cash(book: bytes) -> Cash:
    """What each portfolio buys and sells, pays and receives at the published prices, and all orders together. Raises
    Refused."""
    *lines, totals = ((name, Account(*map(int, numbers))) for name, *numbers in _fields(cash_sheet(book)))
    return Cash(tuple((int(name), account) for name, account in lines), totals[1])


def cash_sheet(book: bytes) -> str:
    """The cash sheet of a book, or the line `refused;` and the number."""
    return _text("auction_cash", "MOST_CASH", book)


def _fields(report: str) -> List[List[str]]:
    """The fields of each line behind the title; raises Refused where the report is a refusal."""
    first, *lines = (line.split(";") for line in report.splitlines())
    if first[0] == "refused":
        raise Refused(int(first[1]))
    return lines


def price_range(list: bytes) -> PriceRange:
    """The least and the greatest price of an hour without blocks, over all quantities between the low and the high
    figure of each step of a list; no steps are a list too. Raises Refused."""
    bytes_of_list = _bytes(list, "list")

    def part(name: str) -> int:
        return _library().auction_range(*bytes_of_list, _NUMBERS[name])

    _done(part("RANGE_ANSWER"))
    return PriceRange(part("RANGE_LEAST"), part("RANGE_GREATEST"))


def _text(call: str, most: str, book: bytes) -> str:
    """What a call writes of a book."""
    out = ctypes.create_string_buffer(_NUMBERS[most])
    length = getattr(_library(), call)(*_bytes(book), out, len(out))
    return out.raw[:length].decode("ascii")


def _bytes(given: bytes, what: str = "book") -> Tuple[bytes, int]:
    if not isinstance(given, bytes):
        raise TypeError(f"a {what} is bytes, and not {type(given).__name__}")
    return given, len(given)


def _done(answer: int) -> None:
    if answer != _NUMBERS["DONE"]:
        raise Refused(answer)


def _number(part: bytes) -> int:
    return int.from_bytes(part, "big")


def _outcome(book: bytes, result: bytes) -> Outcome:
    """Takes the result of an accepted book apart."""
    pairs = [result[at : at + 8] for at in range(8, 8 + 8 * HOURS, 8)]
    hours = tuple(Hour(_number(pair[:4]), _number(pair[4:])) for pair in pairs)
    size, step = _NUMBERS["RECORD_SIZE"], _NUMBERS["RESULT_RECORD"]
    rows = []
    for record in range(1, len(book) // size):
        order = book[size * record : size * (record + 1)]
        at = _NUMBERS["RESULT_HEAD"] + step * record
        kind = {1: "step", 2: "block", 3: "link"}[order[0]]
        rows.append(Row(kind, _number(order[4:6]), _number(result[at : at + step])))
    return Outcome(_number(result[:8]), hours, tuple(rows))


def _main(words: list) -> int:
    """Prints the sheet of a book's file. 0 for a sheet, 1 for a refusal, 2 where something cannot be read or written."""
    if len(words) != 1 or words[0].startswith("-"):
        return _complain("usage: python3 -m auction BOOK")
    try:
        with open(words[0], "rb") as file:
            book = file.read(_NUMBERS["MOST_BOOK"] + 1)  # a longer one is refused as well
    except OSError as error:
        return _complain(f"{words[0]}: {error.strerror}")
    try:
        if sys.stdout is None:
            return _complain("there is no standard output to write to")
        sys.stdout.write(sheet(book))
        sys.stdout.flush()
    except Missing as missing:
        return _complain(str(missing))
    except OSError as error:
        sys.stdout = None  # so that Python does not try again at its end
        return _complain(f"cannot write standard output: {error.strerror}")
    try:
        read(book)
    except Refused as refused:
        _complain(f"{words[0]}: {refused}")
        return 1
    return 0


def _complain(message: str) -> int:
    if sys.stderr is not None:
        print(f"auction: {message}", file=sys.stderr)
    return 2


if __name__ == "__main__":
    sys.exit(_main(sys.argv[1:]))

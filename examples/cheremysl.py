#!/usr/bin/env python3
"""cheremysl.py JOB: every best sheet of a job file, its total and then the port number of each pad
cheremysl.py PADS PORTS: the same of a file of pads and one of port heights, a strip of slots

The status is 0 for sheets, 1 for a refused job, 2 for any other failure.

As a module, the calls of the shared library for Python:

    library = Cheremysl()
    job = job_of([(101, 10, 15, 10), (102, 20, 15, 20)])  # name, x, y, port height of each record
    total, ports = library.first(job)
    for total, ports in library.sheets(job, length_weight=1, bend_weight=0): ...
    total, ports = library.place(job, library.count(job) // 2)  # the sheet in the middle of them
    text = library.svg(job, ports)  # its leaders for a web page, inside an svg element
    total, ports = library.table_first(job, [7, 0, 0, 7])  # the figure of each pad with each port
    squares = job_of([(101, 10, 15, 10), (102, 20, 15, 20)], half_sides=2)  # or one for each pad
    pads, strip = pads_of([(101, 10, 15), (102, 20, 15)]), ports_of(range(0, 320, 10))
    total, ports = library.slots_first(pads, strip)  # 32 slots, of which 30 stay free
    pads = library.read_csv(open("board.csv", "rb").read())  # from the list of a board tool

Jobs, pads, strips and lists of pads are bytes, a layout is any sequence of port numbers, a table any
sequence of figures, pad by pad, ports rising; all are only read. What C's list would hold
afterwards is returned. A refusal is an exception, Refusal; the end is None. A number that does not
fit C's type is an OverflowError. The slots calls make their work list, or take one of work_of, for
a run of calls; count and place make their buffer, or take one of buffer_of. The manual is
cheremysl(3).
"""
import array
import ctypes
import os
import signal
import struct
import sys

RECORD = struct.Struct("<HHIii")  # name, half-side, x, y, port height: 16 bytes, little-endian
HEIGHT = struct.Struct("<i")  # of a port that stands apart
MAX_RECORDS = 64
MAX_SLOTS = 128
DRAW_FLOATS = 6
SVG_BYTES = 76  # that a leader's line has at most
PAGE_SHEETS = 20  # fetched at once
END = -1

TEXTS = {  # as cheremysl_refusal_text of the C header has them
    1: "The pads are not 1 to 64 records of 16 bytes, or the list of ports, if there is one, "
    "not 1 to 128 heights of 4 bytes.",
    2: "A weight is above 1,000.",
    3: "The list of the layout, or of the points, is too short.",
    4: "A number of this record, or the height of this port, is outside its range.",
    5: "This port is not above the port before it.",
    6: "The name of this record stands in an earlier record too.",
    7: "The x of this record stands in an earlier record too.",
    8: "The port given to this record is not there, or an earlier record has it.",
    9: "This record and an earlier one touch: the leader of one meets the leader or the "
    "square of the other.",
    10: "No two records touch, but another sheet has a smaller total.",
    11: "There is no pad, or no port, of the number given.",
    12: "This port is less than 8 above the port before it.",
    13: "The table does not have just one figure for each pad with each port.",
    14: "There are fewer ports than pads.",
    15: "On every sheet of this board a leader meets another leader or the square of another pad.",
    16: "This board has more than 1,000,000,000,000,000,000 best sheets.",
    17: "There is no best sheet at this place: they are fewer.",
    18: "The buffer is too short for so many pads.",
    19: "The text of this sheet is longer than the room lent for it.",
    20: "The text with the pads is longer than 16,384 bytes.",
    21: "This line is not name,x,y, if it is the first, or else a name, an x and a y with "
    "commas between them; lines end with CR LF.",
    22: "The room for the pads is less than 16 bytes for each.",
    24: "The work list is too short for so many pads and ports.",
}


class Refusal(Exception):
    """A refusal: its number, the record, port or line at fault, in refusal 9 the earlier one, else
    None."""

    def __init__(self, number, record, earlier=None):
        super().__init__(number, record, earlier)
        self.number, self.record, self.earlier = number, record, earlier

    def __str__(self):
        pair = "" if self.earlier is None else f" and record {self.earlier}"
        text = TEXTS.get(self.number, "The library has a reason that is not known here.")
        where = "line" if self.number == 21 else "record"
        return f"refused {self.number} {where} {self.record}{pair}: {text}"


def job_of(records, half_sides=0):
    """The bytes of a job, from a name, x, y and port height for each record, and one half-side for
    all pads or a sequence of them."""
    records = list(records)
    halves = [half_sides] * len(records) if isinstance(half_sides, int) else list(half_sides)
    if len(halves) != len(records):
        raise ValueError(f"{len(halves)} half-sides for {len(records)} pads")
    pads = zip(records, halves)
    return b"".join(RECORD.pack(name, half, x, y, port) for (name, x, y, port), half in pads)


def pads_of(pads, half_sides=0):
    """The bytes of the pads for a strip of slots, from a name, x and y for each, and half-sides."""
    return job_of(((name, x, y, 0) for name, x, y in pads), half_sides)


def ports_of(heights):
    """The bytes of a strip of slots, from its port heights."""
    return b"".join(HEIGHT.pack(height) for height in heights)


def records_in(job):
    """n, the number of a job's records."""
    return len(job) // RECORD.size


def work_of(pads, ports):
    """A work list for the slots calls with so many pads and ports, or fewer."""
    n, p = min(records_in(pads), MAX_RECORDS), min(len(ports) // HEIGHT.size, MAX_SLOTS)
    return (ctypes.c_uint64 * (2 * (n + 1) * (p + 2) ** 2))()


def buffer_of(job):
    """A buffer for count and place with so many records, or fewer."""
    n = min(records_in(job), MAX_RECORDS)
    return (ctypes.c_uint64 * (2 * (n + 2) ** 2))()


def taken_apart(answer):
    """A call's answer, or the refusal that it stands for."""
    if answer >= END:
        return answer
    earlier, rest = divmod(-answer, 1 << 32)
    number, record = divmod(rest, 1 << 16)
    raise Refusal(number, record, earlier if number == 9 else None)


def word(number):
    """A number for C's uint32_t: ctypes would drop what does not fit."""
    return array.array("I", [number])[0]


def long_word(number):
    """A number for C's uint64_t."""
    return array.array("Q", [number])[0]


def lent(kind, values):
    """The values as a list for C, and their number."""
    count = len(values)
    return (kind * count).from_buffer(values) if count else (kind * 0)(), count


def bytes_of(job):
    return lent(ctypes.c_uint8, bytearray(memoryview(job)))


def layout_of(ports):
    return lent(ctypes.c_uint16, array.array("H", ports))


def table_of(figures):
    return lent(ctypes.c_uint32, array.array("I", figures))


def found(total, layout, job):
    """What a call answered and wrote: a sheet, or None at the end."""
    return None if total == END else (total, layout[: records_in(job)])


class Cheremysl:
    """The library: by its path, by the path in CHEREMYSL_LIBRARY, or where the loader finds it."""

    def __init__(self, path=None):
        path = path or os.environ.get("CHEREMYSL_LIBRARY") or "libcheremysl.so.2"
        library = ctypes.CDLL(path)
        byte, port, figure = ctypes.c_uint8, ctypes.c_uint16, ctypes.c_uint32
        job, layout, table, points, work = (
            [ctypes.POINTER(kind), ctypes.c_size_t]
            for kind in (byte, port, figure, ctypes.c_float, ctypes.c_uint64)
        )
        numbers = [ctypes.c_uint32, ctypes.c_uint32]

        def call(name, *words):
            function = getattr(library, "cheremysl_" + name)
            function.argtypes, function.restype = job + [*words], ctypes.c_int64
            return function

        self._first, self._next = call("first", *numbers, *layout), call("next", *numbers, *layout)
        self._page = call("page", *numbers, *layout, *layout)
        self._count = call("count", *numbers, *work)
        self._place = call("place", *numbers, ctypes.c_uint64, *layout, *work)
        self._measure = call("measure", *numbers, *layout)
        self._draw = call("draw", *numbers, *points)
        self._svg = call("svg", *layout, ctypes.c_char_p, ctypes.c_size_t)
        self._read_csv = call("read_csv", *job)
        self._table_first = call("table_first", *table, *layout)
        self._table_next = call("table_next", *table, *layout)
        self._table_measure = call("table_measure", *table, *layout)
        self._slots_first = call("slots_first", *job, *numbers, *layout, *work)
        self._slots_next = call("slots_next", *job, *numbers, *layout, *work)
        self._slots_measure = call("slots_measure", *job, *numbers, *layout)

    @staticmethod
    def _ask_lists(call, job, *words):
        return taken_apart(call(*bytes_of(job), *words))

    def _ask(self, call, job, a, b, *lists):
        return self._ask_lists(call, job, word(a), word(b), *lists)

    def _ask_slots(self, call, pads, ports, weights, *lists):
        return self._ask_lists(call, pads, *bytes_of(ports), *map(word, weights), *lists)

    def first(self, job, length_weight=1, bend_weight=0):
        """The earliest best sheet: its total, and the list of its port numbers."""
        layout, entries = layout_of([0] * MAX_RECORDS)
        total = self._ask(self._first, job, length_weight, bend_weight, layout, entries)
        return found(total, layout, job)

    def next_(self, job, layout, length_weight=1, bend_weight=0):
        """The best sheet after a given one, as from first; None at the end."""
        layout, entries = layout_of(layout)
        total = self._ask(self._next, job, length_weight, bend_weight, layout, entries)
        return found(total, layout, job)

    def page(self, job, layout, sheets, length_weight=1, bend_weight=0):
        """The best sheets after a given one, so many at most: a list of lists of port numbers."""
        n = records_in(job)
        page, room = layout_of([0] * (sheets * n))
        weights = length_weight, bend_weight
        written = self._ask(self._page, job, *weights, *layout_of(layout), page, room)
        return [page[k * n : (k + 1) * n] for k in range(written)]

    def count(self, job, length_weight=1, bend_weight=0, buffer=None):
        """How many best sheets there are."""
        buffer = buffer_of(job) if buffer is None else buffer
        return self._ask(self._count, job, length_weight, bend_weight, buffer, len(buffer))

    def place(self, job, place, length_weight=1, bend_weight=0, buffer=None):
        """The best sheet at a place, counted from 0, as from first."""
        layout, entries = layout_of([0] * MAX_RECORDS)
        buffer = buffer_of(job) if buffer is None else buffer
        words = long_word(place), layout, entries, buffer, len(buffer)
        total = self._ask(self._place, job, length_weight, bend_weight, *words)
        return found(total, layout, job)

    def measure(self, job, layout, length_weight=1, bend_weight=0):
        """The total of a sheet on which nothing touches, best or not."""
        return self._ask(self._measure, job, length_weight, bend_weight, *layout_of(layout))

    def draw(self, job, record, port):
        """The points of the leader from a record's pad to a port: two or three pairs x, y."""
        points = (ctypes.c_float * DRAW_FLOATS)()
        count = self._ask(self._draw, job, record, port, points, DRAW_FLOATS)
        return [(points[2 * k], points[2 * k + 1]) for k in range(count)]

    def svg(self, job, layout, room=SVG_BYTES * MAX_RECORDS):
        """The leaders of a sheet on which nothing touches, best or not: a line of SVG for each.
        The room, in bytes, is enough for any."""
        text = ctypes.create_string_buffer(room)
        written = self._ask_lists(self._svg, job, *layout_of(layout), text, room)
        return text.raw[:written].decode("ascii")

    def read_csv(self, text, room=MAX_RECORDS * RECORD.size):
        """The pads of a list that a board tool saves, as from pads_of. The room, in bytes, is
        enough for any."""
        pads, bytes_ = bytes_of(bytes(room))
        count = self._ask_lists(self._read_csv, text, pads, bytes_)
        return bytes(pads[: count * RECORD.size])

    def table_first(self, job, table):
        """The earliest best sheet by a table, as from first; the total is that of its figures."""
        layout, entries = layout_of([0] * MAX_RECORDS)
        total = self._ask_lists(self._table_first, job, *table_of(table), layout, entries)
        return found(total, layout, job)

    def table_next(self, job, table, layout):
        """The best sheet by a table after a given one, as from table_first; None at the end."""
        layout, entries = layout_of(layout)
        total = self._ask_lists(self._table_next, job, *table_of(table), layout, entries)
        return found(total, layout, job)

    def table_measure(self, job, table, layout):
        """The total by a table of a sheet on which nothing touches, best or not."""
        return self._ask_lists(self._table_measure, job, *table_of(table), *layout_of(layout))

    def _search_slots(self, call, pads, ports, layout, weights, work):
        layout, entries = layout_of(layout)
        work = work_of(pads, ports) if work is None else work
        total = self._ask_slots(call, pads, ports, weights, layout, entries, work, len(work))
        return found(total, layout, pads)

    def slots_first(self, pads, ports, length_weight=1, bend_weight=0, work=None):
        """The earliest best sheet on a strip of slots, as from first."""
        layout, weights = [0] * MAX_RECORDS, (length_weight, bend_weight)
        return self._search_slots(self._slots_first, pads, ports, layout, weights, work)

    def slots_next(self, pads, ports, layout, length_weight=1, bend_weight=0, work=None):
        """The best sheet on a strip of slots after a given one, as from first; None at the end."""
        weights = length_weight, bend_weight
        return self._search_slots(self._slots_next, pads, ports, layout, weights, work)

    def slots_measure(self, pads, ports, layout, length_weight=1, bend_weight=0):
        """The total on a strip of slots of a sheet on which nothing touches, best or not."""
        weights = length_weight, bend_weight
        return self._ask_slots(self._slots_measure, pads, ports, weights, *layout_of(layout))

    def slots_sheets(self, pads, ports, length_weight=1, bend_weight=0):
        """Every best sheet on a strip of slots, in order, each as from first."""
        weights, work = (length_weight, bend_weight), work_of(pads, ports)
        sheet = self.slots_first(pads, ports, *weights, work)
        while sheet:
            yield sheet
            sheet = self.slots_next(pads, ports, sheet[1], *weights, work)

    def sheets(self, job, length_weight=1, bend_weight=0):
        """Every best sheet, in order, each as from first; they are fetched page by page."""
        total, layout = self.first(job, length_weight, bend_weight)
        yield total, layout
        page = [layout] * PAGE_SHEETS
        while len(page) == PAGE_SHEETS:  # a page with fewer is the last
            page = self.page(job, page[-1], PAGE_SHEETS, length_weight, bend_weight)
            yield from ((total, layout) for layout in page)


def read(name, most):
    with open(name, "rb") as file:
        return file.read(most + 1)  # a byte more: a longer file is refused


def list_sheets(*files):
    library = Cheremysl()
    sheets = library.sheets if len(files) == 1 else library.slots_sheets
    try:
        for total, ports in sheets(*files):
            print(f"total {total}:", *ports)
    except Refusal as refusal:
        print(refusal)
        return 1
    return 0


def main(words):
    try:
        if len(words) not in (1, 2):
            raise OSError("usage: cheremysl.py JOB, or cheremysl.py PADS PORTS")
        most = MAX_RECORDS * RECORD.size, MAX_SLOTS * HEIGHT.size
        status = list_sheets(*map(read, words, most))
        sys.stdout.flush()
        return status
    except OSError as fault:
        print(f"cheremysl.py: {fault}", file=sys.stderr)
        return 2


if __name__ == "__main__":
    signal.signal(signal.SIGPIPE, signal.SIG_DFL)  # a reader that has enough is no failure
    sys.exit(main(sys.argv[1:]))

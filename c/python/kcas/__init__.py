"""Transactions on a store that threads share without a lock, over libkcas.so.

    import kcas
    layout = kcas.Layout()
    jobs, done = layout.queue(16), layout.loc()
    with kcas.open(layout, callers=2) as (foreman, worker):
        foreman.commit(jobs.enq(7))
        job, _ = worker.commit_waiting(jobs.deqw(), done.incr())

A caller is one thread's: hand it to a thread and use it there. A commit answers the replies of its operations that ran: None where an
operation has nothing to say, an int, a bool, kcas.EMPTY or kcas.FULL. It raises Waits where it would wait, and Refused where
it can't be made at all. Values are numbers from 0 to 4,294,967,295, else OverflowError; what is added may be negative too.

End the threads before a store is closed, as behind `with`: who waits then isn't woken, and a caller on which a call runs stays open.
"""
from __future__ import annotations

import contextlib
import ctypes
import operator
import os
import threading
import time
from typing import Iterator, List, Literal, Optional, Sequence, Union

from . import _numbers

__version__ = "0.9.0"

DONE, LATER, LOST, BUSY, PUTS, CHANGED, CLOSED, BAD_OPS, BAD_SIZE = 0, 1, 5, 6, 7, 8, 16, 18, 20
OR, FED_A, FED_B, FED_BOTH = 1, 2, 3, 4
GOING, HUNG, LEAVING, QUIET = 32, 33, 34, 36
MOST_OPS, MOST_ALTERNATIVES = 16, 4
MOST_LOCATIONS = 65536

_VERBS, _KINDS, _FUNCTIONS, _RELATIONS = (
    {word: number for number, word in enumerate(words, 1)}
    for words in (_numbers.VERBS, _numbers.KINDS, _numbers.FUNCTIONS, _numbers.RELATIONS)
)

# What puts nothing, whatever stands there.
_READS = frozenset(_VERBS[word] for word in "say get check differs top front find mpeek await resolved total len".split())

Relation = Literal["eq", "ne", "lt", "le", "gt", "ge"]
Function = Literal["add", "max", "min", "and", "or", "xor"]


class Named:
    """What an operation replied in place of a value: EMPTY or FULL."""

    def __init__(self, name: str):
        self._name = name

    def __repr__(self) -> str:
        return self._name


EMPTY, FULL = Named("EMPTY"), Named("FULL")

Reply = Union[None, int, bool, Named]


class _Handle(ctypes.Structure):
    _fields_ = [("held", ctypes.c_uint32), ("busy", ctypes.c_uint32), ("at", ctypes.c_void_p)]


class _Object(ctypes.Structure):
    _fields_ = [(name, ctypes.c_uint32) for name in ("kind", "base", "capacity", "buckets")]


class _Op(ctypes.Structure):
    _fields_ = [("verb", ctypes.c_uint32), ("mark", ctypes.c_uint32), ("on", _Object), ("a", ctypes.c_uint32), ("b", ctypes.c_uint32)]


class _Seen(ctypes.Structure):
    _fields_ = [("location", ctypes.c_uint32), ("version", ctypes.c_uint32), ("value", ctypes.c_uint32)]


class _Reply(ctypes.Structure):
    _fields_ = [("kind", ctypes.c_uint32), ("value", ctypes.c_uint32)]

    def told(self) -> Reply:
        return (None, None, self.value, self.value != 0, EMPTY, FULL)[self.kind]


def _path() -> str:
    """Where KCAS_LIB says, in the wheel, in this clone's out/c, or where the system keeps libraries."""
    here = os.path.dirname(os.path.abspath(__file__))
    named = os.environ.get("KCAS_LIB")
    if named:
        return named
    for at in (os.path.join(here, "libkcas.so"), os.path.join(here, "..", "..", "..", "out", "c", "libkcas.so")):
        if os.path.exists(at):
            return at
    return "libkcas.so." + __version__.rpartition(".")[0]


def _library() -> ctypes.CDLL:
    at = _path()
    try:
        lib = ctypes.CDLL(at)
    except OSError as error:
        raise ImportError("%s: set KCAS_LIB to the path of libkcas.so" % error) from error
    word, size, handle = ctypes.c_uint32, ctypes.c_size_t, ctypes.POINTER(_Handle)
    words, wakes = ctypes.POINTER(word), ctypes.POINTER(ctypes.c_uint64)
    for name, result, arguments in (
        ("version", ctypes.c_char_p, []),
        ("answer_name", ctypes.c_char_p, [word]),
        ("cells", word, [ctypes.POINTER(_Object)]),
        ("lay", word, [ctypes.POINTER(_Object), words, size, words]),
        ("open", word, [words, size, handle, size]),
        ("close", word, [handle]),
        ("try", word, [handle, ctypes.POINTER(_Op), size, ctypes.POINTER(_Reply), size, wakes]),
        ("view", word, [handle, ctypes.POINTER(_Op), size, ctypes.POINTER(_Reply), size]),
        ("bad_op", size, [handle, ctypes.POINTER(_Op), size, wakes]),
        ("add", word, [handle, word, word, words, wakes]),
        ("read", word, [handle, word, words, words]),
        ("reads", size, [handle, ctypes.POINTER(_Seen), size]),
        ("number", word, [handle]),
        ("hang", word, [handle]),
        ("hang_step", word, [handle]),
        ("signalled", word, [handle]),
        ("leave", word, [handle]),
    ):
        call = getattr(lib, "kcas_" + name)
        call.restype, call.argtypes = result, arguments
    found = lib.kcas_version().decode()
    if found.rpartition(".")[0] != __version__.rpartition(".")[0]:
        raise ImportError("%s is version %s, and this module is for %s" % (at, found, __version__))
    return lib


_lib = _library()


def version() -> str:
    """The version of the library."""
    return _lib.kcas_version().decode()


_CAUSES = {
    2: "the transaction would touch more than 256 locations",
    3: "a location that it would put has been put 2,147,483,647 times, and is never put again",
    4: "the store has no descriptor left, after billions of tries",
    7: "the operations would put something, which a view can't",
    8: "what the operations read was changed at each of 64 views, or another caller stopped amid its commit",
    16: "the caller is closed, or another thread uses it",
    18: "the operations are no transaction of this store",
    19: "there is no memory for a store",
    20: "there is no such size, or no room below location 65,536",
}


class Refused(Exception):
    """A call that did nothing, and won't do otherwise if it is made again: its number in kcas.h, and its name there."""

    def __init__(self, answer: int, cause: Optional[str] = None):
        self.answer = answer
        self.name = _lib.kcas_answer_name(answer).decode()
        super().__init__("%s: %s" % (self.name, cause or _CAUSES.get(answer, "not now")))


class BadOps(Refused, ValueError):
    """Operations that are no transaction of this store; `operation` is the first that is wrong, from 0 on, or None where their number is."""

    def __init__(self, cause: str, operation: Optional[int] = None):
        self.operation = operation
        super().__init__(BAD_OPS, cause)


class Waits(Exception):
    """The transaction would wait, and was not made; or it has waited as long as it may."""


def _word(number: int) -> int:
    number = operator.index(number)
    if not 0 <= number <= 0xFFFFFFFF:
        raise OverflowError("%d is no value: they are from 0 to 4294967295" % number)
    return number


def _added(number: int) -> int:
    number = operator.index(number)
    if not -0xFFFFFFFF <= number <= 0xFFFFFFFF:
        raise OverflowError("%d can't be added: what is added is from -4294967295 to 4294967295" % number)
    return number & 0xFFFFFFFF


def _number(words: dict, word: str) -> int:
    if word not in words:
        raise ValueError("%r is none of %s" % (word, " ".join(words)))
    return words[word]


class Op:
    """An operation of a transaction, made by a method of its structure."""

    __slots__ = ("raw",)

    def __init__(self, on: _Object, verb: str, a: int = 0, b: int = 0):
        self.raw = _Op(_VERBS[verb], 0, on, a, b)

    def fed(self, operation: int) -> Op:
        """Its first number, a value or a key, is what that operation of its alternative replied, the alternative's first being 0. Where that was no
        number, this one does nothing and replies EMPTY. BadOps for the first of an alternative, and for swap, update, modify and check."""
        return self._fed(FED_A, _word(operation), self.raw.b)

    def fed_second(self, operation: int) -> Op:
        """The same of its second number: of a key's value, say, or of the number of an update."""
        return self._fed(FED_B, self.raw.a, _word(operation))

    def _fed(self, mark: int, a: int, b: int) -> Op:
        raw, made = self.raw, Op.__new__(Op)
        made.raw = _Op(raw.verb, mark if raw.mark in (0, mark) else FED_BOTH, raw.on, a, b)
        return made

    def _moved(self, place: int, by: int) -> Op:
        """The same behind so many more operations: it is fed by the same ones, and by none where it was by none."""
        raw, made = self.raw, Op.__new__(Op)

        def moved(at: int) -> int:
            return at + by if at < place else 0xFFFFFFFF

        a = moved(raw.a) if raw.mark in (FED_A, FED_BOTH) else raw.a
        made.raw = _Op(raw.verb, raw.mark, raw.on, a, moved(raw.b) if raw.mark in (FED_B, FED_BOTH) else raw.b)
        return made

    def __repr__(self) -> str:
        raw = self.raw
        kind = _numbers.KINDS[raw.on.kind - 1] + " at %d" % raw.on.base if raw.on.kind else "nothing"
        return "<%s %d %d on %s>" % (_numbers.VERBS[raw.verb - 1], raw.a, raw.b, kind)


def say(number: int) -> Op:
    """Replies the number: it tells which alternative ran."""
    return Op(_Object(), "say", _word(number))


class Structure:
    """A structure that lies in a store. What its methods make is an operation, which a caller commits."""

    def __init__(self, raw: _Object):
        self._raw = raw

    @property
    def base(self) -> int:
        """Its first location."""
        return self._raw.base

    def _op(self, verb: str, a: int = 0, b: int = 0) -> Op:
        return Op(self._raw, verb, a, b)


class Loc(Structure):
    """One location, with a number."""

    def get(self) -> Op:
        return self._op("get")

    def set(self, value: int) -> Op:
        return self._op("set", _word(value))

    def xchg(self, value: int) -> Op:
        """Puts a value, and replies the one before."""
        return self._op("xchg", _word(value))

    def swap(self, other: Loc) -> Op:
        """Each gets the other's value."""
        return self._op("swap", other.base)

    def cas(self, old: int, new: int) -> Op:
        """Puts `new` where the value is `old`, and replies whether it was."""
        return self._op("cas", _word(old), _word(new))

    def add(self, number: int) -> Op:
        """Adds, which wraps, and replies the value before."""
        return self._op("add", _added(number))

    def incr(self) -> Op:
        return self._op("incr")

    def decr(self) -> Op:
        return self._op("decr")

    def update(self, function: Function, number: int) -> Op:
        """Puts what the function makes of the value and the number, and replies the value before."""
        return self._op("update", _number(_FUNCTIONS, function), _added(number) if function == "add" else _word(number))

    def modify(self, function: Function, number: int) -> Op:
        """The same, with nothing to say."""
        return self._op("modify", _number(_FUNCTIONS, function), _added(number) if function == "add" else _word(number))

    def check(self, relation: Relation, value: int) -> Op:
        """Waits unless the relation holds between the location's value and this one."""
        return self._op("check", _number(_RELATIONS, relation), _word(value))

    def differs(self, value: int) -> Op:
        """Waits while the value is this one."""
        return self._op("differs", _word(value))


class _Counted(Structure):
    def len(self) -> Op:
        """How many items or keys."""
        return self._op("len")


class Stack(_Counted):
    def push(self, item: int) -> Op:
        """FULL where there is no room."""
        return self._op("push", _word(item))

    def pushw(self, item: int) -> Op:
        """Waits where there is no room."""
        return self._op("pushw", _word(item))

    def pop(self) -> Op:
        """Takes the top item, or EMPTY."""
        return self._op("pop")

    def popw(self) -> Op:
        """Takes the top item; waits where there is none."""
        return self._op("popw")

    def top(self) -> Op:
        """The top item, which stays, or EMPTY."""
        return self._op("top")


class Queue(_Counted):
    def enq(self, item: int) -> Op:
        """FULL where there is no room."""
        return self._op("enq", _word(item))

    def enqw(self, item: int) -> Op:
        """Waits where there is no room."""
        return self._op("enqw", _word(item))

    def deq(self) -> Op:
        """Takes the front item, or EMPTY."""
        return self._op("deq")

    def deqw(self) -> Op:
        """Takes the front item; waits where there is none."""
        return self._op("deqw")

    def front(self) -> Op:
        """The front item, which stays, or EMPTY."""
        return self._op("front")

    @property
    def length(self) -> Loc:
        """The location of its number of items, for a check of it."""
        return Loc(_Object(_KINDS["loc"], self.base + 1, 0, 0))


class Table(_Counted):
    def put(self, key: int, value: int) -> Op:
        """FULL where the key is new and there is no room."""
        return self._op("put", _word(key), _word(value))

    def putw(self, key: int, value: int) -> Op:
        """Waits where the key is new and there is no room."""
        return self._op("putw", _word(key), _word(value))

    def find(self, key: int) -> Op:
        """The key's value, or EMPTY."""
        return self._op("find", _word(key))

    def del_(self, key: int) -> Op:
        """Takes the key out and replies its value, or EMPTY."""
        return self._op("del", _word(key))


class Cache(_Counted):
    """A table that drops the key that was used least recently."""

    def cput(self, key: int, value: int) -> Op:
        return self._op("cput", _word(key), _word(value))

    def cputw(self, key: int, value: int) -> Op:
        """Waits where a key would have to go."""
        return self._op("cputw", _word(key), _word(value))

    def cget(self, key: int) -> Op:
        """The key's value, or EMPTY."""
        return self._op("cget", _word(key))

    def cdel(self, key: int) -> Op:
        """Takes the key out and replies its value, or EMPTY."""
        return self._op("cdel", _word(key))


class Mvar(Structure):
    """A place for one value."""

    def mput(self, value: int) -> Op:
        """Waits where there is a value."""
        return self._op("mput", _word(value))

    def mtake(self) -> Op:
        """Takes the value; waits where there is none."""
        return self._op("mtake")

    def mpeek(self) -> Op:
        """The value, which stays, or EMPTY."""
        return self._op("mpeek")


class Promise(Structure):
    """A value that is set once."""

    def resolve(self, value: int) -> Op:
        """False where there is a value, which stays."""
        return self._op("resolve", _word(value))

    def await_(self) -> Op:
        """The value; waits where there is none."""
        return self._op("await")

    def resolved(self) -> Op:
        """Whether there is a value."""
        return self._op("resolved")


class Acc(Structure):
    """A total that is kept in several cells, so that those who add seldom meet."""

    def bump(self, number: int, by: int = 0) -> Op:
        """Adds, which wraps, in the cell that `by` picks, as a thread's number does."""
        return self._op("bump", _added(number), _word(by))

    def total(self) -> Op:
        return self._op("total")


class Layout:
    """Structures that lie one behind another, and the values that they open with."""

    def __init__(self) -> None:
        self._values = (ctypes.c_uint32 * MOST_LOCATIONS)()
        self._end = ctypes.c_uint32(0)

    @property
    def values(self) -> List[int]:
        return self._values[: self._end.value]

    def _add(self, kind: str, capacity: int = 0, buckets: int = 0) -> _Object:
        raw = _Object(_KINDS[kind], 0, _word(capacity), _word(buckets))
        if _lib.kcas_lay(ctypes.byref(raw), self._values, MOST_LOCATIONS, ctypes.byref(self._end)) != DONE:
            raise Refused(BAD_SIZE, "a %s of capacity %d and %d buckets can't lie at location %d" % (kind, capacity, buckets, self._end.value))
        return raw

    def loc(self, value: int = 0) -> Loc:
        word = _word(value)
        made = Loc(self._add("loc"))
        self._values[self._end.value - 1] = word
        return made

    def stack(self, capacity: int) -> Stack:
        return Stack(self._add("stack", capacity))

    def queue(self, capacity: int) -> Queue:
        return Queue(self._add("queue", capacity))

    def table(self, buckets: int, capacity: int) -> Table:
        return Table(self._add("table", capacity, buckets))

    def grow(self, capacity: int) -> Table:
        """A table that begins with one bucket, and splits buckets as keys come."""
        return Table(self._add("grow", capacity))

    def cache(self, buckets: int, capacity: int) -> Cache:
        return Cache(self._add("cache", capacity, buckets))

    def mvar(self) -> Mvar:
        return Mvar(self._add("mvar"))

    def promise(self) -> Promise:
        return Promise(self._add("promise"))

    def acc(self, cells: int) -> Acc:
        return Acc(self._add("acc", cells))


def _left(deadline: Optional[float]) -> Optional[float]:
    """The seconds to the deadline: at most those that a wait of Python's may take."""
    return None if deadline is None else max(0.0, min(deadline - time.monotonic(), threading.TIMEOUT_MAX))


class Caller:
    """One thread's handle on a store."""

    def __init__(self, handle: _Handle, seats: List[threading.Condition], ended: threading.Event):
        self._handle = handle
        self._number = _lib.kcas_number(handle)
        # Where each caller of the store sleeps that hangs. A signal is set in the store before its seat is notified, and is looked for with the
        # seat held: so no wake is lost.
        self._seats, self._ended = seats, ended
        self._replies = (_Reply * MOST_OPS)()
        self._wakes = ctypes.c_uint64()
        self._before = ctypes.c_uint32()
        self._version = ctypes.c_uint32()

    def close(self) -> None:
        """Closes the caller, where no call runs on it; else it stays open. Who waits on another caller isn't woken. The store is freed with
        its last caller."""
        _lib.kcas_close(ctypes.byref(self._handle))

    def _array(self, alternatives: Sequence[Sequence[Op]]) -> ctypes.Array:
        ops = [op.raw for alternative in alternatives for op in alternative]
        if not 0 < len(ops) <= MOST_OPS or len(alternatives) > MOST_ALTERNATIVES or not all(alternatives):
            raise BadOps("a transaction has 1 to 16 operations, in one to four alternatives")
        array = (_Op * len(ops))(*ops)
        at = 0
        for alternative in alternatives:
            if array[at].mark:
                raise BadOps("operation %d, %r, is the first of its alternative, so no other can feed it" % (at, alternative[0]), at)
            array[at].mark = OR if at else 0
            at += len(alternative)
        return array

    def _told(self, alternatives: Sequence[Sequence[Op]], array: ctypes.Array, answer: int) -> Optional[List[Reply]]:
        """The replies behind an answer, or None where it would wait."""
        if answer == LATER:
            return None
        if answer == BAD_OPS:
            wrong = _lib.kcas_bad_op(ctypes.byref(self._handle), array, len(array), ctypes.byref(self._wakes))
            self._wake()
            named = [op for alternative in alternatives for op in alternative][wrong:]
            raise BadOps("operation %d, %r, is none of this store" % (wrong, named[0]) if named else "no transaction of this store", wrong if named else None)
        if answer != DONE:
            raise Refused(answer)
        return [reply.told() for reply in self._replies[: len(array)] if reply.kind != 0]

    def _try(self, alternatives: Sequence[Sequence[Op]]) -> Optional[List[Reply]]:
        array = self._array(alternatives)
        while True:
            answer = _lib.kcas_try(ctypes.byref(self._handle), array, len(array), self._replies, MOST_OPS, ctypes.byref(self._wakes))
            self._wake()
            if answer not in (LOST, BUSY):
                return self._told(alternatives, array, answer)

    def look(self, *ops: Op) -> List[Reply]:
        """The replies of operations that put nothing, as of one moment. It raises Refused (KCAS_PUTS) where they would put something. No other
        caller loses by a view; but behind eight in vain operations that never put are committed, with an entry, and may raise Refused
        (KCAS_POOL_WORN), and others raise Refused (KCAS_CHANGED) behind 64."""
        array = self._array([ops])
        # A view helps nobody who stands in its way; a commit does.
        only_reads = all(op.raw.verb in _READS for op in ops)
        for _ in range(8 if only_reads else 64):
            answer = _lib.kcas_view(ctypes.byref(self._handle), array, len(array), self._replies, MOST_OPS)
            if answer not in (CHANGED, BUSY):
                told = self._told([ops], array, answer)
                break
        else:
            if not only_reads:
                raise Refused(CHANGED)
            told = self._try([ops])
        if told is None:
            raise Waits
        return told

    def end(self) -> None:
        """Ends all waits on this store: who waits, or would, gets Refused (KCAS_CLOSED) from now on. What needn't wait is done as before."""
        self._ended.set()
        for seat in self._seats:
            with seat:
                seat.notify_all()

    def life(self, location: Loc) -> int:
        """How much of the life of a location is gone: how often it has been put, of 2,147,483,647 times. Refused where there is none such."""
        self.read(location)
        return self._version.value

    def add(self, location: Loc, number: int) -> int:
        """Adds to a location, which wraps, and answers the value before. It costs less than an operation."""
        if not isinstance(location, Loc):
            raise BadOps("%r is no location" % (location,))
        added = _added(number)
        while True:
            answer = _lib.kcas_add(ctypes.byref(self._handle), location.base, added, ctypes.byref(self._before), ctypes.byref(self._wakes))
            self._wake()
            if answer not in (LOST, BUSY):
                break
        if answer != DONE:
            raise Refused(answer)
        return self._before.value

    def read(self, location: Loc) -> int:
        """The value of a location, without a transaction."""
        while True:
            answer = _lib.kcas_read(ctypes.byref(self._handle), location.base, ctypes.byref(self._before), ctypes.byref(self._version))
            if answer != BUSY:
                break
        if answer != DONE:
            raise Refused(answer)
        return self._before.value

    def first(self, *alternatives: Sequence[Op]) -> List[Reply]:
        """The first of these lists of operations that doesn't wait."""
        told = self._try(alternatives)
        if told is None:
            raise Waits
        return told

    def first_waiting(self, *alternatives: Sequence[Op], timeout: Optional[float] = None) -> List[Reply]:
        """The same, and it waits where all of them would have to; no longer than so many seconds, and then it raises Waits."""
        deadline = None if timeout is None else time.monotonic() + timeout
        while True:
            told = self._try(alternatives)
            if told is not None:
                return told
            if _left(deadline) == 0:
                raise Waits
            if self._ended.is_set():
                raise Refused(CLOSED, "the waits on this store have ended")
            self._hang(deadline)

    def _hang(self, deadline: Optional[float]) -> None:
        """Sleeps until something changes of what the last try read, or the deadline is there."""
        handle, seat = ctypes.byref(self._handle), self._seats[self._number]
        step = _lib.kcas_hang(handle)
        while step == GOING:
            step = _lib.kcas_hang_step(handle)
        if step != HUNG:
            return
        try:
            with seat:
                seat.wait_for(lambda: self._ended.is_set() or _lib.kcas_signalled(handle) != QUIET, _left(deadline))
        finally:
            step = _lib.kcas_leave(handle)
            while step == LEAVING:
                step = _lib.kcas_hang_step(handle)

    def _wake(self) -> None:
        """Wakes those whose hangs the last try has ended."""
        wakes = self._wakes.value
        while wakes:
            seat = self._seats[wakes.bit_length() - 1]
            with seat:
                seat.notify()
            wakes ^= 1 << wakes.bit_length() - 1

    def commit(self, *ops: Op) -> List[Reply]:
        """The operations as one transaction."""
        return self.first(ops)

    def commit_waiting(self, *ops: Op, timeout: Optional[float] = None) -> List[Reply]:
        """The same, and it waits where it would have to; no longer than so many seconds, and then it raises Waits."""
        return self.first_waiting(ops, timeout=timeout)

    def commit_as_seen(self, *ops: Op) -> Optional[List[Reply]]:
        """The operations as one transaction, where all that the last commit read has still the values that it had then. None where something
        has changed: then look again, and compute anew. Reads and operations are at most 16 together."""
        seen = (_Seen * (MOST_OPS + 1))()
        reads = _lib.kcas_reads(ctypes.byref(self._handle), seen, len(seen))
        if reads + len(ops) > MOST_OPS:
            raise BadOps("%d locations were read, and there are %d operations: at most 16 together" % (reads, len(ops)))
        unchanged = [Loc(_Object(_KINDS["loc"], it.location, 0, 0)).check("eq", it.value) for it in seen[:reads]]
        told = self._try([unchanged + [op._moved(place, reads) for place, op in enumerate(ops)]])
        return None if told is None else told[reads:]


@contextlib.contextmanager
def open(layout: Layout, callers: int = 1) -> Iterator[List[Caller]]:
    """A store with a layout's structures, and so many callers of it, 1 to 64. They are closed behind the `with`: end their threads before."""
    laid = layout.values
    values = (ctypes.c_uint32 * len(laid))(*laid)
    handles = (_Handle * callers)()
    answer = _lib.kcas_open(values, len(values), handles, callers)
    if answer != DONE:
        raise Refused(answer)
    seats = [threading.Condition() for _ in handles]
    ended = threading.Event()
    made = [Caller(handle, seats, ended) for handle in handles]
    try:
        yield made
    finally:
        for caller in made:
            caller.close()

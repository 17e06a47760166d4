r"""DFS path resolution (MS-DFSC) for Python: which server and share a UNC path stands for.

The library is proved and does no I/O; this module calls it by ctypes and needs nothing but Python's own library. A host gives an object with three methods:

    referral(server, request, size)   sends a referral request to IPC$ of a server: (status, reply)
    io(path)                          tries the I/O on a path \server\share\rest: the status
    clock()                           seconds of a clock that nobody sets

and asks a Resolver, which keeps both caches:

    resolver = dfsc.Resolver("dc1")
    end = resolver.follow(r"\\corp\rec\train\feb.wav", smb)
    if end.number == dfsc.DONE: ...     # end.path is the path that was opened

docs/HOST.md says how a question is asked over SMB, which status to answer (status_of does it for an OSError), and what to do at each end; Resolver.follow does that
where it can be done without the host. A host that needs more (its own caches, walks that are saved) uses ReferralCache, DomainCache and Walk.

The shared object is built by one command, in the repository, from the static library (tests/library dfsc), which is position independent:

    cc -shared -Wl,-soname,libdfsc.so.0 -o target/libdfsc.so -Wl,--whole-archive target/staticlib/libdfsc.a -Wl,--no-whole-archive

It is looked for at $DFSC_SO, then at target/libdfsc.so of the repository, then as libdfsc.so.0 where the system looks for libraries.

Text is a str; a unit that is half of a surrogate pair, which file names may hold, stands for itself. A call holds the interpreter's lock, so that threads may share
caches; between two calls of a walk others may change them, and the walk may then end with GONE.
"""
import ctypes as _c
import errno as _errno
import os as _os
import socket as _socket
import time as _time
from dataclasses import dataclass

__all__ = [
    "DomainCache", "DomainEntry", "End", "Question", "ReferralCache", "ReferralEntry", "Refused", "Resolver", "Walk", "clock", "domain_request", "severity",
    "status_of", "version", "DONE", "NOT_DFS", "NO_DC", "FAILED", "LIMIT_REACHED", "MALFORMED", "TOO_LONG", "GONE", "SUCCESS", "BUFFER_OVERFLOW", "OBJECT_PATH_NOT_FOUND",
    "PATH_NOT_COVERED", "IO_TIMEOUT", "BAD_NETWORK_PATH", "NETWORK_NAME_DELETED", "BAD_NETWORK_NAME", "CONNECTION_REFUSED", "HOST_UNREACHABLE", "NEXT_TARGET",
]

PLACE_UNITS, MOST_PLACES, WALK_UNITS, REQUEST_BYTES, LISTING_UNITS, MOST_SIZE = 2336, 32, 800, 516, 373248, 57344

# Ends
DONE, NOT_DFS, NO_DC, FAILED, LIMIT_REACHED, MALFORMED, TOO_LONG, GONE = range(20, 28)
_ENDS = ["done", "not DFS", "no DC", "failed in DFS", "limit reached", "reply malformed", "new path too long", "the entry in use is gone"]
_KINDS = {1: "dc", 2: "root", 3: "link", 4: "sysvol", 5: "io"}
_REFUSALS = {
    1: "bad path", 2: "path of over 256 units", 3: "bad limit, size or bootstrap DC", 4: "a cache is not in order",
    5: "the walk has ended, is out of form, or waits for another kind of answer", 6: "more domains than the cache has places",
    7: "domain reply malformed or empty", 8: "no listing, or its entries are not in order", 9: "more entries than the cache has places",
    10: "buffer too short", 27: "the entry is gone",
}

# Statuses
SUCCESS, BUFFER_OVERFLOW, OBJECT_PATH_NOT_FOUND, PATH_NOT_COVERED = 0, 0x80000005, 0xC000003A, 0xC0000257
IO_TIMEOUT, BAD_NETWORK_PATH, NETWORK_NAME_DELETED, BAD_NETWORK_NAME = 0xC00000B5, 0xC00000BE, 0xC00000C9, 0xC00000CC
CONNECTION_REFUSED, HOST_UNREACHABLE = 0xC0000236, 0xC000023D
#: The statuses of an I/O try that lead to the next target; any other of severity 3 but PATH_NOT_COVERED ends the walk.
NEXT_TARGET = frozenset((IO_TIMEOUT, BAD_NETWORK_PATH, NETWORK_NAME_DELETED, BAD_NETWORK_NAME, CONNECTION_REFUSED, HOST_UNREACHABLE))

_BY_ERRNO = {
    _errno.ECONNREFUSED: CONNECTION_REFUSED,
    _errno.EHOSTUNREACH: HOST_UNREACHABLE, _errno.ENETUNREACH: HOST_UNREACHABLE, _errno.ENETDOWN: HOST_UNREACHABLE,
    _errno.ETIMEDOUT: IO_TIMEOUT, _errno.EAGAIN: IO_TIMEOUT,
    _errno.ECONNRESET: NETWORK_NAME_DELETED, _errno.ECONNABORTED: NETWORK_NAME_DELETED, _errno.ENOTCONN: NETWORK_NAME_DELETED, _errno.EPIPE: NETWORK_NAME_DELETED,
}


def status_of(error):
    """What the network says, an OSError or EOFError, as the status to answer: always one of NEXT_TARGET."""
    if isinstance(error, TimeoutError):
        return IO_TIMEOUT
    if isinstance(error, _socket.gaierror):
        return BAD_NETWORK_PATH
    if isinstance(error, EOFError):
        return NETWORK_NAME_DELETED
    return _BY_ERRNO.get(getattr(error, "errno", None), BAD_NETWORK_PATH)


def severity(status):
    """The severity of a status: 0 success, 1 information, 2 warning, 3 error."""
    return status >> 30 & 3


def clock():
    """Seconds since the machine was started, of a clock that nobody sets. It begins anew with the machine."""
    return int(_time.clock_gettime(_time.CLOCK_BOOTTIME))


class Refused(Exception):
    """A call was refused and has changed nothing. `number` is the refusal of include/dfsc.h."""

    def __init__(self, number):
        super().__init__("%s (%d)" % (_REFUSALS.get(number, "refused"), number))
        self.number = number


_U8, _U16, _U32, _N, _I = _c.POINTER(_c.c_uint8), _c.POINTER(_c.c_uint16), _c.POINTER(_c.c_uint32), _c.c_size_t, _c.c_uint32
# name: result, parameters
_FUNCTIONS = {
    "start": (_I, [_U16, _N, _U16, _N, _U16, _N, _U16, _N, _U16, _N, _I, _I, _I, _U8, _N]),
    "answer_referral": (_I, [_U16, _N, _U16, _N, _U16, _N, _I, _U8, _N, _I, _U8, _N]),
    "answer_io": (_I, [_U16, _N, _U16, _N, _U16, _N, _I, _I, _U8, _N]),
    "question_party": (_I, [_U16, _N, _U16, _N, _U16, _N, _U16, _N]),
    "question_name": (_I, [_U16, _N, _U16, _N]),
    "question": (_I, [_U16, _N, _U32, _N]),
    "end_path": (_I, [_U16, _N, _U16, _N]),
    "end": (_I, [_U16, _N, _U32, _N]),
    "domain_request": (_I, [_U8, _N]),
    "read_domains": (_I, [_U8, _N, _I, _U16, _N]),
    "list": (_c.c_uint64, [_U16, _N, _U16, _N]),
    "read": (_I, [_U16, _N, _U16, _N]),
    "expire_all": (_I, [_U16, _N]),
    "expire": (_I, [_U16, _N, _U16, _N]),
    "next_dc": (_I, [_U16, _N, _U16, _N]),
    "version": (_I, []),
}


def _load():
    here = _os.path.join(_os.path.dirname(_os.path.abspath(__file__)), "..", "..", "target", "libdfsc.so")
    path = _os.environ.get("DFSC_SO") or (here if _os.path.exists(here) else "libdfsc.so.0")
    try:
        # PyDLL keeps the interpreter's lock: no other thread changes what is lent while a call runs
        library = _c.PyDLL(path)
    except OSError as e:
        raise ImportError("%s: the documentation of this module says how libdfsc.so is built, and $DFSC_SO where it is" % e) from None
    for name, (result, parameters) in _FUNCTIONS.items():
        function = getattr(library, "dfsc_" + name)
        function.restype, function.argtypes = result, parameters
    return library


_lib = _load()


def _units(text):
    """A str as a slice of units."""
    b = text.encode("utf-16-le", "surrogatepass")
    return (_c.c_uint16 * max(1, len(b) // 2)).from_buffer_copy(b or b"\0\0"), len(b) // 2


def _text(units, count):
    return bytes(units)[: 2 * count].decode("utf-16-le", "surrogatepass")


def _octets(b):
    return (_c.c_uint8 * max(1, len(b))).from_buffer_copy(bytes(b) or b"\0"), len(b)


def _taken(result):
    if result:
        raise Refused(result)


def _shown(result):
    if result >> 16:
        raise Refused(result >> 16)
    return result


def _number(value):
    """A clock, a status or a setting as 32 bits. A clock rolls over; a setting that does not fit is refused and not cut."""
    return value & 0xFFFFFFFF


def _setting(value):
    if not 0 <= value <= 0xFFFFFFFF:
        raise Refused(3)
    return value


@dataclass(frozen=True)
class ReferralEntry:
    """A referral: `targets` are paths, `hint` the number of the one used last, `sets` the numbers of those with which a target set begins, but for the first."""
    prefix: str
    root: bool
    interlink: bool
    failback: bool
    ttl: int
    taken: int
    hint: int
    targets: tuple
    sets: tuple

    def expired(self, now):
        """Whether it has expired when the clock reads so."""
        return (now - self.taken) % 2**32 >= self.ttl


@dataclass(frozen=True)
class DomainEntry:
    """A domain, its DCs, and the number of the one to ask first."""
    name: str
    hint: int
    dcs: tuple


class _Cache:
    def __init__(self, places=MOST_PLACES):
        if not 1 <= places <= MOST_PLACES:
            raise Refused(4)
        self._memory = (_c.c_uint16 * (places * PLACE_UNITS))()

    @property
    def _lent(self):
        return self._memory, len(self._memory)

    @property
    def places(self):
        """How many entries it has room for."""
        return len(self._memory) // PLACE_UNITS

    def clear(self):
        """Empties the cache."""
        _c.memset(self._memory, 0, _c.sizeof(self._memory))

    def __bytes__(self):
        """The cache as bytes, to be saved: its units in the machine's byte order."""
        return bytes(self._memory)

    @classmethod
    def from_bytes(cls, saved):
        """A cache that was saved. Its content is tested by each call that uses it, which refuses with 4 what is not in order."""
        places, rest = divmod(len(saved), 2 * PLACE_UNITS)
        if rest:
            raise Refused(4)
        cache = cls(places)
        _c.memmove(cache._memory, bytes(saved), len(saved))
        return cache

    def _used(self):
        for at in range(0, len(self._memory), PLACE_UNITS):
            if self._memory[at]:
                yield self._memory[at : at + PLACE_UNITS]

    @staticmethod
    def _text_of(place, number):
        units = place[32 + 256 * number :][: min(256, place[number])]
        return b"".join(u.to_bytes(2, "little") for u in units).decode("utf-16-le", "surrogatepass")

    def __repr__(self):
        return "%s(places=%d, entries=%r)" % (type(self).__name__, self.places, list(self.entries()))


class ReferralCache(_Cache):
    """The referrals that are known: 1 to 32 places."""

    def entries(self):
        """The entries, in place order."""
        for p in self._used():
            count = min(8, p[9])
            yield ReferralEntry(
                self._text_of(p, 0), p[19] == 1, p[20] == 1, p[21] == 1, p[22] | p[23] << 16, p[24] | p[25] << 16, p[10],
                tuple(self._text_of(p, 1 + j) for j in range(count)), tuple(j for j in range(count) if p[11 + j]))

    def expire_all(self):
        """Expires every entry: its TTL becomes 0, and the next walk that uses it asks for it anew."""
        _taken(_lib.dfsc_expire_all(*self._lent))

    def expire(self, path):
        """Expires the entry whose prefix is equal to this path. Refused(27) where there is none."""
        _taken(_lib.dfsc_expire(*self._lent, *_units(path)))

    def list(self):
        """The cache as text: include/dfsc.h has its form. Target sets are not in it."""
        out = (_c.c_uint16 * LISTING_UNITS)()
        result = _lib.dfsc_list(*self._lent, out, LISTING_UNITS)
        if result >> 32:
            raise Refused(result >> 32)
        return _text(out, result)

    def read(self, text):
        """Such a text in place of all that the cache holds."""
        _taken(_lib.dfsc_read(*_units(text), *self._lent))


def _folded(name):
    return "".join(chr(ord(c) + 32) if "A" <= c <= "Z" else c for c in name)


class DomainCache(_Cache):
    """The domains that are known, and their DCs: 1 to 32 places."""

    def entries(self):
        """The entries, in place order."""
        for p in self._used():
            yield DomainEntry(self._text_of(p, 0), p[10], tuple(self._text_of(p, 1 + j) for j in range(min(8, p[9]))))

    def read(self, reply, size):
        """A domain reply, asked for with this size, in place of all that the cache holds."""
        _taken(_lib.dfsc_read_domains(*_octets(reply), _setting(size), *self._lent))

    def entry(self, domain):
        """The entry of a domain, by a name that is equal but for the case of A to Z, or None."""
        return next((e for e in self.entries() if _folded(e.name) == _folded(domain)), None)

    def next_dc(self, domain):
        """The hint of a domain to its next DC, from the last to the first. Refused(27) where it is not known, or no DC of it is."""
        _taken(_lib.dfsc_next_dc(*self._lent, *_units(domain)))


def version():
    """The version of the library: 10000 * major + 100 * minor + patch."""
    return _lib.dfsc_version()


def domain_request():
    """The request whose reply DomainCache.read takes."""
    out = (_c.c_uint8 * 4)()
    _taken(_lib.dfsc_domain_request(out, 4))
    return bytes(out)


@dataclass(frozen=True)
class Question:
    """What a walk waits for. `kind` is dc, root, link, sysvol or io; `party` whom it is for; `name` the name asked for, or the path that the I/O tries; `size` the
    bytes that the reply may have and `request` the bytes to be sent, 0 and none for I/O; `moves` the moves made with it."""
    kind: str
    party: str
    name: str
    size: int
    moves: int
    request: bytes

    @property
    def server(self):
        """The server to connect to: for I/O and links the first component of a path, else a name."""
        return (self.name if self.kind == "io" else self.party).lstrip("\\").split("\\")[0]


@dataclass(frozen=True)
class End:
    """How a walk ended: its number, its status (0 unless DONE, NO_DC or FAILED), the path that was tried for DONE, else the one that was being resolved, and the
    moves made."""
    number: int
    status: int
    path: str
    moves: int

    def __str__(self):
        return "%s (%d), status %08X, %s after %d moves" % (_ENDS[self.number - 20], self.number, self.status, self.path, self.moves)


class Walk:
    """A walk for a path, at rest at a question or at its end. The caches are lent to each call."""

    def __init__(self, referrals, domains, path, boot, now, limit=16, size=8192):
        self.referrals, self.domains = referrals, domains
        self._memory, self._request = (_c.c_uint16 * WALK_UNITS)(), (_c.c_uint8 * REQUEST_BYTES)()
        _taken(_lib.dfsc_start(*referrals._lent, *domains._lent, self._memory, WALK_UNITS, *_units(path), *_units(boot), _setting(limit), _setting(size),
                               _number(now), self._request, REQUEST_BYTES))

    def rest(self):
        """The Question that waits, or the End. Refused(27) where another took away the entry in use: give_up ends the walk."""
        numbers, text = (_c.c_uint32 * 3)(), (_c.c_uint16 * 256)()
        if _lib.dfsc_question(self._memory, WALK_UNITS, numbers, 3) >> 16:
            _shown(_lib.dfsc_end(self._memory, WALK_UNITS, numbers, 3))
            length = _shown(_lib.dfsc_end_path(self._memory, WALK_UNITS, text, 256))
            return End(numbers[0], numbers[1], _text(text, length), numbers[2])
        party = _text(text, _shown(_lib.dfsc_question_party(*self.referrals._lent, *self.domains._lent, self._memory, WALK_UNITS, text, 256)))
        length = _shown(_lib.dfsc_question_name(self._memory, WALK_UNITS, text, 256))
        kind, size, moves = numbers
        return Question(_KINDS[kind], party, _text(text, length), size, moves, b"" if kind == 5 else bytes(self._request)[: 4 + 2 * length])

    def answer_referral(self, status, reply, now):
        """The answer to a referral request. What the reply says is stored in the caches; of a failing status it is not read."""
        _taken(_lib.dfsc_answer_referral(*self.referrals._lent, *self.domains._lent, self._memory, WALK_UNITS, _number(status), *_octets(reply), _number(now),
                                         self._request, REQUEST_BYTES))

    def answer_io(self, status, now):
        """The answer to an I/O try."""
        _taken(_lib.dfsc_answer_io(*self.referrals._lent, *self.domains._lent, self._memory, WALK_UNITS, _number(status), _number(now), self._request,
                                   REQUEST_BYTES))

    def give_up(self, now):
        """Ends a walk whose entry is gone, with GONE."""
        numbers = (_c.c_uint32 * 3)()
        _shown(_lib.dfsc_question(self._memory, WALK_UNITS, numbers, 3))
        if numbers[0] == 5:
            self.answer_io(BAD_NETWORK_PATH, now)
        else:
            self.answer_referral(BAD_NETWORK_PATH, b"", now)


class Resolver:
    """Both caches and the settings of walks. `boot` is the name of the DC to ask where a domain's DCs are not known; without a domain any name will do."""

    def __init__(self, boot, limit=16, size=8192, places=MOST_PLACES):
        self.referrals, self.domains = ReferralCache(places), DomainCache(places)
        self.boot, self.limit, self.size = boot, limit, size

    def fill_domains(self, network):
        """Fills the domain cache from the bootstrap DC: the status with which it answered. What the cache held is replaced where that is a success."""
        size = self.size
        while True:
            status, reply = network.referral(self.boot, domain_request(), size)
            if status == BUFFER_OVERFLOW and size < MOST_SIZE:
                size = min(2 * size, MOST_SIZE)
                continue
            if severity(status) < 2:
                self.domains.read(reply, size)
            return status

    def walk(self, path, network):
        """One walk: its End."""
        return self._walked(path, network)[0]

    def _walked(self, path, network):
        """The End, the last Question, and whether a referral request was answered with success."""
        walk = Walk(self.referrals, self.domains, path, self.boot, network.clock(), self.limit, self.size)
        last, asked = None, False
        while True:
            try:
                rest = walk.rest()
            except Refused as e:
                if e.number != GONE:
                    raise
                walk.give_up(network.clock())
                rest = walk.rest()
            if isinstance(rest, End):
                return rest, last, asked
            last = rest
            if rest.kind == "io":
                status = network.io(rest.name)
                walk.answer_io(status, network.clock())
            else:
                status, reply = network.referral(rest.server, rest.request, rest.size)
                asked = asked or severity(status) < 2
                walk.answer_referral(status, reply, network.clock())

    def _moved(self, domain):
        """The hint of a domain moved on: the number of its DCs, 0 where none is known."""
        entry = self.domains.entry(domain)
        if not entry or not entry.dcs:
            return 0
        self.domains.next_dc(domain)
        return len(entry.dcs)

    def follow(self, path, network, most=8):
        """Walks, and walks again where docs/HOST.md has a recipe for the end: a path in another namespace that the referral did not tell, and an entry that others
        took away (`most` times in all); targets or root targets of an entry in the cache that are gone (once); a DC that does not answer for SYSVOL (each DC once)."""
        renewed, dcs = False, 1
        while True:
            held = any(True for _ in self.referrals.entries())
            end, last, asked = self._walked(path, network)
            kind = last.kind if last else None
            if end.number == FAILED and end.status == PATH_NOT_COVERED and kind == "io" and most > 0:
                most, path = most - 1, last.name
            elif end.number == GONE and most > 0:
                most -= 1
            elif end.number == FAILED and end.status in NEXT_TARGET and kind == "io" and not asked and not renewed:
                renewed = True
                self.referrals.expire_all()
            elif end.number == FAILED and kind == "link" and held and not renewed:
                renewed = True
                self.referrals.clear()
            elif end.number == NO_DC and kind == "sysvol" and self._moved(end.path.lstrip("\\").split("\\")[0]) > dcs:
                dcs += 1
            else:
                return end

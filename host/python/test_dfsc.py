"""host/python/dfsc.py: the header, walks recorded over real servers, the host of docs/HOST.md, its recipes, text, caches, refusals."""
import contextlib
import errno
import glob
import io
import os
import re
import socket
import threading
import unittest

import dfsc

ROOT = os.path.join(os.path.dirname(os.path.abspath(__file__)), "..", "..")


def read(path):
    with open(os.path.join(ROOT, path), encoding="utf-8") as f:
        return f.read()


def string(text):
    return text.encode("utf-16-le", "surrogatepass") + b"\0\0"


def numbers(*values):
    return b"".join(v.to_bytes(2, "little") for v in values)


def referral(prefix, targets, root=False, ttl=300):
    """A reply of version 3."""
    head, texts = numbers(0, len(targets), 2, 0), string(prefix)
    for i, target in enumerate(targets):
        after = 34 * (len(targets) - i)
        head += numbers(3, 34, int(root), 0, ttl, 0, after, after, after + len(texts)) + bytes(16)
        texts += string(target)
    return head + texts


def names(special, dcs=()):
    """A DC reply for one name, or a domain reply of names."""
    head, texts = numbers(0, len(special), 0, 0), b""
    for i, name in enumerate(special):
        at = 18 * (len(special) - i) + len(texts)
        head += numbers(3, 18, 0, 2, 300, 0, at, len(dcs), at + len(string(name)))
        texts += string(name)
    return head + texts + b"".join(string(d) for d in dcs)


class Servers:
    """Referrals by server and name asked, statuses of I/O by path; nothing else is there."""

    def __init__(self):
        self.referrals, self.files, self.asked, self.now = {}, {}, [], 100

    def clock(self):
        return self.now

    def referral(self, server, request, size):
        name = request[2:-2].decode("utf-16-le")
        self.asked.append((server, name))
        reply = self.referrals.get((server, name))
        if reply is None:
            return dfsc.CONNECTION_REFUSED, b""
        return (dfsc.SUCCESS, reply) if len(reply) <= size else (dfsc.BUFFER_OVERFLOW, b"")

    def io(self, path):
        self.asked.append(path)
        return self.files.get(path, dfsc.BAD_NETWORK_PATH)


TRAIN = r"\\files\rec\train\a"


def train():
    """A namespace at `files` with the link `train` to two servers, of which the second has the file."""
    s = Servers()
    s.referrals["files", r"\files\rec"] = referral(r"\files\rec", [r"\files\rec"], root=True)
    s.files[r"\files\rec\train\a"] = dfsc.PATH_NOT_COVERED
    s.referrals["files", r"\files\rec\train\a"] = referral(r"\files\rec\train", [r"\old1\train", r"\old2\train"])
    s.files[r"\old2\train\a"] = 0
    return s


class Header(unittest.TestCase):
    def test_constants(self):
        header = read("include/dfsc.h")
        for name in ("PLACE_UNITS", "MOST_PLACES", "WALK_UNITS", "REQUEST_BYTES", "LISTING_UNITS", "MOST_SIZE"):
            self.assertEqual(int(re.search(r"#define DFSC_%s (\d+)" % name, header)[1]), getattr(dfsc, name))
        statuses = re.findall(r"#define DFSC_STATUS_(\w+) UINT32_C\((\w+)\)", header)
        self.assertEqual(len(statuses), 10)
        for name, number in statuses:
            self.assertEqual(int(number, 0), getattr(dfsc, name), name)
        self.assertEqual(dfsc.version(), int(re.search(r"#define DFSC_VERSION (\d+)", header)[1]))
        for name, number in re.findall(r"DFSC_END_(\w+) = (\d+)", header):
            self.assertEqual(int(number), getattr(dfsc, name), name)

    def test_functions(self):
        kinds = {"uint8_t *": dfsc._U8, "uint16_t *": dfsc._U16, "uint32_t *": dfsc._U32, "size_t ": dfsc._N, "uint32_t ": dfsc._I}
        declared = re.findall(r"^(uint32_t|uint64_t) dfsc_(\w+)\(([^)]*)\);", read("include/dfsc.h"), re.M)
        self.assertEqual({name for _, name, _ in declared}, set(dfsc._FUNCTIONS))
        for result, name, parameters in declared:
            got, types = dfsc._FUNCTIONS[name]
            self.assertEqual(got, {"uint32_t": dfsc._I, "uint64_t": dfsc._c.c_uint64}[result], name)
            kinds_of = [re.sub(r"\w+$", "", p.strip()).replace("const ", "") for p in parameters.split(",") if p != "void"]
            self.assertEqual([kinds[k] for k in kinds_of], types, name)


class Recorded:
    """A walk of vectors/recorded: what `walk` was given, and what it printed."""

    def __init__(self, path):
        lines = [l.split("=", 1) for l in read(path).splitlines()]
        self.settings, self.answers, now = dict(lines[:5]), [], None
        for key, value in lines[5:]:
            if key == "now":
                now = int(value)
            elif key == "status":
                self.answers.append([now, int(value, 16), None])
            else:
                self.answers[-1][2] = bytes.fromhex(value)
        self.printed = [l.split("=", 1) for l in read(path[:-2] + "out").splitlines()]


class Real(unittest.TestCase):
    def test_recorded(self):
        paths = sorted(glob.glob(os.path.join(ROOT, "vectors/recorded/*.in")))
        self.assertEqual(len(paths), 13)
        for path in paths:
            r, printed = Recorded(path), []
            s = r.settings
            w = dfsc.Walk(dfsc.ReferralCache(8), dfsc.DomainCache(8), s["path"], s["boot"], int(s["now"]), int(s["limit"]), int(s["size"]))
            for now, status, reply in r.answers:
                q = w.rest()
                printed += [["ask", q.kind], ["to", q.party], ["name", q.name]] + ([] if q.kind == "io" else [["size", str(q.size)]])
                if q.kind == "io":
                    self.assertIsNone(reply)
                    w.answer_io(status, now)
                else:
                    self.assertEqual(q.request, b"\4\0" + string(q.name))
                    w.answer_referral(status, reply, now)
            end = w.rest()
            printed += [["end", str(end.number)], ["status", "%08X" % end.status], ["path", end.path], ["moves", str(end.moves)]]
            self.assertEqual(printed, r.printed, path)

    def test_the_host_of_the_guide(self):
        """The code block of docs/HOST.md, run with a client that answers what was recorded."""
        block, = re.findall(r"```python\n(.*?)```", read("docs/HOST.md"), re.S)
        recorded = Recorded("vectors/recorded/real02.in")
        answers = iter(recorded.answers)

        class Smb:
            asked = []

            def told(self, *what):
                self.asked.append(what)
                _, status, reply = next(answers)
                if status == dfsc.CONNECTION_REFUSED:
                    raise ConnectionRefusedError(errno.ECONNREFUSED, "refused")
                return status, reply

            def ioctl(self, server, share, code, file_id, request, size):
                if server == "dc1":
                    raise socket.gaierror(-2, "no such host")
                assert (share, code, file_id) == ("IPC$", 0x00060194, b"\xff" * 16)
                return self.told("referral", server, size)

            def open(self, server, share, rest, whole):
                assert whole == "\\".join((server, share, rest))
                return self.told("io", server, share, rest)[0]

        out = io.StringIO()
        with contextlib.redirect_stdout(out):
            exec(compile(block, "docs/HOST.md", "exec"), {"smb": Smb()})
        self.assertEqual(out.getvalue(), "done (20), status 00000000, \\old2\\train\\feb.wav after 5 moves\n")
        self.assertEqual(Smb.asked[0], ("referral", "files", 8192))
        self.assertEqual(Smb.asked[-1], ("io", "old2", "train", "feb.wav"))
        self.assertLessEqual(len([l for l in block.splitlines() if l.strip()]), 24)


class Recipes(unittest.TestCase):
    def test_one_walk(self):
        s, r = train(), dfsc.Resolver("none")
        end = r.walk(TRAIN, s)
        self.assertEqual((end.number, end.path, end.moves), (dfsc.DONE, r"\old2\train\a", 5))
        s.asked.clear()
        r.walk(TRAIN, s)
        self.assertEqual(s.asked, [r"\old2\train\a"], "the next walk begins at the target that answered")

    def test_another_namespace(self):
        s, r = train(), dfsc.Resolver("none")
        s.files[r"\old2\train\a"] = dfsc.PATH_NOT_COVERED
        s.referrals["old2", r"\old2\train"] = referral(r"\old2\train", [r"\old2\train"], root=True)
        s.referrals["old2", r"\old2\train\a"] = referral(r"\old2\train\a", [r"\new\a"])
        s.files[r"\new\a"] = 0
        end = r.walk(TRAIN, s)
        self.assertEqual((end.number, end.status), (dfsc.FAILED, dfsc.PATH_NOT_COVERED))
        self.assertEqual(r.follow(TRAIN, s).path, r"\new\a")
        # two links that lead to each other
        s.referrals["old2", r"\old2\train\a"] = referral(r"\old2\train\a", [r"\files\rec\train\a"])
        r.referrals.clear()
        s.asked.clear()
        self.assertEqual(r.follow(TRAIN, s).status, dfsc.PATH_NOT_COVERED)
        self.assertLess(len(s.asked), 60)

    def test_targets_that_are_gone(self):
        s, r = train(), dfsc.Resolver("none")
        r.walk(TRAIN, s)
        s.referrals["files", r"\files\rec\train\a"] = referral(r"\files\rec\train", [r"\new1\train", r"\new2\train"])
        del s.files[r"\old2\train\a"]
        s.files[r"\new1\train\a"] = 0
        self.assertEqual(r.walk(TRAIN, s).number, dfsc.FAILED, "the entry is fresh and its servers are off")
        self.assertEqual(r.follow(TRAIN, s).path, r"\new1\train\a")
        del s.files[r"\new1\train\a"]
        s.asked.clear()
        self.assertEqual(r.follow(TRAIN, s).status, dfsc.BAD_NETWORK_PATH)
        self.assertEqual(len([a for a in s.asked if a[0] == "files"]), 1, "it is asked for anew once")

    def test_a_root_that_moved(self):
        s, r = train(), dfsc.Resolver("none")
        link = s.referrals.pop(("files", r"\files\rec\train\a"))
        s.referrals["files", r"\files\rec"] = referral(r"\files\rec", [r"\ns1\rec"], root=True)
        s.referrals["ns1", r"\files\rec\train\a"] = link
        s.files[r"\ns1\rec\train\a"] = s.files[r"\ns2\rec\train\a"] = dfsc.PATH_NOT_COVERED
        r.walk(TRAIN, s)
        s.now = 1000
        s.referrals["files", r"\files\rec"] = referral(r"\files\rec", [r"\ns2\rec"], root=True)
        s.referrals["ns2", r"\files\rec\train\a"] = s.referrals.pop(("ns1", r"\files\rec\train\a"))
        self.assertEqual(r.walk(TRAIN, s).status, dfsc.CONNECTION_REFUSED, "an expired link is asked for at the old root target")
        self.assertEqual(r.follow(TRAIN, s).path, r"\old2\train\a")

    def test_a_link_that_is_gone(self):
        s, r = train(), dfsc.Resolver("none")
        r.walk(TRAIN, s)
        s.now = 1000
        del s.referrals["files", r"\files\rec\train\a"]
        s.files[r"\files\rec\train\a"] = 0
        self.assertEqual(r.walk(TRAIN, s).number, dfsc.FAILED)
        self.assertEqual(r.follow(TRAIN, s).path, r"\files\rec\train\a", "a folder stands in its place")

    def test_domains_and_sysvol(self):
        s, r = Servers(), dfsc.Resolver("dc0", size=1024)
        self.assertEqual(r.fill_domains(s), dfsc.CONNECTION_REFUSED)
        s.referrals["dc0", ""] = names([r"\CORP", r"\corp.example"] + [r"\domain-%02d-of-the-forest.example" % i for i in range(20)])
        s.asked.clear()
        self.assertEqual((r.fill_domains(s), len(s.asked)), (0, 2), "the size was doubled once")
        self.assertEqual([e.name for e in r.domains.entries()][:2], ["CORP", "corp.example"])
        s.referrals["dc0", r"\corp.example"] = names([r"\corp.example"], ["dc1", "dc2", "dc3"])
        path = r"\\Corp.Example\SYSVOL\x"
        s.referrals["dc0", r"\Corp.Example"] = s.referrals["dc0", r"\corp.example"]
        end = r.follow(path, s)
        self.assertEqual((end.number, end.status), (dfsc.NO_DC, dfsc.CONNECTION_REFUSED))
        self.assertEqual([a[0] for a in s.asked[-3:]], ["dc1", "dc2", "dc3"])
        s.referrals["dc2", r"\Corp.Example\SYSVOL"] = referral(r"\Corp.Example\SYSVOL", [r"\dc2\sysvol"], root=True)
        s.files[r"\dc2\sysvol\x"] = 0
        self.assertEqual(r.follow(path, s).path, r"\dc2\sysvol\x")
        self.assertEqual([e.hint for e in r.domains.entries() if e.dcs], [1])
        r.domains.next_dc("CORP.EXAMPLE")
        self.assertEqual(r.domains.entry("corp.EXAMPLE").hint, 2)
        r.domains.next_dc("corp.example")
        self.assertEqual(r.domains.entry("corp.example").hint, 0, "from the last to the first")
        for name in "nowhere", "CORP", "":
            before = bytes(r.domains)
            with self.assertRaises(dfsc.Refused) as e:
                r.domains.next_dc(name)
            self.assertEqual((e.exception.number, bytes(r.domains)), (27, before))
        self.assertIsNone(r.domains.entry("nowhere"))

    def test_gone(self):
        s, r = train(), dfsc.Resolver("none")
        tries = s.io
        s.io = lambda path: (r.referrals.clear(), tries(path))[1] if len(s.asked) == 1 else tries(path)
        self.assertEqual(r.walk(TRAIN, s).number, dfsc.GONE)
        s.asked.clear()
        self.assertEqual(r.follow(TRAIN, s).number, dfsc.DONE)

    def test_moved_link(self):
        """The link is moved from two servers to two others, and the old ones still have the file."""
        s, r = train(), dfsc.Resolver("none")
        r.walk(TRAIN, s)
        s.referrals["files", r"\files\rec\train\a"] = referral(r"\files\rec\train", [r"\new1\train", r"\new2\train"])
        s.files[r"\new1\train\a"] = 0
        self.assertEqual(r.walk(TRAIN, s).path, r"\old2\train\a", "until the TTL has passed")
        s.now += 300
        self.assertEqual(r.walk(TRAIN, s).path, r"\new1\train\a")


class Memory(unittest.TestCase):
    def test_entries_and_saving(self):
        s, r = train(), dfsc.Resolver("none", places=4)
        r.walk(TRAIN, s)
        root, link = r.referrals.entries()
        self.assertEqual((root.prefix, root.root, link.root, link.interlink, link.failback), (r"\files\rec", True, False, False, False))
        self.assertEqual((link.ttl, link.taken, link.hint, link.targets, link.sets), (300, 100, 1, (r"\old1\train", r"\old2\train"), ()))
        self.assertTrue(not link.expired(399) and link.expired(400) and link.expired(99))
        self.assertLess(len(repr(r.referrals)), 600)
        again = dfsc.ReferralCache.from_bytes(bytes(r.referrals))
        self.assertEqual(bytes(again), bytes(r.referrals))
        listing = again.list()
        self.assertEqual(listing.splitlines()[:2], [r"prefix=\files\rec", "kind=root"])
        again.clear()
        again.read(listing)
        self.assertEqual(again.list(), listing)
        again.expire("\\\\Files\\REC\\")
        after = list(again.entries())
        self.assertEqual((after[0].ttl, after[0].taken, after[0].targets, after[1]), (0, root.taken, root.targets, link))
        for path, number in (r"\files", 27), (r"\files\rec\trai", 27), ("files", 1), ("\\a\\" + 254 * "b", 2):
            before = bytes(again)
            with self.assertRaises(dfsc.Refused) as e:
                again.expire(path)
            self.assertEqual((e.exception.number, bytes(again)), (number, before))
        again.expire_all()
        self.assertTrue(all(e.ttl == 0 and e.taken == 100 and e.expired(100) and e.expired(0) for e in again.entries()))
        damaged = dfsc.ReferralCache.from_bytes(b"\1" * len(bytes(r.referrals)))
        list(damaged.entries())
        with self.assertRaises(dfsc.Refused) as e:
            dfsc.Walk(damaged, r.domains, TRAIN, "none", 1)
        self.assertEqual(e.exception.number, 4)
        for refused in damaged.expire_all, lambda: damaged.expire(""), lambda: dfsc.DomainCache.from_bytes(bytes(damaged)).next_dc(""):
            with self.assertRaises(dfsc.Refused) as e:
                refused()
            self.assertEqual(e.exception.number, 4)

    def test_places(self):
        """Links that are used in turn, with one place fewer than there are: none is found in the cache. With places for all and the root each is."""
        for places, found in ((3, 0), (5, 16)):
            s, r = Servers(), dfsc.Resolver("none", places=places)
            s.referrals["files", r"\files\rec"] = referral(r"\files\rec", [r"\files\rec"], root=True)
            for i in range(4):
                s.files[r"\files\rec\%d\a" % i] = dfsc.PATH_NOT_COVERED
                s.files[r"\nas\%d\a" % i] = 0
                s.referrals["files", r"\files\rec\%d\a" % i] = referral(r"\files\rec\%d" % i, [r"\nas\%d" % i])
            hits = 0
            for turn in range(20):
                s.now += 1
                s.asked.clear()
                self.assertEqual(r.walk(r"\files\rec\%d\a" % (turn % 4), s).number, dfsc.DONE)
                hits += len(s.asked) == 1
            self.assertEqual(hits, found)

    def test_text(self):
        for name in ("séjour", "e\u0301t\u00e9", "\ubc14\ub2e4", "\U0001f4a7drop", "half\ud83d", "\udc00half"):
            w = dfsc.Walk(dfsc.ReferralCache(1), dfsc.DomainCache(1), "\\\\files\\" + name, "dc", 1)
            q = w.rest()
            self.assertEqual((q.name, q.request), ("\\files\\" + name, b"\4\0" + string("\\files\\" + name)))
        s, r = train(), dfsc.Resolver("none")
        s.referrals["files", "\\files\\séjour"] = referral("\\files\\séjour", ["\\nas\\\U0001f4a7"], root=True)
        s.files["\\nas\\\U0001f4a7\\x"] = 0
        self.assertEqual(r.walk("\\\\files\\séjour\\x", s).path, "\\nas\\\U0001f4a7\\x")
        self.assertEqual([e.targets for e in r.referrals.entries()], [("\\nas\\\U0001f4a7",)])
        self.assertIn("target=\\nas\\~D83D~DCA7\n", r.referrals.list())

    def test_refusals(self):
        refs, doms = dfsc.ReferralCache(1), dfsc.DomainCache(1)

        def number(call, *arguments, **more):
            with self.assertRaises(dfsc.Refused) as e:
                call(*arguments, **more)
            return e.exception.number

        start = lambda path=r"\a\b", boot="dc", **more: dfsc.Walk(refs, doms, path, boot, 2**40 + 1, **more)
        self.assertEqual([number(start, path=p) for p in ("", "a", "\\", r"\a\\b", r"\a/b", r"\a\..", "\\a\\" + 254 * "b")], [1, 1, 1, 1, 1, 1, 2])
        self.assertEqual([number(start, **m) for m in (dict(boot=""), dict(limit=0), dict(limit=65), dict(limit=2**32 + 4), dict(size=1023), dict(size=-1))], 6 * [3])
        self.assertEqual([number(dfsc.ReferralCache, n) for n in (0, 33, -1)], [4, 4, 4])
        self.assertEqual(number(dfsc.DomainCache.from_bytes, b"x"), 4)
        self.assertEqual(number(doms.read, b"", 8192), 7)
        self.assertEqual(number(doms.read, names([r"\a", r"\b"]), 8192), 6)
        self.assertEqual(number(refs.read, "x"), 8)
        w = start()
        before = bytes(w._memory)
        self.assertEqual((number(w.answer_io, 0, 1), bytes(w._memory)), (5, before))
        w.answer_referral(0xC0000001, b"", 1)
        self.assertEqual((w.rest().number, number(w.answer_referral, 0, b"", 1)), (dfsc.NOT_DFS, 5))
        self.assertEqual(str(dfsc.Refused(99)), "refused (99)")
        self.assertEqual(dfsc.domain_request(), b"\4\0\0\0")

    def test_threads(self):
        """Walks of four threads over one pair of caches."""
        s, r, ends = train(), dfsc.Resolver("none", places=2), []

        def many():
            for _ in range(300):
                ends.append(r.follow(TRAIN, s).number)

        threads = [threading.Thread(target=many) for _ in range(4)]
        for t in threads:
            t.start()
        for t in threads:
            t.join()
        self.assertEqual((len(ends), set(ends)), (1200, {dfsc.DONE}))


class Statuses(unittest.TestCase):
    def test_errors(self):
        said = {errno.ECONNREFUSED: 0xC0000236, errno.EHOSTUNREACH: 0xC000023D, errno.ENETUNREACH: 0xC000023D, errno.ETIMEDOUT: 0xC00000B5,
                errno.ECONNRESET: 0xC00000C9, errno.ECONNABORTED: 0xC00000C9, errno.EPIPE: 0xC00000C9, errno.EIO: 0xC00000BE}
        for number, status in said.items():
            self.assertEqual(dfsc.status_of(OSError(number, "")), status)
        self.assertEqual([dfsc.status_of(e) for e in (TimeoutError(), socket.gaierror(-2, ""), EOFError(), OSError())],
                         [dfsc.IO_TIMEOUT, dfsc.BAD_NETWORK_PATH, dfsc.NETWORK_NAME_DELETED, dfsc.BAD_NETWORK_PATH])
        self.assertTrue(all(dfsc.status_of(OSError(n, "")) in dfsc.NEXT_TARGET for n in errno.errorcode))
        self.assertEqual([dfsc.severity(s) for s in (0, 0x40000000, 0x80000005, 0xC0000001)], [0, 1, 2, 3])


if __name__ == "__main__":
    unittest.main()

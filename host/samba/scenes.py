"""Real servers: what docs/HOST.md says, with a host over host/python/dfsc.py. Each path that is resolved is read, and what it holds compared with what Samba's own client
reads by the same DFS path. Run by tests/samba.sh: scenes.py FOLDER, an empty folder."""
import os
import subprocess
import sys
import time

sys.path.insert(0, os.path.join(os.path.dirname(os.path.abspath(__file__)), "..", "python"))
import dfsc  # noqa: E402
from servers import PASSWORD, Servers  # noqa: E402
from smb import Network  # noqa: E402

good, bad = 0, 0


def check(what, got, expected=True):
    global good, bad
    if got == expected:
        good += 1
    else:
        bad += 1
        print("samba: %s: %r, not %r" % (what, got, expected), flush=True)


folder = sys.argv[1]
S = Servers(folder)
with open(S.at("client.conf"), "w") as f:
    f.write("[global]\n  name resolve order = host\n  client min protocol = SMB2\n  cache directory = {0}/cc\n  lock directory = {0}/cc\n  state directory = {0}/cc\n"
            "  private dir = {0}/cc\n".format(folder))
os.mkdir(S.at("cc"))


def smbclient(path, user="guest%"):
    """What Samba's client reads there."""
    server, share, rest = path.lstrip("\\").split("\\", 2)
    out = S.at("got")
    if os.path.exists(out):
        os.unlink(out)
    subprocess.run(["smbclient", "-s", S.at("client.conf"), "-U", user, "//%s/%s" % (server, share), "-c", 'get "%s" "%s"' % (rest, out)],
                   stdout=subprocess.DEVNULL, stderr=subprocess.DEVNULL, timeout=20)
    if not os.path.exists(out):
        return None
    with open(out) as f:
        return f.read()


def resolves(what, resolver, network, path, to, holds, user="guest%", follow=True):
    network.data = None
    end = resolver.follow(path, network) if follow else resolver.walk(path, network)
    check(what, (end.number, end.status, end.path), (dfsc.DONE, 0, to))
    check(what + ": what was read", network.data, holds)
    check(what + ": smbclient", smbclient(path, user), holds)
    return end


def kinds(network):
    return ["io" if isinstance(a, str) else "referral" for a in network.asked]


began = time.monotonic()
S.server("files", {"rec": "dfs"})
S.server("ns2", {"more": "dfs"})
for name in ("old1", "old2", "new1", "new2"):
    S.server(name, {"train": "plain", "locked": "closed"})
    S.put(name, "train/feb.wav", "old" if name[:3] == "old" else "new")
    S.put(name, "train/deep/er/x.wav", "deep at " + name)
S.ready("files", "old1", "old2", "new1", "new2", "ns2")
TRAIN = r"\\files\rec\train\feb.wav"
R, N = dfsc.Resolver("none"), Network()

# a link of two targets; then from the caches; then its first server stops
S.link("files", "rec/train", r"\old1\train", r"\old2\train")
resolves("a link", R, N, TRAIN, r"\old1\train\feb.wav", "old", follow=False)
check("its questions", kinds(N), ["referral", "io", "referral", "io"])
N.asked.clear()
R.walk(TRAIN, N)
check("from the caches", N.asked, [r"\old1\train\feb.wav"])
check("a root target, the whole name with the DFS flag", N.io(r"\files\rec\train\feb.wav"), dfsc.PATH_NOT_COVERED)
check("and without the flag", N.io(r"\files\rec\train\feb.wav", dfs=False), dfsc.OBJECT_PATH_NOT_FOUND)
S.stop("old1")
N.asked.clear()
resolves("the first server is down", R, N, TRAIN, r"\old2\train\feb.wav", "old", follow=False)
check("it goes to the next target", N.asked, [r"\old1\train\feb.wav", r"\old2\train\feb.wav"])
N.asked.clear()
R.walk(TRAIN, N)
check("the hint has moved", N.asked, [r"\old2\train\feb.wav"])
S.start("old1")
S.ready("old1")

# the link is moved on the running server: two targets are as many as two others, and are not the same
S.link("files", "rec/train", r"\new1\train", r"\new2\train")
check("until the TTL has passed", R.walk(TRAIN, N).path, r"\old2\train\feb.wav")
ttl = [e.ttl for e in R.referrals.entries() if not e.root][0]
N.now += ttl
resolves("the moved link", R, N, TRAIN, r"\new1\train\feb.wav", "new", follow=False)
check("its targets", [e.targets for e in R.referrals.entries() if not e.root], [(r"\new1\train", r"\new2\train")])

# a list in another order is the same list: list and hint stay
S.stop("new1")
R.walk(TRAIN, N)
S.start("new1")
S.ready("new1")
S.link("files", "rec/train", r"\new2\train", r"\new1\train")
N.now += ttl
check("the same targets in another order", R.walk(TRAIN, N).path, r"\new2\train\feb.wav")
check("the list stays", [(e.targets, e.hint) for e in R.referrals.entries() if not e.root], [((r"\new1\train", r"\new2\train"), 1)])

# all servers of a fresh entry are gone, and the link leads elsewhere by now
S.link("files", "rec/train", r"\old1\train", r"\old2\train")
S.stop("new1")
S.stop("new2")
end = R.walk(TRAIN, N)
check("all targets gone", (end.number, end.status), (dfsc.FAILED, dfsc.CONNECTION_REFUSED))
resolves("the recipe: expired and asked again", R, N, TRAIN, r"\old1\train\feb.wav", "old")
S.start("new1")
S.start("new2")
S.ready("new1", "new2")

# one entry expired by its prefix: the link is asked for anew at its root's target, whatever its TTL
S.link("files", "rec/train", r"\new1\train", r"\new2\train")
R.referrals.expire("\\\\FILES\\rec\\train\\")
N.asked.clear()
resolves("one entry expired", R, N, TRAIN, r"\new1\train\feb.wav", "new", follow=False)
check("one entry expired: its questions", kinds(N), ["referral", "io"])

# a link that is gone, and a folder in its place
os.unlink(S.at("files", "rec/train"))
S.put("files", "rec/train/feb.wav", "a folder")
N.now += ttl
check("a link that is gone", R.walk(TRAIN, N).number, dfsc.FAILED)
resolves("the recipe: the cache emptied", R, N, TRAIN, r"\files\rec\train\feb.wav", "a folder")

# a namespace behind a link, which Samba tells by no header bit
S.link("files", "rec/more", r"\ns2\more")
S.link("ns2", "more/deep", r"\new1\train\deep")
DEEP = r"\\files\rec\more\deep\er\x.wav"
end = R.walk(DEEP, N)
check("another namespace", (end.number, end.status), (dfsc.FAILED, dfsc.PATH_NOT_COVERED))
resolves("the recipe: started anew", R, N, DEEP, r"\new1\train\deep\er\x.wav", "deep at new1")
# two links that lead to each other
S.link("files", "rec/loopa", r"\ns2\more\loopb")
S.link("ns2", "more/loopb", r"\files\rec\loopa")
N.asked.clear()
end = R.follow(r"\\files\rec\loopa\x", N)
check("a loop ends", (end.number, end.status, len(N.asked) < 60), (dfsc.FAILED, dfsc.PATH_NOT_COVERED, True))

# replies longer than the size asked: it is doubled
S.link("files", "rec/many", *[r"\nosuch%02d\a-share-with-a-long-name" % i for i in range(6)] + [r"\new2\train"] + [r"\nosuch%02d\x" % i for i in range(30)])
R.size, R.limit = 1024, 64
N.asked.clear()
resolves("a long reply", R, N, r"\\files\rec\many\feb.wav", r"\new2\train\feb.wav", "new", follow=False)
sizes = [a[2] for a in N.asked if isinstance(a, tuple)]
check("sizes", sizes[-3:], [1024, 2048, 4096] if sizes[-1] == 4096 else [2048, 4096, 8192])
R.size, R.limit = 8192, 16

# a limit that is too small
R.referrals.clear()
R.limit = 3
end = R.walk(r"\\files\rec\many\feb.wav", N)
check("a small limit", (end.number, end.moves), (dfsc.LIMIT_REACHED, 3))
R.limit = 16

# the target makes the path too long: the folder above is walked, and the rest appended
below = "\\".join(("d" * 120, "e" * 100))
S.put("new1", "train/" + below.replace("\\", "/") + "/" + "f" * 60, "far down")
S.link("files", "rec/long", "\\new1\\train\\" + below)
check("a new path too long", R.walk("\\\\files\\rec\\long\\" + "f" * 60, N).number, dfsc.TOO_LONG)
end = R.walk(r"\\files\rec\long", N)
check("the folder above", (end.number, end.path), (dfsc.DONE, "\\new1\\train\\" + below))
check("the recipe: the rest appended", (N.io(end.path + "\\" + "f" * 60), N.data), (0, "far down"))
check("the rest appended: smbclient", smbclient("\\\\files\\rec\\long\\" + "f" * 60), "far down")

# no such share at the first target; a logon that fails ends the walk; no DFS at all
S.link("files", "rec/share", r"\old1\nothing", r"\old2\train")
resolves("no such share", R, N, r"\\files\rec\share\feb.wav", r"\old2\train\feb.wav", "old", follow=False)
S.link("files", "rec/locked", r"\old1\locked", r"\old2\train")
end = R.walk(r"\\files\rec\locked\feb.wav", N)
check("no guests", (end.number, end.status), (dfsc.FAILED, 0xC0000022))
end = R.walk(r"\\new1\train\feb.wav", N)
check("a share that is not in DFS", (end.number, end.path), (dfsc.NOT_DFS, r"\new1\train\feb.wav"))
check("as it is", (N.io(end.path, dfs=False), N.data), (0, "new"))
end = R.walk(r"\\nosuch\share\x", N)
check("a host that is not there", end.number, dfsc.NOT_DFS)

# the caches saved and read again
saved = dfsc.ReferralCache.from_bytes(bytes(R.referrals))
saved.expire_all()
again = dfsc.Resolver("none")
again.referrals = saved
resolves("a saved cache", again, N, r"\\files\rec\share\feb.wav", r"\old2\train\feb.wav", "old", follow=False)

# a domain: the cache is filled from a DC; SYSVOL by the domain's name, a namespace of the domain
S.domain_controller()
print("samba: file servers and a domain controller after %d s" % (time.monotonic() - began), flush=True)
ADMIN = "Administrator%" + PASSWORD
S.put("peerdc", "ad/state/sysvol/peers.test/scripts/hello.txt", "hello")
S.link("peerdc", "dfs/train", r"\new1\train")
N, R = Network("Administrator", PASSWORD, "PEERS"), dfsc.Resolver("peerdc")
check("the domain cache", R.fill_domains(N), 0)
check("two names for a domain", sorted(e.name.lower() for e in R.domains.entries()), ["peers", "peers.test"])
SYSVOL = r"\\peers.test\SYSVOL\peers.test\scripts\hello.txt"
N.data = None
end = R.walk(SYSVOL, N)
check("SYSVOL", (end.number, end.status, N.data), (dfsc.DONE, 0, "hello"))
check("SYSVOL: smbclient", smbclient(SYSVOL, ADMIN), "hello")
DOMAIN = r"\\peers.test\dfs\train\feb.wav"
end = R.walk(DOMAIN, N)
check("a path of the domain", (end.number, end.status, end.path), (dfsc.DONE, 0, r"\new1\train\feb.wav"))
check("a path of the domain: what was read", N.data, "new")
check("a path of the domain: smbclient", smbclient(DOMAIN, ADMIN), "new")

# the bootstrap DC does not answer
R = dfsc.Resolver("peerdc")
R.fill_domains(N)
R.boot = "deaddc.peers.test"
end = R.walk(DOMAIN, N)
check("a dead bootstrap DC", (end.number, end.status, R.fill_domains(N)), (dfsc.NO_DC, dfsc.CONNECTION_REFUSED, dfsc.CONNECTION_REFUSED))
R.boot = "peerdc"
check("the recipe: another DC", (R.fill_domains(N), R.follow(DOMAIN, N).path), (0, r"\new1\train\feb.wav"))

# a DC that does not answer stands first: the recipe moves the hint
S.dead_controller("DEADDC")
R.fill_domains(N)
R.referrals.clear()
R.walk(DOMAIN, N)
dcs = [e.dcs for e in R.domains.entries() if e.dcs]
check("two DCs are known", [sorted(d.lower() for d in ds) for ds in dcs], [["deaddc.peers.test", "peerdc.peers.test"]])
if dcs:
    R.referrals.clear()
    entry = [e for e in R.domains.entries() if e.dcs][0]
    if entry.dcs[entry.hint].lower().startswith("peerdc"):
        R.domains.next_dc("peers.test")
    end = R.walk(SYSVOL, N)
    check("SYSVOL at a dead DC", (end.number, end.status), (dfsc.NO_DC, dfsc.CONNECTION_REFUSED))
    N.data = None
    end = R.follow(SYSVOL, N)
    check("the recipe: the next DC", (end.number, N.data), (dfsc.DONE, "hello"))
S.down()
print("samba: %d passed, %d failed, %d s" % (good, bad, time.monotonic() - began))
sys.exit(bad > 0)

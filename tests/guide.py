"""guide.py WALK: docs/HOST.md held to the program `walk` and to the definition of the steps."""
import os, re, select, subprocess, sys

walk = sys.argv[1]
guide = open("docs/HOST.md", encoding="utf-8").read()
# a link with two targets: settings, the root's reply, PATH_NOT_COVERED, the link's reply
lines = open("host/examples/link2.in").read().split("\n")[:10]
good, bad = 0, 0


def check(what, holds):
    global good, bad
    if holds:
        good += 1
    else:
        bad += 1
        print("guide:", what)


def after(status):
    """What is printed after the first target answered so, from the question or end on."""
    out = subprocess.run([walk], input="\n".join(lines + ["status=" + status, ""]), capture_output=True, text=True).stdout
    return out.split("name=\\server1\\share1\\some\\deeper\\file.txt\n")[1].split("\n")


rows = re.findall(r"^\|[^|]*\| ([0-9A-F]{8}) \| ([A-Z_]+) \| ([^|]*) \|$", guide, re.M)
check("the table of statuses", len(rows) >= 12)
for status, name, does in rows:
    said = after(status)
    if does == "next target":
        check(f"{status} {name}: {said}", said[:2] == ["ask=io", "to=\\server2\\share2"])
    else:
        end = re.search(r"end (\d+)$", does)[1]
        check(f"{status} {name}: {said}", said[:2] == ["end=" + end, "status=" + status])
next_target = re.search(r"^next_target_statuses = (.*)$", open("crates/walk_steps/specs/steps/Steps.antt", encoding="utf-8").read(), re.M)[1]
check("the statuses for the next target", sorted(re.findall("0x([0-9A-F]{8})", next_target)) == sorted(s for s, _, d in rows if d == "next target"))
# the names of include/dfsc.h have the numbers of the table
header = dict(re.findall(r"^#define DFSC_STATUS_([A-Z_]+) UINT32_C\(0x([0-9A-F]{8})\)", open("include/dfsc.h").read(), re.M))
check("the header's statuses", len(header) >= 9 and all(header.get(name, status) == status for status, name, _ in rows))
check("the header has those for the next target", all(name in header for _, name, does in rows if does == "next target"))
# an errno given as a status, and a warning
for status in ("0000006F", "80000005"):
    check(f"{status} is a success", after(status)[0] == "end=20")

# in a pipe
p = subprocess.Popen([walk], stdin=subprocess.PIPE, stdout=subprocess.PIPE, bufsize=0)


def written(*some):
    """What is printed once these lines are written: all that comes until nothing does for a while."""
    p.stdin.write("".join(l + "\n" for l in some).encode())
    got, quiet = b"", 0
    while quiet < (2 if got else 10):
        if select.select([p.stdout], [], [], 0.1)[0]:
            got, quiet = got + os.read(p.stdout.fileno(), 65536), 0
        else:
            quiet += 1
    return got.decode()


check("a referral's answer is complete with its reply", written(*lines[:7]).endswith("ask=io\nto=\\PEERHOST\\dfs\nname=\\PEERHOST\\dfs\\link2\\some\\deeper\\file.txt\n"))
check("an I/O answer waits for the next line", written(lines[7]) == "")
check("a line now= completes it", written("now=101").startswith("ask=link\n"))
check("a link's reply", written(*lines[8:10]).startswith("ask=io\n"))
check("the last I/O answer waits too", written("status=00000000") == "")
p.stdin.close()
check("the end of the input completes it", p.stdout.read().startswith(b"end=20\n"))
p.wait()
print(f"guide: {good} passed, {bad} failed")
sys.exit(bad > 0)

"""Real servers for tests: Samba file servers, each an smbd on a loopback address of its own, port 445, and a Samba AD domain controller (smbd and winbindd).
To be used as root in network and mount namespaces that end with the test (tests/samba.sh)."""
import fcntl
import os
import shutil
import socket
import struct
import subprocess
import time

ADDRESS = {name: "127.0.0.%d" % (10 + i) for i, name in enumerate("files old1 old2 new1 new2 ns2 peerdc".split())}
PASSWORD = "Passw0rd-peers"
CONFIGURATION = """[global]
  netbios name = {name}
  {role}
  interfaces = {address}/8
  bind interfaces only = yes
  smb ports = 445
  disable netbios = yes
  host msdfs = yes
  load printers = no
  disable spoolss = yes
  lock directory = {state}{lock}
  private dir = {state}/private
  state directory = {state}/state
  cache directory = {state}/cache
  pid directory = {folder}/pid
  ncalrpc dir = {folder}/ncalrpc
  log file = {folder}/log
"""


def loopback_up():
    with socket.socket() as s:
        SIOCSIFFLAGS, IFF_UP = 0x8914, 1
        fcntl.ioctl(s, SIOCSIFFLAGS, struct.pack("16sh22x", b"lo", IFF_UP))


class Servers:
    def __init__(self, folder):
        self.folder, self.running = folder, {}
        os.chmod(folder, 0o755)
        loopback_up()
        with open(self.at("hosts"), "w") as f:
            f.write("127.0.0.1 localhost\n" + "".join("%s %s\n" % (a, n) for n, a in ADDRESS.items()))
            f.write("%s peerdc.peers.test peers.test PEERS\n127.0.0.99 deaddc.peers.test\n" % ADDRESS["peerdc"])
        subprocess.run(["mount", "--bind", self.at("hosts"), "/etc/hosts"], check=True)

    def at(self, *names):
        return os.path.join(self.folder, *names)

    def server(self, name, shares, more=""):
        """A file server. Of shares `dfs` are DFS roots, `closed` not for guests."""
        folder = self.at(name)
        for s in ["lock", "private", "state", "cache", "pid", "ncalrpc"] + list(shares):
            os.makedirs(os.path.join(folder, s), exist_ok=True)
        role = "server role = standalone server\n  map to guest = Bad User"
        with open(self.at(name, "smb.conf"), "w") as f:
            f.write(CONFIGURATION.format(name=name, address=ADDRESS[name], folder=folder, state=folder, lock="/lock", role=role) + more)
            for share, kind in shares.items():
                f.write("[%s]\n  path = %s\n  guest ok = %s\n  msdfs root = %s\n" % (
                    share, os.path.join(folder, share), "no" if kind == "closed" else "yes", "yes" if kind == "dfs" else "no"))
        self.start(name)

    def start(self, name, program="/usr/sbin/smbd", key=None, env=None):
        with open(self.at(name, "out"), "a") as out:
            self.running[key or name] = subprocess.Popen([program, "-F", "-s", self.at(name, "smb.conf")], stdin=subprocess.DEVNULL, stdout=out, stderr=out, env=env)

    def stop(self, name):
        p = self.running.pop(name)
        p.terminate()
        p.wait()
        while self.answers(name):  # its children end by themselves
            time.sleep(0.01)

    @staticmethod
    def answers(name):
        try:
            socket.create_connection((ADDRESS[name], 445), 1).close()
            return True
        except OSError:
            return False

    def ready(self, *names):
        for name in names:
            until = time.monotonic() + 20
            while not self.answers(name):
                if time.monotonic() > until:
                    with open(self.at(name, "out")) as f:
                        raise RuntimeError("%s does not answer: %s" % (name, f.read()[-2000:]))
                time.sleep(0.01)

    def link(self, server, place, *targets):
        """A DFS link, made or moved. Samba reads it from a symbolic link; with slashes, since Linux looks up a component of at most 255 bytes first."""
        path = self.at(server, place)
        if os.path.lexists(path):
            os.unlink(path)
        os.symlink("msdfs:" + ",".join(t.lstrip("\\").replace("\\", "/") for t in targets), path)

    def put(self, server, place, text):
        path = self.at(server, place)
        os.makedirs(os.path.dirname(path), exist_ok=True)
        with open(path, "w") as f:
            f.write(text)

    def domain_controller(self):
        folder = self.at("peerdc")
        state = os.path.join(folder, "ad")
        for s in ("pid", "ncalrpc", "winbind", "dfs"):
            os.makedirs(os.path.join(folder, s))
        with open(self.at("provision.log"), "w") as log:
            subprocess.run([
                "samba-tool", "domain", "provision", "--realm=PEERS.TEST", "--domain=PEERS", "--server-role=dc", "--dns-backend=NONE", "--adminpass=" + PASSWORD,
                "--host-name=PEERDC", "--host-ip=" + ADDRESS["peerdc"], "--targetdir=" + state, "--option=interfaces=%s/8" % ADDRESS["peerdc"],
                "--option=bind interfaces only=yes"], check=True, stdout=log, stderr=log)
        role = ("workgroup = PEERS\n  realm = PEERS.TEST\n  server role = active directory domain controller\n  server role check:inhibit = yes\n"
                "  winbindd socket directory = %s/winbind" % folder)
        with open(self.at("peerdc", "smb.conf"), "w") as f:
            f.write(CONFIGURATION.format(name="PEERDC", address=ADDRESS["peerdc"], folder=folder, state=state, lock="", role=role))
            sysvol = os.path.join(state, "state", "sysvol")
            for share, path, root in (("sysvol", sysvol, "no"), ("netlogon", sysvol + "/peers.test/scripts", "no"), ("dfs", folder + "/dfs", "yes")):
                f.write("[%s]\n  path = %s\n  msdfs root = %s\n" % (share, path, root))
        for name in ("passwd", "group"):
            shutil.copy("/etc/" + name, folder)
            os.chmod(os.path.join(folder, name), 0o644)
        env = dict(os.environ, SELFTEST_WINBINDD_SOCKET_DIR=folder + "/winbind", NSS_WRAPPER_PASSWD=folder + "/passwd", NSS_WRAPPER_GROUP=folder + "/group",
                   LD_PRELOAD="libnss_wrapper.so")
        self.start("peerdc", "/usr/sbin/winbindd", "winbindd", env)
        self.start("peerdc", env=env)
        until = time.monotonic() + 20
        while not os.path.exists(folder + "/winbind/pipe") and time.monotonic() < until:
            time.sleep(0.01)
        self.ready("peerdc")

    def dead_controller(self, name):
        """A DC that the directory names and that does not answer."""
        from samba.auth import system_session
        from samba.param import LoadParm
        from samba.samdb import SamDB
        parameters = LoadParm()
        parameters.load(self.at("peerdc/ad/etc/smb.conf"))
        directory, base = SamDB(url=self.at("peerdc/ad/private/sam.ldb"), session_info=system_session(), lp=parameters), "DC=peers,DC=test"
        computer, dns = "CN=%s,OU=Domain Controllers,%s" % (name, base), name.lower() + ".peers.test"
        site = "CN=Servers,CN=Default-First-Site-Name,CN=Sites,CN=Configuration," + base
        directory.add({"dn": computer, "objectClass": "computer", "sAMAccountName": name + "$", "userAccountControl": "4096", "dNSHostName": dns}, controls=["relax:0"])
        directory.add({"dn": "CN=%s,%s" % (name, site), "objectClass": "server", "serverReference": computer, "dNSHostName": dns}, controls=["relax:0"])

    def down(self):
        for p in self.running.values():
            p.terminate()
        for p in self.running.values():
            p.wait()

"""A host's SMB client over Debian's python3-impacket, as docs/HOST.md has it: the methods that dfsc.Resolver needs. impacket does connection, logon and signing. The
requests that touch DFS are put together here, since impacket 0.10 sends a name without server and share on a share in DFS, and clears the DFS flag when it signs."""
import socket

from impacket import nmb, smb3, smb3structs as S
from impacket.smbconnection import SessionError, SMBConnection

import dfsc

FSCTL_DFS_GET_REFERRALS = 0x00060194
END_OF_FILE = 0xC0000011


class Lost(Exception):
    """A server gave no answer: the status that stands for it."""

    def __init__(self, status):
        super().__init__("%08X" % status)
        self.status = status


def flagged(smb, flags):
    """A packet that keeps these flags where impacket sets them anew."""
    class Packet(type(smb.SMB_PACKET())):
        def __setitem__(self, key, value):
            super().__setitem__(key, value | flags if key == "Flags" else value)
    packet = Packet()
    packet["Flags"] = 0
    return packet


class Network:
    def __init__(self, user="guest", password="", domain=""):
        self.credentials, self.connections, self.asked, self.now, self.data = (user, password, domain), {}, [], 1000, None

    def clock(self):
        return self.now

    def connection(self, server):
        key = server.lower()
        if key not in self.connections:
            try:
                socket.create_connection((server, 445), 5).close()  # impacket makes a text of what a socket says
                connection = SMBConnection(server, server, sess_port=445, timeout=5)
                connection.login(*self.credentials)
            except SessionError as e:
                raise Lost(e.getErrorCode())
            except nmb.NetBIOSTimeout:
                raise Lost(dfsc.IO_TIMEOUT)
            except OSError as e:
                raise Lost(dfsc.status_of(e))
            self.connections[key] = connection.getSMBServer()
        return self.connections[key]

    def call(self, server, share, command, data, flags=0):
        """One request on a share: its status and its answer. A connection that died while it was idle is opened once more."""
        for attempt in (1, 2):
            fresh = attempt == 2 or server.lower() not in self.connections
            smb = self.connection(server)
            try:
                tree = smb.connectTree(share)
                in_dfs = smb._Session["TreeConnectTable"][tree]["IsDfsShare"]
                packet = flagged(smb, flags if in_dfs else 0)
                packet["Command"], packet["TreeID"], packet["Data"] = command, tree, data(in_dfs)
                answer = smb.recvSMB(smb.sendSMB(packet))
                return answer["Status"], answer
            except (SessionError, smb3.SessionError) as e:
                return (getattr(e, "getErrorCode", None) or e.get_error_code)(), None
            except (OSError, nmb.NetBIOSError, nmb.NetBIOSTimeout) as e:
                del self.connections[server.lower()]
                if fresh:
                    raise Lost(dfsc.IO_TIMEOUT if isinstance(e, (TimeoutError, nmb.NetBIOSTimeout)) else dfsc.NETWORK_NAME_DELETED)

    def referral(self, server, request, size):
        self.asked.append((server, request[2:-2].decode("utf-16-le"), size))

        def ioctl(_):
            r = S.SMB2Ioctl()
            r["FileID"], r["CtlCode"], r["Flags"] = b"\xff" * 16, FSCTL_DFS_GET_REFERRALS, S.SMB2_0_IOCTL_IS_FSCTL
            r["InputCount"], r["Buffer"], r["MaxInputResponse"], r["MaxOutputResponse"], r["OutputOffset"] = len(request), request, 0, size, 0
            return r
        try:
            status, answer = self.call(server, "IPC$", S.SMB2_IOCTL, ioctl)
        except Lost as e:
            return e.status, b""
        return status, S.SMB2Ioctl_Response(answer["Data"])["Buffer"] if status == 0 else b""

    def io(self, path, dfs=True, whole=True):
        """Opens and reads the file, or opens a folder; what the file holds is in `data` then. On a share in DFS with the DFS flag and the whole name."""
        self.asked.append(path)
        server, share, rest = (path.lstrip("\\").split("\\", 2) + [""])[:3]

        def create(in_dfs):
            name = (path.lstrip("\\") if whole and in_dfs else rest).encode("utf-16-le")
            r = S.SMB2Create()
            r["SecurityFlags"], r["RequestedOplockLevel"], r["ImpersonationLevel"] = 0, 0, S.SMB2_IL_IMPERSONATION
            r["DesiredAccess"], r["FileAttributes"], r["ShareAccess"] = S.GENERIC_READ, 0, S.FILE_SHARE_READ | S.FILE_SHARE_WRITE
            r["CreateDisposition"], r["CreateOptions"], r["NameLength"], r["Buffer"] = S.FILE_OPEN, 0, len(name), name or b"\0"
            r["CreateContextsOffset"], r["CreateContextsLength"] = 0, 0
            return r

        def read_from(file):
            def read(_):
                r = S.SMB2Read()
                r["Padding"], r["FileID"], r["Length"], r["Offset"] = 0x50, file, 65536, 0
                return r
            return read

        def close_of(file):
            def close(_):
                r = S.SMB2Close()
                r["Flags"], r["FileID"] = 0, file
                return r
            return close
        try:
            status, answer = self.call(server, share, S.SMB2_CREATE, create, S.SMB2_FLAGS_DFS_OPERATIONS if dfs else 0)
            if status:
                return status
            made = S.SMB2Create_Response(answer["Data"])
            file, folder = made["FileID"], made["FileAttributes"] & 0x10
            if not folder:
                status, answer = self.call(server, share, S.SMB2_READ, read_from(file))
            self.call(server, share, S.SMB2_CLOSE, close_of(file))
        except Lost as e:
            return e.status
        self.data = S.SMB2Read_Response(answer["Data"])["Buffer"].decode() if status == 0 and not folder else ""
        return 0 if status == END_OF_FILE else status

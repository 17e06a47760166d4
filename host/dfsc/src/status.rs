//! The statuses that go to and fro between a host and a walk.
use std::fmt;
use std::io;

/// An NTSTATUS.
#[derive(Clone, Copy, Default, PartialEq, Eq, PartialOrd, Ord, Hash)]
pub struct NtStatus(pub u32);

/// The statuses that have a name here.
const NAMED: [(NtStatus, &str); 10] = [
    (NtStatus::SUCCESS, "SUCCESS"),
    (NtStatus::BUFFER_OVERFLOW, "BUFFER_OVERFLOW"),
    (NtStatus::OBJECT_PATH_NOT_FOUND, "OBJECT_PATH_NOT_FOUND"),
    (NtStatus::IO_TIMEOUT, "IO_TIMEOUT"),
    (NtStatus::BAD_NETWORK_PATH, "BAD_NETWORK_PATH"),
    (NtStatus::NETWORK_NAME_DELETED, "NETWORK_NAME_DELETED"),
    (NtStatus::BAD_NETWORK_NAME, "BAD_NETWORK_NAME"),
    (NtStatus::CONNECTION_REFUSED, "CONNECTION_REFUSED"),
    (NtStatus::HOST_UNREACHABLE, "HOST_UNREACHABLE"),
    (NtStatus::PATH_NOT_COVERED, "PATH_NOT_COVERED"),
];

impl NtStatus {
    /// It was done.
    pub const SUCCESS: NtStatus = NtStatus(0);
    /// A referral reply was cut: the same party is asked again with the size doubled.
    pub const BUFFER_OVERFLOW: NtStatus = NtStatus(0x8000_0005);
    /// At [`Outcome::NoDc`](crate::Outcome::NoDc) and [`Outcome::Failed`](crate::Outcome::Failed): all DCs failed, or a reply without an entry.
    pub const OBJECT_PATH_NOT_FOUND: NtStatus = NtStatus(0xC000_003A);
    /// A link lies below the target of an I/O try.
    pub const PATH_NOT_COVERED: NtStatus = NtStatus(0xC000_0257);
    /// Timed out. The next target is tried.
    pub const IO_TIMEOUT: NtStatus = NtStatus(0xC000_00B5);
    /// No such host, and any failure of the network that has no other name here. The next target is tried.
    pub const BAD_NETWORK_PATH: NtStatus = NtStatus(0xC000_00BE);
    /// Reset or broken. The next target is tried.
    pub const NETWORK_NAME_DELETED: NtStatus = NtStatus(0xC000_00C9);
    /// No such share. The next target is tried.
    pub const BAD_NETWORK_NAME: NtStatus = NtStatus(0xC000_00CC);
    /// The connection was refused. The next target is tried.
    pub const CONNECTION_REFUSED: NtStatus = NtStatus(0xC000_0236);
    /// No route to the host or to its network. The next target is tried.
    pub const HOST_UNREACHABLE: NtStatus = NtStatus(0xC000_023D);

    /// Its severity: 0 success, 1 information, 2 warning, 3 error.
    pub fn severity(self) -> u32 {
        self.0 >> 30
    }

    /// Whether an I/O try that ends so leads to the next target.
    pub fn tries_next_target(self) -> bool {
        let next = [
            NtStatus::IO_TIMEOUT,
            NtStatus::BAD_NETWORK_PATH,
            NtStatus::NETWORK_NAME_DELETED,
            NtStatus::BAD_NETWORK_NAME,
            NtStatus::CONNECTION_REFUSED,
            NtStatus::HOST_UNREACHABLE,
        ];
        next.contains(&self)
    }
}

/// What the network says, as the status to answer: always one on which the next target is tried. The name that Windows has for it, such as
/// STATUS_CONNECTION_RESET, would end the walk.
impl From<io::ErrorKind> for NtStatus {
    fn from(kind: io::ErrorKind) -> NtStatus {
        use io::ErrorKind::*;
        match kind {
            ConnectionRefused => NtStatus::CONNECTION_REFUSED,
            HostUnreachable | NetworkUnreachable | NetworkDown => NtStatus::HOST_UNREACHABLE,
            TimedOut | WouldBlock => NtStatus::IO_TIMEOUT,
            ConnectionReset | ConnectionAborted | NotConnected | BrokenPipe | UnexpectedEof => NtStatus::NETWORK_NAME_DELETED,
            _ => NtStatus::BAD_NETWORK_PATH,
        }
    }
}

impl From<&io::Error> for NtStatus {
    fn from(error: &io::Error) -> NtStatus {
        error.kind().into()
    }
}

impl From<u32> for NtStatus {
    fn from(status: u32) -> NtStatus {
        NtStatus(status)
    }
}

impl From<NtStatus> for u32 {
    fn from(status: NtStatus) -> u32 {
        status.0
    }
}

impl fmt::Display for NtStatus {
    fn fmt(&self, f: &mut fmt::Formatter) -> fmt::Result {
        match NAMED.iter().find(|(s, _)| s == self) {
            Some((_, name)) => write!(f, "{:08X} {name}", self.0),
            None => write!(f, "{:08X}", self.0),
        }
    }
}

impl fmt::Debug for NtStatus {
    fn fmt(&self, f: &mut fmt::Formatter) -> fmt::Result {
        write!(f, "NtStatus({self})")
    }
}

impl fmt::UpperHex for NtStatus {
    fn fmt(&self, f: &mut fmt::Formatter) -> fmt::Result {
        fmt::UpperHex::fmt(&self.0, f)
    }
}

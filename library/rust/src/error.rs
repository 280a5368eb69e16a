//! Why a domain, a lock or a processor is not there.

use std::error;
use std::fmt;

/// Why a domain was not opened, a lock not made, or a thread has no processor.
///
/// ```
/// use qlock::{Domain, Error, Family};
///
/// let refused = Domain::builder(Family::Native).processors(1_025).mutexes(1).open();
/// assert_eq!(refused.err(), Some(Error::Processors { asked: 1_025 }));
/// ```
#[derive(Clone, Copy, Debug, PartialEq, Eq)]
#[non_exhaustive]
pub enum Error {
    /// A domain has 1 to [`MOST_PROCESSORS`](crate::MOST_PROCESSORS) processors.
    Processors {
        /// The number of processors that was asked for.
        asked: usize,
    },
    /// A domain has 1 to [`MOST_LOCKS`](crate::MOST_LOCKS) locks.
    Locks {
        /// The number of locks that was asked for, of both kinds together.
        asked: usize,
    },
    /// A waiter of [`Family::Pv`](crate::Family::Pv) spins for 1 to 65,535 turns.
    Spins {
        /// The number of turns that was asked for.
        asked: u32,
    },
    /// [`Family::Pv`](crate::Family::Pv) has no reader-writer locks.
    NoRwLocks,
    /// There is not enough memory for a domain.
    Memory,
    /// All locks of this kind are in use.
    OutOfLocks {
        /// The number of locks of this kind that the domain has.
        locks: usize,
    },
    /// All processors are in use: other threads have them, or a guard was forgotten on them.
    OutOfProcessors {
        /// The number of processors that the domain has, or has on the socket.
        processors: usize,
        /// The socket that was asked for, if one was.
        socket: Option<u32>,
    },
    /// The thread has a processor on another socket than the one that was asked for.
    OtherSocket {
        /// The socket of the thread's processor.
        socket: u32,
    },
    /// The thread ends: its processors have been given back, or are just being given back.
    ThreadEnds,
}

impl fmt::Display for Error {
    fn fmt(&self, f: &mut fmt::Formatter<'_>) -> fmt::Result {
        match self {
            Error::Processors { asked } => {
                write!(f, "{asked} processors: a domain has 1 to {}", crate::MOST_PROCESSORS)
            }
            Error::Locks { asked } => {
                write!(f, "{asked} locks: a domain has 1 to {}", crate::MOST_LOCKS)
            }
            Error::Spins { asked } => {
                write!(f, "{asked} turns: a waiter of this family spins for 1 to 65535")
            }
            Error::NoRwLocks => f.write_str("this family has no reader-writer locks"),
            Error::Memory => f.write_str("not enough memory for a domain"),
            Error::OutOfLocks { locks } => {
                write!(f, "the domain has {locks} locks of this kind, and all are in use")
            }
            Error::OutOfProcessors { processors, socket: None } => {
                write!(f, "the domain has {processors} processors, and all are in use")
            }
            Error::OutOfProcessors { processors, socket: Some(socket) } => write!(
                f,
                "the domain has {processors} processors on socket {socket}, and all are in use"
            ),
            Error::OtherSocket { socket } => {
                write!(f, "the thread has a processor on socket {socket}")
            }
            Error::ThreadEnds => f.write_str("the thread ends, and has given its processors back"),
        }
    }
}

impl error::Error for Error {}

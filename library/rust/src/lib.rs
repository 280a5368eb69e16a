#![doc = include_str!("../README.md")]
#![warn(missing_docs)]

mod domain;
mod error;
mod library;
mod mutex;
mod place;
mod processor;
mod rw_lock;
mod seat;

pub use domain::{Builder, Domain, Family};
pub use error::Error;
pub use mutex::{Mutex, MutexGuard};
pub use processor::Processor;
pub use rw_lock::{RwLock, RwLockReadGuard, RwLockWriteGuard};

/// The most processors that a domain has.
///
/// ```
/// use qlock::{Domain, Family, MOST_PROCESSORS};
///
/// let most = Domain::builder(Family::Virt).mutexes(1).processors(MOST_PROCESSORS);
/// assert!(most.open().is_ok());
/// assert!(most.processors(MOST_PROCESSORS + 1).open().is_err());
/// ```
pub const MOST_PROCESSORS: usize = library::MOST_CPUS as usize;

/// The most locks that a domain has, of both kinds together.
///
/// ```
/// use qlock::{Domain, Family, MOST_LOCKS};
///
/// let most = Domain::builder(Family::Virt).processors(1).mutexes(MOST_LOCKS);
/// assert!(most.open().is_ok());
/// assert!(most.rw_locks(1).open().is_err());
/// ```
pub const MOST_LOCKS: usize = library::MOST_LOCKS as usize;

//! A lock of a domain, which one mutex or reader-writer lock has.

use std::sync::Arc;

use crate::domain::{Domain, Shared};
use crate::error::Error;
use crate::library::Manner;
use crate::processor;
use crate::seat::{Refused, Seated};

/// A lock of a domain. It is given back when this is dropped.
pub(crate) struct Place {
    domain: Arc<Shared>,
    number: u32,
}

/// Why a thread does not get a lock.
#[derive(Clone, Copy, Debug, PartialEq, Eq)]
pub(crate) enum Missed {
    /// The lock was refused.
    Lock(Refused),
    /// The thread has no processor.
    Processor(Error),
}

impl Missed {
    /// Nothing, as the answer of a try.
    ///
    /// # Panics
    ///
    /// The thread has no processor.
    pub(crate) fn as_none<T>(self) -> Option<T> {
        match self {
            Missed::Lock(_) => None,
            Missed::Processor(error) => has_no_processor(error),
        }
    }

    /// What `Debug` says in place of the value.
    pub(crate) fn placeholder(self) -> &'static str {
        match self {
            Missed::Lock(_) => "<locked>",
            Missed::Processor(_) => "<no processor>",
        }
    }
}

fn has_no_processor(error: Error) -> ! {
    panic!("qlock: this thread has no processor: {error}")
}

impl Place {
    pub(crate) fn of_mutex(domain: &Domain) -> Result<Place, Error> {
        let domain = domain.shared.clone();
        Ok(Place { number: domain.take_mutex()?, domain })
    }

    pub(crate) fn of_rw_lock(domain: &Domain) -> Result<Place, Error> {
        let domain = domain.shared.clone();
        Ok(Place { number: domain.take_rw_lock()?, domain })
    }

    /// Waits until the thread has the lock.
    ///
    /// # Panics
    ///
    /// The thread has the lock already, or gets no processor.
    pub(crate) fn acquire(&self, manner: &Manner) -> Seated<'_> {
        let seated =
            processor::seated(&self.domain).unwrap_or_else(|error| has_no_processor(error));
        match seated.acquire(manner, self.number) {
            Ok(()) => seated,
            Err(refused) => panic!("qlock: this thread has the lock already ({refused:?})"),
        }
    }

    /// Takes the lock, if nobody is in the way.
    pub(crate) fn attempt(&self, manner: &Manner) -> Result<Seated<'_>, Missed> {
        let seated = processor::seated(&self.domain).map_err(Missed::Processor)?;
        seated.attempt(manner, self.number).map_err(Missed::Lock)?;
        Ok(seated)
    }

    /// Frees the lock, which the thread has.
    pub(crate) fn free(&self, manner: &Manner, seated: Seated<'_>) {
        if seated.free(manner, self.number, &self.domain.seats) {
            self.domain.give_seat(seated.number());
        }
    }
}

impl Drop for Place {
    fn drop(&mut self) {
        self.domain.give_lock(self.number);
    }
}

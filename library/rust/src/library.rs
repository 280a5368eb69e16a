//! The static library, as `qlock.h` declares it.

use std::ffi::c_void;

// The answers and the limits, as the build found them in the header.
#[allow(dead_code)]
mod header {
    include!(concat!(env!("OUT_DIR"), "/header.rs"));
}

pub(crate) use header::{AGAIN, BUSY, CNA, DONE, HALTS, HELD, MEMORY, MOST_CPUS, MOST_LOCKS};
pub(crate) use header::{NATIVE, PV, RW, SPIN, VIRT, WAITS};

/// No processor was kicked, `QLOCK_NOBODY`.
pub(crate) const NOBODY: u32 = u32::MAX;

/// A handle, `qlock_cpu`. All zeros is an empty one.
#[repr(C)]
pub(crate) struct Cpu {
    used: bool,
    at: *mut c_void,
}

impl Cpu {
    pub(crate) const EMPTY: Cpu = Cpu { used: false, at: std::ptr::null_mut() };
}

/// A call that names a handle and a lock, and gives one of the answers.
pub(crate) type Call = unsafe extern "C" fn(cpu: *mut Cpu, lock: u32) -> u32;

unsafe extern "C" {
    pub(crate) fn qlock_open(
        family: u32,
        kinds: *const u8,
        locks: usize,
        sockets: *const u32,
        sockets_count: usize,
        threshold: u32,
        cpus: *mut Cpu,
        cpus_count: usize,
    ) -> u32;
    pub(crate) fn qlock_close(cpu: *mut Cpu) -> u32;
    pub(crate) fn qlock_try_lock(cpu: *mut Cpu, lock: u32) -> u32;
    pub(crate) fn qlock_begin(cpu: *mut Cpu, lock: u32) -> u32;
    pub(crate) fn qlock_try_read(cpu: *mut Cpu, lock: u32) -> u32;
    pub(crate) fn qlock_begin_read(cpu: *mut Cpu, lock: u32) -> u32;
    pub(crate) fn qlock_read_unlock(cpu: *mut Cpu, lock: u32) -> u32;
    pub(crate) fn qlock_try_write(cpu: *mut Cpu, lock: u32) -> u32;
    pub(crate) fn qlock_begin_write(cpu: *mut Cpu, lock: u32) -> u32;
    pub(crate) fn qlock_write_unlock(cpu: *mut Cpu, lock: u32) -> u32;
    pub(crate) fn qlock_poll(cpu: *mut Cpu) -> u32;
    pub(crate) fn qlock_unlock_kick(cpu: *mut Cpu, lock: u32, kicked: *mut u32) -> u32;
    pub(crate) fn qlock_is_kicked(cpu: *mut Cpu, yes: *mut u32) -> u32;
}

/// A release that kicks nobody.
unsafe extern "C" fn read_unlock(cpu: *mut Cpu, lock: u32, _kicked: *mut u32) -> u32 {
    // SAFETY: what is asked of the caller is what the call asks.
    unsafe { qlock_read_unlock(cpu, lock) }
}

/// As [`read_unlock`].
unsafe extern "C" fn write_unlock(cpu: *mut Cpu, lock: u32, _kicked: *mut u32) -> u32 {
    // SAFETY: what is asked of the caller is what the call asks.
    unsafe { qlock_write_unlock(cpu, lock) }
}

/// A release, which writes the number of the processor that it has kicked, if it has kicked one.
pub(crate) type Release = unsafe extern "C" fn(cpu: *mut Cpu, lock: u32, kicked: *mut u32) -> u32;

/// The three calls of one way to hold a lock.
pub(crate) struct Manner {
    pub(crate) tries: Call,
    pub(crate) begins: Call,
    pub(crate) frees: Release,
}

pub(crate) const SPINS: Manner =
    Manner { tries: qlock_try_lock, begins: qlock_begin, frees: qlock_unlock_kick };
pub(crate) const READS: Manner =
    Manner { tries: qlock_try_read, begins: qlock_begin_read, frees: read_unlock };
pub(crate) const WRITES: Manner =
    Manner { tries: qlock_try_write, begins: qlock_begin_write, frees: write_unlock };

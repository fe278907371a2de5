//! Work that a child process does, so that an access outside a list ends the child and not the
//! comparison.
//!
//! No signal handler is needed: the kernel reports to the parent what ended the child, and the parent
//! goes on from there.
#![allow(unsafe_code)]
use std::ffi::c_int;
use std::io::{Error, ErrorKind, Read, Result, Write};
use std::os::unix::net::UnixStream;
use std::os::unix::process::ExitStatusExt;
use std::panic::{AssertUnwindSafe, catch_unwind};
use std::process::ExitStatus;

/// SIGSEGV of Linux.
const STRAY_ACCESS: c_int = 11;
/// SIG_DFL: the signal ends the process.
const USUAL_HANDLER: usize = 0;
/// The status of a child whose work did not come to its end.
const FAILED: c_int = 1;

unsafe extern "C" {
    fn fork() -> c_int;
    fn waitpid(child: c_int, status: *mut c_int, options: c_int) -> c_int;
    fn signal(number: c_int, handler: usize) -> usize;
    fn _exit(status: c_int) -> !;
}

/// Does `work` in a child, and reports how the child ended: with status 0 where `work` says true.
fn in_child(work: impl FnOnce() -> bool) -> Result<ExitStatus> {
    // SAFETY: the program has one thread, so no lock is held that only another thread could give
    // back in the child.
    let child = unsafe { fork() };
    if child < 0 {
        return Err(Error::last_os_error());
    }
    if child == 0 {
        // SAFETY: a number of a signal and no handler; a stray access then ends the child by that
        // signal.
        unsafe { signal(STRAY_ACCESS, USUAL_HANDLER) };
        let done = catch_unwind(AssertUnwindSafe(work)).unwrap_or(false);
        // SAFETY: any status is accepted. What the parent does at its own end is not done here, nor its
        // work after this call.
        unsafe { _exit(if done { 0 } else { FAILED }) };
    }
    let mut status = 0;
    // SAFETY: the child is this process's, and `status` is a place for one number.
    while unsafe { waitpid(child, &raw mut status, 0) } != child {
        let error = Error::last_os_error();
        if error.kind() != ErrorKind::Interrupted {
            return Err(error);
        }
    }
    Ok(ExitStatus::from_raw(status))
}

/// Whether a child ended by an access outside what it may touch.
fn strayed(status: ExitStatus) -> bool {
    status.signal() == Some(STRAY_ACCESS)
}

/// Whether a stray access stops `work`, which a child does.
pub fn strays<T>(work: impl FnOnce() -> T) -> bool {
    let work = || {
        work();
        true
    };
    in_child(work).is_ok_and(strayed)
}

/// How work ended that a child did.
pub enum Ended {
    /// The numbers that it reported.
    Told(Vec<u64>),
    /// By a stray access.
    Stray,
    /// In another way, as these words say.
    Otherwise(String),
}

/// Does `work` in a child; what it reports has to be few numbers, as many as the kernel holds for a
/// reader that waits.
pub fn ended(work: impl FnOnce() -> Option<Vec<u64>>) -> Ended {
    report(work).unwrap_or_else(|error| Ended::Otherwise(error.to_string()))
}

fn report(work: impl FnOnce() -> Option<Vec<u64>>) -> Result<Ended> {
    let (mut here, mut there) = UnixStream::pair()?;
    let status = in_child(|| {
        let Some(numbers) = work() else {
            return false;
        };
        let bytes: Vec<u8> = numbers.into_iter().flat_map(u64::to_le_bytes).collect();
        there.write_all(&bytes).is_ok()
    })?;
    drop(there);
    if strayed(status) {
        return Ok(Ended::Stray);
    }
    if !status.success() {
        return Ok(Ended::Otherwise(status.to_string()));
    }
    let mut bytes = Vec::new();
    here.read_to_end(&mut bytes)?;
    let number = |bytes: &[u8]| u64::from_le_bytes(bytes.try_into().expect("eight bytes"));
    Ok(Ended::Told(bytes.chunks_exact(8).map(number).collect()))
}

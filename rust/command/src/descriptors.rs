//! The numbers of the standard streams, by which something or nothing may be open.

use std::io;

pub const STANDARD_INPUT: i32 = 0;
pub const STANDARD_OUTPUT: i32 = 1;

/// Linux's F_GETFD, which std does not name.
const GET_FLAGS: i32 = 1;

extern "C" {
    fn fcntl(number: i32, request: i32, ...) -> i32;
}

/// Whether something is open by this number; an error that says so where nothing is.
pub fn open(number: i32) -> io::Result<()> {
    // SAFETY: the request takes any number and no further argument, and changes nothing.
    match unsafe { fcntl(number, GET_FLAGS) } {
        -1 => Err(io::Error::last_os_error()),
        _ => Ok(()),
    }
}

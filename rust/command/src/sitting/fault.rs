//! Whose fault it is that nothing can be read of a script: its own, or the machine's, as of too many open files or a disk.

use std::io::{Error, ErrorKind};

/// Linux's ELOOP, for which std has no stable name, and ENXIO, for a socket or a device that is opened.
const TOO_MANY_LINKS: i32 = 40;
const NO_DEVICE: i32 = 6;

/// Whether it is the script's, by what stands at its name. Whatever is not known to be that is the machine's, for the row of
/// an empty text would be wrong for a script that may well be right.
pub fn is_the_scripts(fault: &Error) -> bool {
    let at_its_name = matches!(
        fault.kind(),
        ErrorKind::NotFound
            | ErrorKind::PermissionDenied
            | ErrorKind::IsADirectory
            | ErrorKind::NotADirectory
            | ErrorKind::InvalidFilename
            // never by the system; `text` says so of what is no regular file
            | ErrorKind::Other
    );
    at_its_name || matches!(fault.raw_os_error(), Some(TOO_MANY_LINKS | NO_DEVICE))
}

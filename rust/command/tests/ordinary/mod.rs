//! An ordinary user, for whom locked folders and limits on processes hold, as they do not for root.

use std::fs::{self, Permissions};
use std::os::unix::fs::{MetadataExt, PermissionsExt};
use std::path::{Path, PathBuf};
use std::process::Command;

/// `setpriv` with these makes root such a user, nobody.
const NOBODY: [&str; 3] = ["--reuid=65534", "--regid=65534", "--clear-groups"];

/// Lines for the shell of an ordinary user, in which `$0` is the command, copied into the folder where everybody may run it.
/// None where root may not become such a user; then there is nothing to try.
pub fn shell(folder: &Path, lines: &str) -> Option<Command> {
    let mut command = user("bash");
    command.current_dir(folder).args(["-c", lines]).arg(copy(folder));
    if !user("true").status().is_ok_and(|status| status.success()) {
        eprintln!("root may not become another user; it is not tried");
        return None;
    }
    Some(command)
}

fn user(program: &str) -> Command {
    if fs::metadata("/proc/self").expect("there is /proc").uid() != 0 {
        return Command::new(program);
    }
    let mut command = Command::new("setpriv");
    command.args(NOBODY).arg(program);
    command
}

fn copy(folder: &Path) -> PathBuf {
    let command = folder.join("acornsled");
    fs::copy(env!("CARGO_BIN_EXE_acornsled"), &command).expect("a file can be copied");
    for path in [folder, &command] {
        fs::set_permissions(path, Permissions::from_mode(0o755)).expect("permissions can be set");
    }
    command
}

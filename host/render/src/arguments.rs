//! What command lines have in common.

use std::ffi::{OsStr, OsString};
use std::os::unix::ffi::OsStrExt;

use crate::words;

/// `--option=value` in its parts; of any other argument the whole.
pub fn split(argument: &OsStr) -> (&[u8], Option<OsString>) {
    let bytes = argument.as_bytes();
    match bytes.iter().position(|&byte| byte == b'=') {
        Some(at) if bytes.starts_with(b"--") => (&bytes[..at], Some(OsStr::from_bytes(&bytes[at + 1..]).to_owned())),
        _ => (bytes, None),
    }
}

/// Two names, each of which has a role.
pub fn two_names(names: Vec<OsString>, roles: [&str; 2]) -> Result<(OsString, OsString), String> {
    let [role, other_role] = roles;
    let mut names = names.into_iter();
    let first = names.next().ok_or_else(|| format!("{role} and {other_role} are missing"))?;
    let second = names.next().ok_or_else(|| format!("{other_role} is missing"))?;
    match names.next() {
        Some(third) => Err(format!("one name too many: {}", shown(&third))),
        None if first.is_empty() => Err(format!("the name of {role} is empty")),
        None if second.is_empty() => Err(format!("the name of {other_role} is empty")),
        None => Ok((first, second)),
    }
}

/// An argument as messages show it.
pub fn shown(argument: &OsStr) -> String {
    words::name(argument.as_ref())
}

//! Files that programs are given by name.

use std::ffi::OsStr;
use std::fs::File;
use std::io::Read;
use std::os::unix::ffi::OsStrExt;

/// A name has at most so many bytes.
pub const NAME_LIMIT: usize = 4_095;

/// The files that there are: the first bytes of the one of a name, at most so many; none if it can't be opened.
pub type Files = fn(&[u8], usize) -> Option<Vec<u8>>;

/// Those of the system. Of a folder and where a read fails these are the bytes that were read.
pub fn of_system(name: &[u8], limit: usize) -> Option<Vec<u8>> {
    let file = File::open(OsStr::from_bytes(name)).ok()?;
    let mut bytes = Vec::new();
    let _ = file.take(limit as u64).read_to_end(&mut bytes);
    Some(bytes)
}

/// The beginning of the file that an argument names; none if the argument is empty or too long, or the file can't be opened.
pub fn named(argument: &[u8], limit: usize, files: Files) -> Option<Vec<u8>> {
    if !(1..=NAME_LIMIT).contains(&argument.len()) {
        return None;
    }
    files(argument, limit)
}

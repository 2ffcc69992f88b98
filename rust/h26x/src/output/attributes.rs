//! Whose a file is, and who may do what with it: what a file keeps that is replaced by another.

use std::fs::{File, Metadata, Permissions};
use std::io;
use std::os::unix::fs::{MetadataExt, PermissionsExt, fchown};
use std::path::Path;

/// Of a file's mode what it keeps where others write it: a program that runs as its owner no longer does.
const KEPT: u32 = 0o1777;

/// Gives a file the owner, the access list and the mode of another, of which `about` tells.
pub fn keep(from: &Path, about: &Metadata, to: &File) -> io::Result<()> {
    let own = to.metadata()?;
    if (own.uid(), own.gid()) != (about.uid(), about.gid()) {
        fchown(to, Some(about.uid()), Some(about.gid()))?;
    }
    #[cfg(target_os = "linux")]
    extended::keep(from, to)?;
    #[cfg(not(target_os = "linux"))]
    let _ = from;
    to.set_permissions(Permissions::from_mode(about.mode() & KEPT))
}

/// Extended attributes (man 7 xattr), among which Linux has access lists (man 5 acl).
#[cfg(target_os = "linux")]
mod extended {
    use std::ffi::{CStr, CString, c_void};
    use std::fs::File;
    use std::io;
    use std::os::fd::AsRawFd;
    use std::os::unix::ffi::OsStrExt;
    use std::path::Path;
    use std::ptr::null_mut;

    const ACCESS_LIST: &CStr = c"system.posix_acl_access";
    /// What a user, or a policy of the system, says of a file. Others are of its content, as `security.ima`.
    const OTHERS: [&[u8]; 3] = [b"user.", b"security.selinux", b"security.SMACK64"];

    /// The access list is kept, and where the file system takes them others.
    pub fn keep(from: &Path, to: &File) -> io::Result<()> {
        let from = &CString::new(from.as_os_str().as_bytes())?;
        match value(from, ACCESS_LIST)? {
            Some(list) => set(to, ACCESS_LIST, &list)?,
            // The folder's list for new files may have given it one.
            None => remove(to, ACCESS_LIST)?,
        }
        for name in names(from)? {
            let is_kept = OTHERS.iter().any(|it| name.to_bytes().starts_with(it));
            if let (true, Ok(Some(value))) = (is_kept, value(from, &name)) {
                let _ = set(to, &name, &value);
            }
        }
        Ok(())
    }

    /// What a call answers that says how long something is; nothing where there is none, or can be none.
    fn answered(count: isize) -> io::Result<Option<usize>> {
        let Ok(count) = usize::try_from(count) else {
            let error = io::Error::last_os_error();
            return match error.raw_os_error() {
                Some(libc::ENODATA | libc::ENOTSUP) => Ok(None),
                _ => Err(error),
            };
        };
        Ok(Some(count))
    }

    /// What `ask` writes into room of a length, which it answers first where there is none.
    fn read(ask: impl Fn(*mut c_void, usize) -> isize) -> io::Result<Option<Vec<u8>>> {
        let Some(len) = answered(ask(null_mut(), 0))? else {
            return Ok(None);
        };
        let mut bytes = vec![0; len];
        if len > 0 {
            let Some(written) = answered(ask(bytes.as_mut_ptr().cast(), len))? else {
                return Ok(None);
            };
            bytes.truncate(written);
        }
        Ok(Some(bytes))
    }

    fn value(path: &CStr, name: &CStr) -> io::Result<Option<Vec<u8>>> {
        // SAFETY: path and name end with a zero, and `read` says how long its room is.
        read(|room, len| unsafe { libc::getxattr(path.as_ptr(), name.as_ptr(), room, len) })
    }

    fn names(path: &CStr) -> io::Result<Vec<CString>> {
        // SAFETY: the path ends with a zero, and `read` says how long its room is.
        let names = read(|room, len| unsafe { libc::listxattr(path.as_ptr(), room.cast(), len) })?;
        let names = names.unwrap_or_default();
        let names = names.split(|byte| *byte == 0).filter(|it| !it.is_empty());
        Ok(names.filter_map(|it| CString::new(it).ok()).collect())
    }

    fn set(file: &File, name: &CStr, value: &[u8]) -> io::Result<()> {
        let (value, len) = (value.as_ptr().cast(), value.len());
        // SAFETY: the name ends with a zero, and the value has this length.
        match unsafe { libc::fsetxattr(file.as_raw_fd(), name.as_ptr(), value, len, 0) } {
            0 => Ok(()),
            _ => Err(io::Error::last_os_error()),
        }
    }

    fn remove(file: &File, name: &CStr) -> io::Result<()> {
        // SAFETY: the name ends with a zero.
        let removed = unsafe { libc::fremovexattr(file.as_raw_fd(), name.as_ptr()) };
        answered(removed as isize).map(|_| ())
    }
}

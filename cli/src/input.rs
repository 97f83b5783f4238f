//! Reading files, never more of one than the library needs to see, and no copy where none is needed.
use crate::folders::is_model_name;
use crate::mapped::Mapped;
use std::ffi::OsStr;
use std::fs::{File, Metadata, OpenOptions};
use std::io::{self, Read};
use std::ops::Deref;
use std::os::unix::fs::OpenOptionsExt;

/// One byte more than the largest model: from it on the library says 7, whatever follows.
pub const MOST: u64 = onnx_gate::LARGEST_MODEL as u64 + 1;

/// A longer operator list is not read: one of this length has millions of domains. Its own format ends at 4 GiB.
const LONGEST_LIST: u64 = 64 << 20;

/// Up to this size a file is sooner read than mapped.
const SMALL: u64 = 1 << 20;

/// The flag of Linux on x86-64 with which opening a fifo does not wait for its writer.
const O_NONBLOCK: i32 = 0o4000;

/// The bytes of a model, at most `MOST` of them. They stay what they are.
pub enum Model {
    Copied(Vec<u8>),
    Mapped(Mapped),
}

impl Deref for Model {
    type Target = [u8];

    fn deref(&self) -> &[u8] {
        match self {
            Model::Copied(bytes) => bytes,
            Model::Mapped(pages) => pages,
        }
    }
}

/// The model in a file, or why it cannot be had. `-` is standard input.
pub fn read(name: &OsStr) -> Result<Model, String> {
    model(name, SMALL)
}

/// The same in memory of its own: how long it is needed may be up to others.
pub fn copy(name: &OsStr) -> Result<Model, String> {
    model(name, u64::MAX)
}

/// Files of more than `copied` bytes are mapped, and so are those that are too large, of which no byte is looked at.
fn model(name: &OsStr, copied: u64) -> Result<Model, String> {
    if name == "-" {
        return start_of(io::stdin().lock(), 0, MOST).map(Model::Copied);
    }
    let (mut file, about) = open(name)?;
    let size = if about.is_file() { about.len() } else { 0 };
    if size >= MOST {
        if let Some(pages) = Mapped::unread(&file, MOST as usize) {
            return Ok(Model::Mapped(pages));
        }
    } else if size > copied {
        match Mapped::leased(file) {
            Ok(pages) => return Ok(Model::Mapped(pages)),
            Err(back) => file = back,
        }
    }
    let room = if size < MOST { size } else { 0 };
    start_of(file, room, MOST).map(Model::Copied)
}

/// The bytes of an operator list. One that is cut would be judged for what it is not, so a longer one is not read.
pub fn read_list(name: &OsStr) -> Result<Vec<u8>, String> {
    let list = if name == "-" {
        start_of(io::stdin().lock(), 0, LONGEST_LIST + 1)?
    } else {
        let (file, about) = open(name)?;
        start_of(file, about.len(), LONGEST_LIST + 1)?
    };
    if list.len() as u64 > LONGEST_LIST {
        return Err(format!("has more than {LONGEST_LIST} bytes, too many for an operator list"));
    }
    Ok(list)
}

/// A file that is no folder. A fifo or a device with the name of a model, which a shell or a folder may have given, is
/// not opened: it could be waited for without end.
fn open(name: &OsStr) -> Result<(File, Metadata), String> {
    if is_model_name(name) {
        return open_regular(name);
    }
    let file = File::open(name).map_err(plain)?;
    let about = file.metadata().map_err(plain)?;
    if about.is_dir() {
        return Err("is a directory".into());
    }
    Ok((file, about))
}

fn open_regular(name: &OsStr) -> Result<(File, Metadata), String> {
    regular(&std::fs::metadata(name).map_err(plain)?)?;
    let file = OpenOptions::new().read(true).custom_flags(O_NONBLOCK).open(name).map_err(plain)?;
    // asked again, since another file may have taken its place
    let about = file.metadata().map_err(plain)?;
    regular(&about)?;
    Ok((file, about))
}

fn regular(about: &Metadata) -> Result<(), String> {
    if about.is_file() {
        Ok(())
    } else {
        Err("is not a regular file".into())
    }
}

/// At most `most` bytes. `room` of them are given memory at once, and one byte more, so that the reader need not grow it
/// to see the end; others as they come.
fn start_of(source: impl Read, room: u64, most: u64) -> Result<Vec<u8>, String> {
    let mut bytes = Vec::new();
    bytes.try_reserve_exact(room.min(most) as usize + 1).map_err(|why| plain(why.into()))?;
    source.take(most).read_to_end(&mut bytes).map_err(plain)?;
    Ok(bytes)
}

/// The system's message without the number behind it.
pub fn plain(error: io::Error) -> String {
    match error.kind() {
        io::ErrorKind::NotFound => "no such file".into(),
        io::ErrorKind::PermissionDenied => "permission denied".into(),
        _ => error.to_string(),
    }
}

#[cfg(test)]
mod tests {
    use super::*;

    #[test]
    fn only_the_start_is_read() {
        assert_eq!(start_of(io::repeat(1), 3, 70_000).unwrap().len(), 70_000);
        assert_eq!(start_of(&b"abc"[..], u64::MAX, 70_000).unwrap(), b"abc");
    }

    #[test]
    fn what_is_no_file() {
        let why = |name: &str| read(OsStr::new(name)).err().unwrap();
        assert_eq!(why("/"), "is a directory");
        assert_eq!(why("/no/such"), "no such file");
        assert_eq!(why("/no/such.onnx"), "no such file");
        assert_eq!(open_regular(OsStr::new("/dev/zero")).err().unwrap(), "is not a regular file");
    }
}

//! A file's bytes as they are, or unpacked where they are gzip's (RFC 1952).

use flate2::read::MultiGzDecoder;
use std::fs::File;
use std::io::{self, Chain, Cursor, Read, Seek, SeekFrom};

/// What files of gzip begin with (RFC 1952, 2.3.1).
const MAGIC: [u8; 2] = [0x1f, 0x8b];

type Whole = Chain<Cursor<Vec<u8>>, File>;

pub enum Bytes {
    Plain(Whole),
    Packed(Box<MultiGzDecoder<Whole>>),
}

impl Bytes {
    /// The bytes of a file from where it stands.
    pub fn of(mut file: File) -> io::Result<Self> {
        let mut front = Vec::new();
        (&mut file)
            .take(MAGIC.len() as u64)
            .read_to_end(&mut front)?;
        let is_packed = front == MAGIC;
        let whole = Cursor::new(front).chain(file);
        Ok(match is_packed {
            true => Bytes::Packed(Box::new(MultiGzDecoder::new(whole))),
            false => Bytes::Plain(whole),
        })
    }

    pub fn is_packed(&self) -> bool {
        matches!(self, Bytes::Packed(_))
    }

    /// Goes on with the byte at this place of the file; what is packed begins anew there.
    pub fn seek(&mut self, to: u64) -> io::Result<()> {
        let whole = match self {
            Bytes::Plain(whole) => whole,
            Bytes::Packed(decoder) => decoder.get_mut(),
        };
        let (front, file) = whole.get_mut();
        front.set_position(MAGIC.len() as u64);
        file.seek(SeekFrom::Start(to))?;
        if let Bytes::Packed(decoder) = self {
            let file = decoder.get_mut().get_mut().1.try_clone()?;
            **decoder = MultiGzDecoder::new(Cursor::new(Vec::new()).chain(file));
        }
        Ok(())
    }
}

impl Read for Bytes {
    fn read(&mut self, to: &mut [u8]) -> io::Result<usize> {
        match self {
            Bytes::Plain(whole) => whole.read(to),
            Bytes::Packed(decoder) => decoder.read(to),
        }
    }
}

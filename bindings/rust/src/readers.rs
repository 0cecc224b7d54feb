use crate::error::Error;
use crate::keyset::Keyset;
use crate::primitives::Object;
use crate::sys::{self, done, Handle};
use std::io::{self, Read, Seek, SeekFrom};

// How many bytes of a stream are read at once.
const PIECE: usize = 1 << 16;

/// The plaintext of a stream, which is read from another reader in the memory of a segment. A read gives `Ok(0)` at the end
/// of a whole stream alone. Each other stream ends in an error, and then every later read fails. What was read before is the
/// start of the plaintext. The error is `UnexpectedEof` of `Truncated`, and `InvalidData` of every other status.
pub struct StreamReader<R: Read> {
    inner: R,
    handle: Handle,
    // What was read of the stream, and the part of it that the library did not take yet.
    piece: Vec<u8>,
    at: usize,
    end: usize,
    is_last: bool,
    is_whole: bool,
}

impl<R: Read> StreamReader<R> {
    /// A reader of a stream under the keys of a keyset. Nothing is read yet.
    pub fn new(inner: R, keyset: &Keyset, associated_data: &[u8]) -> Result<StreamReader<R>, Error> {
        let (k, a, mut handle) = (keyset.as_bytes(), associated_data, Handle::NONE);
        done(unsafe { sys::tink_reader_new(k.as_ptr(), k.len(), a.as_ptr(), a.len(), &mut handle) })?;
        Ok(StreamReader { inner, handle, piece: vec![0; PIECE], at: 0, end: 0, is_last: false, is_whole: false })
    }

    // Hands in what follows, or says that nothing does. No text waits.
    fn go_on(&mut self) -> io::Result<()> {
        if self.at == self.end && !self.is_last {
            self.end = self.inner.read(&mut self.piece)?;
            self.at = 0;
            self.is_last = self.end == 0;
        }
        if self.is_last {
            match unsafe { sys::tink_reader_end(&mut self.handle) } {
                0 => self.is_whole = true,
                50 => {}
                status => return Err(Error::of(status).into()),
            }
        } else {
            let (p, mut taken) = (&self.piece[self.at..self.end], 0);
            done(unsafe { sys::tink_reader_feed(&mut self.handle, p.as_ptr(), p.len(), &mut taken) })?;
            self.at += taken;
        }
        Ok(())
    }
}

impl<R: Read> Read for StreamReader<R> {
    /// An error of the other reader goes through, and a later read goes on.
    fn read(&mut self, buffer: &mut [u8]) -> io::Result<usize> {
        loop {
            let mut count = 0;
            let (o, n) = (buffer.as_mut_ptr(), buffer.len());
            done(unsafe { sys::tink_reader_read(&mut self.handle, o, n, &mut count) })?;
            if count > 0 || n == 0 || self.is_whole {
                return Ok(count);
            }
            self.go_on()?;
        }
    }
}

impl<R: Read> Drop for StreamReader<R> {
    fn drop(&mut self) {
        unsafe { sys::tink_reader_free(&mut self.handle) }
    }
}

/// The plaintext of a stream in memory, which is read at any place. The keyset is loaded once. Each read opens the first
/// segment, the last one and those that it reads.
pub struct RangeReader<'s> {
    keys: Object,
    stream: &'s [u8],
    at: u64,
}

impl<'s> RangeReader<'s> {
    /// A reader at the beginning of the plaintext. Nothing is opened yet.
    pub fn new(keyset: &Keyset, stream: &'s [u8], associated_data: &[u8]) -> Result<RangeReader<'s>, Error> {
        let (k, a) = (keyset.as_bytes(), associated_data);
        let keys = Object::filled(|it| unsafe {
            sys::tink_range_reader_new(k.as_ptr(), k.len(), a.as_ptr(), a.len(), it)
        })?;
        Ok(RangeReader { keys, stream, at: 0 })
    }

    /// Fills the buffer with the plaintext from a place on, and answers how many bytes there are. They are fewer than the
    /// buffer has at the end alone.
    pub fn read_at(&self, buffer: &mut [u8], place: u64) -> Result<usize, Error> {
        let (s, o, n, mut written) = (self.stream, buffer.as_mut_ptr(), buffer.len(), 0);
        let mut it = self.keys.lock();
        done(unsafe {
            sys::tink_range_reader_read(&mut *it, s.as_ptr(), s.len(), place, n as u64, o, n, &mut written)
        })?;
        Ok(written)
    }
}

impl Drop for RangeReader<'_> {
    fn drop(&mut self) {
        unsafe { sys::tink_range_reader_free(&mut *self.keys.lock()) }
    }
}

impl Read for RangeReader<'_> {
    fn read(&mut self, buffer: &mut [u8]) -> io::Result<usize> {
        let count = self.read_at(buffer, self.at)?;
        self.at += count as u64;
        Ok(count)
    }
}

/// The end is not known before it is read, so that no place is counted from it.
impl Seek for RangeReader<'_> {
    fn seek(&mut self, to: SeekFrom) -> io::Result<u64> {
        let place = match to {
            SeekFrom::Start(place) => Some(place),
            SeekFrom::Current(by) => u64::try_from(i128::from(self.at) + i128::from(by)).ok(),
            SeekFrom::End(_) => None,
        };
        self.at = place.ok_or(io::Error::from(io::ErrorKind::InvalidInput))?;
        Ok(self.at)
    }
}

use crate::error::Error;
use crate::keyset::Keyset;
use crate::sys::{self, done, output, random, Handle};
use std::io::{self, Write};

/// The stream of a plaintext under the primary key. The program `tink decrypt` opens it.
pub fn seal_stream(keyset: &Keyset, plaintext: &[u8], associated_data: &[u8]) -> Result<Vec<u8>, Error> {
    let (k, p, a, r) = (keyset.as_bytes(), plaintext, associated_data, random(sys::RANDOM_STREAM)?);
    output(room(p.len()), |o, n, w| unsafe {
        sys::tink_seal_stream(k.as_ptr(), k.len(), p.as_ptr(), p.len(), a.as_ptr(), a.len(), r.as_ptr(), r.len(), o, n, w)
    })
}

/// The plaintext of a stream.
pub fn open_stream(keyset: &Keyset, stream: &[u8], associated_data: &[u8]) -> Result<Vec<u8>, Error> {
    let (k, s, a) = (keyset.as_bytes(), stream, associated_data);
    output(s.len(), |o, n, w| unsafe {
        sys::tink_open_stream(k.as_ptr(), k.len(), s.as_ptr(), s.len(), a.as_ptr(), a.len(), o, n, w)
    })
}

/// The bytes of the plaintext from the place `start` on, at most `length` of them.
pub fn read_range(
    keyset: &Keyset,
    stream: &[u8],
    associated_data: &[u8],
    start: u64,
    length: u64,
) -> Result<Vec<u8>, Error> {
    let (k, s, a) = (keyset.as_bytes(), stream, associated_data);
    output(length.min(s.len() as u64) as usize, |o, n, w| unsafe {
        sys::tink_read_range(k.as_ptr(), k.len(), s.as_ptr(), s.len(), a.as_ptr(), a.len(), start, length, o, n, w)
    })
}

/// The stream of the same plaintext under the primary key of another keyset. Each keyset comes with its associated data.
pub fn rewrap_stream(from: (&Keyset, &[u8]), to: (&Keyset, &[u8]), stream: &[u8]) -> Result<Vec<u8>, Error> {
    let (k, a, t, b) = (from.0.as_bytes(), from.1, to.0.as_bytes(), to.1);
    let (s, r) = (stream, random(sys::RANDOM_STREAM)?);
    output(room(s.len()), |o, n, w| unsafe {
        sys::tink_rewrap_stream(
            k.as_ptr(), k.len(), a.as_ptr(), a.len(), t.as_ptr(), t.len(), b.as_ptr(), b.len(), s.as_ptr(), s.len(),
            r.as_ptr(), r.len(), o, n, w,
        )
    })
}

fn room(len: usize) -> usize {
    len + len / 64 + 1024
}

/// A writer whose bytes are encrypted into another writer, in the memory of a segment. `end` writes the last segment. A
/// writer that is dropped before does not, so that its stream does not pass for whole.
pub struct EncryptingWriter<W: Write> {
    inner: W,
    handle: Handle,
    // What the library gave and the other writer did not take yet, from the place `at` on.
    waiting: Vec<u8>,
    at: usize,
}

impl<W: Write> EncryptingWriter<W> {
    /// A writer of a new stream under the primary key. Nothing is written yet.
    pub fn new(inner: W, keyset: &Keyset, associated_data: &[u8]) -> Result<EncryptingWriter<W>, Error> {
        let (k, a, r) = (keyset.as_bytes(), associated_data, random(sys::RANDOM_STREAM)?);
        let mut handle = Handle::NONE;
        done(unsafe {
            sys::tink_writer_new(k.as_ptr(), k.len(), a.as_ptr(), a.len(), r.as_ptr(), r.len(), &mut handle)
        })?;
        Ok(EncryptingWriter { inner, handle, waiting: Vec::new(), at: 0 })
    }

    /// Writes the last segment. Every later call is refused.
    pub fn end(&mut self) -> io::Result<()> {
        self.send()?;
        self.put(0, |handle, o, n, w| unsafe { sys::tink_writer_close(handle, o, n, w) })?;
        self.send()?;
        self.inner.flush()
    }

    // The output of a call waits. Its room is that which the library says.
    fn put(
        &mut self,
        length: usize,
        mut call: impl FnMut(*mut Handle, *mut u8, usize, *mut usize) -> u8,
    ) -> Result<(), Error> {
        let (handle, mut needed) = (&mut self.handle, 0);
        done(unsafe { sys::tink_writer_bound(handle, length, &mut needed) })?;
        self.waiting.resize(needed, 0);
        self.at = 0;
        let mut written = 0;
        let status = call(handle, self.waiting.as_mut_ptr(), needed, &mut written);
        self.waiting.truncate(written);
        done(status)
    }

    // Writes what waits. What the other writer did not take waits still.
    fn send(&mut self) -> io::Result<()> {
        while self.at < self.waiting.len() {
            match self.inner.write(&self.waiting[self.at..]) {
                Ok(0) => return Err(io::ErrorKind::WriteZero.into()),
                Ok(count) => self.at += count,
                Err(error) if error.kind() == io::ErrorKind::Interrupted => {}
                Err(error) => return Err(error),
            }
        }
        Ok(())
    }
}

impl<W: Write> Write for EncryptingWriter<W> {
    /// Takes all of the bytes, once what waits was written.
    fn write(&mut self, bytes: &[u8]) -> io::Result<usize> {
        self.send()?;
        self.put(bytes.len(), |handle, o, n, w| unsafe {
            sys::tink_writer_write(handle, bytes.as_ptr(), bytes.len(), o, n, w)
        })?;
        Ok(bytes.len())
    }

    /// Writes the segments that are full. The text of the last one is kept until `end`.
    fn flush(&mut self) -> io::Result<()> {
        self.send()?;
        self.inner.flush()
    }
}

impl<W: Write> Drop for EncryptingWriter<W> {
    fn drop(&mut self) {
        unsafe { sys::tink_writer_free(&mut self.handle) }
    }
}

//! The C functions, and how a call gets its buffer.

use crate::error::Error;
use std::fs::File;
use std::io::Read;

macro_rules! functions {
    ($($(#[$doc:meta])* fn $name:ident($($argument:ident: $type:ty),* $(,)?);)*) => {
        extern "C" {
            $($(#[$doc])* pub fn $name($($argument: $type),*) -> u8;)*
        }
    };
}

type In = *const u8;
type Out = *mut u8;
type Len = *mut usize;
type Object = *mut Handle;

functions! {
    fn tink_keyset_create(t: In, tn: usize, json: bool, r: In, rn: usize, o: Out, on: usize, w: Len);
    fn tink_keyset_rotate(k: In, kn: usize, t: In, tn: usize, any: bool, r: In, rn: usize, o: Out, on: usize, w: Len);
    fn tink_keyset_add(k: In, kn: usize, t: In, tn: usize, r: In, rn: usize, o: Out, on: usize, w: Len);
    fn tink_keyset_promote(k: In, kn: usize, id: u32, o: Out, on: usize, w: Len);
    fn tink_keyset_enable(k: In, kn: usize, id: u32, o: Out, on: usize, w: Len);
    fn tink_keyset_disable(k: In, kn: usize, id: u32, o: Out, on: usize, w: Len);
    fn tink_keyset_destroy(k: In, kn: usize, id: u32, o: Out, on: usize, w: Len);
    fn tink_keyset_delete(k: In, kn: usize, id: u32, o: Out, on: usize, w: Len);
    fn tink_keyset_convert(k: In, kn: usize, json: bool, o: Out, on: usize, w: Len);
    fn tink_keyset_list(k: In, kn: usize, o: Out, on: usize, w: Len);
    fn tink_keyset_list_json(k: In, kn: usize, o: Out, on: usize, w: Len);
    fn tink_keyset_wrap(m: In, mn: usize, k: In, kn: usize, a: In, an: usize, json: bool, r: In, rn: usize, o: Out, on: usize, w: Len);
    fn tink_keyset_unwrap(m: In, mn: usize, k: In, kn: usize, a: In, an: usize, json: bool, o: Out, on: usize, w: Len);
    fn tink_seal_stream(k: In, kn: usize, p: In, pn: usize, a: In, an: usize, r: In, rn: usize, o: Out, on: usize, w: Len);
    fn tink_open_stream(k: In, kn: usize, s: In, sn: usize, a: In, an: usize, o: Out, on: usize, w: Len);
    fn tink_read_range(k: In, kn: usize, s: In, sn: usize, a: In, an: usize, start: u64, length: u64, o: Out, on: usize, w: Len);
    fn tink_rewrap_stream(k: In, kn: usize, a: In, an: usize, t: In, tn: usize, ta: In, tan: usize, s: In, sn: usize, r: In, rn: usize, o: Out, on: usize, w: Len);
    fn tink_sign_token(k: In, kn: usize, p: In, pn: usize, o: Out, on: usize, w: Len);
    fn tink_verify_token(k: In, kn: usize, t: In, tn: usize, o: Out, on: usize, w: Len);
    fn tink_aead_new(k: In, kn: usize, it: Object);
    fn tink_aead_encrypt(it: Object, p: In, pn: usize, a: In, an: usize, r: In, rn: usize, o: Out, on: usize, w: Len);
    fn tink_aead_decrypt(it: Object, c: In, cn: usize, a: In, an: usize, o: Out, on: usize, w: Len);
    fn tink_daead_new(k: In, kn: usize, it: Object);
    fn tink_daead_encrypt(it: Object, p: In, pn: usize, a: In, an: usize, o: Out, on: usize, w: Len);
    fn tink_daead_decrypt(it: Object, c: In, cn: usize, a: In, an: usize, o: Out, on: usize, w: Len);
    fn tink_mac_new(k: In, kn: usize, it: Object);
    fn tink_mac_compute(it: Object, m: In, mn: usize, o: Out, on: usize, w: Len);
    fn tink_mac_verify(it: Object, t: In, tn: usize, m: In, mn: usize);
    fn tink_prf_new(k: In, kn: usize, it: Object);
    fn tink_prf_compute(it: Object, i: In, n: usize, length: usize, o: Out, on: usize, w: Len);
    fn tink_signer_new(k: In, kn: usize, it: Object);
    fn tink_signer_sign(it: Object, p: In, pn: usize, o: Out, on: usize, w: Len);
    fn tink_signer_verify(it: Object, t: In, tn: usize, o: Out, on: usize, w: Len);
    fn tink_writer_new(k: In, kn: usize, a: In, an: usize, r: In, rn: usize, it: Object);
    fn tink_writer_bound(it: Object, length: usize, needed: Len);
    fn tink_writer_write(it: Object, p: In, pn: usize, o: Out, on: usize, w: Len);
    fn tink_writer_close(it: Object, o: Out, on: usize, w: Len);
    fn tink_reader_new(k: In, kn: usize, a: In, an: usize, it: Object);
    fn tink_reader_feed(it: Object, p: In, pn: usize, taken: Len);
    fn tink_reader_read(it: Object, o: Out, on: usize, w: Len);
    fn tink_reader_end(it: Object);
    fn tink_range_reader_new(k: In, kn: usize, a: In, an: usize, it: Object);
    fn tink_range_reader_read(it: Object, s: In, sn: usize, start: u64, length: u64, o: Out, on: usize, w: Len);
}

extern "C" {
    pub fn tink_aead_free(it: Object);
    pub fn tink_daead_free(it: Object);
    pub fn tink_mac_free(it: Object);
    pub fn tink_prf_free(it: Object);
    pub fn tink_signer_free(it: Object);
    pub fn tink_writer_free(it: Object);
    pub fn tink_reader_free(it: Object);
    pub fn tink_range_reader_free(it: Object);
}

/// An object of the library. It begins as `NONE`.
#[repr(C)]
pub struct Handle {
    at: *mut u8,
    full: bool,
}

impl Handle {
    pub const NONE: Handle = Handle {
        at: std::ptr::null_mut(),
        full: false,
    };
}

// What an object owns may go to another thread. Calls with it come one after another, behind a lock.
unsafe impl Send for Handle {}

/// Enough random bytes for each call that takes some.
pub const RANDOM_KEY: usize = 576;
pub const RANDOM_ENCRYPT: usize = 16;
pub const RANDOM_STREAM: usize = 39;

/// Fresh bytes of the system's random source.
pub fn random(count: usize) -> Result<Vec<u8>, Error> {
    let mut bytes = vec![0; count];
    File::open("/dev/urandom")
        .and_then(|mut source| source.read_exact(&mut bytes))
        .map_err(|_| Error::RandomFault)?;
    Ok(bytes)
}

/// The result of a call that gives no output.
pub fn done(status: u8) -> Result<(), Error> {
    if status == 0 {
        Ok(())
    } else {
        Err(Error::of(status))
    }
}

/// The output of a call, which is handed a buffer, its room and where the length goes. If the room is too small, the call
/// is made again with the room that it asked for.
pub fn output(room: usize, mut call: impl FnMut(Out, usize, Len) -> u8) -> Result<Vec<u8>, Error> {
    let mut out = vec![0; room];
    loop {
        let mut written = 0;
        match call(out.as_mut_ptr(), out.len(), &mut written) {
            0 => {
                out.truncate(written);
                return Ok(out);
            }
            42 => out = vec![0; written],
            status => return Err(Error::of(status)),
        }
    }
}

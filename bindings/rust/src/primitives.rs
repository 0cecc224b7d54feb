use crate::error::Error;
use crate::keyset::Keyset;
use crate::sys::{self, done, output, random, Handle};
use std::sync::{Mutex, MutexGuard};

// No function has a longer output.
const LONGEST_PRF: usize = 1 << 14;

// The library's object. Threads may share it: their calls come one after another.
pub(crate) struct Object(Mutex<Handle>);

impl Object {
    fn new(keyset: &Keyset, fill: unsafe extern "C" fn(*const u8, usize, *mut Handle) -> u8) -> Result<Object, Error> {
        let k = keyset.as_bytes();
        Object::filled(|it| unsafe { fill(k.as_ptr(), k.len(), it) })
    }

    // One that a call fills.
    pub(crate) fn filled(fill: impl FnOnce(*mut Handle) -> u8) -> Result<Object, Error> {
        let mut handle = Handle::NONE;
        done(fill(&mut handle))?;
        Ok(Object(Mutex::new(handle)))
    }

    // No call panics, so that no lock is poisoned.
    pub(crate) fn lock(&self) -> MutexGuard<'_, Handle> {
        self.0.lock().unwrap_or_else(|poisoned| poisoned.into_inner())
    }
}

/// The AEADs of a keyset: the primary key encrypts, and any key decrypts. The keyset is loaded once.
pub struct Aead(Object);

impl Aead {
    pub fn new(keyset: &Keyset) -> Result<Aead, Error> {
        Object::new(keyset, sys::tink_aead_new).map(Aead)
    }

    /// The ciphertext of a plaintext, bound to the associated data.
    pub fn encrypt(&self, plaintext: &[u8], associated_data: &[u8]) -> Result<Vec<u8>, Error> {
        let (p, a, r) = (plaintext, associated_data, random(sys::RANDOM_ENCRYPT)?);
        let mut it = self.0.lock();
        output(p.len() + 128, |o, n, w| unsafe {
            sys::tink_aead_encrypt(&mut *it, p.as_ptr(), p.len(), a.as_ptr(), a.len(), r.as_ptr(), r.len(), o, n, w)
        })
    }

    /// The plaintext, if a key made the ciphertext with this associated data.
    pub fn decrypt(&self, ciphertext: &[u8], associated_data: &[u8]) -> Result<Vec<u8>, Error> {
        let (c, a) = (ciphertext, associated_data);
        let mut it = self.0.lock();
        output(c.len(), |o, n, w| unsafe {
            sys::tink_aead_decrypt(&mut *it, c.as_ptr(), c.len(), a.as_ptr(), a.len(), o, n, w)
        })
    }
}

impl Drop for Aead {
    fn drop(&mut self) {
        unsafe { sys::tink_aead_free(&mut *self.0.lock()) }
    }
}

/// The deterministic AEADs of a keyset: equal plaintexts and data give equal ciphertexts.
pub struct DeterministicAead(Object);

impl DeterministicAead {
    pub fn new(keyset: &Keyset) -> Result<DeterministicAead, Error> {
        Object::new(keyset, sys::tink_daead_new).map(DeterministicAead)
    }

    pub fn encrypt_deterministically(&self, plaintext: &[u8], associated_data: &[u8]) -> Result<Vec<u8>, Error> {
        let (p, a) = (plaintext, associated_data);
        let mut it = self.0.lock();
        output(p.len() + 128, |o, n, w| unsafe {
            sys::tink_daead_encrypt(&mut *it, p.as_ptr(), p.len(), a.as_ptr(), a.len(), o, n, w)
        })
    }

    pub fn decrypt_deterministically(&self, ciphertext: &[u8], associated_data: &[u8]) -> Result<Vec<u8>, Error> {
        let (c, a) = (ciphertext, associated_data);
        let mut it = self.0.lock();
        output(c.len(), |o, n, w| unsafe {
            sys::tink_daead_decrypt(&mut *it, c.as_ptr(), c.len(), a.as_ptr(), a.len(), o, n, w)
        })
    }
}

impl Drop for DeterministicAead {
    fn drop(&mut self) {
        unsafe { sys::tink_daead_free(&mut *self.0.lock()) }
    }
}

/// The MACs of a keyset: the primary key computes, and any key verifies.
pub struct Mac(Object);

impl Mac {
    pub fn new(keyset: &Keyset) -> Result<Mac, Error> {
        Object::new(keyset, sys::tink_mac_new).map(Mac)
    }

    pub fn compute(&self, message: &[u8]) -> Result<Vec<u8>, Error> {
        let (m, mut it) = (message, self.0.lock());
        output(128, |o, n, w| unsafe { sys::tink_mac_compute(&mut *it, m.as_ptr(), m.len(), o, n, w) })
    }

    /// Ok if a key accepts the MAC for the message, and else `MacMismatch`.
    pub fn verify(&self, mac: &[u8], message: &[u8]) -> Result<(), Error> {
        let (t, m, mut it) = (mac, message, self.0.lock());
        done(unsafe { sys::tink_mac_verify(&mut *it, t.as_ptr(), t.len(), m.as_ptr(), m.len()) })
    }
}

impl Drop for Mac {
    fn drop(&mut self) {
        unsafe { sys::tink_mac_free(&mut *self.0.lock()) }
    }
}

/// The pseudorandom functions of a keyset.
pub struct Prf(Object);

impl Prf {
    pub fn new(keyset: &Keyset) -> Result<Prf, Error> {
        Object::new(keyset, sys::tink_prf_new).map(Prf)
    }

    /// The first `length` bytes of the primary function for an input.
    pub fn compute(&self, input: &[u8], length: usize) -> Result<Vec<u8>, Error> {
        let (i, mut it) = (input, self.0.lock());
        output(length.min(LONGEST_PRF), |o, n, w| unsafe {
            sys::tink_prf_compute(&mut *it, i.as_ptr(), i.len(), length, o, n, w)
        })
    }
}

impl Drop for Prf {
    fn drop(&mut self) {
        unsafe { sys::tink_prf_free(&mut *self.0.lock()) }
    }
}

/// The tokens that a keyset of MACs signs and accepts.
pub struct Signer(Object);

impl Signer {
    pub fn new(keyset: &Keyset) -> Result<Signer, Error> {
        Object::new(keyset, sys::tink_signer_new).map(Signer)
    }

    /// A signed token of a payload, by the primary key.
    pub fn sign(&self, payload: &[u8]) -> Result<Vec<u8>, Error> {
        let (p, mut it) = (payload, self.0.lock());
        output(p.len() / 3 * 4 + 256, |o, n, w| unsafe { sys::tink_signer_sign(&mut *it, p.as_ptr(), p.len(), o, n, w) })
    }

    /// The payload of a token, if a key accepts it.
    pub fn verify(&self, token: &[u8]) -> Result<Vec<u8>, Error> {
        let (t, mut it) = (token, self.0.lock());
        output(t.len(), |o, n, w| unsafe { sys::tink_signer_verify(&mut *it, t.as_ptr(), t.len(), o, n, w) })
    }
}

impl Drop for Signer {
    fn drop(&mut self) {
        unsafe { sys::tink_signer_free(&mut *self.0.lock()) }
    }
}

/// A signed token of a payload, by the primary key of a keyset of MACs.
pub fn sign_token(keyset: &Keyset, payload: &[u8]) -> Result<Vec<u8>, Error> {
    let (k, p) = (keyset.as_bytes(), payload);
    output(p.len() / 3 * 4 + 256, |o, n, w| unsafe {
        sys::tink_sign_token(k.as_ptr(), k.len(), p.as_ptr(), p.len(), o, n, w)
    })
}

/// The payload of a token, if a key accepts it.
pub fn verify_token(keyset: &Keyset, token: &[u8]) -> Result<Vec<u8>, Error> {
    let (k, t) = (keyset.as_bytes(), token);
    output(t.len(), |o, n, w| unsafe { sys::tink_verify_token(k.as_ptr(), k.len(), t.as_ptr(), t.len(), o, n, w) })
}

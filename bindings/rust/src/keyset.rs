use crate::error::Error;
use crate::sys::{self, output, random};
use std::fmt;

// How long an output may be before the library asks for more room.
const ROOM: usize = 4096;

/// A keyset in JSON or in Tink's binary format. Each change makes a new one.
#[derive(Clone, PartialEq, Eq)]
pub struct Keyset {
    bytes: Vec<u8>,
}

/// What is shown of a key. It has no key material.
#[derive(Clone, Debug, PartialEq, Eq)]
pub struct Key {
    pub id: u32,
    pub status: String,
    pub prefix: String,
    pub kind: String,
    pub is_primary: bool,
}

type Edit = unsafe extern "C" fn(*const u8, usize, u32, *mut u8, usize, *mut usize) -> u8;

impl Keyset {
    /// A new keyset in JSON with one key by the template of a name, as `AES256_GCM`.
    pub fn create(template: &str) -> Result<Keyset, Error> {
        let r = random(sys::RANDOM_KEY)?;
        output(ROOM, |o, n, w| unsafe {
            sys::tink_keyset_create(template.as_ptr(), template.len(), true, r.as_ptr(), r.len(), o, n, w)
        })
        .map(Keyset::from)
    }

    /// The keyset with a new primary key. The other keys stay. It refuses a template of another primitive.
    pub fn rotate(&self, template: &str) -> Result<Keyset, Error> {
        self.rotated(template, false)
    }

    /// The keyset with a new primary key, which may be of another primitive. The other keys stay.
    pub fn rotate_to_any(&self, template: &str) -> Result<Keyset, Error> {
        self.rotated(template, true)
    }

    fn rotated(&self, template: &str, any: bool) -> Result<Keyset, Error> {
        let (k, t, r) = (&self.bytes, template, random(sys::RANDOM_KEY)?);
        output(self.room(), |o, n, w| unsafe {
            sys::tink_keyset_rotate(k.as_ptr(), k.len(), t.as_ptr(), t.len(), any, r.as_ptr(), r.len(), o, n, w)
        })
        .map(Keyset::from)
    }

    /// The keyset with a new key. The primary key stays.
    pub fn add(&self, template: &str) -> Result<Keyset, Error> {
        let (k, t, r) = (&self.bytes, template, random(sys::RANDOM_KEY)?);
        output(self.room(), |o, n, w| unsafe {
            sys::tink_keyset_add(k.as_ptr(), k.len(), t.as_ptr(), t.len(), r.as_ptr(), r.len(), o, n, w)
        })
        .map(Keyset::from)
    }

    /// The keyset with this key as its primary key.
    pub fn promote(&self, id: u32) -> Result<Keyset, Error> {
        self.edited(sys::tink_keyset_promote, id)
    }

    /// The keyset with this key enabled.
    pub fn enable(&self, id: u32) -> Result<Keyset, Error> {
        self.edited(sys::tink_keyset_enable, id)
    }

    /// The keyset with this key disabled.
    pub fn disable(&self, id: u32) -> Result<Keyset, Error> {
        self.edited(sys::tink_keyset_disable, id)
    }

    /// The keyset with the material of this key taken away, for good.
    pub fn destroy(&self, id: u32) -> Result<Keyset, Error> {
        self.edited(sys::tink_keyset_destroy, id)
    }

    /// The keyset without this key.
    pub fn delete(&self, id: u32) -> Result<Keyset, Error> {
        self.edited(sys::tink_keyset_delete, id)
    }

    /// The keys, without their material.
    pub fn keys(&self) -> Result<Vec<Key>, Error> {
        let k = &self.bytes;
        let lines = output(ROOM, |o, n, w| unsafe { sys::tink_keyset_list(k.as_ptr(), k.len(), o, n, w) })?;
        let text = String::from_utf8(lines).map_err(|_| Error::BadKeyset)?;
        text.lines().map(|line| key_of(line).ok_or(Error::BadKeyset)).collect()
    }

    /// The same as an array in JSON.
    pub fn keys_json(&self) -> Result<Vec<u8>, Error> {
        let k = &self.bytes;
        output(ROOM, |o, n, w| unsafe { sys::tink_keyset_list_json(k.as_ptr(), k.len(), o, n, w) })
    }

    /// The keyset in JSON, with its keys in clear.
    pub fn to_json(&self) -> Result<Vec<u8>, Error> {
        self.converted(true)
    }

    /// The keyset in Tink's binary format, with its keys in clear.
    pub fn to_binary(&self) -> Result<Vec<u8>, Error> {
        self.converted(false)
    }

    /// The keyset encrypted by the primary key of a master keyset of AEADs.
    pub fn wrap(&self, master: &Keyset, associated_data: &[u8]) -> Result<Vec<u8>, Error> {
        let (m, k, a, r) = (&master.bytes, &self.bytes, associated_data, random(sys::RANDOM_ENCRYPT)?);
        output(self.room(), |o, n, w| unsafe {
            sys::tink_keyset_wrap(m.as_ptr(), m.len(), k.as_ptr(), k.len(), a.as_ptr(), a.len(), true, r.as_ptr(), r.len(), o, n, w)
        })
    }

    /// The keyset that `wrap` encrypted with the same associated data.
    pub fn unwrap(wrapped: &[u8], master: &Keyset, associated_data: &[u8]) -> Result<Keyset, Error> {
        let (m, k, a) = (&master.bytes, wrapped, associated_data);
        output(k.len() + ROOM, |o, n, w| unsafe {
            sys::tink_keyset_unwrap(m.as_ptr(), m.len(), k.as_ptr(), k.len(), a.as_ptr(), a.len(), true, o, n, w)
        })
        .map(Keyset::from)
    }

    /// The bytes of the keyset, with its keys in clear.
    pub fn as_bytes(&self) -> &[u8] {
        &self.bytes
    }

    fn edited(&self, edit: Edit, id: u32) -> Result<Keyset, Error> {
        let k = &self.bytes;
        output(self.room(), |o, n, w| unsafe { edit(k.as_ptr(), k.len(), id, o, n, w) }).map(Keyset::from)
    }

    fn converted(&self, json: bool) -> Result<Vec<u8>, Error> {
        let k = &self.bytes;
        output(self.room(), |o, n, w| unsafe { sys::tink_keyset_convert(k.as_ptr(), k.len(), json, o, n, w) })
    }

    fn room(&self) -> usize {
        3 * self.bytes.len() + ROOM
    }
}

impl From<Vec<u8>> for Keyset {
    fn from(bytes: Vec<u8>) -> Self {
        Keyset { bytes }
    }
}

/// It shows no key.
impl fmt::Debug for Keyset {
    fn fmt(&self, f: &mut fmt::Formatter<'_>) -> fmt::Result {
        f.write_str("Keyset")
    }
}

fn key_of(line: &str) -> Option<Key> {
    let mut words = line.split('\t');
    Some(Key {
        id: words.next()?.parse().ok()?,
        status: words.next()?.to_string(),
        prefix: words.next()?.to_string(),
        kind: words.next()?.to_string(),
        is_primary: words.next() == Some("primary"),
    })
}

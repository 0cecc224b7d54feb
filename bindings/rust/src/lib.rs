//! Tink's keysets, AEADs, deterministic AEADs, MACs, PRFs, tokens and streams, by a proved library with C names (`libtink`).
//!
//! ```no_run
//! use tink_proved::{Aead, Keyset};
//!
//! let keyset = Keyset::create("AES256_GCM")?;
//! let aead = Aead::new(&keyset)?;
//! let sealed = aead.encrypt(b"a value", b"its column")?;
//! assert_eq!(aead.decrypt(&sealed, b"its column")?, b"a value");
//! # Ok::<(), tink_proved::Error>(())
//! ```

mod error;
mod keyset;
mod primitives;
mod readers;
mod streams;
mod sys;

pub use error::Error;
pub use keyset::{Key, Keyset};
pub use primitives::{Aead, DeterministicAead, Mac, Prf, Signer, sign_token, verify_token};
pub use readers::{RangeReader, StreamReader};
pub use streams::{open_stream, read_range, rewrap_stream, seal_stream, EncryptingWriter};

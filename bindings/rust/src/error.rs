use std::fmt;

/// Why a call was refused.
#[derive(Clone, Copy, Debug, PartialEq, Eq)]
#[non_exhaustive]
pub enum Error {
    OutOfMemory,
    BadKeyset,
    InvalidKeyset,
    UnsupportedKeyType,
    InvalidKey,
    NoPrimary,
    WrongPrimitive,
    UnsupportedHash,
    TooManySegments,
    NoMatchingKey,
    BadSegment,
    Truncated,
    UnknownTemplate,
    NoFreshId,
    BadToken,
    MacMismatch,
    BadJson,
    KeyNotFound,
    IsPrimary,
    WrongKeyStatus,
    MasterFailed,
    RandomFault,
    TooLittleRoom,
    Closed,
    DecryptFailed,
    FailedBefore,
    TextTooLong,
    DataTooLong,
    NotRaw,
    BadOutputLength,
    Unread,
    /// A status that has no name here.
    Other(u8),
}

impl Error {
    pub(crate) fn of(status: u8) -> Error {
        match status {
            10 => Error::OutOfMemory,
            13 => Error::BadKeyset,
            14 => Error::InvalidKeyset,
            15 => Error::UnsupportedKeyType,
            16 => Error::InvalidKey,
            17 => Error::NoPrimary,
            18 => Error::WrongPrimitive,
            19 => Error::UnsupportedHash,
            20 => Error::TooManySegments,
            21 => Error::NoMatchingKey,
            22 => Error::BadSegment,
            23 => Error::Truncated,
            24 => Error::UnknownTemplate,
            25 => Error::NoFreshId,
            27 => Error::BadToken,
            28 => Error::MacMismatch,
            30 => Error::BadJson,
            31 => Error::KeyNotFound,
            32 => Error::IsPrimary,
            33 => Error::WrongKeyStatus,
            34 => Error::MasterFailed,
            35 => Error::RandomFault,
            42 => Error::TooLittleRoom,
            43 => Error::Closed,
            44 => Error::DecryptFailed,
            45 => Error::FailedBefore,
            46 => Error::TextTooLong,
            47 => Error::DataTooLong,
            48 => Error::NotRaw,
            49 => Error::BadOutputLength,
            50 => Error::Unread,
            other => Error::Other(other),
        }
    }
}

impl fmt::Display for Error {
    fn fmt(&self, f: &mut fmt::Formatter<'_>) -> fmt::Result {
        let text = match self {
            Error::OutOfMemory => "there is no memory",
            Error::BadKeyset => "it is no keyset in JSON or in the binary format",
            Error::InvalidKeyset => "the keyset is not valid: it has no primary key that is enabled",
            Error::UnsupportedKeyType => "the keyset has a key of a type that is not known",
            Error::InvalidKey => "the keyset has a key with a value that is none of its type",
            Error::NoPrimary => "no enabled key is the primary key: promote one",
            Error::WrongPrimitive => "the keyset has a key for another use",
            Error::UnsupportedHash => "the primary key derives by a hash that no stream takes",
            Error::TooManySegments => "the stream has more than 2^32 segments",
            Error::NoMatchingKey => "no key opens this stream: other keys, other associated data or a damaged beginning",
            Error::BadSegment => "a segment of the stream was changed",
            Error::Truncated => "the stream was cut off",
            Error::UnknownTemplate => "no template has this name",
            Error::NoFreshId => "no unused key id was drawn: try again",
            Error::BadToken => "it is no token",
            Error::MacMismatch => "no key accepts this MAC",
            Error::BadJson => "it begins as JSON and is no keyset",
            Error::KeyNotFound => "no key has this id",
            Error::IsPrimary => "it is the primary key: promote another one first",
            Error::WrongKeyStatus => "the key's status does not allow this",
            Error::MasterFailed => "the master keyset refuses it: other keys or other associated data",
            Error::RandomFault => "the system gave too few random bytes",
            Error::TooLittleRoom => "the buffer is too small",
            Error::Closed => "the object holds nothing: it was closed",
            Error::DecryptFailed => "no key decrypts it with this associated data",
            Error::FailedBefore => "a call before was refused: the writer or reader takes no more",
            Error::TextTooLong => "the plaintext is longer than the cipher takes",
            Error::DataTooLong => "the associated data is longer than the cipher takes",
            Error::NotRaw => "a pseudorandom function has a key with an output prefix",
            Error::BadOutputLength => "the function gives no output of this length",
            Error::Unread => "text of the reader waits",
            Error::Other(status) => return write!(f, "the call was refused: status {status}"),
        };
        f.write_str(text)
    }
}

impl std::error::Error for Error {}

/// Its kind is `UnexpectedEof` of `Truncated`, and `InvalidData` of every other one.
impl From<Error> for std::io::Error {
    fn from(error: Error) -> Self {
        let kind = match error {
            Error::Truncated => std::io::ErrorKind::UnexpectedEof,
            _ => std::io::ErrorKind::InvalidData,
        };
        std::io::Error::new(kind, error)
    }
}

//! The vectors that each language checks, rotations, errors, streams and threads.

use std::io::{Read, Seek, SeekFrom};
use tink_proved::{
    open_stream, read_range, rewrap_stream, seal_stream, sign_token, verify_token, Aead, DeterministicAead,
    EncryptingWriter, Error, Keyset, Mac, Prf, RangeReader, Signer,
};

fn from_hex(word: &str) -> Vec<u8> {
    if word == "-" {
        return Vec::new();
    }
    (0..word.len() / 2).map(|i| u8::from_str_radix(&word[2 * i..2 * i + 2], 16).unwrap()).collect()
}

#[test]
fn vectors() {
    let path = std::env::var("TINK_VECTORS").unwrap_or("../../tests/bindings/vectors.txt".into());
    let text = std::fs::read_to_string(path).unwrap();
    let mut checked = 0;
    for line in text.lines().filter(|line| !line.starts_with('#')) {
        let mut words = line.split(' ');
        let kind = words.next().unwrap();
        let d: Vec<Vec<u8>> = words.map(from_hex).collect();
        match kind {
            "aead" => {
                let keyset = Keyset::from(d[0].clone());
                let aead = Aead::new(&keyset).unwrap();
                assert_eq!(aead.decrypt(&d[4], &d[2]).unwrap(), d[1]);
                assert_eq!(aead.decrypt(&d[4][1..], &d[2]), Err(Error::DecryptFailed));
            }
            "daead" => {
                let keyset = Keyset::from(d[0].clone());
                let daead = DeterministicAead::new(&keyset).unwrap();
                assert_eq!(daead.encrypt_deterministically(&d[1], &d[2]).unwrap(), d[3]);
                assert_eq!(daead.decrypt_deterministically(&d[3], &d[2]).unwrap(), d[1]);
            }
            "mac" => {
                let keyset = Keyset::from(d[0].clone());
                let mac = Mac::new(&keyset).unwrap();
                assert_eq!(mac.compute(&d[1]).unwrap(), d[2]);
                assert_eq!(mac.verify(&d[2], &d[1]), Ok(()));
                assert_eq!(mac.verify(&d[2], b"another"), Err(Error::MacMismatch));
            }
            "prf" => {
                let keyset = Keyset::from(d[0].clone());
                assert_eq!(Prf::new(&keyset).unwrap().compute(&d[1], d[2].len()).unwrap(), d[2]);
            }
            "token" => {
                let keyset = Keyset::from(d[0].clone());
                assert_eq!(sign_token(&keyset, &d[2]).unwrap(), d[1]);
                assert_eq!(verify_token(&keyset, &d[1]).unwrap(), d[2]);
                let signer = Signer::new(&keyset).unwrap();
                assert_eq!(signer.sign(&d[2]).unwrap(), d[1]);
                assert_eq!(signer.verify(&d[1]).unwrap(), d[2]);
            }
            "stream" => {
                let keyset = Keyset::from(d[0].clone());
                assert_eq!(open_stream(&keyset, &d[2], &d[1]).unwrap(), d[3]);
                assert_eq!(read_range(&keyset, &d[2], &d[1], 1, 1 << 40).unwrap(), d[3][1..]);
                let (mut reader, mut end) = (RangeReader::new(&keyset, &d[2], &d[1]).unwrap(), Vec::new());
                reader.seek(SeekFrom::Start(1)).unwrap();
                reader.read_to_end(&mut end).unwrap();
                assert_eq!(end, d[3][1..]);
            }
            // The wrapper draws its random bytes itself: what was made by those of the vector is read.
            "seal" => {
                let keyset = Keyset::from(d[0].clone());
                assert_eq!(open_stream(&keyset, &d[4], &d[2]).unwrap(), d[1]);
                let moved = rewrap_stream((&keyset, &d[2]), (&keyset, b"new"), &d[4]).unwrap();
                assert_eq!(open_stream(&keyset, &moved, b"new").unwrap(), d[1]);
            }
            "create" => {
                let keyset = Keyset::from(d[2].clone());
                let json = Keyset::from(keyset.to_json().unwrap());
                assert_eq!(json.to_binary().unwrap(), d[2]);
                let kind = Keyset::create(std::str::from_utf8(&d[0]).unwrap()).unwrap().keys().unwrap()[0].kind.clone();
                assert_eq!(json.keys().unwrap()[0].kind, kind);
            }
            _ => panic!("{kind}"),
        }
        checked += 1;
    }
    assert_eq!(checked, 14);
}

#[test]
fn a_rotation() {
    let keyset = Keyset::create("AES128_GCM").unwrap();
    let sealed = Aead::new(&keyset).unwrap().encrypt(b"a value", b"its column").unwrap();
    let old = keyset.keys().unwrap()[0].id;
    let keyset = keyset.rotate("AES128_GCM").unwrap();
    assert_eq!(Aead::new(&keyset).unwrap().decrypt(&sealed, b"its column").unwrap(), b"a value");
    assert_eq!(keyset.promote(old).unwrap().disable(old), Err(Error::IsPrimary));
    let keyset = keyset.disable(old).unwrap();
    assert_eq!(Aead::new(&keyset).unwrap().decrypt(&sealed, b"its column"), Err(Error::DecryptFailed));
    let keyset = keyset.enable(old).unwrap().destroy(old).unwrap().delete(old).unwrap();
    assert_eq!(keyset.keys().unwrap().len(), 1);
    assert_eq!(keyset.add("AES128_GCM").unwrap().keys().unwrap().len(), 2);
    assert_eq!(keyset.rotate("AES256_SIV"), Err(Error::WrongPrimitive));
    assert_eq!(keyset.rotate_to_any("AES256_SIV").unwrap().keys().unwrap().len(), 2);
    let id = format!("\"id\":{}", keyset.keys().unwrap()[0].id);
    let json: String = String::from_utf8(keyset.keys_json().unwrap()).unwrap().split_whitespace().collect();
    assert!(json.starts_with('[') && json.contains(&id), "{json}");
    assert_eq!(Keyset::from(keyset.to_binary().unwrap()).to_json().unwrap(), keyset.as_bytes());
    assert_eq!(format!("{keyset:?}"), "Keyset");
}

#[test]
fn a_wrapped_keyset() {
    let (master, keyset) = (Keyset::create("AES256_GCM").unwrap(), Keyset::create("AES256_SIV").unwrap());
    let wrapped = keyset.wrap(&master, b"machine-1").unwrap();
    assert_eq!(Keyset::unwrap(&wrapped, &master, b"machine-1"), Ok(keyset));
    assert_eq!(Keyset::unwrap(&wrapped, &master, b"machine-2"), Err(Error::MasterFailed));
}

#[test]
fn a_whole_stream() {
    let keys = Keyset::create("AES128_GCM_HKDF_4KB").unwrap();
    let text: Vec<u8> = (0..20000).map(|i| i as u8).collect();
    let stream = seal_stream(&keys, &text, b"data").unwrap();
    assert_eq!(open_stream(&keys, &stream, b"data").unwrap(), text);
    assert_eq!(read_range(&keys, &stream, b"data", 5000, 10).unwrap(), text[5000..5010]);
    assert!(open_stream(&keys, &stream[..4096], b"data").is_err());
    let other = Keyset::create("AES256_GCM_HKDF_4KB").unwrap();
    let moved = rewrap_stream((&keys, b"data"), (&other, b"new"), &stream).unwrap();
    assert_eq!(open_stream(&other, &moved, b"new").unwrap(), text);
}

#[test]
fn a_stream_in_pieces() {
    use std::io::Write;
    // A writer that takes little, and then fails.
    struct Slow(Vec<u8>, usize);
    impl Write for Slow {
        fn write(&mut self, bytes: &[u8]) -> std::io::Result<usize> {
            let count = bytes.len().min(100).min(self.1 - self.0.len());
            self.0.extend_from_slice(&bytes[..count]);
            Ok(count)
        }
        fn flush(&mut self) -> std::io::Result<()> {
            Ok(())
        }
    }
    let keys = Keyset::create("AES128_GCM_HKDF_4KB").unwrap();
    let text: Vec<u8> = (0..30_000u32).map(|i| i as u8).collect();
    for length in [1000, 4096, 65536] {
        let mut stream = Vec::new();
        let mut writer = EncryptingWriter::new(&mut stream, &keys, b"its name").unwrap();
        for piece in text.chunks(length) {
            writer.write_all(piece).unwrap();
        }
        writer.flush().unwrap();
        writer.end().unwrap();
        assert_eq!(writer.write(b"more").unwrap_err().to_string(), Error::Closed.to_string());
        assert!(writer.end().is_err());
        drop(writer);
        assert_eq!(open_stream(&keys, &stream, b"its name").unwrap(), text);
    }
    let mut slow = Slow(Vec::new(), 1 << 20);
    let mut writer = EncryptingWriter::new(&mut slow, &keys, b"").unwrap();
    writer.write_all(&text).unwrap();
    writer.end().unwrap();
    drop(writer);
    assert_eq!(open_stream(&keys, &slow.0, b"").unwrap(), text);
    // no end, and an end that fails
    let mut cut = Vec::new();
    EncryptingWriter::new(&mut cut, &keys, b"").unwrap().write_all(&text).unwrap();
    assert!(open_stream(&keys, &cut, b"").is_err());
    let mut full = Slow(Vec::new(), 5000);
    let mut writer = EncryptingWriter::new(&mut full, &keys, b"").unwrap();
    assert!(writer.write_all(&text).and_then(|()| writer.end()).is_err());
    assert!(EncryptingWriter::new(Vec::new(), &Keyset::from(b"no keyset".to_vec()), b"").is_err());
}

#[test]
fn places_of_a_stream() {
    let keys = Keyset::create("AES128_GCM_HKDF_4KB").unwrap();
    let stream = seal_stream(&keys, b"0123456789", b"").unwrap();
    let mut reader = RangeReader::new(&keys, &stream, b"").unwrap();
    let mut two = [0; 2];
    assert_eq!(reader.seek(SeekFrom::Start(7)).unwrap(), 7);
    assert_eq!(reader.seek(SeekFrom::Current(-4)).unwrap(), 3);
    reader.read_exact(&mut two).unwrap();
    assert_eq!(&two, b"34");
    for wrong in [SeekFrom::Current(-6), SeekFrom::Current(i64::MIN), SeekFrom::End(0)] {
        assert!(reader.seek(wrong).is_err());
    }
    assert_eq!(reader.seek(SeekFrom::Start(u64::MAX)).unwrap(), u64::MAX);
    assert!(reader.seek(SeekFrom::Current(1)).is_err());
    assert_eq!(reader.read(&mut two).unwrap(), 0);
    assert_eq!(read_range(&keys, &stream, b"", u64::MAX, u64::MAX).unwrap(), b"");
}

// A keyset and what it is asked for may be used by more threads at once.
#[test]
fn all_may_be_shared() {
    fn shared<T: Send + Sync>() {}
    shared::<Keyset>();
    shared::<Aead>();
    shared::<DeterministicAead>();
    shared::<Mac>();
    shared::<Prf>();
    shared::<Signer>();
    shared::<RangeReader>();
    shared::<Error>();
}

#[test]
fn functions_and_threads() {
    let functions = Keyset::create("HKDF_SHA256").unwrap();
    let prf = Prf::new(&functions).unwrap();
    assert_eq!(prf.compute(b"input", 16).unwrap(), prf.compute(b"input", 32).unwrap()[..16]);
    for length in [1 << 20, usize::MAX] {
        assert_eq!(prf.compute(b"input", length), Err(Error::BadOutputLength));
    }
    let keyset = Keyset::create("AES256_GCM").unwrap();
    assert!(matches!(Mac::new(&keyset), Err(Error::WrongPrimitive)));
    // one object, shared by threads
    let one = Aead::new(&keyset).unwrap();
    std::thread::scope(|scope| {
        for i in 0..2 {
            let one = &one;
            scope.spawn(move || {
                for _ in 0..50 {
                    assert_eq!(one.decrypt(&one.encrypt(&[i; 100], b"").unwrap(), b"").unwrap(), [i; 100]);
                }
            });
        }
    });
    std::thread::scope(|scope| {
        for i in 0..2 {
            let aead = Aead::new(&keyset).unwrap();
            scope.spawn(move || {
                for _ in 0..50 {
                    let sealed = aead.encrypt(&[i; 100], b"").unwrap();
                    assert_eq!(aead.decrypt(&sealed, b"").unwrap(), [i; 100]);
                }
            });
        }
    });
}

//! The readers: whole streams in any pieces, refused ones, sources that fail, and threads.

use std::io::{self, BufRead, BufReader, ErrorKind, Read, Seek, SeekFrom, Write};
use tink_proved::{open_stream, seal_stream, EncryptingWriter, Error, Keyset, RangeReader, StreamReader};

fn from_hex(word: &str) -> Vec<u8> {
    if word == "-" {
        return Vec::new();
    }
    (0..word.len() / 2).map(|i| u8::from_str_radix(&word[2 * i..2 * i + 2], 16).unwrap()).collect()
}

// The streams of the vectors: keys, associated data, stream and text.
fn streams() -> Vec<(Keyset, Vec<u8>, Vec<u8>, Vec<u8>)> {
    let path = std::env::var("TINK_VECTORS").unwrap_or("../../tests/bindings/vectors.txt".into());
    let mut found = Vec::new();
    for line in std::fs::read_to_string(path).unwrap().lines() {
        let mut words = line.split(' ');
        let kind = words.next().unwrap();
        if kind == "stream" || kind == "seal" {
            let d: Vec<Vec<u8>> = words.map(from_hex).collect();
            let [a, s, t] = if kind == "stream" { [1, 2, 3] } else { [2, 4, 1] };
            found.push((Keyset::from(d[0].clone()), d[a].clone(), d[s].clone(), d[t].clone()));
        }
    }
    found
}

// A source of which each read gives so many bytes at most.
struct Source<'s>(&'s [u8], usize);

impl Read for Source<'_> {
    fn read(&mut self, buffer: &mut [u8]) -> io::Result<usize> {
        let count = buffer.len().min(self.1).min(self.0.len());
        buffer[..count].copy_from_slice(&self.0[..count]);
        self.0 = &self.0[count..];
        Ok(count)
    }
}

fn of(error: &io::Error) -> Error {
    *error.get_ref().unwrap().downcast_ref::<Error>().unwrap()
}

// What a reader gave, and the error that ended it or none.
fn drained(keys: &Keyset, stream: &[u8], data: &[u8], most: usize, size: usize) -> (Vec<u8>, Option<Error>) {
    let mut reader = StreamReader::new(Source(stream, most), keys, data).unwrap();
    let (mut text, mut part) = (Vec::new(), vec![0; size]);
    loop {
        match reader.read(&mut part) {
            Ok(0) => {
                assert_eq!(reader.read(&mut part).unwrap(), 0);
                return (text, None);
            }
            Ok(count) => text.extend_from_slice(&part[..count]),
            Err(error) => {
                let want = if of(&error) == Error::Truncated { ErrorKind::UnexpectedEof } else { ErrorKind::InvalidData };
                assert_eq!(error.kind(), want);
                for _ in 0..2 {
                    assert_eq!(of(&reader.read(&mut part).unwrap_err()), Error::FailedBefore);
                }
                return (text, Some(of(&error)));
            }
        }
    }
}

// A reader gives at most the start of the text, and then the error of an opening.
fn refuses(keys: &Keyset, stream: &[u8], data: &[u8], text: &[u8]) -> Error {
    let (got, error) = drained(keys, stream, data, 5000, 4096);
    assert_eq!(error, Some(open_stream(keys, stream, data).unwrap_err()));
    assert!(text.starts_with(&got));
    error.unwrap()
}

#[test]
fn vectors() {
    let found = streams();
    assert_eq!(found.len(), 6);
    let foreign = Keyset::create("AES128_CTR_HMAC_SHA256_4KB").unwrap();
    for (keys, data, stream, text) in &found {
        for most in [1, 3, 7, 1 << 16] {
            for size in [1, 5, 1 << 16] {
                assert_eq!(drained(keys, stream, data, most, size), (text.clone(), None));
            }
        }
        for at in 0..stream.len() {
            refuses(keys, &stream[..at], data, text);
            let mut changed = stream.clone();
            changed[at] ^= 1;
            refuses(keys, &changed, data, text);
        }
        for more in [&b"\0"[..], &[0; 16], &[0; 17], stream] {
            refuses(keys, &[stream, more].concat(), data, text);
        }
        assert_eq!(refuses(keys, stream, b"another", b""), Error::NoMatchingKey);
        assert_eq!(refuses(&foreign, stream, data, b""), Error::NoMatchingKey);
    }
}

#[test]
fn streams_of_several_segments() {
    let all: Vec<u8> = (0..100_000u64).map(|i| (i * i / 7) as u8).collect();
    let small = Keyset::create("AES128_GCM_HKDF_4KB").unwrap();
    for keys in [small.rotate("AES256_GCM_HKDF_1MB").unwrap(), small, Keyset::create("AES256_CTR_HMAC_SHA256_4KB").unwrap()] {
        for length in [0, 1, 4000, 4056, 9000, 100_000] {
            let text = &all[..length];
            let mut stream = Vec::new();
            let mut writer = EncryptingWriter::new(&mut stream, &keys, b"its name").unwrap();
            writer.write_all(text).unwrap();
            writer.end().unwrap();
            drop(writer);
            for (most, size) in [(1000, 1 << 20), (4096, 999), (1 << 16, 4096)] {
                assert_eq!(drained(&keys, &stream, b"its name", most, size), (text.to_vec(), None));
            }
            for cut in [4096, 4097, 8192, 12288, stream.len() - 1] {
                if cut < stream.len() {
                    refuses(&keys, &stream[..cut], b"its name", text);
                }
            }
            if length == 100_000 && stream.len() > 4 << 12 && keys.keys().unwrap().len() == 1 {
                assert_eq!(refuses(&keys, &stream[..2 * 4096 + 5], b"its name", text), Error::Truncated);
            }
        }
        assert_eq!(refuses(&keys, b"", b"", b""), Error::NoMatchingKey);
    }
}

#[test]
fn every_way_to_read() {
    let keys = Keyset::create("AES128_GCM_HKDF_4KB").unwrap();
    let text: String = (0..2000).map(|i| format!("line {i} of the file\n")).collect();
    let stream = seal_stream(&keys, text.as_bytes(), b"").unwrap();
    let mut got = String::new();
    StreamReader::new(&stream[..], &keys, b"").unwrap().read_to_string(&mut got).unwrap();
    assert_eq!(got, text);
    let lines = BufReader::new(StreamReader::new(&stream[..], &keys, b"").unwrap()).lines();
    assert_eq!(lines.map(|line| line.unwrap() + "\n").collect::<String>(), text);
    let mut copy = Vec::new();
    let mut reader = StreamReader::new(&stream[..], &keys, b"").unwrap();
    assert_eq!(reader.read(&mut []).unwrap(), 0);
    assert_eq!(io::copy(&mut reader, &mut copy).unwrap(), text.len() as u64);
    assert_eq!(copy, text.as_bytes());
    // a cut stream is no shorter text to any of them
    let cut = || StreamReader::new(&stream[..stream.len() - 1], &keys, b"").unwrap();
    assert!(cut().read_to_end(&mut Vec::new()).is_err());
    assert!(io::copy(&mut cut(), &mut io::sink()).is_err());
    assert!(BufReader::new(cut()).lines().any(|line| line.is_err()));
    // after the end of the text
    let mut more = vec![0; text.len() + 1];
    let error = StreamReader::new(&stream[..], &keys, b"").unwrap().read_exact(&mut more).unwrap_err();
    assert_eq!(error.kind(), ErrorKind::UnexpectedEof);
}

#[test]
fn sources_that_fail() {
    // Each other read fails, by errors that read_to_end passes over and by others.
    struct Failing<'s>(Source<'s>, usize, ErrorKind);
    impl Read for Failing<'_> {
        fn read(&mut self, buffer: &mut [u8]) -> io::Result<usize> {
            self.1 += 1;
            if self.1 % 2 == 0 { Err(self.2.into()) } else { self.0.read(buffer) }
        }
    }
    let keys = Keyset::create("AES128_GCM_HKDF_4KB").unwrap();
    let text = vec![7; 20_000];
    let stream = seal_stream(&keys, &text, b"").unwrap();
    let mut got = Vec::new();
    let source = Failing(Source(&stream, 1000), 0, ErrorKind::Interrupted);
    StreamReader::new(source, &keys, b"").unwrap().read_to_end(&mut got).unwrap();
    assert_eq!(got, text);
    let source = Failing(Source(&stream, 1000), 0, ErrorKind::WouldBlock);
    let (mut reader, mut faults) = (StreamReader::new(source, &keys, b"").unwrap(), 0);
    got.clear();
    while let Err(error) = reader.read_to_end(&mut got) {
        assert_eq!(error.kind(), ErrorKind::WouldBlock);
        faults += 1;
    }
    assert_eq!(got, text);
    assert!(faults > 16);
    // one that says more than it gave
    struct Lying;
    impl Read for Lying {
        fn read(&mut self, buffer: &mut [u8]) -> io::Result<usize> {
            Ok(buffer.len() + 1)
        }
    }
    let lying = || StreamReader::new(Lying, &keys, b"").unwrap().read(&mut [0; 10]);
    assert!(std::panic::catch_unwind(lying).is_err());
}

#[test]
fn refused_keysets() {
    for (keyset, want) in [
        (Keyset::from(b"no keyset".to_vec()), Error::BadKeyset),
        (Keyset::create("AES128_GCM").unwrap(), Error::WrongPrimitive),
    ] {
        assert_eq!(StreamReader::new(&b""[..], &keyset, b"").err(), Some(want));
        assert_eq!(RangeReader::new(&keyset, b"", b"").err(), Some(want));
    }
}

#[test]
fn ranges() {
    let keys = Keyset::create("AES128_GCM_HKDF_4KB").unwrap();
    let text: Vec<u8> = (0..20_000u64).map(|i| (i * i / 7) as u8).collect();
    let stream = seal_stream(&keys, &text, b"its name").unwrap();
    let mut reader = RangeReader::new(&keys, &stream, b"its name").unwrap();
    for (start, length) in [(0, 0), (0, 1), (5000, 100), (4000, 9000), (19_990, 100), (20_000, 1), (30_000, 5)] {
        let want = &text[start.min(20_000)..(start + length).min(20_000)];
        let mut part = vec![7; length];
        assert_eq!(reader.read_at(&mut part, start as u64).unwrap(), want.len());
        assert_eq!(&part[..want.len()], want);
        assert!(part[want.len()..].iter().all(|&byte| byte == 7));
    }
    assert_eq!(reader.seek(SeekFrom::Start(19_000)).unwrap(), 19_000);
    let mut rest = Vec::new();
    reader.read_to_end(&mut rest).unwrap();
    assert_eq!(rest, text[19_000..]);
    assert_eq!(reader.read_at(&mut rest, u64::MAX), Ok(0));
    // what was changed is refused where it is read, and leaves the buffer
    let mut changed = stream.clone();
    changed[9000] ^= 1;
    let mut part = [7; 100];
    let of_changed = RangeReader::new(&keys, &changed, b"its name").unwrap();
    assert_eq!(of_changed.read_at(&mut part, 9000), Err(Error::BadSegment));
    assert_eq!(part, [7; 100]);
    assert_eq!(of_changed.read_at(&mut part, 0), Ok(100));
    let error = RangeReader::new(&keys, &stream, b"another").unwrap().read(&mut part).unwrap_err();
    assert_eq!((error.kind(), of(&error)), (ErrorKind::InvalidData, Error::NoMatchingKey));
}

#[test]
fn threads() {
    let keys = Keyset::create("AES128_GCM_HKDF_4KB").unwrap();
    let text: Vec<u8> = (0..100_000u64).map(|i| (i * i / 7) as u8).collect();
    let stream = seal_stream(&keys, &text, b"").unwrap();
    let one = RangeReader::new(&keys, &stream, b"").unwrap();
    std::thread::scope(|scope| {
        for _ in 0..2 {
            scope.spawn(|| {
                for i in 0..10 {
                    assert_eq!(drained(&keys, &stream, b"", 5000, 7000), (text.clone(), None));
                    let (mut part, place) = ([0; 100], i * 9000);
                    assert_eq!(one.read_at(&mut part, place as u64), Ok(100));
                    assert_eq!(part, text[place..place + 100]);
                }
            });
        }
    });
    // a reader may go to another thread
    let reader = StreamReader::new(&stream[..], &keys, b"").unwrap();
    std::thread::scope(|scope| {
        scope.spawn(move || assert_eq!(reader.bytes().map(Result::unwrap).collect::<Vec<u8>>(), text));
    });
}

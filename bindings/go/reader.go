package tinkproved

// #include <tink.h>
import "C"

import (
	"errors"
	"io"
	"sync"
	"unsafe"
)

// How many bytes of a stream are read at once, and how many reads may give nothing.
const (
	pieceSize  = 1 << 16
	emptyReads = 100
)

// StreamReader is an io.ReadCloser of the plaintext of a stream, which is read from another reader in
// the memory of a segment. Read answers io.EOF at the end of a whole stream alone. Each other stream
// ends in an error, and what was read before is the start of the plaintext. The error Truncated is
// an io.ErrUnexpectedEOF to errors.Is.
type StreamReader struct {
	lock sync.Mutex
	held *object
	from io.Reader
	// What was read of the stream. The library did not take the part from at to end yet.
	piece   *[pieceSize]byte
	at, end int
	// What the other reader answered behind the piece.
	next error
	// Whether the stream was read to its end, and is whole.
	whole bool
}

// NewStreamReader is a reader of a stream under the keys of a keyset. Nothing is read yet.
func NewStreamReader(from io.Reader, keyset Keyset, associatedData []byte) (*StreamReader, error) {
	d, dn := in(associatedData)
	o, err := newObject(keyset, func(k *C.uint8_t, n C.size_t, at unsafe.Pointer) C.uint8_t {
		return C.tink_reader_new(k, n, d, dn, (*C.tink_reader)(at))
	}, freeReader)
	if err != nil {
		return nil, err
	}
	return &StreamReader{held: o, from: from, piece: new([pieceSize]byte)}, nil
}

func freeReader(at unsafe.Pointer) { C.tink_reader_free((*C.tink_reader)(at)) }

// Read gives some of the plaintext. An error of the other reader goes through, and a later Read goes on.
func (r *StreamReader) Read(buffer []byte) (int, error) {
	r.lock.Lock()
	defer r.lock.Unlock()
	o, n := in(buffer)
	for {
		var count C.size_t
		status := r.held.status(func(at unsafe.Pointer) C.uint8_t {
			return C.tink_reader_read((*C.tink_reader)(at), o, n, &count)
		})
		switch {
		case status != 0:
			return 0, status
		case count > 0 || len(buffer) == 0:
			return int(count), nil
		case r.whole:
			return 0, io.EOF
		}
		if err := r.goOn(); err != nil {
			return 0, err
		}
	}
}

// Close frees the keys. It waits for a Read. Every later call answers Closed; the other reader stays open.
func (r *StreamReader) Close() error {
	r.lock.Lock()
	defer r.lock.Unlock()
	r.held.with(freeReader)
	return nil
}

// Hands in what follows, or says that nothing does. No text waits.
func (r *StreamReader) goOn() error {
	for i := 0; r.at == r.end && r.next == nil; i++ {
		if i == emptyReads {
			return io.ErrNoProgress
		}
		r.at, r.end = 0, 0
		r.end, r.next = r.from.Read(r.piece[:])
	}
	var status Status
	switch {
	case r.at < r.end:
		var taken C.size_t
		p, n := in(r.piece[r.at:r.end])
		status = r.held.status(func(at unsafe.Pointer) C.uint8_t {
			return C.tink_reader_feed((*C.tink_reader)(at), p, n, &taken)
		})
		r.at += int(taken)
	case r.next == io.EOF:
		status = r.held.status(func(at unsafe.Pointer) C.uint8_t { return C.tink_reader_end((*C.tink_reader)(at)) })
		r.whole = status == 0
	default:
		err := r.next
		r.next = nil
		return err
	}
	if status != 0 && status != Unread {
		return status
	}
	return nil
}

// RangeReader reads the plaintext of a stream in memory at any place. The keyset is loaded once. Each
// read opens the first segment, the last one and those that it reads.
type RangeReader struct {
	held *object
	part func(buffer []byte, start uint64) (int, error)
}

// NewRangeReader is an io.ReaderAt of the plaintext of a stream.
func NewRangeReader(keyset Keyset, stream, associatedData []byte) (RangeReader, error) {
	d, dn := in(associatedData)
	o, err := newObject(keyset, func(k *C.uint8_t, n C.size_t, at unsafe.Pointer) C.uint8_t {
		return C.tink_range_reader_new(k, n, d, dn, (*C.tink_range_reader)(at))
	}, freeRangeReader)
	if err != nil {
		return RangeReader{}, err
	}
	// The stream is kept in a function, so that nothing shows it.
	return RangeReader{o, func(buffer []byte, start uint64) (int, error) {
		s, sn := in(stream)
		b, bn := in(buffer)
		var written C.size_t
		status := o.status(func(at unsafe.Pointer) C.uint8_t {
			it := (*C.tink_range_reader)(at)
			return C.tink_range_reader_read(it, s, sn, C.uint64_t(start), C.uint64_t(bn), b, bn, &written)
		})
		return int(written), done(C.uint8_t(status))
	}}, nil
}

func freeRangeReader(at unsafe.Pointer) { C.tink_range_reader_free((*C.tink_range_reader)(at)) }

// Close frees the keys. Every later call answers Closed.
func (r RangeReader) Close() error {
	r.held.with(freeRangeReader)
	return nil
}

// ReadAt fills the buffer with the plaintext from a place on, and answers io.EOF if there is less of it.
func (r RangeReader) ReadAt(buffer []byte, place int64) (int, error) {
	if r.part == nil {
		return 0, Closed
	}
	if place < 0 {
		return 0, errors.New("tink: there is no place below 0")
	}
	n, err := r.part(buffer, uint64(place))
	if err == nil && n < len(buffer) {
		err = io.EOF
	}
	return n, err
}

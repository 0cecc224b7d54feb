package tinkproved

// #include <tink.h>
import "C"

import (
	"io"
	"unsafe"
)

// EncryptingWriter is an io.WriteCloser whose bytes are encrypted into another writer, in the
// memory of a segment. Close writes the last segment; the other writer stays open. A writer that is
// not closed leaves a stream that does not pass for whole.
type EncryptingWriter struct {
	held *object
	to   io.Writer
	// A write of the other writer that failed: the stream is not whole.
	failed error
}

// NewEncryptingWriter is a writer of a new stream under the primary key. Nothing is written yet.
func NewEncryptingWriter(to io.Writer, keyset Keyset, associatedData []byte) (*EncryptingWriter, error) {
	r, err := random(randomStream)
	if err != nil {
		return nil, err
	}
	d, dn := in(associatedData)
	rp, rn := in(r)
	o, err := newObject(keyset, func(k *C.uint8_t, n C.size_t, at unsafe.Pointer) C.uint8_t {
		return C.tink_writer_new(k, n, d, dn, rp, rn, (*C.tink_writer)(at))
	}, freeWriter)
	if err != nil {
		return nil, err
	}
	return &EncryptingWriter{held: o, to: to}, nil
}

func freeWriter(at unsafe.Pointer) { C.tink_writer_free((*C.tink_writer)(at)) }

// Write encrypts all of the bytes, and writes the segments that are full.
func (w *EncryptingWriter) Write(bytes []byte) (int, error) {
	p, pn := in(bytes)
	err := w.put(len(bytes), func(at unsafe.Pointer, o *C.uint8_t, n C.size_t, l *C.size_t) C.uint8_t {
		return C.tink_writer_write((*C.tink_writer)(at), p, pn, o, n, l)
	})
	if err != nil {
		return 0, err
	}
	return len(bytes), nil
}

// Close writes the last segment. Every later call answers Closed.
func (w *EncryptingWriter) Close() error {
	err := w.put(0, func(at unsafe.Pointer, o *C.uint8_t, n C.size_t, l *C.size_t) C.uint8_t {
		return C.tink_writer_close((*C.tink_writer)(at), o, n, l)
	})
	w.held.with(freeWriter)
	return err
}

// Writes the output of a call, for which the library says the room.
func (w *EncryptingWriter) put(length int, call func(at unsafe.Pointer, o *C.uint8_t, n C.size_t, l *C.size_t) C.uint8_t) error {
	if w.failed != nil {
		return w.failed
	}
	var needed C.size_t
	var err error
	w.held.with(func(at unsafe.Pointer) {
		err = done(C.tink_writer_bound((*C.tink_writer)(at), C.size_t(length), &needed))
	})
	if err != nil {
		return err
	}
	out, err := w.held.output(int(needed), call)
	if err != nil {
		return err
	}
	if n, err := w.to.Write(out); err != nil || n < len(out) {
		if err == nil {
			err = io.ErrShortWrite
		}
		w.failed = err
	}
	return w.failed
}

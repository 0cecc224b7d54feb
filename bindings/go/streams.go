package tinkproved

// #include <tink.h>
import "C"

// SealStream gives the stream of a plaintext under the primary key. The program `tink decrypt` opens it.
func SealStream(keyset Keyset, plaintext, associatedData []byte) ([]byte, error) {
	r, err := random(randomStream)
	if err != nil {
		return nil, err
	}
	k, kn := in(keyset)
	p, pn := in(plaintext)
	d, dn := in(associatedData)
	rp, rn := in(r)
	return output(streamRoom(plaintext), func(o *C.uint8_t, n C.size_t, w *C.size_t) C.uint8_t {
		return C.tink_seal_stream(k, kn, p, pn, d, dn, rp, rn, o, n, w)
	})
}

// OpenStream gives the plaintext of a stream.
func OpenStream(keyset Keyset, stream, associatedData []byte) ([]byte, error) {
	k, kn := in(keyset)
	s, sn := in(stream)
	d, dn := in(associatedData)
	return output(len(stream), func(o *C.uint8_t, n C.size_t, w *C.size_t) C.uint8_t {
		return C.tink_open_stream(k, kn, s, sn, d, dn, o, n, w)
	})
}

// ReadRange gives the bytes of the plaintext of a stream from the place start on, at most length of them.
func ReadRange(keyset Keyset, stream, associatedData []byte, start, length uint64) ([]byte, error) {
	room := len(stream)
	if length < uint64(room) {
		room = int(length)
	}
	k, kn := in(keyset)
	s, sn := in(stream)
	d, dn := in(associatedData)
	return output(room, func(o *C.uint8_t, n C.size_t, w *C.size_t) C.uint8_t {
		return C.tink_read_range(k, kn, s, sn, d, dn, C.uint64_t(start), C.uint64_t(length), o, n, w)
	})
}

// RewrapStream gives the stream of the same plaintext under the primary key of the keyset to.
func RewrapStream(keyset Keyset, associatedData []byte, to Keyset, toAssociatedData, stream []byte) ([]byte, error) {
	r, err := random(randomStream)
	if err != nil {
		return nil, err
	}
	k, kn := in(keyset)
	d, dn := in(associatedData)
	t, tn := in(to)
	e, en := in(toAssociatedData)
	s, sn := in(stream)
	rp, rn := in(r)
	return output(streamRoom(stream), func(o *C.uint8_t, n C.size_t, w *C.size_t) C.uint8_t {
		return C.tink_rewrap_stream(k, kn, d, dn, t, tn, e, en, s, sn, rp, rn, o, n, w)
	})
}

func streamRoom(input []byte) int { return len(input) + len(input)/64 + 1024 }

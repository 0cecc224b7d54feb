package tinkproved

// #include <tink.h>
import "C"

import (
	"runtime"
	"sync"
	"unsafe"
)

// What the library holds of a keyset. Calls with it come one after another. It shows nothing of its keys.
type object struct {
	lock sync.Mutex
	at   C.tink_aead
}

// Calls with the object, which is of the type that the call wants.
func (o *object) with(call func(at unsafe.Pointer)) {
	o.lock.Lock()
	defer o.lock.Unlock()
	call(unsafe.Pointer(&o.at))
	runtime.KeepAlive(o)
}

// The status of a call with the object.
func (o *object) status(call func(at unsafe.Pointer) C.uint8_t) (status Status) {
	o.with(func(at unsafe.Pointer) { status = Status(call(at)) })
	return
}

// The output of a call with the object.
func (o *object) output(room int, call func(at unsafe.Pointer, out *C.uint8_t, room C.size_t, written *C.size_t) C.uint8_t) (result []byte, err error) {
	o.with(func(at unsafe.Pointer) {
		result, err = output(room, func(out *C.uint8_t, n C.size_t, w *C.size_t) C.uint8_t { return call(at, out, n, w) })
	})
	return
}

// A new object. Its memory is freed by close, or with the object.
func newObject(keyset Keyset, fill func(*C.uint8_t, C.size_t, unsafe.Pointer) C.uint8_t, free func(unsafe.Pointer)) (o *object, err error) {
	o = new(object)
	k, kn := in(keyset)
	o.with(func(at unsafe.Pointer) { err = done(fill(k, kn, at)) })
	if err != nil {
		return nil, err
	}
	runtime.SetFinalizer(o, func(o *object) { o.with(free) })
	return o, nil
}

// AEAD is the AEADs of a keyset: the primary key encrypts, and any key decrypts. The keyset is loaded once.
type AEAD struct{ held *object }

// NewAEAD is the AEADs of a keyset.
func NewAEAD(keyset Keyset) (AEAD, error) {
	o, err := newObject(keyset, func(k *C.uint8_t, n C.size_t, at unsafe.Pointer) C.uint8_t {
		return C.tink_aead_new(k, n, (*C.tink_aead)(at))
	}, freeAEAD)
	return AEAD{o}, err
}

func freeAEAD(at unsafe.Pointer) { C.tink_aead_free((*C.tink_aead)(at)) }

// Close frees the keys. Every later call answers Closed.
func (a AEAD) Close() error {
	a.held.with(freeAEAD)
	return nil
}

// Encrypt gives the ciphertext of a plaintext, bound to the associated data.
func (a AEAD) Encrypt(plaintext, associatedData []byte) ([]byte, error) {
	r, err := random(randomEncrypt)
	if err != nil {
		return nil, err
	}
	return a.encrypt(plaintext, associatedData, r)
}

func (a AEAD) encrypt(plaintext, associatedData, r []byte) ([]byte, error) {
	p, pn := in(plaintext)
	d, dn := in(associatedData)
	rp, rn := in(r)
	return a.held.output(len(plaintext)+128, func(at unsafe.Pointer, o *C.uint8_t, n C.size_t, w *C.size_t) C.uint8_t {
		return C.tink_aead_encrypt((*C.tink_aead)(at), p, pn, d, dn, rp, rn, o, n, w)
	})
}

// Decrypt gives the plaintext, if a key made the ciphertext with this associated data.
func (a AEAD) Decrypt(ciphertext, associatedData []byte) ([]byte, error) {
	c, cn := in(ciphertext)
	d, dn := in(associatedData)
	return a.held.output(len(ciphertext), func(at unsafe.Pointer, o *C.uint8_t, n C.size_t, w *C.size_t) C.uint8_t {
		return C.tink_aead_decrypt((*C.tink_aead)(at), c, cn, d, dn, o, n, w)
	})
}

// DeterministicAEAD is the deterministic AEADs of a keyset: equal plaintexts and data give equal ciphertexts. The keyset is loaded once.
type DeterministicAEAD struct{ held *object }

// NewDeterministicAEAD is the deterministic AEADs of a keyset.
func NewDeterministicAEAD(keyset Keyset) (DeterministicAEAD, error) {
	o, err := newObject(keyset, func(k *C.uint8_t, n C.size_t, at unsafe.Pointer) C.uint8_t {
		return C.tink_daead_new(k, n, (*C.tink_daead)(at))
	}, freeDeterministicAEAD)
	return DeterministicAEAD{o}, err
}

func freeDeterministicAEAD(at unsafe.Pointer) { C.tink_daead_free((*C.tink_daead)(at)) }

// Close frees the keys. Every later call answers Closed.
func (a DeterministicAEAD) Close() error {
	a.held.with(freeDeterministicAEAD)
	return nil
}

// EncryptDeterministically gives the ciphertext of a plaintext, bound to the associated data.
func (a DeterministicAEAD) EncryptDeterministically(plaintext, associatedData []byte) ([]byte, error) {
	p, pn := in(plaintext)
	d, dn := in(associatedData)
	return a.held.output(len(plaintext)+128, func(at unsafe.Pointer, o *C.uint8_t, n C.size_t, w *C.size_t) C.uint8_t {
		return C.tink_daead_encrypt((*C.tink_daead)(at), p, pn, d, dn, o, n, w)
	})
}

// DecryptDeterministically gives the plaintext, if a key made the ciphertext with this associated data.
func (a DeterministicAEAD) DecryptDeterministically(ciphertext, associatedData []byte) ([]byte, error) {
	c, cn := in(ciphertext)
	d, dn := in(associatedData)
	return a.held.output(len(ciphertext), func(at unsafe.Pointer, o *C.uint8_t, n C.size_t, w *C.size_t) C.uint8_t {
		return C.tink_daead_decrypt((*C.tink_daead)(at), c, cn, d, dn, o, n, w)
	})
}

// MAC is the MACs of a keyset: the primary key computes, and any key verifies. The keyset is loaded once.
type MAC struct{ held *object }

// NewMAC is the MACs of a keyset.
func NewMAC(keyset Keyset) (MAC, error) {
	o, err := newObject(keyset, func(k *C.uint8_t, n C.size_t, at unsafe.Pointer) C.uint8_t {
		return C.tink_mac_new(k, n, (*C.tink_mac)(at))
	}, freeMAC)
	return MAC{o}, err
}

func freeMAC(at unsafe.Pointer) { C.tink_mac_free((*C.tink_mac)(at)) }

// Close frees the keys. Every later call answers Closed.
func (m MAC) Close() error {
	m.held.with(freeMAC)
	return nil
}

// ComputeMAC gives the MAC of a message.
func (m MAC) ComputeMAC(message []byte) ([]byte, error) {
	p, pn := in(message)
	return m.held.output(128, func(at unsafe.Pointer, o *C.uint8_t, n C.size_t, w *C.size_t) C.uint8_t {
		return C.tink_mac_compute((*C.tink_mac)(at), p, pn, o, n, w)
	})
}

// VerifyMAC answers nil if a key accepts the MAC for the message, and else MACMismatch.
func (m MAC) VerifyMAC(mac, message []byte) (err error) {
	t, tn := in(mac)
	p, pn := in(message)
	m.held.with(func(at unsafe.Pointer) { err = done(C.tink_mac_verify((*C.tink_mac)(at), t, tn, p, pn)) })
	return
}

// PRF is the pseudorandom functions of a keyset. The keyset is loaded once.
type PRF struct{ held *object }

// NewPRF is the pseudorandom functions of a keyset.
func NewPRF(keyset Keyset) (PRF, error) {
	o, err := newObject(keyset, func(k *C.uint8_t, n C.size_t, at unsafe.Pointer) C.uint8_t {
		return C.tink_prf_new(k, n, (*C.tink_prf)(at))
	}, freePRF)
	return PRF{o}, err
}

func freePRF(at unsafe.Pointer) { C.tink_prf_free((*C.tink_prf)(at)) }

// Close frees the keys. Every later call answers Closed.
func (f PRF) Close() error {
	f.held.with(freePRF)
	return nil
}

// No function has a longer output.
const longestPRF = 1 << 14

// Compute gives the first bytes of the primary function for an input.
func (f PRF) Compute(input []byte, length int) ([]byte, error) {
	if length < 0 {
		return nil, BadOutputLength
	}
	p, pn := in(input)
	room := length
	if room > longestPRF {
		room = longestPRF
	}
	return f.held.output(room, func(at unsafe.Pointer, o *C.uint8_t, n C.size_t, w *C.size_t) C.uint8_t {
		return C.tink_prf_compute((*C.tink_prf)(at), p, pn, C.size_t(length), o, n, w)
	})
}

// Signer is the tokens that a keyset of MACs signs and accepts. The keyset is loaded once.
type Signer struct{ held *object }

// NewSigner is the tokens that a keyset of MACs signs and accepts.
func NewSigner(keyset Keyset) (Signer, error) {
	o, err := newObject(keyset, func(k *C.uint8_t, n C.size_t, at unsafe.Pointer) C.uint8_t {
		return C.tink_signer_new(k, n, (*C.tink_signer)(at))
	}, freeSigner)
	return Signer{o}, err
}

func freeSigner(at unsafe.Pointer) { C.tink_signer_free((*C.tink_signer)(at)) }

// Close frees the keys. Every later call answers Closed.
func (s Signer) Close() error {
	s.held.with(freeSigner)
	return nil
}

// Sign gives a signed token of a payload, by the primary key.
func (s Signer) Sign(payload []byte) ([]byte, error) {
	p, pn := in(payload)
	return s.held.output(len(payload)/3*4+256, func(at unsafe.Pointer, o *C.uint8_t, n C.size_t, w *C.size_t) C.uint8_t {
		return C.tink_signer_sign((*C.tink_signer)(at), p, pn, o, n, w)
	})
}

// Verify gives the payload of a token, if a key accepts it.
func (s Signer) Verify(token []byte) ([]byte, error) {
	t, tn := in(token)
	return s.held.output(len(token), func(at unsafe.Pointer, o *C.uint8_t, n C.size_t, w *C.size_t) C.uint8_t {
		return C.tink_signer_verify((*C.tink_signer)(at), t, tn, o, n, w)
	})
}

// SignToken gives a signed token of a payload, by the primary key of a keyset of MACs.
func SignToken(keyset Keyset, payload []byte) ([]byte, error) {
	k, kn := in(keyset)
	p, pn := in(payload)
	return output(len(payload)/3*4+256, func(o *C.uint8_t, n C.size_t, w *C.size_t) C.uint8_t {
		return C.tink_sign_token(k, kn, p, pn, o, n, w)
	})
}

// VerifyToken gives the payload of a token, if a key accepts it.
func VerifyToken(keyset Keyset, token []byte) ([]byte, error) {
	k, kn := in(keyset)
	t, tn := in(token)
	return output(len(token), func(o *C.uint8_t, n C.size_t, w *C.size_t) C.uint8_t {
		return C.tink_verify_token(k, kn, t, tn, o, n, w)
	})
}

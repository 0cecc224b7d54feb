package tinkproved

// #include <tink.h>
import "C"

import (
	"fmt"
	"io"
	"strconv"
	"strings"
)

const keysetRoom = 4096

// Keyset is the bytes of a keyset in JSON or in Tink's binary format. Each change makes a new one.
type Keyset []byte

// Key is what is shown of a key. It has no key material.
type Key struct {
	ID        uint32
	Status    string
	Prefix    string
	Type      string
	IsPrimary bool
}

// CreateKeyset makes a keyset with one key by the template of a name, as "AES256_GCM".
func CreateKeyset(template string) (Keyset, error) {
	r, err := random(randomKey)
	if err != nil {
		return nil, err
	}
	t, tn := in([]byte(template))
	rp, rn := in(r)
	return output(keysetRoom, func(o *C.uint8_t, n C.size_t, w *C.size_t) C.uint8_t {
		return C.tink_keyset_create(t, tn, true, rp, rn, o, n, w)
	})
}

// Rotate gives the keyset with a new primary key. The other keys stay. It refuses a template of another primitive.
func (k Keyset) Rotate(template string) (Keyset, error) { return k.rotated(template, false) }

// RotateToAny gives the keyset with a new primary key, which may be of another primitive. The other keys stay.
func (k Keyset) RotateToAny(template string) (Keyset, error) { return k.rotated(template, true) }

func (k Keyset) rotated(template string, toAny bool) (Keyset, error) {
	r, err := random(randomKey)
	if err != nil {
		return nil, err
	}
	kp, kn := in(k)
	t, tn := in([]byte(template))
	rp, rn := in(r)
	return output(k.room(), func(o *C.uint8_t, n C.size_t, w *C.size_t) C.uint8_t {
		return C.tink_keyset_rotate(kp, kn, t, tn, C.bool(toAny), rp, rn, o, n, w)
	})
}

// Add gives the keyset with a new key. The primary key stays.
func (k Keyset) Add(template string) (Keyset, error) {
	r, err := random(randomKey)
	if err != nil {
		return nil, err
	}
	kp, kn := in(k)
	t, tn := in([]byte(template))
	rp, rn := in(r)
	return output(k.room(), func(o *C.uint8_t, n C.size_t, w *C.size_t) C.uint8_t {
		return C.tink_keyset_add(kp, kn, t, tn, rp, rn, o, n, w)
	})
}

// Promote gives the keyset with this key as its primary key.
func (k Keyset) Promote(id uint32) (Keyset, error) {
	kp, kn := in(k)
	return output(k.room(), func(o *C.uint8_t, n C.size_t, w *C.size_t) C.uint8_t {
		return C.tink_keyset_promote(kp, kn, C.uint32_t(id), o, n, w)
	})
}

// Enable gives the keyset with this key enabled.
func (k Keyset) Enable(id uint32) (Keyset, error) {
	kp, kn := in(k)
	return output(k.room(), func(o *C.uint8_t, n C.size_t, w *C.size_t) C.uint8_t {
		return C.tink_keyset_enable(kp, kn, C.uint32_t(id), o, n, w)
	})
}

// Disable gives the keyset with this key disabled.
func (k Keyset) Disable(id uint32) (Keyset, error) {
	kp, kn := in(k)
	return output(k.room(), func(o *C.uint8_t, n C.size_t, w *C.size_t) C.uint8_t {
		return C.tink_keyset_disable(kp, kn, C.uint32_t(id), o, n, w)
	})
}

// Destroy gives the keyset with the material of this key taken away, for good.
func (k Keyset) Destroy(id uint32) (Keyset, error) {
	kp, kn := in(k)
	return output(k.room(), func(o *C.uint8_t, n C.size_t, w *C.size_t) C.uint8_t {
		return C.tink_keyset_destroy(kp, kn, C.uint32_t(id), o, n, w)
	})
}

// Delete gives the keyset without this key.
func (k Keyset) Delete(id uint32) (Keyset, error) {
	kp, kn := in(k)
	return output(k.room(), func(o *C.uint8_t, n C.size_t, w *C.size_t) C.uint8_t {
		return C.tink_keyset_delete(kp, kn, C.uint32_t(id), o, n, w)
	})
}

// JSON gives the keyset in JSON, with its keys in clear.
func (k Keyset) JSON() ([]byte, error) { return k.converted(true) }

// Binary gives the keyset in Tink's binary format, with its keys in clear.
func (k Keyset) Binary() ([]byte, error) { return k.converted(false) }

func (k Keyset) converted(json bool) ([]byte, error) {
	kp, kn := in(k)
	return output(k.room(), func(o *C.uint8_t, n C.size_t, w *C.size_t) C.uint8_t {
		return C.tink_keyset_convert(kp, kn, C.bool(json), o, n, w)
	})
}

// Keys lists the keys, without their material.
func (k Keyset) Keys() ([]Key, error) {
	kp, kn := in(k)
	text, err := output(keysetRoom, func(o *C.uint8_t, n C.size_t, w *C.size_t) C.uint8_t {
		return C.tink_keyset_list(kp, kn, o, n, w)
	})
	if err != nil {
		return nil, err
	}
	var keys []Key
	for _, line := range strings.Split(strings.TrimSuffix(string(text), "\n"), "\n") {
		words := strings.Split(line, "\t")
		if len(words) < 4 {
			return nil, BadKeyset
		}
		id, err := strconv.ParseUint(words[0], 10, 32)
		if err != nil {
			return nil, BadKeyset
		}
		keys = append(keys, Key{uint32(id), words[1], words[2], words[3], len(words) > 4})
	}
	return keys, nil
}

// Wrap gives the keyset, encrypted by the primary key of a master keyset of AEADs.
func (k Keyset) Wrap(master Keyset, associatedData []byte) ([]byte, error) {
	r, err := random(randomEncrypt)
	if err != nil {
		return nil, err
	}
	m, mn := in(master)
	kp, kn := in(k)
	d, dn := in(associatedData)
	rp, rn := in(r)
	return output(k.room(), func(o *C.uint8_t, n C.size_t, w *C.size_t) C.uint8_t {
		return C.tink_keyset_wrap(m, mn, kp, kn, d, dn, true, rp, rn, o, n, w)
	})
}

// Unwrap gives the keyset that Wrap encrypted with the same associated data.
func Unwrap(wrapped []byte, master Keyset, associatedData []byte) (Keyset, error) {
	m, mn := in(master)
	kp, kn := in(wrapped)
	d, dn := in(associatedData)
	return output(len(wrapped)+keysetRoom, func(o *C.uint8_t, n C.size_t, w *C.size_t) C.uint8_t {
		return C.tink_keyset_unwrap(m, mn, kp, kn, d, dn, true, o, n, w)
	})
}

// KeysJSON lists the keys as an array in JSON, without their material.
func (k Keyset) KeysJSON() ([]byte, error) {
	kp, kn := in(k)
	return output(keysetRoom, func(o *C.uint8_t, n C.size_t, w *C.size_t) C.uint8_t {
		return C.tink_keyset_list_json(kp, kn, o, n, w)
	})
}

// Format shows no key, whatever the verb is.
func (k Keyset) Format(state fmt.State, verb rune) { io.WriteString(state, "Keyset") }

func (k Keyset) room() int { return 3*len(k) + keysetRoom }

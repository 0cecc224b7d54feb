// Package tinkproved has Tink's keysets, AEADs, MACs, PRFs, tokens and streams by a proved library with C names.
//
// It links with libtink: give cgo its folders, as CGO_CFLAGS=-I/usr/local/include CGO_LDFLAGS="-L/usr/local/lib -Wl,-rpath,/usr/local/lib".
package tinkproved

// #cgo LDFLAGS: -ltink
// #include <stdlib.h>
// #include <tink.h>
import "C"

import (
	"crypto/rand"
	"fmt"
	"io"
	"unsafe"
)

// Status is why a call was refused.
type Status uint8

// The statuses.
const (
	OutOfMemory        Status = 10
	BadKeyset          Status = 13
	InvalidKeyset      Status = 14
	UnsupportedKeyType Status = 15
	InvalidKey         Status = 16
	NoPrimary          Status = 17
	WrongPrimitive     Status = 18
	UnsupportedHash    Status = 19
	TooManySegments    Status = 20
	NoMatchingKey      Status = 21
	BadSegment         Status = 22
	Truncated          Status = 23
	UnknownTemplate    Status = 24
	NoFreshID          Status = 25
	BadToken           Status = 27
	MACMismatch        Status = 28
	BadJSON            Status = 30
	KeyNotFound        Status = 31
	IsPrimary          Status = 32
	WrongKeyStatus     Status = 33
	MasterFailed       Status = 34
	RandomFault        Status = 35
	TooLittleRoom      Status = 42
	Closed             Status = 43
	DecryptFailed      Status = 44
	FailedBefore       Status = 45
	TextTooLong        Status = 46
	DataTooLong        Status = 47
	NotRaw             Status = 48
	BadOutputLength    Status = 49
	Unread             Status = 50
)

var texts = map[Status]string{
	OutOfMemory:        "there is no memory",
	BadKeyset:          "it is no keyset in JSON or in the binary format",
	InvalidKeyset:      "the keyset is not valid: it has no primary key that is enabled",
	UnsupportedKeyType: "the keyset has a key of a type that is not known",
	InvalidKey:         "the keyset has a key with a value that is none of its type",
	NoPrimary:          "no enabled key is the primary key: promote one",
	WrongPrimitive:     "the keyset has a key for another use",
	UnsupportedHash:    "the primary key derives by a hash that no stream takes",
	TooManySegments:    "the stream has more than 2^32 segments",
	NoMatchingKey:      "no key opens this stream: other keys, other associated data or a damaged beginning",
	BadSegment:         "a segment of the stream was changed",
	Truncated:          "the stream was cut off",
	UnknownTemplate:    "no template has this name",
	NoFreshID:          "no unused key id was drawn: try again",
	BadToken:           "it is no token",
	MACMismatch:        "no key accepts this MAC",
	BadJSON:            "it begins as JSON and is no keyset",
	KeyNotFound:        "no key has this id",
	IsPrimary:          "it is the primary key: promote another one first",
	WrongKeyStatus:     "the key's status does not allow this",
	MasterFailed:       "the master keyset refuses it: other keys or other associated data",
	RandomFault:        "the system gave too few random bytes",
	TooLittleRoom:      "the buffer is too small",
	Closed:             "the object holds nothing: it was closed",
	DecryptFailed:      "no key decrypts it with this associated data",
	FailedBefore:       "a call before was refused: the writer or reader takes no more",
	TextTooLong:        "the plaintext is longer than the cipher takes",
	DataTooLong:        "the associated data is longer than the cipher takes",
	NotRaw:             "a pseudorandom function has a key with an output prefix",
	BadOutputLength:    "the function gives no output of this length",
	Unread:             "text of the reader waits",
}

// Error says what the status means.
func (s Status) Error() string {
	if text, known := texts[s]; known {
		return "tink: " + text
	}
	return fmt.Sprintf("tink: the call was refused: status %d", uint8(s))
}

// Is says that Truncated is an io.ErrUnexpectedEOF too.
func (s Status) Is(target error) bool {
	return s == Truncated && target == io.ErrUnexpectedEOF
}

// Enough random bytes for each call that takes some.
const (
	randomKey     = 576
	randomEncrypt = 16
	randomStream  = 39
)

func random(count int) ([]byte, error) {
	bytes := make([]byte, count)
	if _, err := rand.Read(bytes); err != nil {
		return nil, RandomFault
	}
	return bytes, nil
}

// A place for an empty input, which has an address.
var nothing [1]byte

func in(bytes []byte) (*C.uint8_t, C.size_t) {
	if len(bytes) == 0 {
		return (*C.uint8_t)(unsafe.Pointer(&nothing[0])), 0
	}
	return (*C.uint8_t)(unsafe.Pointer(&bytes[0])), C.size_t(len(bytes))
}

func done(status C.uint8_t) error {
	if status == 0 {
		return nil
	}
	return Status(status)
}

// The output of a call. If the room is too small, the call is made again with the room that it asked for.
func output(room int, call func(out *C.uint8_t, room C.size_t, written *C.size_t) C.uint8_t) ([]byte, error) {
	for {
		out := make([]byte, room)
		at, size := in(out)
		var written C.size_t
		switch status := call(at, size, &written); Status(status) {
		case 0:
			return out[:int(written)], nil
		case TooLittleRoom:
			room = int(written)
		default:
			return nil, Status(status)
		}
	}
}

package tinkproved

import (
	"bufio"
	"bytes"
	"encoding/hex"
	"encoding/json"
	"fmt"
	"io"
	"os"
	"strings"
	"sync"
	"testing"
)

func must[T any](t *testing.T) func(T, error) T {
	return func(value T, err error) T {
		t.Helper()
		if err != nil {
			t.Fatal(err)
		}
		return value
	}
}

func equal(t *testing.T, got, want []byte) {
	t.Helper()
	if !bytes.Equal(got, want) {
		t.Fatalf("got %x, want %x", got, want)
	}
}

func refused(t *testing.T, err error, status Status) {
	t.Helper()
	if err != status {
		t.Fatalf("got %v, want %v", err, status)
	}
}

func TestVectors(t *testing.T) {
	path := os.Getenv("TINK_VECTORS")
	if path == "" {
		path = "../../tests/bindings/vectors.txt"
	}
	file, err := os.Open(path)
	if err != nil {
		t.Fatal(err)
	}
	defer file.Close()
	lines := bufio.NewScanner(file)
	lines.Buffer(nil, 1<<20)
	checked := 0
	for lines.Scan() {
		if strings.HasPrefix(lines.Text(), "#") {
			continue
		}
		words := strings.Fields(lines.Text())
		var d [][]byte
		for _, word := range words[1:] {
			part, _ := hex.DecodeString(strings.TrimPrefix(word, "-"))
			d = append(d, part)
		}
		bytesOf := must[[]byte](t)
		switch words[0] {
		case "aead":
			aead := must[AEAD](t)(NewAEAD(d[0]))
			equal(t, bytesOf(aead.Decrypt(d[4], d[2])), d[1])
			_, err := aead.Decrypt(d[4][1:], d[2])
			refused(t, err, DecryptFailed)
			equal(t, bytesOf(aead.encrypt(d[1], d[2], d[3])), d[4])
		case "daead":
			daead := must[DeterministicAEAD](t)(NewDeterministicAEAD(d[0]))
			equal(t, bytesOf(daead.EncryptDeterministically(d[1], d[2])), d[3])
			equal(t, bytesOf(daead.DecryptDeterministically(d[3], d[2])), d[1])
		case "mac":
			mac := must[MAC](t)(NewMAC(d[0]))
			equal(t, bytesOf(mac.ComputeMAC(d[1])), d[2])
			if err := mac.VerifyMAC(d[2], d[1]); err != nil {
				t.Fatal(err)
			}
			refused(t, mac.VerifyMAC(d[2], []byte("another")), MACMismatch)
		case "prf":
			equal(t, bytesOf(must[PRF](t)(NewPRF(d[0])).Compute(d[1], len(d[2]))), d[2])
		case "token":
			equal(t, bytesOf(SignToken(d[0], d[2])), d[1])
			equal(t, bytesOf(VerifyToken(d[0], d[1])), d[2])
			signer := must[Signer](t)(NewSigner(d[0]))
			equal(t, bytesOf(signer.Sign(d[2])), d[1])
			equal(t, bytesOf(signer.Verify(d[1])), d[2])
		case "stream":
			equal(t, bytesOf(OpenStream(d[0], d[2], d[1])), d[3])
			part := io.NewSectionReader(must[RangeReader](t)(NewRangeReader(d[0], d[2], d[1])), 1, 1<<40)
			equal(t, bytesOf(io.ReadAll(part)), d[3][1:])
		case "seal": // the wrapper draws its random bytes itself: what was made by those of the vector is read
			equal(t, bytesOf(OpenStream(d[0], d[4], d[2])), d[1])
			moved := bytesOf(RewrapStream(d[0], d[2], d[0], []byte("new"), d[4]))
			equal(t, bytesOf(OpenStream(d[0], moved, []byte("new"))), d[1])
		case "create":
			json := Keyset(bytesOf(Keyset(d[2]).JSON()))
			equal(t, bytesOf(json.Binary()), d[2])
			made := must[Keyset](t)(CreateKeyset(string(d[0])))
			if got, want := must[[]Key](t)(json.Keys())[0].Type, must[[]Key](t)(made.Keys())[0].Type; got != want {
				t.Fatal(got, want)
			}
		default:
			t.Fatal(words[0])
		}
		checked++
	}
	if checked != 14 {
		t.Fatalf("%d vectors", checked)
	}
}

func TestRotation(t *testing.T) {
	keyset := must[Keyset](t)
	k := keyset(CreateKeyset("AES128_GCM"))
	aead := must[AEAD](t)(NewAEAD(k))
	sealed := must[[]byte](t)(aead.Encrypt([]byte("a value"), []byte("its column")))
	old := must[[]Key](t)(k.Keys())[0].ID
	k = keyset(k.Rotate("AES128_GCM"))
	aead = must[AEAD](t)(NewAEAD(k))
	equal(t, must[[]byte](t)(aead.Decrypt(sealed, []byte("its column"))), []byte("a value"))
	_, err := keyset(k.Promote(old)).Disable(old)
	refused(t, err, IsPrimary)
	k = keyset(keyset(keyset(k.Disable(old)).Destroy(old)).Delete(old))
	if len(must[[]Key](t)(k.Keys())) != 1 {
		t.Fatal("a key is left")
	}
	_, err = k.Rotate("AES256_SIV")
	refused(t, err, WrongPrimitive)
	if len(must[[]Key](t)(keyset(k.RotateToAny("AES256_SIV")).Keys())) != 2 {
		t.Fatal("no key was added")
	}
	var listed []struct{ ID uint32 }
	if err := json.Unmarshal(must[[]byte](t)(k.KeysJSON()), &listed); err != nil || listed[0].ID != must[[]Key](t)(k.Keys())[0].ID {
		t.Fatal(listed, err)
	}
	_, err = CreateKeyset("none")
	refused(t, err, UnknownTemplate)
}

func TestStream(t *testing.T) {
	keys := must[Keyset](t)(CreateKeyset("AES128_GCM_HKDF_4KB"))
	text := bytes.Repeat([]byte("0123456789abcdef"), 1000)
	stream := must[[]byte](t)(SealStream(keys, text, []byte("data")))
	equal(t, must[[]byte](t)(OpenStream(keys, stream, []byte("data"))), text)
	part := io.NewSectionReader(must[RangeReader](t)(NewRangeReader(keys, stream, []byte("data"))), 5000, 1<<40)
	equal(t, must[[]byte](t)(io.ReadAll(part)), text[5000:])
	if _, err := OpenStream(keys, stream[:4096], []byte("data")); err == nil {
		t.Fatal("a cut stream was opened")
	}
	other := must[Keyset](t)(CreateKeyset("AES256_GCM_HKDF_4KB"))
	moved := must[[]byte](t)(RewrapStream(keys, []byte("data"), other, []byte("new"), stream))
	equal(t, must[[]byte](t)(OpenStream(other, moved, []byte("new"))), text)
}

func TestEncryptingWriter(t *testing.T) {
	keys := must[Keyset](t)(CreateKeyset("AES128_GCM_HKDF_4KB"))
	text := make([]byte, 30000)
	for _, length := range []int{1000, 4096, 65536} {
		var stream bytes.Buffer
		writer := must[*EncryptingWriter](t)(NewEncryptingWriter(&stream, keys, []byte("its name")))
		for at := 0; at < len(text); at += length {
			end := at + length
			if end > len(text) {
				end = len(text)
			}
			if n := must[int](t)(writer.Write(text[at:end])); n != end-at {
				t.Fatal(n)
			}
		}
		if err := writer.Close(); err != nil {
			t.Fatal(err)
		}
		refused(t, writer.Close(), Closed)
		_, err := writer.Write(text)
		refused(t, err, Closed)
		equal(t, must[[]byte](t)(OpenStream(keys, stream.Bytes(), []byte("its name"))), text)
	}
	var cut bytes.Buffer
	writer := must[*EncryptingWriter](t)(NewEncryptingWriter(&cut, keys, nil))
	must[int](t)(writer.Write(text))
	if _, err := OpenStream(keys, cut.Bytes(), nil); err == nil {
		t.Fatal("a stream without an end opens")
	}
	_, err := NewEncryptingWriter(&cut, Keyset("no keyset"), nil)
	refused(t, err, BadKeyset)
}

// No way to show a value shows the key, not even from within another struct.
func TestNothingShowsAKey(t *testing.T) {
	k := Keyset("the key")
	other := must[Keyset](t)(CreateKeyset("AES128_GCM_HKDF_4KB"))
	reader := must[RangeReader](t)(NewRangeReader(other, []byte("the key"), []byte("the key")))
	stream := must[*StreamReader](t)(NewStreamReader(bytes.NewReader(nil), other, []byte("the key")))
	aead := must[AEAD](t)(NewAEAD(must[Keyset](t)(CreateKeyset("AES128_GCM"))))
	values := []any{aead, reader, stream}
	if strings.Contains(fmt.Sprintf("%v %+v %#v", values, values, aead), "AesGcm") {
		t.Error("a value shows its keyset")
	}
	for _, value := range append(values, struct{ inner any }{values}, k, &k) {
		for _, verb := range []string{"%v", "%+v", "%#v", "%s", "%q", "%x", "%d"} {
			shown := strings.ToLower(fmt.Sprintf(verb, value))
			for _, key := range []string{"the key", "746865", "116 104 101", "0x74, 0x68"} {
				if strings.Contains(shown, key) {
					t.Errorf("%s of %T shows %s", verb, value, shown)
				}
			}
		}
	}
}

func TestNumbers(t *testing.T) {
	prf := must[PRF](t)(NewPRF(must[Keyset](t)(CreateKeyset("HKDF_SHA256"))))
	for _, length := range []int{-1, 1 << 20, 1 << 50} {
		_, err := prf.Compute([]byte("input"), length)
		refused(t, err, BadOutputLength)
	}
	keys := must[Keyset](t)(CreateKeyset("AES128_GCM_HKDF_4KB"))
	stream := must[[]byte](t)(SealStream(keys, []byte("0123456789"), nil))
	reader := must[RangeReader](t)(NewRangeReader(keys, stream, nil))
	two := make([]byte, 2)
	if n, err := reader.ReadAt(two, -1); n != 0 || err == nil || err == io.EOF {
		t.Fatal(n, err)
	}
	if n, err := reader.ReadAt(two, 1<<63-1); n != 0 || err != io.EOF {
		t.Fatal(n, err)
	}
	equal(t, must[[]byte](t)(ReadRange(keys, stream, nil, 1<<64-1, 1<<64-1)), nil)
}

func TestWrapping(t *testing.T) {
	master, keyset := must[Keyset](t)(CreateKeyset("AES256_GCM")), must[Keyset](t)(CreateKeyset("AES256_SIV"))
	wrapped := must[[]byte](t)(keyset.Wrap(master, []byte("machine-1")))
	equal(t, must[Keyset](t)(Unwrap(wrapped, master, []byte("machine-1"))), keyset)
	_, err := Unwrap(wrapped, master, []byte("machine-2"))
	refused(t, err, MasterFailed)
}

// After Close each call answers Closed, and Close may come again.
func TestClose(t *testing.T) {
	keyset := must[Keyset](t)
	aead := must[AEAD](t)(NewAEAD(keyset(CreateKeyset("AES128_GCM"))))
	daead := must[DeterministicAEAD](t)(NewDeterministicAEAD(keyset(CreateKeyset("AES256_SIV"))))
	macs := keyset(CreateKeyset("HMAC_SHA256_128BITTAG"))
	mac, signer := must[MAC](t)(NewMAC(macs)), must[Signer](t)(NewSigner(macs))
	prf := must[PRF](t)(NewPRF(keyset(CreateKeyset("HKDF_SHA256"))))
	for _, it := range []io.Closer{aead, daead, mac, signer, prf, aead} {
		if err := it.Close(); err != nil {
			t.Fatal(err)
		}
	}
	for _, call := range []func() ([]byte, error){
		func() ([]byte, error) { return aead.Encrypt(nil, nil) },
		func() ([]byte, error) { return aead.Decrypt(nil, nil) },
		func() ([]byte, error) { return daead.EncryptDeterministically(nil, nil) },
		func() ([]byte, error) { return daead.DecryptDeterministically(nil, nil) },
		func() ([]byte, error) { return mac.ComputeMAC(nil) },
		func() ([]byte, error) { return nil, mac.VerifyMAC(nil, nil) },
		func() ([]byte, error) { return signer.Sign(nil) },
		func() ([]byte, error) { return signer.Verify(nil) },
		func() ([]byte, error) { return prf.Compute(nil, 16) },
	} {
		_, err := call()
		refused(t, err, Closed)
	}
	_, err := NewAEAD(macs)
	refused(t, err, WrongPrimitive)
}

func TestGoroutines(t *testing.T) {
	keys := must[Keyset](t)(CreateKeyset("AES256_GCM"))
	aead := must[AEAD](t)(NewAEAD(keys))
	var group sync.WaitGroup
	for i := 0; i < 4; i++ {
		group.Add(1)
		go func() {
			defer group.Done()
			for j := 0; j < 20; j++ {
				sealed, err := aead.Encrypt([]byte("a value"), nil)
				if err != nil {
					t.Error(err)
					return
				}
				if text, err := aead.Decrypt(sealed, nil); err != nil || string(text) != "a value" {
					t.Error(err)
				}
			}
		}()
	}
	group.Wait()
}

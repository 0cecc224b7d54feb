package tinkproved

import (
	"bufio"
	"bytes"
	"encoding/hex"
	"errors"
	"io"
	"os"
	"strings"
	"sync"
	"testing"
	"testing/iotest"
)

// A source of which each read gives so many bytes at most.
type source struct {
	rest []byte
	most int
}

func (s *source) Read(buffer []byte) (int, error) {
	if len(s.rest) == 0 {
		return 0, io.EOF
	}
	if len(buffer) > s.most {
		buffer = buffer[:s.most]
	}
	n := copy(buffer, s.rest)
	s.rest = s.rest[n:]
	return n, nil
}

// What a reader gives in reads of a size, and the error that ends it or nil.
func drained(t *testing.T, from io.Reader, keys Keyset, data []byte, size int) ([]byte, error) {
	t.Helper()
	reader := must[*StreamReader](t)(NewStreamReader(from, keys, data))
	defer reader.Close()
	var text []byte
	part := make([]byte, size)
	for {
		n, err := reader.Read(part)
		text = append(text, part[:n]...)
		if err == nil {
			continue
		}
		again, want := err, error(FailedBefore)
		for i := 0; i < 2; i++ {
			n, again = reader.Read(part)
			if err == io.EOF {
				want = io.EOF
			}
			if n != 0 || again != want {
				t.Fatal("a read after", err, "gives", n, again)
			}
		}
		if err == io.EOF {
			return text, nil
		}
		return text, err
	}
}

// A reader gives at most the start of the text, and then the error of an opening.
func refuses(t *testing.T, keys Keyset, stream, data, text []byte) error {
	t.Helper()
	got, err := drained(t, bytes.NewReader(stream), keys, data, 4096)
	_, want := OpenStream(keys, stream, data)
	if err == nil || err != want || !bytes.HasPrefix(text, got) {
		t.Fatalf("got %v after %d bytes, want %v", err, len(got), want)
	}
	return err
}

func TestReaderVectors(t *testing.T) {
	path := os.Getenv("TINK_VECTORS")
	if path == "" {
		path = "../../tests/bindings/vectors.txt"
	}
	foreign := must[Keyset](t)(CreateKeyset("AES128_CTR_HMAC_SHA256_4KB"))
	checked := 0
	for _, line := range strings.Split(string(must[[]byte](t)(os.ReadFile(path))), "\n") {
		words := strings.Fields(line)
		if len(words) == 0 || words[0] != "stream" && words[0] != "seal" {
			continue
		}
		var d [][]byte
		for _, word := range words[1:] {
			part, _ := hex.DecodeString(strings.TrimPrefix(word, "-"))
			d = append(d, part)
		}
		keys, data, stream, text := Keyset(d[0]), d[1], d[2], d[3]
		if words[0] == "seal" {
			data, stream, text = d[2], d[4], d[1]
		}
		for _, most := range []int{1, 3, 7, 1 << 16} {
			for _, size := range []int{1, 5, 1 << 16} {
				equal(t, must[[]byte](t)(drained(t, &source{stream, most}, keys, data, size)), text)
			}
		}
		for at := range stream {
			refuses(t, keys, stream[:at], data, text)
			changed := append([]byte(nil), stream...)
			changed[at] ^= 1
			refuses(t, keys, changed, data, text)
		}
		for _, more := range [][]byte{{0}, make([]byte, 16), make([]byte, 17), stream} {
			refuses(t, keys, append(append([]byte(nil), stream...), more...), data, text)
		}
		refused(t, refuses(t, keys, stream, []byte("another"), nil), NoMatchingKey)
		refused(t, refuses(t, foreign, stream, data, nil), NoMatchingKey)
		checked++
	}
	if checked != 6 {
		t.Fatalf("%d vectors", checked)
	}
}

func aText(length int) []byte {
	text := make([]byte, length)
	for i := range text {
		text[i] = byte(i * i / 7)
	}
	return text
}

func TestStreamReader(t *testing.T) {
	small := must[Keyset](t)(CreateKeyset("AES128_GCM_HKDF_4KB"))
	both := must[Keyset](t)(small.Rotate("AES256_GCM_HKDF_1MB"))
	counting := must[Keyset](t)(CreateKeyset("AES256_CTR_HMAC_SHA256_4KB"))
	for _, keys := range []Keyset{both, small, counting} {
		for _, length := range []int{0, 1, 4000, 4056, 9000, 100000} {
			text := aText(length)
			var stream bytes.Buffer
			writer := must[*EncryptingWriter](t)(NewEncryptingWriter(&stream, keys, []byte("its name")))
			must[int](t)(writer.Write(text))
			must[int](t)(0, writer.Close())
			for _, sizes := range [][2]int{{1000, 1 << 20}, {4096, 999}, {1 << 16, 4096}} {
				equal(t, must[[]byte](t)(drained(t, &source{stream.Bytes(), sizes[0]}, keys, []byte("its name"), sizes[1])), text)
			}
			for _, cut := range []int{4096, 4097, 8192, 12288, stream.Len() - 1} {
				if cut < stream.Len() {
					refuses(t, keys, stream.Bytes()[:cut], []byte("its name"), text)
				}
			}
		}
		refused(t, refuses(t, keys, nil, nil, nil), NoMatchingKey)
	}
	stream := must[[]byte](t)(SealStream(small, aText(100000), nil))
	err := refuses(t, small, stream[:2*4096+5], nil, aText(100000))
	refused(t, err, Truncated)
	if !errors.Is(err, io.ErrUnexpectedEOF) || errors.Is(BadSegment, io.ErrUnexpectedEOF) || !errors.Is(err, Truncated) {
		t.Fatal("which errors are unexpected ends")
	}
}

func TestEveryWayToRead(t *testing.T) {
	keys := must[Keyset](t)(CreateKeyset("AES128_GCM_HKDF_4KB"))
	text := bytes.Repeat([]byte("a line of the file\n"), 2000)
	stream := must[[]byte](t)(SealStream(keys, text, nil))
	open := func(stream []byte) *StreamReader {
		return must[*StreamReader](t)(NewStreamReader(bytes.NewReader(stream), keys, nil))
	}
	if err := iotest.TestReader(open(stream), text); err != nil {
		t.Fatal(err)
	}
	lines, count := bufio.NewScanner(open(stream)), 0
	for lines.Scan() {
		count++
	}
	if lines.Err() != nil || count != 2000 {
		t.Fatal(count, lines.Err())
	}
	cut := stream[:len(stream)-1]
	lines = bufio.NewScanner(open(cut))
	for lines.Scan() {
	}
	refused(t, lines.Err(), BadSegment)
	_, err := io.ReadAll(open(cut))
	refused(t, err, BadSegment)
	_, err = io.Copy(io.Discard, open(cut))
	refused(t, err, BadSegment)
	for _, from := range []io.Reader{
		iotest.OneByteReader(bytes.NewReader(stream)), iotest.HalfReader(bytes.NewReader(stream)),
		iotest.DataErrReader(bytes.NewReader(stream)),
	} {
		equal(t, must[[]byte](t)(drained(t, from, keys, nil, 5000)), text)
	}
	// a reader that is closed, in the middle of its stream too
	reader := open(stream)
	if n, err := reader.Read(nil); n != 0 || err != nil {
		t.Fatal(n, err)
	}
	must[int](t)(reader.Read(make([]byte, 10)))
	for i := 0; i < 2; i++ {
		must[int](t)(0, reader.Close())
		_, err = reader.Read(make([]byte, 10))
		refused(t, err, Closed)
	}
	for keyset, want := range map[string]Status{"no keyset": BadKeyset, string(must[Keyset](t)(CreateKeyset("AES128_GCM"))): WrongPrimitive} {
		_, err = NewStreamReader(nil, Keyset(keyset), nil)
		refused(t, err, want)
		_, err = NewRangeReader(Keyset(keyset), nil, nil)
		refused(t, err, want)
	}
}

// Each other read of it fails, and gives bytes if it is to.
type failing struct {
	source
	gives bool
	reads int
}

var errFault = errors.New("a fault")

func (f *failing) Read(buffer []byte) (int, error) {
	f.reads++
	if f.reads%2 == 1 {
		return f.source.Read(buffer)
	}
	if !f.gives || len(f.rest) == 0 {
		return 0, errFault
	}
	n, _ := f.source.Read(buffer)
	return n, errFault
}

type givesNothing struct{}

func (givesNothing) Read([]byte) (int, error) { return 0, nil }

// An error of the source goes through, and is no end. The reader goes on afterwards.
func TestSourcesThatFail(t *testing.T) {
	keys := must[Keyset](t)(CreateKeyset("AES128_GCM_HKDF_4KB"))
	text := aText(20000)
	stream := must[[]byte](t)(SealStream(keys, text, nil))
	for _, gives := range []bool{false, true} {
		reader := must[*StreamReader](t)(NewStreamReader(&failing{source: source{stream, 1000}, gives: gives}, keys, nil))
		var got []byte
		faults := 0
		for {
			part, err := io.ReadAll(reader)
			got = append(got, part...)
			if err == nil {
				break
			}
			if faults++; err != errFault {
				t.Fatal(err)
			}
		}
		equal(t, got, text)
		if faults < 8 {
			t.Fatal(faults)
		}
	}
	_, err := must[*StreamReader](t)(NewStreamReader(givesNothing{}, keys, nil)).Read(make([]byte, 10))
	if err != io.ErrNoProgress {
		t.Fatal(err)
	}
	from := io.MultiReader(bytes.NewReader(stream[:5000]), iotest.ErrReader(io.ErrUnexpectedEOF))
	_, err = io.ReadAll(must[*StreamReader](t)(NewStreamReader(from, keys, nil)))
	if err != io.ErrUnexpectedEOF {
		t.Fatal(err)
	}
}

func TestRanges(t *testing.T) {
	keys := must[Keyset](t)(CreateKeyset("AES128_GCM_HKDF_4KB"))
	text := aText(20000)
	stream := must[[]byte](t)(SealStream(keys, text, []byte("its name")))
	reader := must[RangeReader](t)(NewRangeReader(keys, stream, []byte("its name")))
	for _, of := range [][2]int{{0, 0}, {0, 1}, {5000, 100}, {4000, 9000}, {19990, 100}, {20000, 1}, {30000, 5}} {
		start, end := of[0], of[0]+of[1]
		if start > 20000 {
			start = 20000
		}
		if end > 20000 {
			end = 20000
		}
		part := make([]byte, of[1])
		n, err := reader.ReadAt(part, int64(of[0]))
		if n != end-start || (err == io.EOF) != (n < of[1]) || err != nil && err != io.EOF {
			t.Fatal(of, n, err)
		}
		equal(t, part[:n], text[start:end])
	}
	changed := append([]byte(nil), stream...)
	changed[9000] ^= 1
	ofChanged := must[RangeReader](t)(NewRangeReader(keys, changed, []byte("its name")))
	part := bytes.Repeat([]byte{7}, 100)
	_, err := ofChanged.ReadAt(part, 9000)
	refused(t, err, BadSegment)
	equal(t, part, bytes.Repeat([]byte{7}, 100))
	must[int](t)(ofChanged.ReadAt(part, 0))
	_, err = must[RangeReader](t)(NewRangeReader(keys, stream, nil)).ReadAt(part, 0)
	refused(t, err, NoMatchingKey)
	for i := 0; i < 2; i++ {
		must[int](t)(0, reader.Close())
		_, err = reader.ReadAt(part, 0)
		refused(t, err, Closed)
	}
	_, err = RangeReader{}.ReadAt(part, 0)
	refused(t, err, Closed)
}

func TestReadersOfGoroutines(t *testing.T) {
	keys := must[Keyset](t)(CreateKeyset("AES128_GCM_HKDF_4KB"))
	text := aText(100000)
	stream := must[[]byte](t)(SealStream(keys, text, nil))
	ranges := must[RangeReader](t)(NewRangeReader(keys, stream, nil))
	shared := must[*StreamReader](t)(NewStreamReader(&source{stream, 3000}, keys, nil))
	var group sync.WaitGroup
	var lock sync.Mutex
	total := 0
	for i := 0; i < 4; i++ {
		group.Add(1)
		go func(i int) {
			defer group.Done()
			own, err := NewStreamReader(&source{stream, 5000}, keys, nil)
			if err != nil {
				t.Error(err)
				return
			}
			if got, err := io.ReadAll(own); err != nil || !bytes.Equal(got, text) {
				t.Error(len(got), err)
			}
			part := make([]byte, 100)
			if _, err := ranges.ReadAt(part, int64(i*9000)); err != nil || !bytes.Equal(part, text[i*9000:i*9000+100]) {
				t.Error(err)
			}
			got, err := io.ReadAll(shared)
			if err != nil {
				t.Error(err)
			}
			lock.Lock()
			total += len(got)
			lock.Unlock()
		}(i)
	}
	group.Wait()
	if total != len(text) {
		t.Fatal(total)
	}
}

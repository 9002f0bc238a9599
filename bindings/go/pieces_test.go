package slhdsa_test

import (
	"bytes"
	"crypto"
	"errors"
	"io"
	"strings"
	"testing"
	"testing/iotest"

	"vireoamalgam.example/slhdsa"
)

// long is a message of more than one piece of a reader.
func long() []byte { return bytes.Repeat([]byte("0123456789abcde"), 10_000) }

// onlyReads has no other call than those of io.ReadSeeker, so nothing is handed over as a whole.
type onlyReads struct{ io.ReadSeeker }

func TestReadersOfEachKind(t *testing.T) {
	key, message := counted(t, slhdsa.SHA2_128f), long()
	want := signed(t, key, message)
	got, err := key.SignReader(nil, onlyReads{bytes.NewReader(message)}, nil)
	if err != nil || !bytes.Equal(got, want) {
		t.Errorf("another signature, %v", err)
	}
	readers := map[string]func(io.Reader) io.Reader{
		"as it is":              func(r io.Reader) io.Reader { return r },
		"half of each":          iotest.HalfReader,
		"an end with the bytes": iotest.DataErrReader,
		"a byte at a time":      iotest.OneByteReader,
	}
	for name, reader := range readers {
		if err := key.PublicKey().VerifyReader(reader(bytes.NewReader(message)), want, nil); err != nil {
			t.Errorf("%s: %v", name, err)
		}
		other := reader(bytes.NewReader(bent(message, len(message)-1)))
		if err := key.PublicKey().VerifyReader(other, want, nil); !errors.Is(err, slhdsa.ErrInvalid) {
			t.Errorf("%s, with a bit changed: %v", name, err)
		}
	}
}

func TestEachCut(t *testing.T) {
	key, message := counted(t, slhdsa.SHA2_128f), long()[:200]
	for _, opts := range []*slhdsa.Options{{}, {Context: "c"}, {Hash: crypto.SHA256}, {Hash: crypto.SHA512}} {
		signature, err := key.SignReader(nil, bytes.NewReader(message), opts)
		if err != nil {
			t.Fatal(err)
		}
		for cut := 0; cut <= len(message); cut += 7 {
			verifier, err := key.PublicKey().NewVerifier(signature, opts)
			if err != nil {
				t.Fatal(err)
			}
			for _, piece := range [][]byte{message[:cut], nil, message[cut:]} {
				if n, err := verifier.Write(piece); err != nil || n != len(piece) {
					t.Fatalf("%d bytes of %d, %v", n, len(piece), err)
				}
			}
			if err := verifier.Verify(); err != nil {
				t.Errorf("%v, cut at %d: %v", opts, cut, err)
			}
		}
	}
}

func TestAVerifierIsUsedOnce(t *testing.T) {
	key := counted(t, slhdsa.SHA2_128f)
	verifier, err := key.PublicKey().NewVerifier(signed(t, key, nil), nil)
	if err != nil {
		t.Fatal(err)
	}
	if err := verifier.Verify(); err != nil {
		t.Fatal(err)
	}
	if err := verifier.Verify(); !errors.Is(err, slhdsa.ErrState) {
		t.Errorf("twice: %v", err)
	}
	if n, err := verifier.Write([]byte("m")); n != 0 || !errors.Is(err, slhdsa.ErrState) {
		t.Errorf("%d bytes after the end: %v", n, err)
	}
}

func TestTheSignatureOfAVerifierIsItsOwn(t *testing.T) {
	key := counted(t, slhdsa.SHA2_128f)
	signature := signed(t, key, nil)
	verifier, err := key.PublicKey().NewVerifier(signature, nil)
	if err != nil {
		t.Fatal(err)
	}
	signature[len(signature)-1] ^= 1
	if err := verifier.Verify(); err != nil {
		t.Error(err)
	}
}

func TestRefusalsInPieces(t *testing.T) {
	key := counted(t, slhdsa.SHA2_128f)
	signature, tooLong := signed(t, key, nil), &slhdsa.Options{Context: strings.Repeat("c", 256)}
	tests := []struct {
		name      string
		signature []byte
		opts      crypto.SignerOpts
		want      slhdsa.Error
	}{
		{"a long context", signature, tooLong, slhdsa.ErrContextTooLong},
		{"no signature", nil, nil, slhdsa.ErrLength},
		{"SHA-384", signature, crypto.SHA384, slhdsa.ErrUnknownMode},
	}
	for _, test := range tests {
		message := bytes.NewReader([]byte("m"))
		if err := key.PublicKey().VerifyReader(message, test.signature, test.opts); !errors.Is(err, test.want) {
			t.Errorf("%s: %v", test.name, err)
		}
		if message.Len() != 1 {
			t.Errorf("%s: the message was read", test.name)
		}
	}
	for _, test := range tests {
		if test.signature == nil {
			continue
		}
		if _, err := key.SignReader(nil, strings.NewReader("m"), test.opts); !errors.Is(err, test.want) {
			t.Errorf("sign by %s: %v", test.name, err)
		}
	}
}

// failing is a reader that seeks and fails where it is told to.
type failing struct {
	io.ReadSeeker
	reads, seeks int
	err          error
}

func (f *failing) Read(piece []byte) (int, error) {
	if f.reads--; f.reads < 0 {
		return 0, f.err
	}
	return f.ReadSeeker.Read(piece)
}

func (f *failing) Seek(offset int64, whence int) (int64, error) {
	if f.seeks--; f.seeks < 0 {
		return 0, f.err
	}
	return f.ReadSeeker.Seek(offset, whence)
}

func TestErrorsOfReadersArePassedOn(t *testing.T) {
	key, err := counted(t, slhdsa.SHA2_128f), errors.New("the disk is gone")
	for reads := 0; reads < 4; reads++ { // a piece and the end, twice
		for _, opts := range []crypto.SignerOpts{nil, crypto.SHA512} {
			message := &failing{strings.NewReader("m"), reads, 9, err}
			if _, got := key.SignReader(nil, message, opts); (opts == nil || reads < 2) && got != err {
				t.Errorf("%d reads: %v", reads, got)
			}
		}
	}
	for seeks := 0; seeks < 2; seeks++ {
		if _, got := key.SignReader(nil, &failing{strings.NewReader("m"), 9, seeks, err}, nil); got != err {
			t.Errorf("%d seeks: %v", seeks, got)
		}
	}
	if got := key.PublicKey().VerifyReader(iotest.ErrReader(err), signed(t, key, nil), nil); got != err {
		t.Errorf("verify: %v", got)
	}
}

// changing is a message that is another one when it is read again.
type changing struct{ *strings.Reader }

func (c *changing) Seek(offset int64, whence int) (int64, error) {
	if whence == io.SeekStart {
		c.Reader = strings.NewReader("another one")
	}
	return c.Reader.Seek(offset, whence)
}

func TestAMessageThatChangesIsntSigned(t *testing.T) {
	key := counted(t, slhdsa.SHA2_128f)
	_, err := key.SignReader(nil, &changing{strings.NewReader("a message")}, nil)
	if !errors.Is(err, slhdsa.ErrChanged) {
		t.Error(err)
	}
}

func TestAReaderIsSignedFromItsPlaceOn(t *testing.T) {
	key, message := counted(t, slhdsa.SHA2_128f), strings.NewReader("head and body")
	if _, err := message.Seek(9, io.SeekStart); err != nil {
		t.Fatal(err)
	}
	signature, err := key.SignReader(nil, message, nil)
	if err != nil || !bytes.Equal(signature, signed(t, key, []byte("body"))) {
		t.Errorf("another signature, %v", err)
	}
	if message.Len() != 0 {
		t.Errorf("%d bytes are left", message.Len())
	}
}

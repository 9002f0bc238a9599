package slhdsa_test

import (
	"bytes"
	"crypto"
	"crypto/rand"
	"crypto/sha512"
	"errors"
	"strings"
	"sync"
	"testing"

	"vireoamalgam.example/slhdsa"
)

func TestAnotherMessageKeyContextOrModeIsInvalid(t *testing.T) {
	for _, set := range fast {
		set := set
		t.Run(set.String(), func(t *testing.T) {
			t.Parallel()
			key := counted(t, set)
			other, err := slhdsa.GenerateKey(set, nil)
			if err != nil {
				t.Fatal(err)
			}
			digest := sha512.Sum512([]byte("message"))
			opts := &slhdsa.Options{Hash: crypto.SHA512, Context: "context"}
			signature, err := key.Sign(rand.Reader, digest[:], opts)
			if err != nil {
				t.Fatal(err)
			}
			public := key.PublicKey()
			if err := public.Verify(digest[:], signature, opts); err != nil {
				t.Fatal(err)
			}
			n := set.PublicKeySize() / 2
			tests := []struct {
				name      string
				key       *slhdsa.PublicKey
				digest    []byte
				signature []byte
				opts      crypto.SignerOpts
			}{
				{"digest", public, bent(digest[:], 63), signature, opts},
				{"randomizer", public, digest[:], bent(signature, 0), opts},
				{"forest", public, digest[:], bent(signature, n), opts},
				{"last byte", public, digest[:], bent(signature, len(signature)-1), opts},
				{"key", other.PublicKey(), digest[:], signature, opts},
				{"context", public, digest[:], signature, &slhdsa.Options{Hash: crypto.SHA512, Context: "other"}},
				{"no context", public, digest[:], signature, crypto.SHA512},
				{"as it is", public, digest[:], signature, &slhdsa.Options{Context: "context"}},
				{"as SHA-256", public, digest[:32], signature, &slhdsa.Options{Hash: crypto.SHA256, Context: "context"}},
			}
			for _, test := range tests {
				err := test.key.Verify(test.digest, test.signature, test.opts)
				if !errors.Is(err, slhdsa.ErrInvalid) {
					t.Errorf("%s: %v", test.name, err)
				}
			}
		})
	}
}

func TestRefusals(t *testing.T) {
	key := counted(t, slhdsa.SHA2_128f)
	public, signature := key.PublicKey(), signed(t, key, nil)
	long := strings.Repeat("c", 256)
	tests := []struct {
		name   string
		object []byte
		opts   crypto.SignerOpts
		want   slhdsa.Error
	}{
		{"a long context", nil, &slhdsa.Options{Context: long}, slhdsa.ErrContextTooLong},
		{"a long context of a digest", make([]byte, 32), &slhdsa.Options{crypto.SHA256, long}, slhdsa.ErrContextTooLong},
		{"a digest of 31 bytes", make([]byte, 31), crypto.SHA256, slhdsa.ErrLength},
		{"a digest of 33 bytes", make([]byte, 33), crypto.SHA256, slhdsa.ErrLength},
		{"no digest", nil, crypto.SHA256, slhdsa.ErrLength},
		{"a short digest", make([]byte, 32), crypto.SHA512, slhdsa.ErrLength},
		{"SHA-384", make([]byte, 48), crypto.SHA384, slhdsa.ErrUnknownMode},
		{"SHA-512/256", make([]byte, 32), crypto.SHA512_256, slhdsa.ErrUnknownMode},
		{"MD5", make([]byte, 16), &slhdsa.Options{Hash: crypto.MD5}, slhdsa.ErrUnknownMode},
		{"no hash function", nil, crypto.Hash(1 << 20), slhdsa.ErrUnknownMode},
	}
	for _, test := range tests {
		if _, err := key.Sign(nil, test.object, test.opts); !errors.Is(err, test.want) {
			t.Errorf("sign %s: %v", test.name, err)
		}
		if _, err := key.Sign(rand.Reader, test.object, test.opts); !errors.Is(err, test.want) {
			t.Errorf("sign %s at random: %v", test.name, err)
		}
		if err := public.Verify(test.object, signature, test.opts); !errors.Is(err, test.want) {
			t.Errorf("verify %s: %v", test.name, err)
		}
	}
	for _, size := range []int{0, 1, len(signature) - 1} {
		if err := public.Verify(nil, signature[:size], nil); !errors.Is(err, slhdsa.ErrLength) {
			t.Errorf("a signature of %d bytes: %v", size, err)
		}
	}
	if err := public.Verify(nil, append(signature, 0), nil); !errors.Is(err, slhdsa.ErrLength) {
		t.Errorf("a signature with a byte more: %v", err)
	}
}

func TestContextsOfAllLengths(t *testing.T) {
	key := counted(t, slhdsa.SHA2_128f)
	for _, size := range []int{0, 1, 254, 255} {
		opts := &slhdsa.Options{Context: strings.Repeat("\x00", size)}
		signature, err := key.Sign(nil, []byte("m"), opts)
		if err != nil {
			t.Fatal(err)
		}
		if err := key.PublicKey().Verify([]byte("m"), signature, opts); err != nil {
			t.Errorf("%d: %v", size, err)
		}
	}
}

func TestNoOptionsAreTheZeroOptions(t *testing.T) {
	key := counted(t, slhdsa.SHA2_128f)
	want := signed(t, key, []byte("m"))
	for _, opts := range []crypto.SignerOpts{crypto.Hash(0), &slhdsa.Options{}, (*slhdsa.Options)(nil)} {
		signature, err := key.Sign(nil, []byte("m"), opts)
		if err != nil || !bytes.Equal(signature, want) {
			t.Errorf("%#v: another signature, %v", opts, err)
		}
	}
}

func TestRandomSignaturesDiffer(t *testing.T) {
	key := counted(t, slhdsa.SHA2_128f)
	first, err := key.Sign(rand.Reader, []byte("m"), nil)
	if err != nil {
		t.Fatal(err)
	}
	second, err := key.Sign(rand.Reader, []byte("m"), nil)
	if err != nil {
		t.Fatal(err)
	}
	if bytes.Equal(first, second) || bytes.Equal(first, signed(t, key, []byte("m"))) {
		t.Error("the same signature twice")
	}
}

func TestGoroutines(t *testing.T) {
	key := counted(t, slhdsa.SHA2_128f)
	want := signed(t, key, []byte("m"))
	var group sync.WaitGroup
	for i := 0; i < 32; i++ {
		group.Add(1)
		go func() {
			defer group.Done()
			signature, err := key.SignReader(nil, strings.NewReader("m"), nil)
			if err != nil || !bytes.Equal(signature, want) {
				t.Errorf("another signature, %v", err)
			}
			if err := key.PublicKey().Verify([]byte("m"), signature, nil); err != nil {
				t.Error(err)
			}
		}()
	}
	group.Wait()
}

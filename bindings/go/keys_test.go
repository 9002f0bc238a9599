package slhdsa_test

import (
	"bytes"
	"crypto"
	"encoding/asn1"
	"encoding/pem"
	"errors"
	"os"
	"strings"
	"testing"
	"testing/iotest"

	"vireoamalgam.example/slhdsa"
)

func TestSets(t *testing.T) {
	tests := []struct {
		set       slhdsa.Set
		name      string
		n         int
		signature int
		oid       string
	}{
		{slhdsa.SHA2_128s, "SLH-DSA-SHA2-128s", 16, 7856, "2.16.840.1.101.3.4.3.20"},
		{slhdsa.SHA2_128f, "SLH-DSA-SHA2-128f", 16, 17088, "2.16.840.1.101.3.4.3.21"},
		{slhdsa.SHA2_192s, "SLH-DSA-SHA2-192s", 24, 16224, "2.16.840.1.101.3.4.3.22"},
		{slhdsa.SHA2_192f, "SLH-DSA-SHA2-192f", 24, 35664, "2.16.840.1.101.3.4.3.23"},
		{slhdsa.SHA2_256s, "SLH-DSA-SHA2-256s", 32, 29792, "2.16.840.1.101.3.4.3.24"},
		{slhdsa.SHA2_256f, "SLH-DSA-SHA2-256f", 32, 49856, "2.16.840.1.101.3.4.3.25"},
	}
	if len(tests) != len(slhdsa.Sets()) {
		t.Errorf("%d sets", len(slhdsa.Sets()))
	}
	for i, test := range tests {
		set := test.set
		if slhdsa.Sets()[i] != set || set.String() != test.name || set.OID().String() != test.oid {
			t.Errorf("%s: %s, %s", test.name, set, set.OID())
		}
		if set.PrivateKeySize() != 4*test.n || set.PublicKeySize() != 2*test.n ||
			set.SignatureSize() != test.signature {
			t.Errorf("%s: other sizes", set)
		}
		if parsed, err := slhdsa.ParseSet(test.name); err != nil || parsed != set {
			t.Errorf("%s: %v, %v", test.name, parsed, err)
		}
	}
}

func TestUnknownSets(t *testing.T) {
	for _, set := range []slhdsa.Set{0, 7, 1<<32 - 1} {
		if set.PrivateKeySize() != 0 || set.PublicKeySize() != 0 || set.SignatureSize() != 0 ||
			set.OID() != nil || !strings.HasPrefix(set.String(), "Set(") {
			t.Errorf("%s has sizes", set)
		}
		_, generated := slhdsa.GenerateKey(set, nil)
		_, private := slhdsa.NewPrivateKey(set, make([]byte, 64))
		_, public := slhdsa.NewPublicKey(set, nil)
		for _, err := range []error{generated, private, public} {
			if !errors.Is(err, slhdsa.ErrUnknownSet) {
				t.Errorf("%s: %v", set, err)
			}
		}
	}
	for _, name := range []string{"", "SLH-DSA-SHA2-128", "SLH-DSA-SHA2-128s ", "Set(7)", "slh-dsa-sha2-128s"} {
		if _, err := slhdsa.ParseSet(name); !errors.Is(err, slhdsa.ErrUnknownSet) {
			t.Errorf("%q: %v", name, err)
		}
	}
}

func TestKeysThatNoCallMadeRefuse(t *testing.T) {
	private, public := new(slhdsa.PrivateKey), new(slhdsa.PublicKey)
	_, signed := private.Sign(nil, nil, nil)
	_, read := private.SignReader(nil, bytes.NewReader(nil), nil)
	_, written := slhdsa.MarshalPKCS8PrivateKey(private)
	_, pkix := slhdsa.MarshalPKIXPublicKey(public)
	_, opened := slhdsa.OpenCheckpoint(public, "o", []byte("o\n0\n\n\n"))
	for i, err := range []error{
		signed, read, written, pkix, opened,
		private.Check(), public.Verify(nil, nil, nil), public.VerifyReader(bytes.NewReader(nil), nil, nil),
	} {
		if !errors.Is(err, slhdsa.ErrUnknownSet) {
			t.Errorf("%d: %v", i, err)
		}
	}
	if err := new(slhdsa.Verifier).Verify(); !errors.Is(err, slhdsa.ErrState) {
		t.Error(err)
	}
}

func TestEqual(t *testing.T) {
	key := counted(t, slhdsa.SHA2_128f)
	same, err := slhdsa.NewPrivateKey(key.Set(), key.Bytes())
	if err != nil {
		t.Fatal(err)
	}
	other, err := slhdsa.GenerateKey(slhdsa.SHA2_128f, nil)
	if err != nil {
		t.Fatal(err)
	}
	small, err := slhdsa.NewPrivateKey(slhdsa.SHA2_128s, key.Bytes()) // the same bytes in another set
	if err != nil {
		t.Fatal(err)
	}
	if !key.Equal(same) || !key.PublicKey().Equal(same.Public()) {
		t.Error("the same key isn't equal")
	}
	for _, wrong := range []crypto.PrivateKey{other, small, nil, key.Bytes(), *key} {
		if key.Equal(wrong) {
			t.Errorf("equal: %T", wrong)
		}
	}
	for _, wrong := range []crypto.PublicKey{other.Public(), small.Public(), nil, key} {
		if key.PublicKey().Equal(wrong) {
			t.Errorf("equal: %T", wrong)
		}
	}
}

func TestBytesAreCopies(t *testing.T) {
	key := counted(t, slhdsa.SHA2_128f)
	whole, half := string(key.Bytes()), string(key.PublicKey().Bytes())
	key.Bytes()[0] ^= 1
	key.PublicKey().Bytes()[0] ^= 1
	if string(key.Bytes()) != whole || string(key.PublicKey().Bytes()) != half {
		t.Error("a caller writes to a key")
	}
	public := []byte(half)
	read, err := slhdsa.NewPublicKey(key.Set(), public)
	if err != nil {
		t.Fatal(err)
	}
	public[0] ^= 1
	if !read.Equal(key.Public()) {
		t.Error("a caller writes to a key that was read")
	}
}

func TestLengthsOfKeys(t *testing.T) {
	for _, set := range slhdsa.Sets() {
		for _, size := range []int{0, 1, set.PrivateKeySize() - 1, set.PrivateKeySize() + 1} {
			if _, err := slhdsa.NewPrivateKey(set, make([]byte, size)); !errors.Is(err, slhdsa.ErrLength) {
				t.Errorf("%s, %d: %v", set, size, err)
			}
		}
		for _, size := range []int{0, 1, set.PublicKeySize() - 1, set.PublicKeySize() + 1} {
			if _, err := slhdsa.NewPublicKey(set, make([]byte, size)); !errors.Is(err, slhdsa.ErrLength) {
				t.Errorf("%s, %d: %v", set, size, err)
			}
		}
	}
}

func TestCheckRefusesAnotherRoot(t *testing.T) {
	key := counted(t, slhdsa.SHA2_128f)
	other, err := slhdsa.NewPrivateKey(key.Set(), bent(key.Bytes(), key.Set().PrivateKeySize()-1))
	if err != nil {
		t.Fatal(err)
	}
	if err := other.Check(); !errors.Is(err, slhdsa.ErrKeyMismatch) {
		t.Error(err)
	}
}

func TestRandomBytesThatEndOrFail(t *testing.T) {
	failed := errors.New("no random bytes")
	key := counted(t, slhdsa.SHA2_128f)
	if _, err := slhdsa.GenerateKey(key.Set(), iotest.ErrReader(failed)); !errors.Is(err, failed) {
		t.Error(err)
	}
	if _, err := slhdsa.GenerateKey(key.Set(), bytes.NewReader(make([]byte, 47))); err == nil {
		t.Error("a key of 47 random bytes")
	}
	if _, err := key.Sign(iotest.ErrReader(failed), nil, nil); !errors.Is(err, failed) {
		t.Error(err)
	}
	if _, err := key.SignReader(bytes.NewReader(make([]byte, 15)), bytes.NewReader(nil), nil); err == nil {
		t.Error("a signature by 15 random bytes")
	}
}

// opensslKeys are the blocks of the keys that OpenSSL made: of each set the private and the public one.
func opensslKeys(t *testing.T) []*pem.Block {
	t.Helper()
	text, err := os.ReadFile("../../examples/data/openssl_keys.pem")
	if err != nil {
		t.Fatal(err)
	}
	var blocks []*pem.Block
	for {
		block, rest := pem.Decode(text)
		if block == nil {
			return blocks
		}
		blocks, text = append(blocks, block), rest
	}
}

func TestKeysOfOpenSSL(t *testing.T) {
	blocks := opensslKeys(t)
	for i, set := range slhdsa.Sets() {
		private, public := blocks[2*i], blocks[2*i+1]
		key, err := slhdsa.ParsePKCS8PrivateKey(private.Bytes)
		if err != nil {
			t.Fatal(err)
		}
		read, err := slhdsa.ParsePKIXPublicKey(public.Bytes)
		if err != nil {
			t.Fatal(err)
		}
		if key.Set() != set || !read.Equal(key.Public()) {
			t.Errorf("%s: another key", set)
		}
		if err := key.Check(); err != nil {
			t.Errorf("%s: %v", set, err)
		}
		if der, err := slhdsa.MarshalPKCS8PrivateKey(key); err != nil || !bytes.Equal(der, private.Bytes) {
			t.Errorf("%s: another PKCS #8, %v", set, err)
		}
		if der, err := slhdsa.MarshalPKIXPublicKey(read); err != nil || !bytes.Equal(der, public.Bytes) {
			t.Errorf("%s: another PKIX, %v", set, err)
		}
	}
}

func TestDERIsThatOfTheStandards(t *testing.T) {
	for _, set := range slhdsa.Sets() {
		key, err := slhdsa.NewPrivateKey(set, make([]byte, set.PrivateKeySize()))
		if err != nil {
			t.Fatal(err)
		}
		der, err := slhdsa.MarshalPKCS8PrivateKey(key)
		if err != nil {
			t.Fatal(err)
		}
		var private struct {
			Version   int
			Algorithm struct{ OID asn1.ObjectIdentifier }
			Key       []byte
		}
		if rest, err := asn1.Unmarshal(der, &private); err != nil || len(rest) != 0 || private.Version != 0 ||
			!private.Algorithm.OID.Equal(set.OID()) || !bytes.Equal(private.Key, key.Bytes()) {
			t.Errorf("%s: %+v, %v", set, private, err)
		}
		if der, err = slhdsa.MarshalPKIXPublicKey(key.PublicKey()); err != nil {
			t.Fatal(err)
		}
		var public struct {
			Algorithm struct{ OID asn1.ObjectIdentifier }
			Key       asn1.BitString
		}
		if rest, err := asn1.Unmarshal(der, &public); err != nil || len(rest) != 0 ||
			!public.Algorithm.OID.Equal(set.OID()) || public.Key.BitLength != 8*set.PublicKeySize() ||
			!bytes.Equal(public.Key.Bytes, key.PublicKey().Bytes()) {
			t.Errorf("%s: %+v, %v", set, public, err)
		}
	}
}

// Each bit before the key, each length, and a byte more: none of these is a key, or it is one of another
// set that has the same sizes.
func TestDERThatIsntOne(t *testing.T) {
	for i, block := range opensslKeys(t) {
		set, der := slhdsa.Sets()[i/2], block.Bytes
		size, parse := set.PrivateKeySize(), func(der []byte) (slhdsa.Set, error) {
			key, err := slhdsa.ParsePKCS8PrivateKey(der)
			if err != nil {
				return 0, err
			}
			return key.Set(), nil
		}
		if i%2 == 1 {
			size, parse = set.PublicKeySize(), func(der []byte) (slhdsa.Set, error) {
				key, err := slhdsa.ParsePKIXPublicKey(der)
				if err != nil {
					return 0, err
				}
				return key.Set(), nil
			}
		}
		for at := 0; at < 8*(len(der)-size); at++ {
			other := append([]byte(nil), der...)
			other[at/8] ^= 1 << (at % 8)
			read, err := parse(other)
			if err == nil && (read == set || read.PublicKeySize() != set.PublicKeySize()) {
				t.Errorf("%s: bit %d is %s", set, at, read)
			}
			if err != nil && !errors.Is(err, slhdsa.ErrForm) {
				t.Errorf("%s: bit %d: %v", set, at, err)
			}
		}
		for end := range der {
			if _, err := parse(der[:end]); !errors.Is(err, slhdsa.ErrForm) {
				t.Errorf("%s: %d bytes: %v", set, end, err)
			}
		}
		if _, err := parse(append(append([]byte(nil), der...), 0)); !errors.Is(err, slhdsa.ErrForm) {
			t.Errorf("%s: a byte more: %v", set, err)
		}
		if _, err := parse(opensslKeys(t)[i^1].Bytes); !errors.Is(err, slhdsa.ErrForm) {
			t.Errorf("%s: the other half: %v", set, err)
		}
	}
}

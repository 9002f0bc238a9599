package slhdsa_test

import (
	"bytes"
	"crypto"
	"crypto/sha256"
	"encoding/hex"
	"io"
	"strings"
	"testing"

	"vireoamalgam.example/slhdsa"
)

const knownAnswers = "testdata/known_answers.txt"

var hashes = map[string]crypto.Hash{
	"sign": 0, "sign-sha256": crypto.SHA256, "sign-sha512": crypto.SHA512,
}

// knownKeys are the keys of the file, by their sets and ids.
func knownKeys(t *testing.T) map[string]*slhdsa.PrivateKey {
	keys := make(map[string]*slhdsa.PrivateKey)
	for _, row := range rows(t, knownAnswers, "key") {
		set, err := slhdsa.ParseSet(row[0])
		if err != nil {
			t.Fatal(err)
		}
		key, err := slhdsa.NewPrivateKey(set, unhex(t, row[5]))
		if err != nil {
			t.Fatal(err)
		}
		keys[row[0]+" "+row[1]] = key
	}
	return keys
}

func TestKeysAreKnown(t *testing.T) {
	for _, row := range rows(t, knownAnswers, "key") {
		row := row
		t.Run(row[0]+" "+row[1], func(t *testing.T) {
			t.Parallel()
			set, _ := slhdsa.ParseSet(row[0])
			seeds := unhex(t, row[2]+row[3]+row[4])
			key, err := slhdsa.GenerateKey(set, bytes.NewReader(seeds))
			if err != nil {
				t.Fatal(err)
			}
			if got := hex.EncodeToString(key.Bytes()); got != row[5] {
				t.Errorf("the key is %s", got)
			}
			if got := hex.EncodeToString(key.PublicKey().Bytes()); got != row[6] {
				t.Errorf("the public key is %s", got)
			}
			if err := key.Check(); err != nil {
				t.Error(err)
			}
		})
	}
}

// randomOf is a source of random bytes for a row, none where it has none.
func randomOf(t *testing.T, field string) io.Reader {
	if field == "none" {
		return nil
	}
	return bytes.NewReader(unhex(t, field))
}

func TestSignaturesAreKnown(t *testing.T) {
	keys := knownKeys(t)
	for _, row := range rows(t, knownAnswers, "sig") {
		row, key := row, keys[row[0]+" "+row[1]]
		t.Run(row[0]+" "+row[1]+" "+row[2], func(t *testing.T) {
			t.Parallel()
			if testing.Short() && strings.HasSuffix(row[0], "s") {
				t.Skip("signing takes long")
			}
			message := unhex(t, row[4])
			opts := &slhdsa.Options{Hash: hashes[row[2]], Context: string(unhex(t, row[3]))}
			object := message
			if opts.Hash != 0 {
				digest := opts.Hash.New()
				digest.Write(message)
				object = digest.Sum(nil)
			}
			signature, err := key.Sign(randomOf(t, row[5]), object, opts)
			if err != nil {
				t.Fatal(err)
			}
			if got := sha256.Sum256(signature); hex.EncodeToString(got[:]) != row[7] {
				t.Fatalf("another signature of %d bytes", len(signature))
			}
			again, err := key.SignReader(randomOf(t, row[5]), bytes.NewReader(message), opts)
			if err != nil || !bytes.Equal(again, signature) {
				t.Errorf("another signature in pieces, %v", err)
			}
			public := key.PublicKey()
			if err := public.Verify(object, signature, opts); err != nil {
				t.Error(err)
			}
			if err := public.VerifyReader(bytes.NewReader(message), signature, opts); err != nil {
				t.Error(err)
			}
		})
	}
}

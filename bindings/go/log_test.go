package slhdsa_test

import (
	"crypto/sha256"
	"encoding/base64"
	"encoding/binary"
	"errors"
	"fmt"
	"strings"
	"testing"

	"vireoamalgam.example/slhdsa"
)

const origin = "example.org/log"

// root, path and growth are those of RFC 9162, sections 2.1.1, 2.1.3.1 and 2.1.4.1, as they stand there.
func root(entries [][]byte) [32]byte {
	switch len(entries) {
	case 0:
		return sha256.Sum256(nil)
	case 1:
		return sha256.Sum256(append([]byte{0}, entries[0]...))
	}
	k := half(len(entries))
	left, right := root(entries[:k]), root(entries[k:])
	return sha256.Sum256(append(append([]byte{1}, left[:]...), right[:]...))
}

// half is the largest power of two below a number.
func half(n int) int {
	k := 1
	for 2*k < n {
		k *= 2
	}
	return k
}

func path(m int, entries [][]byte) []byte {
	if len(entries) == 1 {
		return nil
	}
	k := half(len(entries))
	if m < k {
		right := root(entries[k:])
		return append(path(m, entries[:k]), right[:]...)
	}
	left := root(entries[:k])
	return append(path(m-k, entries[k:]), left[:]...)
}

func growth(m int, entries [][]byte, whole bool) []byte {
	n := len(entries)
	if m == n {
		if whole {
			return nil
		}
		all := root(entries)
		return all[:]
	}
	k := half(n)
	if m <= k {
		right := root(entries[k:])
		return append(growth(m, entries[:k], whole), right[:]...)
	}
	left := root(entries[:k])
	return append(growth(m-k, entries[k:], false), left[:]...)
}

func entriesOf(n int) (entries [][]byte) {
	for i := 0; i < n; i++ {
		entries = append(entries, []byte(fmt.Sprintf("entry %d", i)))
	}
	return entries
}

func headOf(entries [][]byte) slhdsa.LogHead {
	return slhdsa.LogHead{Size: uint64(len(entries)), Root: root(entries)}
}

func TestPresence(t *testing.T) {
	for n := 1; n <= 20; n++ {
		entries := entriesOf(n)
		head := headOf(entries)
		for i, entry := range entries {
			proof := path(i, entries)
			if err := head.CheckPresence(uint64(i), entry, proof); err != nil {
				t.Errorf("%d of %d: %v", i, n, err)
			}
			err := head.CheckPresence(uint64(i), append(entry, '!'), proof)
			if !errors.Is(err, slhdsa.ErrInvalid) {
				t.Errorf("another entry than %d of %d: %v", i, n, err)
			}
			if len(proof) > 0 {
				err := head.CheckPresence(uint64(i), entry, bent(proof, n%len(proof)))
				if !errors.Is(err, slhdsa.ErrInvalid) {
					t.Errorf("%d of %d, bent: %v", i, n, err)
				}
				if err := head.CheckPresence(uint64(i), entry, proof[1:]); !errors.Is(err, slhdsa.ErrLength) {
					t.Errorf("%d of %d, a byte less: %v", i, n, err)
				}
			}
			err = head.CheckPresence(uint64(i), entry, append(proof, make([]byte, 32)...))
			if !errors.Is(err, slhdsa.ErrLength) {
				t.Errorf("%d of %d, a digest more: %v", i, n, err)
			}
		}
		if err := head.CheckPresence(uint64(n), nil, nil); !errors.Is(err, slhdsa.ErrNoEntry) {
			t.Errorf("%d of %d: %v", n, n, err)
		}
	}
}

func TestGrowth(t *testing.T) {
	for n := 1; n <= 20; n++ {
		entries := entriesOf(n)
		later := headOf(entries)
		for m := 1; m <= n; m++ {
			older, proof := headOf(entries[:m]), growth(m, entries, true)
			if err := older.CheckGrowth(later, proof); err != nil {
				t.Errorf("%d to %d: %v", m, n, err)
			}
			other := older
			other.Root[31] ^= 1
			if err := other.CheckGrowth(later, proof); !errors.Is(err, slhdsa.ErrInvalid) {
				t.Errorf("%d of another root to %d: %v", m, n, err)
			}
			if m < n {
				if err := later.CheckGrowth(older, proof); !errors.Is(err, slhdsa.ErrSmallerLog) {
					t.Errorf("%d to %d: %v", n, m, err)
				}
			}
		}
		if err := headOf(nil).CheckGrowth(later, nil); !errors.Is(err, slhdsa.ErrEmptyLog) {
			t.Errorf("0 to %d: %v", n, err)
		}
	}
}

// checkpointOf is the checkpoint of a log that a key signs.
func checkpointOf(t testing.TB, key *slhdsa.PrivateKey, origin string, head slhdsa.LogHead) []byte {
	t.Helper()
	signer, err := slhdsa.NewNoteSigner(origin, key)
	if err != nil {
		t.Fatal(err)
	}
	text := fmt.Sprintf("%s\n%d\n%s\n", origin, head.Size, base64.StdEncoding.EncodeToString(head.Root[:]))
	signature, err := signer.Sign([]byte(text))
	if err != nil {
		t.Fatal(err)
	}
	line := binary.BigEndian.AppendUint32(nil, signer.KeyHash())
	line = append(line, signature...)
	return []byte(text + "\n— " + origin + " " + base64.StdEncoding.EncodeToString(line) + "\n")
}

func TestCheckpoints(t *testing.T) {
	head := headOf(entriesOf(7))
	for _, set := range fast {
		key := counted(t, set)
		checkpoint := checkpointOf(t, key, origin, head)
		if opened, err := slhdsa.OpenCheckpoint(key.PublicKey(), origin, checkpoint); err != nil || opened != head {
			t.Errorf("%s: %v, %v", set, opened, err)
		}
	}
	key := counted(t, slhdsa.SHA2_128f)
	other, err := slhdsa.GenerateKey(slhdsa.SHA2_128f, nil)
	if err != nil {
		t.Fatal(err)
	}
	checkpoint := checkpointOf(t, key, origin, head)
	changed := []byte(strings.Replace(string(checkpoint), "\n7\n", "\n8\n", 1))
	tests := []struct {
		name       string
		key        *slhdsa.PrivateKey
		origin     string
		checkpoint []byte
		want       slhdsa.Error
	}{
		{"another origin", key, "example.org/other", checkpoint, slhdsa.ErrOrigin},
		{"another key", other, origin, checkpoint, slhdsa.ErrUnsigned},
		{"another size", key, origin, changed, slhdsa.ErrInvalid},
		{"nothing", key, origin, nil, slhdsa.ErrForm},
		{"no end", key, origin, checkpoint[:len(checkpoint)-1], slhdsa.ErrForm},
		{"no signature", key, origin, checkpoint[:strings.Index(string(checkpoint), "\n\n")+2], slhdsa.ErrUnsigned},
	}
	for _, test := range tests {
		opened, err := slhdsa.OpenCheckpoint(test.key.PublicKey(), test.origin, test.checkpoint)
		if !errors.Is(err, test.want) || opened != (slhdsa.LogHead{}) {
			t.Errorf("%s: %v, %v", test.name, opened, err)
		}
	}
}

// The ids are the first digits that sha256sum prints of the origin, \n, \377, the set's name, \n and 2n
// bytes of zeros.
func TestKeyHashes(t *testing.T) {
	tests := []struct {
		set    slhdsa.Set
		origin string
		want   uint32
	}{
		{slhdsa.SHA2_128s, "example.org/log", 0xb4307f02},
		{slhdsa.SHA2_128f, "example.org/releases", 0x62a31ac3},
		{slhdsa.SHA2_192s, "example.org/log", 0xa271084d},
		{slhdsa.SHA2_192f, "example.org/releases", 0x356de588},
		{slhdsa.SHA2_256s, "example.org/log", 0x786c9a73},
		{slhdsa.SHA2_256f, "example.org/releases", 0x2904ec23},
	}
	for _, test := range tests {
		key, err := slhdsa.NewPublicKey(test.set, make([]byte, test.set.PublicKeySize()))
		if err != nil {
			t.Fatal(err)
		}
		verifier, err := slhdsa.NewNoteVerifier(test.origin, key)
		if err != nil {
			t.Fatal(err)
		}
		if verifier.KeyHash() != test.want || verifier.Name() != test.origin {
			t.Errorf("%s: %s has %08x", test.set, verifier.Name(), verifier.KeyHash())
		}
	}
}

func TestOrigins(t *testing.T) {
	key := counted(t, slhdsa.SHA2_128f)
	tests := []struct {
		origin string
		good   bool
	}{
		{"example.org/log", true},
		{"ä", true},
		{strings.Repeat("o", 255), true},
		{strings.Repeat("o", 256), false},
		{"", false},
		{"a b", false},
		{"a+b", false},
		{"a\u00a0b", false},
		{"a\nb", false},
		{"a\x7fb", false},
		{"a\xffb", false},
	}
	for _, test := range tests {
		_, verifier := slhdsa.NewNoteVerifier(test.origin, key.PublicKey())
		_, signer := slhdsa.NewNoteSigner(test.origin, key)
		for _, err := range []error{verifier, signer} {
			if (err == nil) != test.good || err != nil && !errors.Is(err, slhdsa.ErrForm) {
				t.Errorf("%q: %v", test.origin, err)
			}
		}
	}
}

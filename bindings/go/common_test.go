package slhdsa_test

import (
	"bufio"
	"bytes"
	"encoding/hex"
	"os"
	"strings"
	"testing"

	"vireoamalgam.example/slhdsa"
)

// unhex is the bytes of a field, where - stands for none.
func unhex(t testing.TB, field string) []byte {
	t.Helper()
	if field == "-" {
		return nil
	}
	data, err := hex.DecodeString(field)
	if err != nil {
		t.Fatal(err)
	}
	return data
}

// rows are the fields of a file's lines of a kind.
func rows(t testing.TB, name, kind string) [][]string {
	t.Helper()
	data, err := os.ReadFile(name)
	if err != nil {
		t.Fatal(err)
	}
	var found [][]string
	lines := bufio.NewScanner(bytes.NewReader(data))
	for lines.Scan() {
		if fields := strings.Fields(lines.Text()); len(fields) > 0 && fields[0] == kind {
			found = append(found, fields[1:])
		}
	}
	if len(found) == 0 {
		t.Fatalf("%s has no row of %s", name, kind)
	}
	return found
}

// counted makes the key of the seeds 00, 01, 02 and so on.
func counted(t testing.TB, set slhdsa.Set) *slhdsa.PrivateKey {
	t.Helper()
	seeds := make([]byte, 3*set.PrivateKeySize()/4)
	for i := range seeds {
		seeds[i] = byte(i)
	}
	key, err := slhdsa.GenerateKey(set, bytes.NewReader(seeds))
	if err != nil {
		t.Fatal(err)
	}
	return key
}

// signed is a deterministic signature without options.
func signed(t testing.TB, key *slhdsa.PrivateKey, message []byte) []byte {
	t.Helper()
	signature, err := key.Sign(nil, message, nil)
	if err != nil {
		t.Fatal(err)
	}
	return signature
}

// bent is data with a bit changed.
func bent(data []byte, at int) []byte {
	other := append([]byte(nil), data...)
	other[at] ^= 1
	return other
}

// fast are the sets that sign within a moment.
var fast = []slhdsa.Set{slhdsa.SHA2_128f, slhdsa.SHA2_192f, slhdsa.SHA2_256f}

package slhdsa

import (
	"crypto/rand"
	"io"
	"runtime"
)

// A secret is bytes that are written over when nobody refers to them any more. Who hands the bytes
// to a call keeps the secret alive until it ends.
type secret struct{ bytes []byte }

// newSecret is a secret of this size, zeros at first.
func newSecret(size int) *secret {
	s := &secret{make([]byte, size)}
	runtime.SetFinalizer(s, (*secret).clear)
	return s
}

// read is the bytes, none of a key that no call made.
func (s *secret) read() []byte {
	if s == nil {
		return nil
	}
	return s.bytes
}

// clear writes the bytes over, and has none then.
func (s *secret) clear() {
	if s == nil {
		return
	}
	wipe(s.bytes)
	s.bytes = nil
}

// wipe writes bytes over.
func wipe(b []byte) {
	for i := range b {
		b[i] = 0
	}
	runtime.KeepAlive(b)
}

// randomizerOf is random bytes for a signature, none where there is no source of them.
func randomizerOf(set Set, random io.Reader) ([]byte, error) {
	if random == nil {
		return nil, nil
	}
	randomizer := make([]byte, randomizerSize(set))
	if _, err := io.ReadFull(random, randomizer); err != nil {
		wipe(randomizer)
		return nil, err
	}
	return randomizer, nil
}

// sourceOr is a source of random bytes, the system's where there is none.
func sourceOr(random io.Reader) io.Reader {
	if random == nil {
		return rand.Reader
	}
	return random
}

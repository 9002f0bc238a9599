package slhdsa

import (
	"bytes"
	"errors"
	"runtime"
	"testing"
	"time"
)

// isWiped tells whether all bytes are zero.
func isWiped(b []byte) bool { return bytes.Count(b, []byte{0}) == len(b) }

func TestAKeyThatNobodyRefersToIsWiped(t *testing.T) {
	key, err := GenerateKey(SHA2_128f, nil)
	if err != nil {
		t.Fatal(err)
	}
	held := key.secret.bytes
	if isWiped(held) {
		t.Fatal("a key of zeros")
	}
	copied := *key
	runtime.GC()
	if _, err := copied.Sign(nil, nil, nil); err != nil || isWiped(held) {
		t.Fatal("wiped while a copy of the key is there")
	}
	runtime.KeepAlive(copied)
	key, copied = nil, PrivateKey{}
	for i := 0; i < 100; i++ {
		runtime.GC()
		time.Sleep(10 * time.Millisecond) // the finalizer has a goroutine of its own
		if isWiped(held) {
			return
		}
	}
	t.Error("the key is still there")
}

func TestAKeyThatIsClearedSignsNothing(t *testing.T) {
	key, err := GenerateKey(SHA2_128f, nil)
	if err != nil {
		t.Fatal(err)
	}
	held := key.secret.bytes
	key.Clear()
	if !isWiped(held) {
		t.Error("the key is still there")
	}
	_, signed := key.Sign(nil, nil, nil)
	_, read := key.SignReader(nil, bytes.NewReader(nil), nil)
	_, written := MarshalPKCS8PrivateKey(key)
	for _, err := range []error{signed, read, written, key.Check()} {
		if !errors.Is(err, ErrLength) {
			t.Error(err)
		}
	}
	if len(key.Bytes()) != 0 {
		t.Error("the key has bytes")
	}
	key.Clear()
}

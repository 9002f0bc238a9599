package slhdsa

import (
	"bytes"
	"crypto"
)

// A PublicKey verifies.
type PublicKey struct {
	set   Set
	bytes []byte // nobody writes to them once the key is made
}

// NewPublicKey is the key of these bytes: the public seed and the root. The error is ErrLength or
// ErrUnknownSet.
func NewPublicKey(set Set, bytes []byte) (*PublicKey, error) {
	switch size := publicSize(set); {
	case size == 0:
		return nil, refused("read a public key", ErrUnknownSet)
	case size != len(bytes):
		return nil, refused("read a public key", ErrLength)
	}
	return &PublicKey{set, append([]byte(nil), bytes...)}, nil
}

// Set is the key's parameter set.
func (k *PublicKey) Set() Set { return k.set }

// Bytes is a copy of the key.
func (k *PublicKey) Bytes() []byte { return append([]byte(nil), k.bytes...) }

// Equal tells whether two keys are the same.
func (k *PublicKey) Equal(other crypto.PublicKey) bool {
	o, ok := other.(*PublicKey)
	return ok && k.set == o.set && bytes.Equal(k.bytes, o.bytes)
}

// Verify verifies a signature of a message or, where opts have a hash function, of its digest. It
// returns nil where the signature is accepted, and ErrInvalid where it isn't one. ErrLength of a
// signature or a digest, ErrContextTooLong, ErrUnknownMode and ErrMessageTooLong are the other errors.
func (k *PublicKey) Verify(message, signature []byte, opts crypto.SignerOpts) error {
	j, err := jobOf("verify", k.set, opts)
	if err != nil {
		return err
	}
	return verify(j, k.bytes, message, signature)
}

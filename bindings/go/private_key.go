package slhdsa

import (
	"crypto"
	"crypto/subtle"
	"io"
	"runtime"
)

// A PrivateKey signs. It is a [crypto.Signer].
type PrivateKey struct {
	secret *secret
	public PublicKey
}

var _ crypto.Signer = (*PrivateKey)(nil)

// GenerateKey makes a key of 3n random bytes, of crypto/rand's where random is nil. The error is
// ErrUnknownSet, or that of random.
func GenerateKey(set Set, random io.Reader) (*PrivateKey, error) {
	seeds := newSecret(seedsSize(set))
	defer seeds.clear()
	if _, err := io.ReadFull(sourceOr(random), seeds.bytes); err != nil {
		return nil, err
	}
	key := newKey(set)
	if err := keygen(set, seeds.bytes, key.secret.bytes, key.public.bytes); err != nil {
		return nil, err
	}
	return key, nil
}

// NewPrivateKey is the key of these bytes: the secret seed, the PRF key, the public seed and the root.
// Whether the root is that of the seeds is not looked at: [PrivateKey.Check] does that. The error is
// ErrLength or ErrUnknownSet.
func NewPrivateKey(set Set, bytes []byte) (*PrivateKey, error) {
	key := newKey(set)
	if err := publicOf(set, bytes, key.public.bytes); err != nil {
		return nil, err
	}
	copy(key.secret.bytes, bytes)
	return key, nil
}

// newKey is the room for a key.
func newKey(set Set) *PrivateKey {
	public := PublicKey{set, make([]byte, publicSize(set))}
	return &PrivateKey{newSecret(privateSize(set)), public}
}

// Check tells whether the key's root is that of its seeds, which takes as long as making one. The
// error is ErrKeyMismatch.
func (k *PrivateKey) Check() error { return checkKey(k.public.set, k.secret) }

// Clear writes the key over with zeros. Nobody uses it meanwhile, and it signs nothing afterwards: it
// refuses with ErrLength. A key that isn't cleared is written over when nobody refers to it any more.
func (k *PrivateKey) Clear() { k.secret.clear() }

// Set is the key's parameter set.
func (k *PrivateKey) Set() Set { return k.public.set }

// Bytes is a copy of the key, which nobody clears.
func (k *PrivateKey) Bytes() []byte {
	defer runtime.KeepAlive(k.secret)
	return append([]byte(nil), k.secret.read()...)
}

// Public is the key that verifies, a *PublicKey.
func (k *PrivateKey) Public() crypto.PublicKey { return k.PublicKey() }

// PublicKey is the key that verifies.
func (k *PrivateKey) PublicKey() *PublicKey {
	public := k.public
	return &public
}

// Equal tells whether two keys are the same, in a time that doesn't tell where they differ.
func (k *PrivateKey) Equal(other crypto.PrivateKey) bool {
	o, ok := other.(*PrivateKey)
	if !ok {
		return false
	}
	defer runtime.KeepAlive(k.secret)
	defer runtime.KeepAlive(o.secret)
	return k.public.set == o.public.set &&
		subtle.ConstantTimeCompare(k.secret.read(), o.secret.read()) == 1
}

// String tells the set, and nothing of the key.
func (k *PrivateKey) String() string { return "private key of " + k.public.set.String() }

// Sign signs a message or, where opts have a hash function, its digest, with n random bytes that it
// reads: the hedged variant, which FIPS 205 prefers. Where random is nil it is the deterministic one.
// The error is ErrContextTooLong, ErrLength of a digest, ErrUnknownMode, ErrMessageTooLong, or that
// of random.
func (k *PrivateKey) Sign(random io.Reader, message []byte, opts crypto.SignerOpts) ([]byte, error) {
	j, err := jobOf("sign", k.public.set, opts)
	if err != nil {
		return nil, err
	}
	randomizer, err := randomizerOf(j.set, random)
	if err != nil {
		return nil, err
	}
	defer wipe(randomizer)
	signature := make([]byte, signatureSize(j.set))
	if err := sign(j, k.secret, message, randomizer, signature); err != nil {
		return nil, err
	}
	return signature, nil
}

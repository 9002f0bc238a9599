package slhdsa

// #include <slh_dsa.h>
import "C"

import "crypto"

// Options are a [crypto.SignerOpts] with a context. The zero Options, [crypto.Hash](0) and nil sign a
// message as it is, without a context.
type Options struct {
	// Hash is 0 where the message itself is signed, or by what it was hashed: crypto.SHA256, which
	// is meant for the sets of 128 bits alone (FIPS 205, section 10.2.2; nothing checks that), or
	// crypto.SHA512. The object is then the digest, and the signature another one than that of the
	// message itself (HashSLH-DSA).
	Hash crypto.Hash

	// Context has at most 255 bytes. A signature is accepted under the same context alone.
	Context string
}

// HashFunc is by what the message was hashed.
func (o *Options) HashFunc() crypto.Hash {
	if o == nil {
		return 0
	}
	return o.Hash
}

// A mode is how a message is signed, by its number in slh_dsa.h.
type mode uint32

const (
	pure          mode = C.SLH_DSA_PURE
	prehashSHA256 mode = C.SLH_DSA_PREHASH_SHA256
	prehashSHA512 mode = C.SLH_DSA_PREHASH_SHA512
)

// jobOf is what options ask for.
func jobOf(call string, set Set, opts crypto.SignerOpts) (job, error) {
	j := job{set: set}
	if opts == nil {
		return j, nil
	}
	if o, ok := opts.(*Options); ok && o != nil {
		j.context = []byte(o.Context)
	}
	switch opts.HashFunc() {
	case 0:
		j.mode = pure
	case crypto.SHA256:
		j.mode = prehashSHA256
	case crypto.SHA512:
		j.mode = prehashSHA512
	default:
		return j, refused(call, ErrUnknownMode)
	}
	return j, nil
}

package slhdsa

import (
	"crypto"
	_ "crypto/sha256" // the hash functions of options
	_ "crypto/sha512"
	"io"
)

// pieceSize is how much of a reader is in memory at a time.
const pieceSize = 1 << 16

// A Verifier verifies a signature of a message that is written to it in pieces. It is an [io.Writer],
// so a message can be verified while it goes elsewhere ([io.MultiWriter], [io.TeeReader]). Nothing of
// the message is verified before [Verifier.Verify] has returned nil.
type Verifier struct {
	state     verifierState
	signature []byte
}

// NewVerifier begins to verify a signature. Where opts have a hash function the message itself is
// written, and hashed by the library. The error is ErrLength of the signature, ErrContextTooLong or
// ErrUnknownMode.
func (k *PublicKey) NewVerifier(signature []byte, opts crypto.SignerOpts) (*Verifier, error) {
	j, err := jobOf("verify", k.set, opts)
	if err != nil {
		return nil, err
	}
	v := &Verifier{signature: append([]byte(nil), signature...)}
	if err := verifyBegin(&v.state, j, k.bytes, v.signature); err != nil {
		return nil, err
	}
	return v, nil
}

// Write takes a piece of the message, whole or not at all. The error is ErrMessageTooLong, or ErrState
// after Verify.
func (v *Verifier) Write(piece []byte) (int, error) {
	if err := verifyUpdate(&v.state, piece); err != nil {
		return 0, err
	}
	return len(piece), nil
}

// Verify verifies the signature of what was written, and answers as [PublicKey.Verify] does for the
// whole. It is called once: after that it is ErrState.
func (v *Verifier) Verify() error { return verifyFinish(&v.state, v.signature) }

// VerifyReader verifies a signature of the message that a reader has, up to its end. Where opts have a
// hash function it is the message, too, and not its digest. An error of the reader is returned as it
// is, the others are those of [PublicKey.Verify].
func (k *PublicKey) VerifyReader(message io.Reader, signature []byte, opts crypto.SignerOpts) error {
	v, err := k.NewVerifier(signature, opts)
	if err != nil {
		return err
	}
	if err := copyTo(v, message); err != nil {
		return err
	}
	return v.Verify()
}

// copyTo writes what a reader has in pieces.
func copyTo(w io.Writer, r io.Reader) error {
	_, err := io.CopyBuffer(w, r, make([]byte, pieceSize))
	return err
}

// A pass takes a message that is signed as it is, in pieces.
type pass struct{ state signerState }

func (p *pass) Write(piece []byte) (int, error) {
	if err := signUpdate(&p.state, piece); err != nil {
		return 0, err
	}
	return len(piece), nil
}

// SignReader signs the message that a reader has from its place to its end. Signing a message as it is
// hashes it twice, so it is read, sought back to its place, and read once more; where it changed
// meanwhile, the error is ErrChanged. With a hash function in opts it is read once, and its digest
// signed, as [PrivateKey.Sign] does. An error of the reader is returned as it is.
func (k *PrivateKey) SignReader(
	random io.Reader, message io.ReadSeeker, opts crypto.SignerOpts,
) ([]byte, error) {
	j, err := jobOf("sign", k.public.set, opts)
	if err != nil {
		return nil, err
	}
	if j.mode != pure {
		digest := opts.HashFunc().New()
		if err := copyTo(digest, message); err != nil {
			return nil, err
		}
		return k.Sign(random, digest.Sum(nil), opts)
	}
	randomizer, err := randomizerOf(j.set, random)
	if err != nil {
		return nil, err
	}
	defer wipe(randomizer)
	return k.signTwice(j, message, randomizer)
}

// signTwice signs a message that is read twice.
func (k *PrivateKey) signTwice(j job, message io.ReadSeeker, randomizer []byte) ([]byte, error) {
	place, err := message.Seek(0, io.SeekCurrent)
	if err != nil {
		return nil, err
	}
	p := new(pass)
	defer func() { p.state = signerState{} }() // it has the PRF key
	if err := signBegin(&p.state, j, k.secret, randomizer); err != nil {
		return nil, err
	}
	if err := copyTo(p, message); err != nil {
		return nil, err
	}
	if err := signAgain(&p.state, j.context); err != nil {
		return nil, err
	}
	if _, err := message.Seek(place, io.SeekStart); err != nil {
		return nil, err
	}
	if err := copyTo(p, message); err != nil {
		return nil, err
	}
	signature := make([]byte, signatureSize(j.set))
	if err := signFinish(&p.state, k.secret, signature); err != nil {
		return nil, err
	}
	return signature, nil
}

package slhdsa

import (
	"crypto/rand"
	"crypto/sha256"
	"encoding/binary"
	"io"
	"strings"
	"unicode"
	"unicode/utf8"
)

// noteContext is the context under which checkpoints are signed.
const noteContext = "slh-log"

// A NoteVerifier verifies the checkpoints of a log: it is a note.Verifier of
// golang.org/x/mod/sumdb/note.
type NoteVerifier struct {
	origin string
	key    *PublicKey
	hash   uint32
}

// NewNoteVerifier is the verifier of a log of this origin by its key. The error is ErrForm where no log
// can have the origin: it has 1 to 255 bytes of UTF-8, no space, no plus sign and no control character.
func NewNoteVerifier(origin string, key *PublicKey) (*NoteVerifier, error) {
	if !isOrigin(origin) {
		return nil, refused("make a verifier of notes", ErrForm)
	}
	return &NoteVerifier{origin, key, noteHash(origin, key)}, nil
}

func isOrigin(origin string) bool {
	return origin != "" && len(origin) <= 255 && utf8.ValidString(origin) &&
		strings.IndexFunc(origin, func(r rune) bool {
			return unicode.IsSpace(r) || r == '+' || r < ' ' || r == 0x7f
		}) < 0
}

// noteHash is the key's id: the first 4 bytes of SHA-256 of the origin, a line feed, FF, the set's name,
// a line feed and the key.
func noteHash(origin string, key *PublicKey) uint32 {
	sum := sha256.Sum256([]byte(origin + "\n\xff" + key.set.String() + "\n" + string(key.bytes)))
	return binary.BigEndian.Uint32(sum[:])
}

// Name is the log's origin.
func (v *NoteVerifier) Name() string { return v.origin }

// KeyHash is the key's id.
func (v *NoteVerifier) KeyHash() uint32 { return v.hash }

// Verify tells whether a signature is one of the text of a checkpoint.
func (v *NoteVerifier) Verify(msg, sig []byte) bool {
	return v.key.Verify(msg, sig, &Options{Context: noteContext}) == nil
}

// A NoteSigner signs the checkpoints of a log: it is a note.Signer of golang.org/x/mod/sumdb/note.
type NoteSigner struct {
	verifier *NoteVerifier
	key      *PrivateKey
	random   io.Reader
}

// NewNoteSigner is the signer of a log of this origin by its key. The error is that of
// [NewNoteVerifier].
func NewNoteSigner(origin string, key *PrivateKey) (*NoteSigner, error) {
	verifier, err := NewNoteVerifier(origin, key.PublicKey())
	if err != nil {
		return nil, err
	}
	return &NoteSigner{verifier, key, rand.Reader}, nil
}

// Verifier is the verifier of what it signs.
func (s *NoteSigner) Verifier() *NoteVerifier { return s.verifier }

// Name is the log's origin.
func (s *NoteSigner) Name() string { return s.verifier.origin }

// KeyHash is the key's id.
func (s *NoteSigner) KeyHash() uint32 { return s.verifier.hash }

// Sign signs the text of a checkpoint, with random bytes of crypto/rand.
func (s *NoteSigner) Sign(msg []byte) ([]byte, error) {
	return s.key.Sign(s.random, msg, &Options{Context: noteContext})
}

package slhdsa

// #include <slh_dsa.h>
import "C"

// An Error is a cause for which the library refuses, by its number in slh_dsa.h. Calls wrap it:
//
//	if errors.Is(err, slhdsa.ErrInvalid) { .. }
//
// It is comparable, and its text is that of slh_dsa_inline.h.
type Error uint32

// What the calls of this package refuse with.
const (
	// ErrInvalid: the signature isn't one of this message, context and mode under this key. Of a
	// proof: it doesn't show what it is to show.
	ErrInvalid Error = C.SLH_DSA_INVALID
	// ErrKeyMismatch: the root of a private key isn't that of its seeds.
	ErrKeyMismatch Error = C.SLH_DSA_KEY_MISMATCH
	// ErrLength: a key, a digest, a signature or a proof has a wrong length.
	ErrLength Error = C.SLH_DSA_LENGTH
	// ErrContextTooLong: a context has more than 255 bytes.
	ErrContextTooLong Error = C.SLH_DSA_CONTEXT_TOO_LONG
	// ErrMessageTooLong: a message has more than 2^60 bytes.
	ErrMessageTooLong Error = C.SLH_DSA_MESSAGE_TOO_LONG
	// ErrUnknownSet: no parameter set has this number or this name. A key that wasn't made by a
	// call of this package, as new(PublicKey), has none.
	ErrUnknownSet Error = C.SLH_DSA_UNKNOWN_SET
	// ErrUnknownMode: nothing is signed by this hash function: it is none of no function, SHA-256
	// and SHA-512.
	ErrUnknownMode Error = C.SLH_DSA_UNKNOWN_MODE
	// ErrState: a [Verifier] that was used, or that no call of this package made.
	ErrState Error = C.SLH_DSA_STATE
	// ErrForm: the bytes aren't a key in DER, a checkpoint or the origin of a log.
	ErrForm Error = C.SLH_DSA_FORM
	// ErrNoEntry: a log has no entry of this index.
	ErrNoEntry Error = C.SLH_DSA_NO_ENTRY
	// ErrOrigin: a checkpoint is of a log of another origin.
	ErrOrigin Error = C.SLH_DSA_ORIGIN
	// ErrUnsigned: a checkpoint has no signature of this key.
	ErrUnsigned Error = C.SLH_DSA_UNSIGNED
	// ErrEmptyLog: a log without entries has no proof that it grew.
	ErrEmptyLog Error = C.SLH_DSA_EMPTY
	// ErrSmallerLog: a log has fewer entries than it had.
	ErrSmallerLog Error = C.SLH_DSA_SMALLER
	// ErrChanged: what is signed changed while it was read.
	ErrChanged Error = C.SLH_DSA_CHANGED
)

// What other calls of the library refuse with, and no call of this package.
const (
	ErrForeign          Error = C.SLH_DSA_FOREIGN
	ErrNotShown         Error = C.SLH_DSA_NOT_SHOWN
	ErrRandomizerLength Error = C.SLH_DSA_RANDOMIZER_LENGTH
	ErrUnknownEvidence  Error = C.SLH_DSA_UNKNOWN_EVIDENCE
	ErrBudget           Error = C.SLH_DSA_BUDGET
)

// Error is what the cause says.
func (e Error) Error() string { return statusText(e) }

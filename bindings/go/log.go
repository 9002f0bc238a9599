package slhdsa

// A LogHead is what the checkpoint of a log says: how many entries there are, and the root of the tree
// over them (RFC 9162, over SHA-256).
type LogHead struct {
	Size uint64
	Root [32]byte
}

// OpenCheckpoint opens a checkpoint that a key signed for the log of an origin. Signatures of others are
// skipped. The error is ErrForm, ErrOrigin, ErrUnsigned or ErrInvalid.
func OpenCheckpoint(key *PublicKey, origin string, checkpoint []byte) (LogHead, error) {
	scratch := make([]byte, scratchSize(key.set))
	return logOpen(key.set, key.bytes, []byte(origin), checkpoint, scratch)
}

// CheckPresence checks by an inclusion proof that the entry of an index, from 0 on, is this one. The proof
// is its digests of 32 bytes, one behind the other. The error is ErrNoEntry, ErrLength of the proof,
// ErrMessageTooLong or ErrInvalid.
func (h LogHead) CheckPresence(index uint64, entry, proof []byte) error {
	return logPresence(h, index, entry, proof)
}

// CheckGrowth checks by a consistency proof that the log grew to a later head, and kept its entries. The
// proof is its digests of 32 bytes, one behind the other. The error is ErrEmptyLog, ErrSmallerLog,
// ErrLength of the proof or ErrInvalid.
func (h LogHead) CheckGrowth(later LogHead, proof []byte) error {
	return logGrowth(h, later, proof)
}

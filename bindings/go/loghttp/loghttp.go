// Package loghttp reads a log of `slh log`, or another one in the form of C2SP's tlog-tiles, from any web
// server, and believes nothing that the server says: an entry is shown to be there, and the log to have
// grown, under checkpoints that the log's key signed.
//
// Tiles are read by golang.org/x/mod/sumdb/tlog, which makes proofs of them. The signatures and the
// proofs are checked by the verified library below the package slhdsa, so a tile that is wrong and that
// tlog doesn't look at shows nothing.
package loghttp

import (
	"context"
	"errors"
	"fmt"
	"io"
	"net/http"
	"strings"

	"golang.org/x/mod/sumdb/tlog"
	"vireoamalgam.example/slhdsa"
)

// What is wrong with what a server sends, beside the errors of slhdsa. They are wrapped.
var (
	// ErrStatus: the server answers with another status than 200.
	ErrStatus = errors.New("another status than 200")
	// ErrSize: a file has more or fewer bytes than it is to have.
	ErrSize = errors.New("another number of bytes")
	// ErrTooLarge: a checkpoint counts more entries than this package reads of.
	ErrTooLarge = errors.New("too many entries")
)

const (
	// maxCheckpoint is room for a checkpoint with a dozen signatures of the largest set.
	maxCheckpoint = 1 << 20
	// maxEntries keeps the places of hashes below 2^63, which tlog counts by int64.
	maxEntries = 1 << 60
)

// A Log is a log on a web server. Any number of goroutines may use it at once.
type Log struct {
	base   string
	origin string
	key    *slhdsa.PublicKey
	client *http.Client
}

// New is the log of an origin and a key whose files stand below a URL. Where client is nil it is
// http.DefaultClient, which waits for a server without an end.
func New(base, origin string, key *slhdsa.PublicKey, client *http.Client) *Log {
	if client == nil {
		client = http.DefaultClient
	}
	return &Log{strings.TrimRight(base, "/"), origin, key, client}
}

// A Head is what a checkpoint says, and its text, which a later run opens again.
type Head struct {
	slhdsa.LogHead
	Checkpoint []byte
}

// tree is the head as tlog has it.
func (h Head) tree() tlog.Tree { return tlog.Tree{N: int64(h.Size), Hash: h.Root} }

// Open opens a checkpoint that is at hand. The errors are those of slhdsa.OpenCheckpoint, and
// ErrTooLarge.
func (l *Log) Open(checkpoint []byte) (Head, error) {
	head, err := slhdsa.OpenCheckpoint(l.key, l.origin, checkpoint)
	if err != nil {
		return Head{}, err
	}
	if head.Size > maxEntries {
		return Head{}, fmt.Errorf("loghttp: a log of %d entries: %w", head.Size, ErrTooLarge)
	}
	return Head{head, checkpoint}, nil
}

// Head fetches the log's checkpoint and opens it.
func (l *Log) Head(ctx context.Context) (Head, error) {
	checkpoint, err := l.fetch(ctx, "checkpoint", maxCheckpoint)
	if err != nil {
		return Head{}, err
	}
	return l.Open(checkpoint)
}

// CheckPresence fetches what shows that the entry of an index is this one, and checks it. The error is
// slhdsa.ErrInvalid where it is another one, slhdsa.ErrNoEntry, or what the server does wrong.
func (l *Log) CheckPresence(ctx context.Context, head Head, index uint64, entry []byte) error {
	if index >= head.Size {
		return head.LogHead.CheckPresence(index, entry, nil)
	}
	proof, err := tlog.ProveRecord(head.tree().N, int64(index), l.hashes(ctx, head))
	if err != nil {
		return fmt.Errorf("loghttp: entry %d: %w", index, err)
	}
	return head.LogHead.CheckPresence(index, entry, joined(proof))
}

// CheckGrowth fetches what shows that the log grew from an older head to a later one, and kept its
// entries, and checks it. The error is slhdsa.ErrInvalid where it didn't, slhdsa.ErrSmallerLog, or what
// the server does wrong. Each log grew from one without entries, which has no root to look at.
func (l *Log) CheckGrowth(ctx context.Context, older, later Head) error {
	if older.Size == 0 {
		return nil
	}
	if older.Size >= later.Size {
		return older.LogHead.CheckGrowth(later.LogHead, nil)
	}
	proof, err := tlog.ProveTree(later.tree().N, older.tree().N, l.hashes(ctx, later))
	if err != nil {
		return fmt.Errorf("loghttp: from %d to %d entries: %w", older.Size, later.Size, err)
	}
	return older.LogHead.CheckGrowth(later.LogHead, joined(proof))
}

// Entry fetches the entry of an index, and checks that it is there. The errors are those of
// CheckPresence.
func (l *Log) Entry(ctx context.Context, head Head, index uint64) ([]byte, error) {
	if index >= head.Size {
		return nil, head.LogHead.CheckPresence(index, nil, nil)
	}
	entry, err := l.entry(ctx, head, index)
	if err != nil {
		return nil, err
	}
	if err := l.CheckPresence(ctx, head, index, entry); err != nil {
		return nil, err
	}
	return entry, nil
}

// hashes reads the hashes of the tree of a head.
func (l *Log) hashes(ctx context.Context, head Head) tlog.HashReader {
	return tlog.TileHashReader(head.tree(), &tiles{ctx, l})
}

// joined is the digests of a proof, one behind the other.
func joined(proof []tlog.Hash) []byte {
	var all []byte
	for _, hash := range proof {
		all = append(all, hash[:]...)
	}
	return all
}

// fetch reads a file of the log, of at most so many bytes.
func (l *Log) fetch(ctx context.Context, name string, most int) ([]byte, error) {
	request, err := http.NewRequestWithContext(ctx, http.MethodGet, l.base+"/"+name, nil)
	if err != nil {
		return nil, err
	}
	response, err := l.client.Do(request)
	if err != nil {
		return nil, err
	}
	defer response.Body.Close()
	if response.StatusCode != http.StatusOK {
		return nil, fmt.Errorf("loghttp: %s: %s: %w", name, response.Status, ErrStatus)
	}
	data, err := io.ReadAll(io.LimitReader(response.Body, int64(most)+1))
	if err != nil {
		return nil, fmt.Errorf("loghttp: %s: %w", name, err)
	}
	if len(data) > most {
		return nil, fmt.Errorf("loghttp: %s: more than %d bytes: %w", name, most, ErrSize)
	}
	return data, nil
}

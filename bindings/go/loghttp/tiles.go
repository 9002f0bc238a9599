package loghttp

import (
	"context"
	"encoding/binary"
	"errors"
	"fmt"
	"strings"

	"golang.org/x/mod/sumdb/tlog"
)

const (
	tileHeight = 8
	tileWidth  = 1 << tileHeight
	// maxBundle is a bundle of the longest entries, each with its length of two bytes.
	maxBundle = tileWidth * (2 + 1<<16 - 1)
)

// tiles are those of a log: a tlog.TileReader for one call.
type tiles struct {
	ctx context.Context
	log *Log
}

var _ tlog.TileReader = (*tiles)(nil)

func (t *tiles) Height() int { return tileHeight }

// SaveTiles keeps nothing: full tiles never change, so a cache before the server or in the client's
// transport serves as well.
func (t *tiles) SaveTiles([]tlog.Tile, [][]byte) {}

func (t *tiles) ReadTiles(wanted []tlog.Tile) ([][]byte, error) {
	var all [][]byte
	for _, tile := range wanted {
		data, err := t.read(tile)
		if err != nil {
			return nil, err
		}
		all = append(all, data)
	}
	return all, nil
}

// read reads a tile's hashes. A tile that isn't full may be gone when the log has grown, and the full
// one begins with the same hashes.
func (t *tiles) read(tile tlog.Tile) ([]byte, error) {
	size := tile.W * tlog.HashSize
	data, err := t.log.fetch(t.ctx, nameOf(tile), size)
	if errors.Is(err, ErrStatus) && tile.W < tileWidth {
		tile.W = tileWidth
		data, err = t.log.fetch(t.ctx, nameOf(tile), tileWidth*tlog.HashSize)
	}
	if err != nil {
		return nil, err
	}
	if len(data) != tile.W*tlog.HashSize {
		return nil, fmt.Errorf("loghttp: %s: %d bytes: %w", nameOf(tile), len(data), ErrSize)
	}
	return data[:size], nil
}

// nameOf is a tile's name in C2SP's tlog-tiles, which leaves the height out, and calls what tlog calls
// data entries.
func nameOf(tile tlog.Tile) string {
	name := strings.TrimPrefix(tile.Path(), fmt.Sprintf("tile/%d/", tileHeight))
	if rest := strings.TrimPrefix(name, "data/"); rest != name {
		name = "entries/" + rest
	}
	return "tile/" + name
}

// entry reads an entry of a bundle, of which nothing is checked yet.
func (l *Log) entry(ctx context.Context, head Head, index uint64) ([]byte, error) {
	bundle := tlog.Tile{H: tileHeight, L: -1, N: int64(index / tileWidth), W: tileWidth}
	if left := head.Size - index/tileWidth*tileWidth; left < tileWidth {
		bundle.W = int(left)
	}
	data, err := l.fetch(ctx, nameOf(bundle), maxBundle)
	if errors.Is(err, ErrStatus) && bundle.W < tileWidth {
		bundle.W = tileWidth
		data, err = l.fetch(ctx, nameOf(bundle), maxBundle)
	}
	if err != nil {
		return nil, err
	}
	for i := uint64(0); len(data) >= 2; i++ {
		size := int(binary.BigEndian.Uint16(data))
		if size > len(data)-2 {
			break
		}
		if i == index%tileWidth {
			return data[2 : 2+size], nil
		}
		data = data[2+size:]
	}
	return nil, fmt.Errorf("loghttp: %s has no whole entry %d: %w", nameOf(bundle), index, ErrSize)
}

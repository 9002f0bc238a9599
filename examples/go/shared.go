// What the programs of this folder share: the entries of a log and what Go makes of them, a key of
// ours, and a folder of tiles.
package main

import (
	"crypto/sha256"
	"encoding/binary"
	"encoding/hex"
	"fmt"
	"log"
	"os"
	"os/exec"
	"path/filepath"
	"strings"

	"golang.org/x/mod/sumdb/tlog"
)

const most = 1030

func check(err error) {
	if err != nil {
		log.Fatal(err)
	}
}

// entry is the entry of an index.
func entry(i int64) []byte {
	return []byte(fmt.Sprintf("entry %d", i))
}

// grown makes the stored hashes of a log of so many entries, and the roots of all logs before it.
func grown(count int64) (tlog.HashReader, []tlog.Hash) {
	var stored []tlog.Hash
	reader := tlog.HashReaderFunc(func(indexes []int64) ([]tlog.Hash, error) {
		var hashes []tlog.Hash
		for _, index := range indexes {
			hashes = append(hashes, stored[index])
		}
		return hashes, nil
	})
	roots := []tlog.Hash{sha256.Sum256(nil)}
	for i := int64(0); i < count; i++ {
		hashes, err := tlog.StoredHashes(i, entry(i), reader)
		check(err)
		stored = append(stored, hashes...)
		root, err := tlog.TreeHash(i+1, reader)
		check(err)
		roots = append(roots, root)
	}
	return reader, roots
}

// digits is the field that stands for some bytes.
func digits(data []byte) string {
	if len(data) == 0 {
		return "-"
	}
	return hex.EncodeToString(data)
}

// signer is a key of ours under a name, in hexadecimal, with its verifying key. What it signs and
// verifies goes to slh_cli, which SLH_PROGRAM names.
type signer struct{ name, set, key, public string }

func (s signer) Name() string { return s.name }

func (s signer) KeyHash() uint32 {
	public, err := hex.DecodeString(s.public)
	check(err)
	sum := sha256.Sum256([]byte(s.name + "\n\xff" + s.set + "\n" + string(public)))
	return binary.BigEndian.Uint32(sum[:4])
}

// job runs a job of slh_cli.
func job(fields ...string) string {
	command := exec.Command(os.Getenv("SLH_PROGRAM"))
	command.Stdin = strings.NewReader(strings.Join(fields, " ") + "\n")
	reply, err := command.Output()
	check(err)
	return strings.TrimSpace(string(reply))
}

func (s signer) Sign(msg []byte) ([]byte, error) {
	reply := job(s.set, "sign", s.key, digits([]byte("slh-log")), digits(msg), "none")
	return hex.DecodeString(strings.TrimPrefix(reply, "sig "))
}

func (s signer) Verify(msg, sig []byte) bool {
	return job(s.set, "verify", s.public, digits([]byte("slh-log")), digits(msg), digits(sig)) == "accepted"
}

// name is a tile's name by C2SP's tlog-tiles, which leaves the height out.
func name(tile tlog.Tile) string {
	return "tile/" + strings.TrimPrefix(tile.Path(), "tile/8/")
}

// folder has tiles, of which one of a request has a bit changed. A reader of Go's that doesn't see it, since
// two runs that end the log share a tile, makes a proof that isn't taken.
type folder struct {
	path string
	bent int64
}

func (f *folder) Height() int { return 8 }

func (f *folder) SaveTiles(tiles []tlog.Tile, data [][]byte) {}

func (f *folder) ReadTiles(tiles []tlog.Tile) ([][]byte, error) {
	var all [][]byte
	for _, tile := range tiles {
		data, err := os.ReadFile(filepath.Join(f.path, name(tile)))
		if err != nil {
			return nil, err
		}
		all = append(all, data)
	}
	if f.bent >= 0 && len(all) > 0 {
		data := all[f.bent%int64(len(all))]
		bit := f.bent % int64(8*len(data))
		data[bit/8] ^= 1 << (bit % 8)
	}
	return all, nil
}

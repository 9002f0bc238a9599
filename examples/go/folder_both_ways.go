// Holds the folder of a log and proofs by `slh log` to Go's golang.org/x/mod/sumdb, which nobody here
// wrote.
//
//	folder_both_ways NAME SET VK FOLDER PROOFS
//	                           opens the checkpoint of a folder, reads its entries and tiles, makes
//	                           each proof of the folder PROOFS again, and takes none of them with a
//	                           bit changed
//
// SLH_PROGRAM names slh_cli, which verifies signatures.
package main

import (
	"bytes"
	"encoding/base64"
	"encoding/binary"
	"fmt"
	"log"
	"os"
	"path/filepath"
	"strings"

	"golang.org/x/mod/sumdb/note"
	"golang.org/x/mod/sumdb/tlog"
)

// headOf is the size and the root of a checkpoint, which has to be one of the signer's.
func headOf(s signer, data []byte) tlog.Tree {
	opened, err := note.Open(data, note.VerifierList(s))
	check(err)
	lines := strings.Split(opened.Text, "\n")
	if len(lines) != 4 || lines[0] != s.name || lines[3] != "" {
		log.Fatalf("another text: %q", opened.Text)
	}
	var tree tlog.Tree
	_, err = fmt.Sscanf(lines[1], "%d", &tree.N)
	check(err)
	root, err := base64.StdEncoding.DecodeString(lines[2])
	check(err)
	copy(tree.Hash[:], root)
	return tree
}

// entriesOf are the entries of the bundles of a log of so many.
func entriesOf(path string, size int64) [][]byte {
	var entries [][]byte
	for n := int64(0); n*256 < size; n++ {
		width := size - n*256
		if width > 256 {
			width = 256
		}
		tile := tlog.Tile{H: 8, L: -1, N: n, W: int(width)}
		data, err := os.ReadFile(filepath.Join(path, "tile/entries", strings.TrimPrefix(tile.Path(), "tile/8/data/")))
		check(err)
		for len(data) > 0 {
			end := 2 + int(binary.BigEndian.Uint16(data))
			entries, data = append(entries, data[2:end]), data[end:]
		}
	}
	return entries
}

// proof is what the text of a proof has.
type proof struct {
	front  string
	number int64
	hashes []tlog.Hash
	head   string
}

func (p proof) text() string {
	text := fmt.Sprintf("%s%d\n", p.front, p.number)
	for _, hash := range p.hashes {
		text += base64.StdEncoding.EncodeToString(hash[:]) + "\n"
	}
	return text + "\n" + p.head
}

const (
	presence = "c2sp.org/tlog-proof@v1\nindex "
	growth   = "old "
)

// made is the proof that Go makes of the same number.
func made(text, head string, tree tlog.Tree, reader tlog.HashReader) proof {
	var err error
	p := proof{front: growth, head: head}
	if strings.HasPrefix(text, presence) {
		p.front = presence
	}
	_, err = fmt.Sscanf(strings.TrimPrefix(text, p.front), "%d\n", &p.number)
	check(err)
	if p.front == presence {
		p.hashes, err = tlog.ProveRecord(tree.N, p.number, reader)
	} else {
		p.hashes, err = tlog.ProveTree(tree.N, p.number, reader)
	}
	check(err)
	return p
}

// taken is what Go's check says of a proof.
func (p proof) taken(tree tlog.Tree, entries [][]byte, roots []tlog.Hash) error {
	if p.front == presence {
		return tlog.CheckRecord(p.hashes, tree.N, tree.Hash, p.number, tlog.RecordHash(entries[p.number]))
	}
	return tlog.CheckTree(p.hashes, tree.N, tree.Hash, p.number, roots[p.number])
}

func main() {
	log.SetFlags(0)
	if len(os.Args) != 6 {
		log.Fatal("usage: folder_both_ways NAME SET VK FOLDER PROOFS")
	}
	s := signer{os.Args[1], os.Args[2], "", os.Args[3]}
	path, proofs := os.Args[4], os.Args[5]
	head, err := os.ReadFile(filepath.Join(path, "checkpoint"))
	check(err)
	tree := headOf(s, head)
	_, roots := grown(tree.N)
	if roots[tree.N] != tree.Hash {
		log.Fatalf("another root of %d entries", tree.N)
	}
	entries := entriesOf(path, tree.N)
	for i, found := range entries {
		if !bytes.Equal(found, entry(int64(i))) {
			log.Fatalf("another entry %d: %q", i, found)
		}
	}
	if int64(len(entries)) != tree.N {
		log.Fatalf("%d entries of %d", len(entries), tree.N)
	}
	reader := tlog.TileHashReader(tree, &folder{path, -1})
	files, err := os.ReadDir(proofs)
	check(err)
	for k, file := range files {
		text, err := os.ReadFile(filepath.Join(proofs, file.Name()))
		check(err)
		p := made(string(text), string(head), tree, reader)
		if p.text() != string(text) {
			log.Fatalf("another proof: %s", file.Name())
		}
		check(p.taken(tree, entries, roots))
		if len(p.hashes) > 0 {
			p.hashes[k%len(p.hashes)][k%32] ^= 1
			if p.taken(tree, entries, roots) == nil {
				log.Fatalf("a proof with a bit changed is taken: %s", file.Name())
			}
		}
	}
	fmt.Printf("%d entries: the checkpoint, the tiles and %d proofs are read by Go\n", tree.N, len(files))
}

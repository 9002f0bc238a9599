// Holds the tiles of rates to Go's golang.org/x/mod/sumdb/tlog, which nobody here wrote.
//
//	tiles_both_ways read FOLDER    puts the tiles of standard input, a name and the bytes on each
//	                               line, in a folder, and proves records and growth of all logs of
//	                               them, with the tiles as they are and with a bit changed
//	tiles_both_ways write FOLDER   puts tiles in a folder, and has rates make proofs of them,
//	                               with the tiles as they are, with a bit changed and without one
//
// RATES_PROGRAM names rates.
package main

import (
	"bufio"
	"encoding/hex"
	"fmt"
	"log"
	"os"
	"os/exec"
	"path/filepath"
	"strings"

	"golang.org/x/mod/sumdb/tlog"
)

// put writes a file below a folder.
func put(folder, name string, data []byte) {
	path := filepath.Join(folder, name)
	check(os.MkdirAll(filepath.Dir(path), 0o777))
	check(os.WriteFile(path, data, 0o666))
}

func readTiles(path string) {
	lines := bufio.NewScanner(os.Stdin)
	lines.Buffer(nil, 1<<16)
	for lines.Scan() {
		fields := strings.Fields(lines.Text())
		data, err := hex.DecodeString(fields[1])
		check(err)
		put(path, fields[0], data)
	}
	check(lines.Err())
	_, roots := grown(most)
	proofs, refused := 0, 0
	for n := int64(1); n <= most; n++ {
		tree := tlog.Tree{N: n, Hash: roots[n]}
		for _, m := range []int64{1, (n + 1) / 2, 7919%n + 1, 104729%n + 1, n} {
			reader := tlog.TileHashReader(tree, &folder{path, -1})
			record, err := tlog.ProveRecord(n, m-1, reader)
			check(err)
			check(tlog.CheckRecord(record, n, roots[n], m-1, tlog.RecordHash(entry(m-1))))
			growth, err := tlog.ProveTree(n, m, reader)
			check(err)
			check(tlog.CheckTree(growth, n, roots[n], m, roots[m]))
			proofs += 2
			bent := &folder{path, n*31 + m}
			other, err := tlog.ProveRecord(n, m-1, tlog.TileHashReader(tree, bent))
			if err == nil {
				err = tlog.CheckRecord(other, n, roots[n], m-1, tlog.RecordHash(entry(m-1)))
			}
			switch {
			case err != nil:
				refused++
			case fmt.Sprint(other) != fmt.Sprint(record):
				log.Fatalf("a bent tile of %d entries is taken", n)
			}
		}
	}
	fmt.Printf("%d proofs of our tiles by Go, %d of bent ones refused\n", proofs, refused)
}

// ours is what rates answers on the growth from m to n entries.
func ours(path string, m, n int64, roots []tlog.Hash) string {
	command := exec.Command(os.Getenv("RATES_PROGRAM"), "prove", path, fmt.Sprint(m),
		hex.EncodeToString(roots[m][:]), fmt.Sprint(n), hex.EncodeToString(roots[n][:]))
	reply, err := command.Output()
	check(err)
	return string(reply)
}

// joined is a proof in hexadecimal.
func joined(proof []tlog.Hash) string {
	text := ""
	for _, hash := range proof {
		text += hex.EncodeToString(hash[:])
	}
	return text
}

// proofsOf holds what rates makes of the tiles of a log to what Go makes.
func proofsOf(path string, n int64, reader tlog.HashReader, roots []tlog.Hash) int {
	made := 0
	for _, m := range []int64{1, (n + 1) / 2, 7919%n + 1, n} {
		record, err := tlog.ProveRecord(n, m-1, reader)
		check(err)
		growth, err := tlog.ProveTree(n, m, reader)
		check(err)
		wanted := fmt.Sprintf("proof %s\nproof %s\n", joined(record), joined(growth))
		if reply := ours(path, m, n, roots); reply != wanted {
			log.Fatalf("another proof from %d to %d: %s", m, n, reply)
		}
		made += 2
	}
	return made
}

// bentOf has rates make the path of the first of n entries with a bit of the first tile changed,
// and without that tile.
func bentOf(path string, n int64, data []byte, roots []tlog.Hash, first string) {
	data[32] ^= 1
	put(path, first, data)
	if reply := ours(path, 1, n, roots); !strings.HasPrefix(reply, "Differs\n") {
		log.Fatalf("a bent tile of %d entries: %s", n, reply)
	}
	check(os.Remove(filepath.Join(path, first)))
	if reply := ours(path, 1, n, roots); !strings.HasPrefix(reply, "Tile(Tile { level: 0, index: 0, ") {
		log.Fatalf("a tile of %d entries that is missing: %s", n, reply)
	}
	data[32] ^= 1
}

func writeTiles(path string) {
	reader, roots := grown(most)
	made, refused := 0, 0
	for n := int64(1); n <= most; n += 1 + n/16 {
		var bytes []byte
		first := ""
		for _, tile := range tlog.NewTiles(8, 0, n) {
			data, err := tlog.ReadTileData(tile, reader)
			check(err)
			put(path, name(tile), data)
			if tile.L == 0 && tile.N == 0 {
				first, bytes = name(tile), data
			}
		}
		made += proofsOf(path, n, reader, roots)
		if n > 1 {
			bentOf(path, n, bytes, roots, first)
			refused += 2
		}
	}
	fmt.Printf("%d proofs of Go's tiles by us, %d of tiles bent or missing refused\n", made, refused)
}

func main() {
	log.SetFlags(0)
	words := append(os.Args[1:], "", "")
	switch words[0] {
	case "read":
		readTiles(words[1])
	case "write":
		writeTiles(words[1])
	default:
		log.Fatal("usage: tiles_both_ways read FOLDER | write FOLDER")
	}
}

package loghttp_test

import (
	"encoding/base64"
	"encoding/binary"
	"fmt"
	"net/http"
	"net/http/httptest"
	"strings"
	"sync"
	"testing"

	"golang.org/x/mod/sumdb/note"
	"golang.org/x/mod/sumdb/tlog"
	"vireoamalgam.example/slhdsa"
)

const origin = "example.org/log"

// A folder is the files of a log, by their names.
type folder map[string][]byte

// stored are the hashes of a tree in the order of tlog.
type stored []tlog.Hash

func (s stored) ReadHashes(indexes []int64) ([]tlog.Hash, error) {
	var hashes []tlog.Hash
	for _, index := range indexes {
		hashes = append(hashes, s[index])
	}
	return hashes, nil
}

func must[T any](value T, err error) T {
	if err != nil {
		panic(err)
	}
	return value
}

// newKey makes a key for a log.
func newKey() *slhdsa.PrivateKey { return must(slhdsa.GenerateKey(slhdsa.SHA2_128f, nil)) }

// lines are so many entries that begin with a word.
func lines(word string, count int) (entries []string) {
	for i := 0; i < count; i++ {
		entries = append(entries, fmt.Sprintf("%s %d", word, i))
	}
	return entries
}

// folderOf makes the folder of a log: its tree by tlog, its checkpoint by note.
func folderOf(key *slhdsa.PrivateKey, entries []string) folder {
	var hashes stored
	files := make(folder)
	for i, entry := range entries {
		hashes = append(hashes, must(tlog.StoredHashes(int64(i), []byte(entry), hashes))...)
		full := tlog.Tile{H: 8, L: -1, N: int64(i / 256), W: 256}
		bundle := files[nameOf(full)]
		bundle = binary.BigEndian.AppendUint16(bundle, uint16(len(entry)))
		files[nameOf(full)] = append(bundle, entry...)
	}
	if rest := len(entries) % 256; rest != 0 {
		full := tlog.Tile{H: 8, L: -1, N: int64(len(entries) / 256), W: 256}
		part := full
		part.W = rest
		files[nameOf(part)] = files[nameOf(full)]
		delete(files, nameOf(full))
	}
	size := int64(len(entries))
	for _, tile := range tlog.NewTiles(8, 0, size) {
		// of tiles that aren't full a log has those of its own size alone
		if tile.W == 256 || int64(tile.W) == size>>(8*tile.L)-tile.N<<8 {
			files[nameOf(tile)] = must(tlog.ReadTileData(tile, hashes))
		}
	}
	files["checkpoint"] = checkpointOf(key, size, must(tlog.TreeHash(size, hashes)))
	return files
}

func checkpointOf(key *slhdsa.PrivateKey, size int64, root tlog.Hash) []byte {
	text := fmt.Sprintf("%s\n%d\n%s\n", origin, size, base64.StdEncoding.EncodeToString(root[:]))
	return must(note.Sign(&note.Note{Text: text}, must(slhdsa.NewNoteSigner(origin, key))))
}

// nameOf is a tile's name by C2SP's tlog-tiles.
func nameOf(tile tlog.Tile) string {
	name := strings.Replace(tile.Path(), "tile/8/", "tile/", 1)
	return strings.Replace(name, "tile/data/", "tile/entries/", 1)
}

// A server serves a folder, which may be exchanged, and counts what it is asked for.
type server struct {
	*httptest.Server
	mutex sync.Mutex
	files folder
	asked []string
}

func serve(t testing.TB, files folder) *server {
	s := &server{files: files}
	s.Server = httptest.NewServer(s)
	t.Cleanup(s.Close)
	return s
}

func (s *server) ServeHTTP(w http.ResponseWriter, r *http.Request) {
	s.mutex.Lock()
	defer s.mutex.Unlock()
	name := strings.TrimPrefix(r.URL.Path, "/")
	s.asked = append(s.asked, name)
	data, ok := s.files[name]
	if !ok {
		http.NotFound(w, r)
		return
	}
	w.Write(data)
}

func (s *server) exchange(files folder) {
	s.mutex.Lock()
	defer s.mutex.Unlock()
	s.files, s.asked = files, nil
}

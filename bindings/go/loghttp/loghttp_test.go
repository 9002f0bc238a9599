package loghttp_test

import (
	"bytes"
	"context"
	"errors"
	"fmt"
	"strings"
	"testing"

	"golang.org/x/mod/sumdb/tlog"
	"vireoamalgam.example/slhdsa"
	"vireoamalgam.example/slhdsa/loghttp"
)

var background = context.Background()

func TestLogsOfManySizes(t *testing.T) {
	key, entries := newKey(), lines("entry", 70000)
	var kept []loghttp.Head
	served := serve(t, nil)
	log := loghttp.New(served.URL+"/", origin, key.PublicKey(), nil)
	for _, size := range []int{0, 1, 2, 3, 255, 256, 257, 511, 512, 700, 65536, 70000} {
		served.exchange(folderOf(key, entries[:size]))
		head, err := log.Head(background)
		if err != nil || head.Size != uint64(size) {
			t.Fatalf("%d entries: %d, %v", size, head.Size, err)
		}
		kept = append(kept, head)
		for _, older := range kept {
			if err := log.CheckGrowth(background, older, head); err != nil {
				t.Errorf("from %d to %d: %v", older.Size, size, err)
			}
		}
		for _, i := range []int{0, size / 2, size - 1} {
			if size == 0 {
				break
			}
			if entry, err := log.Entry(background, head, uint64(i)); err != nil || string(entry) != entries[i] {
				t.Errorf("%d of %d: %q, %v", i, size, entry, err)
			}
			err := log.CheckPresence(background, head, uint64(i), []byte("another one"))
			if !errors.Is(err, slhdsa.ErrInvalid) {
				t.Errorf("another entry than %d of %d: %v", i, size, err)
			}
		}
		if _, err := log.Entry(background, head, uint64(size)); !errors.Is(err, slhdsa.ErrNoEntry) {
			t.Errorf("%d of %d: %v", size, size, err)
		}
	}
}

// A reader that opened a checkpoint before the log grew finds full tiles and bundles in place of those
// that it asks for. A log keeps a tile that isn't full as long as there is no full one.
func TestALogThatGrewMeanwhile(t *testing.T) {
	key, entries := newKey(), lines("entry", 600)
	served := serve(t, folderOf(key, entries[:300]))
	log := loghttp.New(served.URL, origin, key.PublicKey(), nil)
	head := must(log.Head(background))
	grown := folderOf(key, entries)
	grown["tile/1/000.p/1"] = served.files["tile/1/000.p/1"]
	served.exchange(grown)
	for _, i := range []uint64{0, 255, 256, 299} {
		if entry, err := log.Entry(background, head, i); err != nil || string(entry) != entries[i] {
			t.Errorf("%d: %q, %v", i, entry, err)
		}
	}
	asked := strings.Join(served.asked, " ")
	for _, name := range []string{"tile/0/001.p/44 tile/0/001", "tile/entries/001.p/44 tile/entries/001"} {
		if !strings.Contains(asked, name) {
			t.Errorf("asked for %s", asked)
		}
	}
}

func TestALogThatForgets(t *testing.T) {
	key, entries := newKey(), lines("entry", 600)
	served := serve(t, folderOf(key, entries[:300]))
	log := loghttp.New(served.URL, origin, key.PublicKey(), nil)
	older := must(log.Head(background))
	changed := append([]string(nil), entries...)
	changed[17] = "another one"
	tests := []struct {
		name    string
		entries []string
		want    error
	}{
		{"an entry exchanged", changed, slhdsa.ErrInvalid},
		{"an entry exchanged, and none more", changed[:300], slhdsa.ErrInvalid},
		{"an entry less", entries[:299], slhdsa.ErrSmallerLog},
		{"no entries", nil, slhdsa.ErrSmallerLog},
	}
	for _, test := range tests {
		served.exchange(folderOf(key, test.entries))
		later := must(log.Head(background))
		if err := log.CheckGrowth(background, older, later); !errors.Is(err, test.want) {
			t.Errorf("%s: %v", test.name, err)
		}
	}
}

// Each file with its first, a middle or its last byte changed, with one less and one more, and gone: no
// entry but the true one is handed out, and nothing is shown of another one.
func TestFilesThatAreBent(t *testing.T) {
	key, entries := newKey(), lines("entry", 700)
	whole := folderOf(key, entries)
	served := serve(t, whole)
	log := loghttp.New(served.URL, origin, key.PublicKey(), nil)
	head, older := must(log.Head(background)), 300
	first := must(log.Open(folderOf(key, entries[:older])["checkpoint"]))
	refused := 0
	for name, data := range whole {
		if name == "checkpoint" {
			continue
		}
		others := map[string][]byte{
			"cut": data[:len(data)-1], "longer": append(data[:len(data):len(data)], 0), "gone": nil,
		}
		for _, at := range []int{0, len(data) / 2, len(data) - 1} {
			other := append([]byte(nil), data...)
			other[at] ^= 1
			others[fmt.Sprint("byte ", at)] = other
		}
		for what, other := range others {
			files := make(folder)
			for each, data := range whole {
				files[each] = data
			}
			if files[name] = other; other == nil {
				delete(files, name)
			}
			served.exchange(files)
			for _, i := range []int{0, 17, 255, 256, 511, 512, 699} { // among them the last of each bundle
				entry, err := log.Entry(background, head, uint64(i))
				if err == nil && string(entry) != entries[i] {
					t.Errorf("%s, %s: entry %d is %q", name, what, i, entry)
				}
				if err != nil {
					refused++
				}
				if err := log.CheckPresence(background, head, uint64(i), []byte("other")); err == nil {
					t.Errorf("%s, %s: another entry %d", name, what, i)
				}
			}
			if err := log.CheckGrowth(background, first, head); err != nil {
				refused++
			}
		}
	}
	if refused == 0 {
		t.Error("nothing was refused")
	}
}

func TestCheckpointsThatAreBent(t *testing.T) {
	key := newKey()
	good := folderOf(key, lines("entry", 5))["checkpoint"]
	tooLarge := checkpointOf(key, 1<<61, tlog.Hash{})
	tests := []struct {
		name       string
		checkpoint []byte
		want       error
	}{
		{"another size", bytes.Replace(good, []byte("\n5\n"), []byte("\n6\n"), 1), slhdsa.ErrInvalid},
		{"another key", folderOf(newKey(), nil)["checkpoint"], slhdsa.ErrUnsigned},
		{"another origin", bytes.ReplaceAll(good, []byte(origin), []byte("example.org/cat")), slhdsa.ErrOrigin},
		{"no text", []byte("<html>"), slhdsa.ErrForm},
		{"too many entries", tooLarge, loghttp.ErrTooLarge},
		{"too long", bytes.Repeat([]byte{'\n'}, 1<<20+1), loghttp.ErrSize},
	}
	for _, test := range tests {
		served := serve(t, folder{"checkpoint": test.checkpoint})
		_, err := loghttp.New(served.URL, origin, key.PublicKey(), nil).Head(background)
		if !errors.Is(err, test.want) {
			t.Errorf("%s: %v", test.name, err)
		}
	}
	served := serve(t, nil)
	log := loghttp.New(served.URL, origin, key.PublicKey(), nil)
	if _, err := log.Head(background); !errors.Is(err, loghttp.ErrStatus) || !strings.Contains(err.Error(), "404") {
		t.Errorf("none: %v", err)
	}
	served.Close()
	if _, err := log.Head(background); err == nil {
		t.Error("a server that is gone")
	}
	ended, cancel := context.WithCancel(background)
	cancel()
	if _, err := log.Head(ended); !errors.Is(err, context.Canceled) {
		t.Errorf("a call that is ended: %v", err)
	}
}

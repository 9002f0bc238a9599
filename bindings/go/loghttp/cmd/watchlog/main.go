// Watchlog reads a log from a web server, and tells whether it is as it should be.
//
//	watchlog --key log.pub --origin NAME --state FILE URL
//	watchlog --key log.pub --origin NAME [--state FILE] --index N --entry FILE URL
//
// The state is the last checkpoint that was seen: the log has to have grown from it, and it is replaced
// then. Where there is none yet, the first one is believed and kept. With an index the entry there has
// to be the file. The status is 0 where all is shown, 1 where something isn't, and 2 where it can't be
// told: a server that doesn't answer, tiles that don't fit the checkpoint, a checkpoint of another log.
package main

import (
	"context"
	"encoding/pem"
	"errors"
	"flag"
	"fmt"
	"io"
	"net/http"
	"os"
	"path/filepath"
	"time"

	"vireoamalgam.example/slhdsa"
	"vireoamalgam.example/slhdsa/loghttp"
)

const (
	shown = iota
	notShown
	untold
)

// wait is how long all of a run may take.
const wait = time.Minute

type settings struct {
	key, origin, state, entry, url string
	index                          int64
}

func main() { os.Exit(run(os.Args[1:], os.Stdout, os.Stderr)) }

// run is the program without its process.
func run(args []string, out, complaints io.Writer) int {
	s, err := read(args, complaints)
	if err != nil {
		fmt.Fprintln(complaints, "watchlog:", err)
		return untold
	}
	if err := watch(s, out); err != nil {
		fmt.Fprintln(complaints, "watchlog:", err)
		if errors.Is(err, slhdsa.ErrInvalid) || errors.Is(err, slhdsa.ErrSmallerLog) {
			return notShown
		}
		return untold
	}
	return shown
}

func read(args []string, complaints io.Writer) (settings, error) {
	var s settings
	flags := flag.NewFlagSet("watchlog", flag.ContinueOnError)
	flags.SetOutput(complaints)
	flags.StringVar(&s.key, "key", "", "the log's public key, in PEM")
	flags.StringVar(&s.origin, "origin", "", "the log's origin")
	flags.StringVar(&s.state, "state", "", "the last checkpoint that was seen")
	flags.Int64Var(&s.index, "index", -1, "the index of an entry, from 0 on")
	flags.StringVar(&s.entry, "entry", "", "the file that the entry has to be")
	if err := flags.Parse(args); err != nil {
		return s, err
	}
	s.url = flags.Arg(0)
	if flags.NArg() != 1 || s.key == "" || s.origin == "" || (s.index < 0) != (s.entry == "") ||
		s.state == "" && s.entry == "" {
		return s, errors.New("usage: --key FILE --origin NAME [--state FILE] [--index N --entry FILE] URL")
	}
	return s, nil
}

func watch(s settings, out io.Writer) error {
	key, err := readKey(s.key)
	if err != nil {
		return err
	}
	ctx, cancel := context.WithTimeout(context.Background(), wait)
	defer cancel()
	log := loghttp.New(s.url, s.origin, key, new(http.Client))
	head, err := log.Head(ctx)
	if err != nil {
		return err
	}
	fmt.Fprintf(out, "%d entries\n", head.Size)
	if s.state != "" {
		if err := follow(ctx, log, head, s.state, out); err != nil {
			return err
		}
	}
	if s.entry == "" {
		return nil
	}
	entry, err := os.ReadFile(s.entry)
	if err != nil {
		return err
	}
	if err := log.CheckPresence(ctx, head, uint64(s.index), entry); err != nil {
		return fmt.Errorf("entry %d: %w", s.index, err)
	}
	fmt.Fprintf(out, "entry %d is %s\n", s.index, s.entry)
	return nil
}

// readKey reads a public key in PEM.
func readKey(name string) (*slhdsa.PublicKey, error) {
	text, err := os.ReadFile(name)
	if err != nil {
		return nil, err
	}
	block, _ := pem.Decode(text)
	if block == nil || block.Type != "PUBLIC KEY" {
		return nil, fmt.Errorf("%s has no public key in PEM", name)
	}
	return slhdsa.ParsePKIXPublicKey(block.Bytes)
}

// follow checks that the log grew from the checkpoint that was kept, and keeps the new one.
func follow(ctx context.Context, log *loghttp.Log, head loghttp.Head, state string, out io.Writer) error {
	kept, err := os.ReadFile(state)
	switch {
	case errors.Is(err, os.ErrNotExist):
		fmt.Fprintln(out, "the first checkpoint that is kept")
	case err != nil:
		return err
	default:
		older, err := log.Open(kept)
		if err != nil {
			return fmt.Errorf("%s: %w", state, err)
		}
		if err := log.CheckGrowth(ctx, older, head); err != nil {
			return fmt.Errorf("from %d to %d entries: %w", older.Size, head.Size, err)
		}
		fmt.Fprintf(out, "grew from %d\n", older.Size)
	}
	return replace(state, head.Checkpoint)
}

// replace writes a file at once: a run that is cut off leaves the old one.
func replace(name string, data []byte) error {
	file, err := os.CreateTemp(filepath.Dir(name), filepath.Base(name))
	if err != nil {
		return err
	}
	defer os.Remove(file.Name())
	_, err = file.Write(data)
	if err == nil {
		err = file.Sync()
	}
	if closed := file.Close(); err == nil {
		err = closed
	}
	if err != nil {
		return err
	}
	return os.Rename(file.Name(), name)
}

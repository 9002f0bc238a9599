package main

import (
	"bytes"
	"strings"
	"testing"
)

func TestUsagesThatAreNone(t *testing.T) {
	for _, args := range []string{
		"",
		"http://127.0.0.1",
		"--key k --origin o http://127.0.0.1",
		"--key k --origin o --state s",
		"--key k --state s http://127.0.0.1",
		"--origin o --state s http://127.0.0.1",
		"--key k --origin o --index 1 http://127.0.0.1",
		"--key k --origin o --entry e http://127.0.0.1",
		"--key k --origin o --state s http://127.0.0.1 another",
		"--other",
	} {
		var out, complaints bytes.Buffer
		if status := run(strings.Fields(args), &out, &complaints); status != untold {
			t.Errorf("%q: status %d", args, status)
		}
		if out.Len() != 0 || complaints.Len() == 0 {
			t.Errorf("%q: %s, and %s", args, &out, &complaints)
		}
	}
}

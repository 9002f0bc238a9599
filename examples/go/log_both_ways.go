// Holds slh_log_cli to Go's golang.org/x/mod/sumdb, which nobody here wrote.
//
//	log_both_ways proofs       lines on five paths and five proofs of each log of 1 to 1,030
//	                           entries, whose roots, paths and proofs Go made, right and with a
//	                           bit changed, and behind a tab what each is to be answered
//	log_both_ways note NAME SET KEY
//	                           a checkpoint that Go puts together, signed by slh_cli
//	log_both_ways open NAME SET VK FILE
//	                           opens a checkpoint of ours, whose signature slh_cli verifies
//
// SLH_PROGRAM names slh_cli.
package main

import (
	"bufio"
	"bytes"
	"encoding/base64"
	"fmt"
	"log"
	"os"
	"strings"

	"golang.org/x/mod/sumdb/note"
	"golang.org/x/mod/sumdb/tlog"
)

// lines writes a line with these fields of a proof, and one with a bit of the proof changed.
func lines(out *bufio.Writer, answer string, front []string, proof []tlog.Hash, bit int64) {
	put := func(answer string) {
		fields := append([]string{}, front...)
		for _, hash := range proof {
			fields = append(fields, digits(hash[:]))
		}
		fmt.Fprintf(out, "%s\t%s\n", strings.Join(fields, " "), answer)
	}
	put(answer)
	if len(proof) > 0 {
		bit %= int64(len(proof)) * 256
		proof[bit/256][bit%256/8] ^= 1 << (bit % 8)
		put("error invalid")
	}
}

func proofs() {
	out := bufio.NewWriter(os.Stdout)
	defer out.Flush()
	reader, roots := grown(most)
	for n := int64(1); n <= most; n++ {
		for _, i := range []int64{0, n / 2, 7919 % n, 104729 % n, n - 1} {
			path, err := tlog.ProveRecord(n, i, reader)
			check(err)
			front := []string{"presence", fmt.Sprint(n), digits(roots[n][:]), fmt.Sprint(i), digits(entry(i))}
			lines(out, "present", front, path, n*31+i)
		}
		for _, m := range []int64{1, (n + 1) / 2, 7919%n + 1, 104729%n + 1, n} {
			proof, err := tlog.ProveTree(n, m, reader)
			check(err)
			front := []string{"growth", fmt.Sprint(m), digits(roots[m][:]), fmt.Sprint(n), digits(roots[n][:])}
			lines(out, "grown", front, proof, n*31+m)
		}
	}
}

func signed(s signer) {
	_, roots := grown(7)
	text := fmt.Sprintf("%s\n7\n%s\n", s.name, base64.StdEncoding.EncodeToString(roots[7][:]))
	signed, err := note.Sign(&note.Note{Text: text}, s)
	check(err)
	os.Stdout.Write(signed)
}

func open(s signer, file string) {
	data, err := os.ReadFile(file)
	check(err)
	opened, err := note.Open(data, note.VerifierList(s))
	check(err)
	if !bytes.HasPrefix([]byte(opened.Text), []byte(s.name+"\n")) {
		log.Fatal("another origin")
	}
	fmt.Print(opened.Text)
}

func main() {
	log.SetFlags(0)
	words := append(os.Args[1:], "", "", "", "", "")
	name, set, key := words[1], words[2], words[3]
	switch words[0] {
	case "proofs":
		proofs()
	case "note":
		signed(signer{name, set, key, key[len(key)/2:]})
	case "open":
		open(signer{name, set, "", key}, words[4])
	default:
		log.Fatal("usage: log_both_ways proofs | note NAME SET KEY | open NAME SET VK FILE")
	}
}

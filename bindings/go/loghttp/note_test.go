package loghttp_test

import (
	"testing"

	"golang.org/x/mod/sumdb/note"
	"vireoamalgam.example/slhdsa"
)

var (
	_ note.Signer   = (*slhdsa.NoteSigner)(nil)
	_ note.Verifier = (*slhdsa.NoteVerifier)(nil)
)

func TestNotesOfEachSet(t *testing.T) {
	for _, set := range slhdsa.Sets() {
		set := set
		t.Run(set.String(), func(t *testing.T) {
			t.Parallel()
			if testing.Short() && set%2 == 1 {
				t.Skip("signing takes long")
			}
			signer := must(slhdsa.NewNoteSigner(origin, must(slhdsa.GenerateKey(set, nil))))
			known := note.VerifierList(signer.Verifier())
			signed := must(note.Sign(&note.Note{Text: "a text\n"}, signer))
			opened, err := note.Open(signed, known)
			if err != nil || opened.Text != "a text\n" || len(opened.Sigs) != 1 {
				t.Errorf("%v, %v", opened, err)
			}
			if opened.Sigs[0].Name != origin || opened.Sigs[0].Hash != signer.KeyHash() {
				t.Errorf("%v", opened.Sigs[0])
			}
			for _, at := range []int{0, len(signed) - 9} {
				other := append([]byte(nil), signed...)
				other[at] ^= 2
				if _, err := note.Open(other, known); err == nil {
					t.Errorf("opened with byte %d changed", at)
				}
			}
			for _, cut := range []int{1, 2, 5, 100, len(signed) / 2, len(signed) - 3} {
				if _, err := note.Open(signed[:len(signed)-cut], known); err == nil {
					t.Errorf("opened without its last %d bytes", cut)
				}
			}
			other := must(slhdsa.NewNoteSigner("example.org/other", must(slhdsa.GenerateKey(set, nil))))
			if _, err := note.Open(signed, note.VerifierList(other.Verifier())); err == nil {
				t.Error("opened by another key")
			}
		})
	}
}

// A note may have a signature of this kind and one of Go's own kind.
func TestTwoKindsOfKeys(t *testing.T) {
	private, public, err := note.GenerateKey(nil, "example.org/witness")
	if err != nil {
		t.Fatal(err)
	}
	signer := must(slhdsa.NewNoteSigner(origin, newKey()))
	signed := must(note.Sign(&note.Note{Text: "a text\n"}, signer, must(note.NewSigner(private))))
	opened, err := note.Open(signed, note.VerifierList(signer.Verifier(), must(note.NewVerifier(public))))
	if err != nil || len(opened.Sigs) != 2 {
		t.Errorf("%v, %v", opened, err)
	}
}

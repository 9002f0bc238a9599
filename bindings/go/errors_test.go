package slhdsa_test

import (
	"errors"
	"os"
	"regexp"
	"strconv"
	"testing"

	"vireoamalgam.example/slhdsa"
)

const headers = "../../crates/slh_dsa_c/include/"

// statuses are the constants of this package by the names that the header has.
var statuses = map[string]slhdsa.Error{
	"INVALID":           slhdsa.ErrInvalid,
	"FOREIGN":           slhdsa.ErrForeign,
	"NOT_SHOWN":         slhdsa.ErrNotShown,
	"KEY_MISMATCH":      slhdsa.ErrKeyMismatch,
	"LENGTH":            slhdsa.ErrLength,
	"CONTEXT_TOO_LONG":  slhdsa.ErrContextTooLong,
	"RANDOMIZER_LENGTH": slhdsa.ErrRandomizerLength,
	"MESSAGE_TOO_LONG":  slhdsa.ErrMessageTooLong,
	"UNKNOWN_SET":       slhdsa.ErrUnknownSet,
	"UNKNOWN_MODE":      slhdsa.ErrUnknownMode,
	"UNKNOWN_EVIDENCE":  slhdsa.ErrUnknownEvidence,
	"STATE":             slhdsa.ErrState,
	"FORM":              slhdsa.ErrForm,
	"BUDGET":            slhdsa.ErrBudget,
	"NO_ENTRY":          slhdsa.ErrNoEntry,
	"ORIGIN":            slhdsa.ErrOrigin,
	"UNSIGNED":          slhdsa.ErrUnsigned,
	"EMPTY":             slhdsa.ErrEmptyLog,
	"SMALLER":           slhdsa.ErrSmallerLog,
	"CHANGED":           slhdsa.ErrChanged,
}

// found are the groups of all matches in a header.
func found(t *testing.T, header, pattern string) [][]string {
	t.Helper()
	text, err := os.ReadFile(headers + header)
	if err != nil {
		t.Fatal(err)
	}
	return regexp.MustCompile(pattern).FindAllStringSubmatch(string(text), -1)
}

func TestEachStatusOfTheHeaderHasItsError(t *testing.T) {
	enum := found(t, "slh_dsa.h", `(?s)enum slh_dsa_statuses \{(.*?)\};`)[0][1]
	rows := regexp.MustCompile(`SLH_DSA_(\w+) = (\d+)`).FindAllStringSubmatch(enum, -1)
	if len(rows) != len(statuses)+1 {
		t.Errorf("%d statuses in the header, %d errors", len(rows), len(statuses))
	}
	for _, row := range rows {
		number, err := strconv.Atoi(row[2])
		if err != nil {
			t.Fatal(err)
		}
		if row[1] != "OK" && statuses[row[1]] != slhdsa.Error(number) {
			t.Errorf("SLH_DSA_%s is %d, and %d here", row[1], number, statuses[row[1]])
		}
	}
}

func TestTextsAreThoseOfTheHeader(t *testing.T) {
	looked := 0
	for _, row := range found(t, "slh_dsa_inline.h", `case SLH_DSA_(\w+): return "([^"]+)"`) {
		if err, ok := statuses[row[1]]; ok {
			looked++
			if err.Error() != row[2] {
				t.Errorf("%s: %q", row[1], err)
			}
		}
	}
	if looked != len(statuses) {
		t.Errorf("%d texts", looked)
	}
}

func TestErrorsAreWrapped(t *testing.T) {
	_, err := slhdsa.NewPublicKey(slhdsa.SHA2_128f, nil)
	if !errors.Is(err, slhdsa.ErrLength) || errors.Is(err, slhdsa.ErrInvalid) {
		t.Errorf("another error: %v", err)
	}
	var cause slhdsa.Error
	if !errors.As(err, &cause) || cause != slhdsa.ErrLength {
		t.Errorf("another cause: %v", cause)
	}
	const text = "slhdsa: read a public key: "
	if err.Error() != text+slhdsa.ErrLength.Error() {
		t.Errorf("another text: %q", err)
	}
}

package slhdsa

// #include <slh_dsa.h>
import "C"

import (
	"encoding/asn1"
	"fmt"
)

// A Set is a parameter set (FIPS 205, section 11), by its number in slh_dsa.h.
type Set uint32

// The parameter sets over SHA-2. Those that end in s have small signatures, which take long to make;
// those that end in f are made faster, and larger.
const (
	SHA2_128s Set = C.SLH_DSA_SHA2_128S
	SHA2_128f Set = C.SLH_DSA_SHA2_128F
	SHA2_192s Set = C.SLH_DSA_SHA2_192S
	SHA2_192f Set = C.SLH_DSA_SHA2_192F
	SHA2_256s Set = C.SLH_DSA_SHA2_256S
	SHA2_256f Set = C.SLH_DSA_SHA2_256F
)

// Sets are all parameter sets.
func Sets() []Set {
	return []Set{SHA2_128s, SHA2_128f, SHA2_192s, SHA2_192f, SHA2_256s, SHA2_256f}
}

// ParseSet is the set of a name of the standard, as SLH-DSA-SHA2-128s. The error is ErrUnknownSet.
func ParseSet(name string) (Set, error) {
	for _, set := range Sets() {
		if set.String() == name {
			return set, nil
		}
	}
	return 0, refused(fmt.Sprintf("set %q", name), ErrUnknownSet)
}

// String is the set's name in the standard.
func (s Set) String() string {
	if name := setName(s); name != "" {
		return name
	}
	return fmt.Sprintf("Set(%d)", uint32(s))
}

// PrivateKeySize is the bytes of a private key, 0 where there is no such set.
func (s Set) PrivateKeySize() int { return privateSize(s) }

// PublicKeySize is the bytes of a public key, 0 where there is no such set.
func (s Set) PublicKeySize() int { return publicSize(s) }

// SignatureSize is the bytes of a signature, 0 where there is no such set.
func (s Set) SignatureSize() int { return signatureSize(s) }

// firstArc is the last arc of the first set's identifier; the others follow it.
const firstArc = 20

// OID is the object identifier of keys and of signatures as they are (RFC 9909), nil where there is
// no such set.
func (s Set) OID() asn1.ObjectIdentifier {
	if setName(s) == "" {
		return nil
	}
	return asn1.ObjectIdentifier{2, 16, 840, 1, 101, 3, 4, 3, firstArc + int(s-SHA2_128s)}
}

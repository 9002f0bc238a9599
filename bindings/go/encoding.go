package slhdsa

import (
	"bytes"
	"encoding/asn1"
	"runtime"
)

// Keys in DER have one encoding for each set, a head and the key's bytes behind it, and no other one
// is read.

const (
	tagBitString   = 0x03
	tagOctetString = 0x04
	tagSequence    = 0x30
)

// headOf is what stands before so many bytes in an element of DER.
func headOf(tag byte, size int) []byte {
	if size < 0x80 {
		return []byte{tag, byte(size)}
	}
	return []byte{tag, 0x81, byte(size)}
}

// algorithmOf is an AlgorithmIdentifier without parameters.
func algorithmOf(set Set) ([]byte, error) {
	oid, err := asn1.Marshal(set.OID())
	if err != nil {
		return nil, refused("encode a key", ErrUnknownSet)
	}
	return append(headOf(tagSequence, len(oid)), oid...), nil
}

// privateHead is what a key has before it in PKCS #8: version 0, the algorithm, and the head of an
// octet string (RFC 9909).
func privateHead(set Set) ([]byte, error) {
	algorithm, err := algorithmOf(set)
	if err != nil {
		return nil, err
	}
	front := append([]byte{0x02, 0x01, 0x00}, algorithm...)
	front = append(front, headOf(tagOctetString, privateSize(set))...)
	return append(headOf(tagSequence, len(front)+privateSize(set)), front...), nil
}

// publicHead is what a key has before it in PKIX: the algorithm, and the head of a bit string.
func publicHead(set Set) ([]byte, error) {
	algorithm, err := algorithmOf(set)
	if err != nil {
		return nil, err
	}
	front := append(algorithm, headOf(tagBitString, publicSize(set)+1)...)
	front = append(front, 0) // no bit of the last byte is unused
	return append(headOf(tagSequence, len(front)+publicSize(set)), front...), nil
}

// split is the set and the bytes of a key in DER.
func split(der []byte, head func(Set) ([]byte, error), size func(Set) int) (Set, []byte, bool) {
	for _, set := range Sets() {
		front, err := head(set)
		if err == nil && bytes.HasPrefix(der, front) && len(der) == len(front)+size(set) {
			return set, der[len(front):], true
		}
	}
	return 0, nil, false
}

// MarshalPKCS8PrivateKey is a key in PKCS #8, DER, which nobody clears. In PEM its type is PRIVATE KEY.
// The error is ErrUnknownSet or, of a key that was cleared, ErrLength.
func MarshalPKCS8PrivateKey(key *PrivateKey) ([]byte, error) {
	defer runtime.KeepAlive(key.secret)
	head, err := privateHead(key.public.set)
	if err != nil {
		return nil, err
	}
	size := privateSize(key.public.set)
	if len(key.secret.read()) != size {
		return nil, refused("encode a key", ErrLength)
	}
	der := make([]byte, 0, len(head)+size) // so that no copy is left behind
	der = append(der, head...)
	return append(der, key.secret.read()...), nil
}

// ParsePKCS8PrivateKey reads a key in PKCS #8, DER, without attributes and without an encryption. Its
// root is not looked at. The error is ErrForm.
func ParsePKCS8PrivateKey(der []byte) (*PrivateKey, error) {
	set, key, ok := split(der, privateHead, privateSize)
	if !ok {
		return nil, refused("read a private key", ErrForm)
	}
	return NewPrivateKey(set, key)
}

// MarshalPKIXPublicKey is a key as a SubjectPublicKeyInfo, DER. In PEM its type is PUBLIC KEY. The
// error is ErrUnknownSet.
func MarshalPKIXPublicKey(key *PublicKey) ([]byte, error) {
	head, err := publicHead(key.set)
	if err != nil {
		return nil, err
	}
	return append(head, key.bytes...), nil
}

// ParsePKIXPublicKey reads a key as a SubjectPublicKeyInfo, DER. The error is ErrForm.
func ParsePKIXPublicKey(der []byte) (*PublicKey, error) {
	set, key, ok := split(der, publicHead, publicSize)
	if !ok {
		return nil, refused("read a public key", ErrForm)
	}
	return NewPublicKey(set, key)
}

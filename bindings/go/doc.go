// Package slhdsa is SLH-DSA (FIPS 205) over SHA-2, by the calls of a verified library for C.
//
// A [PrivateKey] is a [crypto.Signer]. Without options it signs a message as it is, with the hash
// function [crypto.SHA256] or [crypto.SHA512] the digest that it is given, and [Options] have a
// context besides. Messages that are not in memory are read in pieces ([PrivateKey.SignReader],
// [PublicKey.VerifyReader], [Verifier]). A [NoteSigner] and a [NoteVerifier] are what
// golang.org/x/mod/sumdb/note takes for the checkpoints of a log, and [OpenCheckpoint] opens them by
// the library. Keys are written and read in PKCS #8 and PKIX, as OpenSSL 3.5 has them.
//
// What the library proves is proved of the calls in C. This package hands their arguments over, and
// is tested and not proved.
//
// # Building
//
// It is built with cgo. The library is linked as pkg-config tells of slh_dsa; PKG_CONFIG_PATH names
// the folder of its slh_dsa.pc, if that isn't installed. With the build tag slhdsa_archive the
// archive libslh_dsa.a is linked instead, CGO_CFLAGS="-I FOLDER" and CGO_LDFLAGS="-L FOLDER" say
// where it is, and the program needs no shared object. A library of another version stops the build.
//
// # Errors
//
// Each refusal is an [Error] inside of an error that names the call: test for it by [errors.Is]. An
// error of a reader, of messages or of random bytes, is passed on as it is. There is no verdict
// beside the error: nil is the one that accepts.
//
// # Secrets
//
// The library is not constant-time. It clears the stack that its calls took. What the package
// allocates for a key, for its seeds, for random bytes and for signing in pieces is written
// over with zeros: a key when nobody refers to it any more or by [PrivateKey.Clear], the others when
// the call ends. What a caller copies isn't ([PrivateKey.Bytes], [MarshalPKCS8PrivateKey]).
//
// # Goroutines
//
// Keys may be used by any number of goroutines at once, and calls share nothing. A [Verifier] is for
// one at a time. A call holds its thread until it ends, and takes at most 68 kB of its stack.
package slhdsa

package slhdsa

/*
#include <slh_dsa_inline.h>

#if SLH_DSA_VERSION_NUMBER / 1000 != 21
#error "the library for C is of another version than this package, which is for 0.21"
#endif
*/
import "C"

import (
	"fmt"
	"runtime"
	"unsafe"
)

// This file has all calls of the library. They get addresses for as long as they run, and what they
// are given has no pointers in it.

// The states of messages in pieces, and what a checkpoint says: numbers alone.
type (
	verifierState = C.slh_dsa_verifier
	signerState   = C.slh_dsa_signer
)

// A job is what signing and verifying have in common.
type job struct {
	set     Set
	mode    mode
	context []byte
}

// at is the address of a slice's bytes, nil where it has none, and how many there are. The forms of
// the calls whose names end in _nullable take that.
func at(b []byte) (*C.uint8_t, C.size_t) {
	if len(b) == 0 {
		return nil, 0
	}
	return (*C.uint8_t)(unsafe.Pointer(&b[0])), C.size_t(len(b))
}

// done is the error that a status stands for.
func done(call string, status C.slh_dsa_status) error {
	if status == C.SLH_DSA_OK {
		return nil
	}
	return refused(call, Error(status))
}

func refused(call string, err Error) error {
	return fmt.Errorf("slhdsa: %s: %w", call, err)
}

func statusText(status Error) string {
	return C.GoString(C.slh_dsa_status_text(C.slh_dsa_status(status)))
}

func setName(set Set) string {
	return C.GoString(C.slh_dsa_set_name(C.slh_dsa_set(set)))
}

func seedsSize(set Set) int      { return int(C.slh_dsa_seeds_bytes(C.slh_dsa_set(set))) }
func privateSize(set Set) int    { return int(C.slh_dsa_signing_key_bytes(C.slh_dsa_set(set))) }
func publicSize(set Set) int     { return int(C.slh_dsa_verifying_key_bytes(C.slh_dsa_set(set))) }
func randomizerSize(set Set) int { return int(C.slh_dsa_randomizer_bytes(C.slh_dsa_set(set))) }
func scratchSize(set Set) int    { return int(C.slh_log_scratch_bytes(C.slh_dsa_set(set))) }

func signatureSize(set Set) int {
	return int(C.slh_dsa_sha2_signature_bytes(C.slh_dsa_set(set)))
}

func keygen(set Set, seeds, private, public []byte) error {
	sp, sn := at(seeds)
	kp, kn := at(private)
	pp, pn := at(public)
	return done("generate a key",
		C.slh_dsa_sha2_keygen_nullable(C.slh_dsa_set(set), sp, sn, kp, kn, pp, pn))
}

func publicOf(set Set, private, public []byte) error {
	kp, kn := at(private)
	pp, pn := at(public)
	return done("read a private key",
		C.slh_dsa_sha2_public_nullable(C.slh_dsa_set(set), kp, kn, pp, pn))
}

func checkKey(set Set, key *secret) error {
	defer runtime.KeepAlive(key)
	kp, kn := at(key.read())
	return done("check a key", C.slh_dsa_sha2_check_key_nullable(C.slh_dsa_set(set), kp, kn))
}

// sign writes a signature of a message as it is or, in another mode than pure, of a digest. Without a
// randomizer it is the deterministic one.
func sign(j job, key *secret, message, randomizer, signature []byte) error {
	defer runtime.KeepAlive(key)
	set, mode := C.slh_dsa_set(j.set), C.slh_dsa_mode(j.mode)
	kp, kn := at(key.read())
	mp, mn := at(message)
	cp, cn := at(j.context)
	rp, rn := at(randomizer)
	sp, sn := at(signature)
	var status C.slh_dsa_status
	switch {
	case j.mode == pure && randomizer == nil:
		status = C.slh_dsa_sha2_sign_deterministic_nullable(set, mode, kp, kn, mp, mn, cp, cn, sp, sn)
	case j.mode == pure:
		status = C.slh_dsa_sha2_sign_nullable(set, mode, kp, kn, mp, mn, cp, cn, rp, rn, sp, sn)
	case randomizer == nil:
		status = C.slh_dsa_sha2_sign_digest_deterministic_nullable(
			set, mode, kp, kn, mp, mn, cp, cn, sp, sn)
	default:
		status = C.slh_dsa_sha2_sign_digest_nullable(
			set, mode, kp, kn, mp, mn, cp, cn, rp, rn, sp, sn)
	}
	return done("sign", status)
}

// verify verifies a signature of a message as it is or, in another mode than pure, of a digest.
func verify(j job, key, message, signature []byte) error {
	set, mode := C.slh_dsa_set(j.set), C.slh_dsa_mode(j.mode)
	kp, kn := at(key)
	mp, mn := at(message)
	cp, cn := at(j.context)
	sp, sn := at(signature)
	var status C.slh_dsa_status
	if j.mode == pure {
		status = C.slh_dsa_sha2_verify_nullable(set, mode, kp, kn, mp, mn, cp, cn, sp, sn)
	} else {
		status = C.slh_dsa_sha2_verify_digest_nullable(set, mode, kp, kn, mp, mn, cp, cn, sp, sn)
	}
	return done("verify", status)
}

func verifyBegin(state *verifierState, j job, key, signature []byte) error {
	kp, kn := at(key)
	cp, cn := at(j.context)
	sp, sn := at(signature)
	return done("verify", C.slh_dsa_sha2_verify_begin_nullable(
		state, C.slh_dsa_set(j.set), C.slh_dsa_mode(j.mode), kp, kn, cp, cn, sp, sn))
}

func verifyUpdate(state *verifierState, piece []byte) error {
	pp, pn := at(piece)
	return done("verify", C.slh_dsa_sha2_verify_update_nullable(state, pp, pn))
}

func verifyFinish(state *verifierState, signature []byte) error {
	sp, sn := at(signature)
	return done("verify", C.slh_dsa_sha2_verify_finish_nullable(state, sp, sn))
}

// signBegin begins to sign a message as it is. Without a randomizer the signature is the
// deterministic one.
func signBegin(state *signerState, j job, key *secret, randomizer []byte) error {
	defer runtime.KeepAlive(key)
	kp, kn := at(key.read())
	cp, cn := at(j.context)
	if randomizer == nil {
		return done("sign", C.slh_dsa_sha2_sign_begin_deterministic_nullable(
			state, C.slh_dsa_set(j.set), kp, kn, cp, cn))
	}
	rp, rn := at(randomizer)
	return done("sign", C.slh_dsa_sha2_sign_begin_nullable(
		state, C.slh_dsa_set(j.set), kp, kn, cp, cn, rp, rn))
}

func signUpdate(state *signerState, piece []byte) error {
	pp, pn := at(piece)
	return done("sign", C.slh_dsa_sha2_sign_update_nullable(state, pp, pn))
}

func signAgain(state *signerState, context []byte) error {
	cp, cn := at(context)
	return done("sign", C.slh_dsa_sha2_sign_again_nullable(state, cp, cn))
}

func signFinish(state *signerState, key *secret, signature []byte) error {
	defer runtime.KeepAlive(key)
	kp, kn := at(key.read())
	sp, sn := at(signature)
	return done("sign", C.slh_dsa_sha2_sign_finish_nullable(state, kp, kn, sp, sn))
}

func logOpen(set Set, key, origin, checkpoint, scratch []byte) (LogHead, error) {
	var head C.slh_log_head
	kp, kn := at(key)
	op, on := at(origin)
	tp, tn := at(checkpoint)
	sp, sn := at(scratch)
	err := done("open a checkpoint", C.slh_log_open_nullable(
		C.slh_dsa_set(set), kp, kn, op, on, tp, tn, sp, sn, &head))
	if err != nil {
		return LogHead{}, err
	}
	opened := LogHead{Size: uint64(head.size)}
	for i, b := range head.root {
		opened.Root[i] = byte(b)
	}
	return opened, nil
}

// inC is a head as the library has it.
func (h LogHead) inC() C.slh_log_head {
	head := C.slh_log_head{size: C.uint64_t(h.Size)}
	for i, b := range h.Root {
		head.root[i] = C.uint8_t(b)
	}
	return head
}

func logPresence(head LogHead, index uint64, entry, proof []byte) error {
	h := head.inC()
	ep, en := at(entry)
	pp, pn := at(proof)
	return done("check that an entry is in a log", C.slh_log_check_presence_nullable(
		&h, C.uint64_t(index), ep, en, pp, pn))
}

func logGrowth(older, newer LogHead, proof []byte) error {
	o, n := older.inC(), newer.inC()
	pp, pn := at(proof)
	return done("check that a log grew", C.slh_log_check_growth_nullable(&o, &n, pp, pn))
}

//go:build slhdsa_archive

package slhdsa

// #cgo LDFLAGS: -l:libslh_dsa.a
import "C"

//go:build !slhdsa_archive

package slhdsa

// #cgo pkg-config: slh_dsa
import "C"

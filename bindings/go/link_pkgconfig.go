//go:build !h26x_flags

package h26x

// #cgo pkg-config: h26x
import "C"

//go:build !cgo

package h26x

// The library is in C: without cgo there is nothing to call it by. The name is what the compiler then says.
var _ = h26x_needs_cgo__set_CGO_ENABLED_to_1_and_install_a_C_compiler

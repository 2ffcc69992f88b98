package h26x

// #include <h26x.h>
import "C"

import (
	"math"
	"unsafe"
)

// length is a size that the library tells, as Go has it: ErrOutOfMemory where it is over any slice's. Those of what
// stands in a slice of the caller's, as the parts of a packet, need no such look.
func length(size C.size_t) (int, error) { return lengthUpTo(uint64(size), math.MaxInt) }

// lengthUpTo is the same where slices have at most so many bytes: 2^31-1 on 32 bits, where a C size has 2^32-1.
func lengthUpTo(size, largest uint64) (int, error) {
	if size > largest {
		return 0, ErrOutOfMemory
	}
	return int(size), nil
}

// lengths is two of them.
func lengths(first, second C.size_t) (one, other int, err error) {
	if one, err = length(first); err != nil {
		return 0, 0, err
	}
	if other, err = length(second); err != nil {
		return 0, 0, err
	}
	return one, other, nil
}

// at is where a slice stands; nil where it has no bytes, as the library takes it.
func at(b []byte) *C.uint8_t {
	if len(b) == 0 {
		return nil
	}
	return (*C.uint8_t)(unsafe.Pointer(&b[0]))
}

// apart is the bytes of b, in memory that the written ones are not in: the library reads no byte that it
// writes.
func apart(b, written []byte) []byte {
	if len(b) == 0 || len(written) == 0 {
		return b
	}
	first, last := address(b, 0), address(b, len(b)-1)
	if last < address(written, 0) || address(written, len(written)-1) < first {
		return b
	}
	return append([]byte(nil), b...)
}

func address(b []byte, i int) uintptr { return uintptr(unsafe.Pointer(&b[i])) }

// withRoom is dst with room for so many bytes more behind it.
func withRoom(dst []byte, more int) []byte {
	if cap(dst)-len(dst) >= more {
		return dst
	}
	// (on 32 bits the larger of them may be over what an int is)
	grown := make([]byte, len(dst), larger(2*len(dst)+more, len(dst)+more))
	copy(grown, dst)
	return grown
}

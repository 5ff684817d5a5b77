package yurewha

// #include <yurewha.h>
import "C"

import (
	"hash"
	"unsafe"
)

// A Hasher takes a message in pieces. It is a hash.Hash. The zero Hasher is that of a chunk's data, and a copy of a Hasher goes on by itself.
// Goroutines may not share one.
type Hasher struct {
	state C.yurewha_hasher
	begin beginning
	begun bool
	key   [32]byte
}

// How a hasher begins.
type beginning uint8

const (
	ofData beginning = iota
	ofInternalNode
	ofKey
)

var _ hash.Hash = (*Hasher)(nil)

// NewHasher returns a hasher of a chunk without data.
func NewHasher() *Hasher { return new(Hasher) }

// NewInternalNodeHasher returns a hasher of an inner node's text, as InternalNodeHash hashes it, without text.
func NewInternalNodeHasher() *Hasher { return &Hasher{begin: ofInternalNode} }

// NewKeyedHasher returns a hasher of the empty message under any key.
func NewKeyedHasher(key [32]byte) *Hasher { return &Hasher{begin: ofKey, key: key} }

// Reset goes back to the empty message, under the same key.
func (h *Hasher) Reset() {
	h.begun = true
	switch h.begin {
	case ofInternalNode:
		C.yurewha_hasher_begin_internal(&h.state)
	case ofKey:
		C.yurewha_hasher_begin_keyed(&h.state, (*C.yurewha_bytes)(unsafe.Pointer(&h.key)))
	default:
		C.yurewha_hasher_begin_data(&h.state)
	}
}

// Returns the state, which begins at its first use.
func (h *Hasher) started() *C.yurewha_hasher {
	if !h.begun {
		h.Reset()
	}
	return &h.state
}

// Write appends a piece, and returns its length. It returns ErrSizes if the message would have more than 2^64 - 1 bytes.
func (h *Hasher) Write(piece []byte) (int, error) {
	some := atLeastOne(piece)
	status := C.yurewha_hasher_update(h.started(), unsafe.Pointer(&some[0]), C.size_t(len(piece)))
	if status == C.YUREWHA_SIZES {
		return 0, refused(status, "%d bytes and %d more are more than 2^64 - 1", h.Count(), len(piece))
	}
	return len(piece), nil
}

// Count returns the length of the message so far, in bytes.
func (h *Hasher) Count() uint64 { return uint64(C.yurewha_hasher_count(h.started())) }

// Hash returns the hash of the message so far. The hasher can take more.
func (h *Hasher) Hash() (sum Hash) {
	C.yurewha_hasher_finalize(h.started(), sum.pointer())
	return
}

// Sum appends the bytes of the hash to a slice.
func (h *Hasher) Sum(to []byte) []byte {
	sum := h.Hash().Bytes()
	return append(to, sum[:]...)
}

// Size returns 32, the number of bytes of a hash.
func (h *Hasher) Size() int { return 32 }

// BlockSize returns the length of a block of BLAKE3 in bytes.
func (h *Hasher) BlockSize() int { return 64 }

// MarshalJSON returns ErrArguments: a Hasher has no JSON form, and {} would lose it without an error.
func (h Hasher) MarshalJSON() ([]byte, error) {
	return nil, refused(C.YUREWHA_ARGUMENTS, "a Hasher has no JSON form")
}

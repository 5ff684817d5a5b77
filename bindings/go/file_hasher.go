package yurewha

// #include <yurewha.h>
import "C"

import (
	"io"
	"unsafe"
)

// A FileHasher takes a file in pieces, and computes the hash by which Xet names it. It cuts the bytes as a Chunker does, and keeps none of them.
// The zero FileHasher is that of the empty file.
type FileHasher struct {
	held handle[C.yurewha_file_hasher]
}

var _ io.Writer = (*FileHasher)(nil)

func freeFileHasher(hasher *C.yurewha_file_hasher) { C.yurewha_file_hasher_free(hasher) }

func beginFileHasher(made *C.yurewha_file_hasher) error {
	return check(C.yurewha_file_hasher_new(made))
}

// NewFileHasher returns a hasher of the empty file.
func NewFileHasher() (*FileHasher, error) {
	held, err := newHandle(freeFileHasher, beginFileHasher)
	if err != nil {
		return nil, err
	}
	return &FileHasher{held}, nil
}

func (h *FileHasher) handle() (handle[C.yurewha_file_hasher], error) {
	if h == nil {
		return handle[C.yurewha_file_hasher]{}, check(C.YUREWHA_EMPTY_HANDLE)
	}
	return h.held.begun(freeFileHasher, beginFileHasher)
}

// Makes a call. A zero hasher begins by it.
func (h *FileHasher) with(call func(*C.yurewha_file_hasher) error) error {
	held, err := h.handle()
	if err != nil {
		return err
	}
	return held.with(call)
}

// Write appends a piece to the file, and returns its length. After an error, such as ErrSizes if the file would have more than 2^64 - 1 bytes,
// nothing of the piece is taken.
func (h *FileHasher) Write(piece []byte) (int, error) {
	err := h.with(func(hasher *C.yurewha_file_hasher) error {
		some := atLeastOne(piece)
		status := C.yurewha_file_hasher_update(hasher, unsafe.Pointer(&some[0]), C.size_t(len(piece)))
		return checkTold(status, C.YUREWHA_SIZES, "the file would have more than 2^64 - 1 bytes with %d more", len(piece))
	})
	if err != nil {
		return 0, err
	}
	return len(piece), nil
}

// Size returns how many bytes the file has so far.
func (h *FileHasher) Size() (size uint64, err error) {
	err = h.with(func(hasher *C.yurewha_file_hasher) error {
		return check(C.yurewha_file_hasher_size(hasher, (*C.uint64_t)(&size)))
	})
	return
}

// Root returns the root of the chunks of the file so far. The hasher can take more.
func (h *FileHasher) Root() (root Hash, err error) {
	err = h.with(func(hasher *C.yurewha_file_hasher) error {
		return check(C.yurewha_file_hasher_root(hasher, root.pointer()))
	})
	return
}

// FileHash returns the file hash of the file so far, without a salt. The hasher can take more.
func (h *FileHasher) FileHash() (sum Hash, err error) {
	err = h.with(func(hasher *C.yurewha_file_hasher) error {
		return check(C.yurewha_file_hasher_finish(hasher, sum.pointer()))
	})
	return
}

// FileHashWithSalt returns the file hash of the file so far under a salt. The hasher can take more.
func (h *FileHasher) FileHashWithSalt(salt [32]byte) (sum Hash, err error) {
	err = h.with(func(hasher *C.yurewha_file_hasher) error {
		return check(C.yurewha_file_hasher_finish_with_salt(hasher, bytesPointer(&salt), sum.pointer()))
	})
	return
}

// MarshalJSON returns ErrArguments: a FileHasher has no JSON form, and {} would lose it without an error.
func (h FileHasher) MarshalJSON() ([]byte, error) {
	return nil, refused(C.YUREWHA_ARGUMENTS, "a FileHasher has no JSON form")
}

// Close frees the memory of a hasher.
func (h *FileHasher) Close() {
	if held, err := h.handle(); err == nil {
		held.close(freeFileHasher)
	}
}

// Package yurewha computes the hashes of the Hugging Face Xet store, also of a file (SumFile), merges adjacent ranges of chunks, and makes and
// opens range proofs. It makes the calls of the C library through cgo, which finds that by pkg-config, and computes nothing itself. The header
// yurewha.h says more about each call.
//
// A Subtree, a Session, a HashTree, an OpenedRange, a HashIndex and a FileHasher own memory of the library. Close frees it, and so does the
// garbage collector once nothing refers to them; the package calls it when the memory of Go and of the library has doubled. After Close, each
// call of them returns ErrEmptyHandle, until UnmarshalJSON fills it anew. A copy of such a value is the same object. Clone makes another one.
//
// A zero Hasher, Chunker, FileHasher, Session or HashIndex begins by itself at its first use. The zero values of the other types are empty:
// each call returns ErrEmptyHandle, because a range that somebody forgot isn't a range without chunks.
//
// Goroutines may share all objects but a Hasher and a Chunker: calls of one object take turns. Only what makes a zero value an object, such as
// the first UnmarshalJSON into it, has to come before others use it.
package yurewha

/*
#cgo pkg-config: yurewha
#include <yurewha.h>
*/
import "C"

import (
	"unsafe"
)

// The types of the header's lengths and statuses.
type (
	cSize   = C.size_t
	cStatus = C.yurewha_status
)

// The room is too small.
const needsRoom cStatus = C.YUREWHA_ROOM

// A Hash is four words. Its 32 bytes are the words in order, each little-endian.
type Hash [4]uint64

// A Chunk is the hash of a chunk, and its size in bytes. Its JSON is that of a node in the JSON of subtrees and proofs.
type Chunk struct {
	Hash Hash   `json:"hash"`
	Size uint64 `json:"size"`
}

// A Level has the numbers of nodes that a subtree or a range proof has on a level, on the left side and on the right side.
type Level struct {
	Left, Right uint64
}

// Chunks and levels have the layout of the header's.
var (
	_ = [1]struct{}{}[unsafe.Sizeof(Chunk{})-unsafe.Sizeof(C.yurewha_chunk{})]
	_ = [1]struct{}{}[unsafe.Sizeof(Level{})-unsafe.Sizeof(C.yurewha_level{})]
)

// These pointers are to types without pointers, so cgo looks at nothing. Where the library takes any pointer, the call itself has to have
// unsafe.Pointer(&some[0]), because cgo would look at all of the object that the bytes are in.

func (h *Hash) pointer() *C.yurewha_hash { return (*C.yurewha_hash)(unsafe.Pointer(h)) }

func textPointer(text []byte) *C.char {
	if len(text) == 0 {
		return nil
	}
	return (*C.char)(unsafe.Pointer(&text[0]))
}

func chunksPointer(chunks []Chunk) *C.yurewha_chunk {
	if len(chunks) == 0 {
		return nil
	}
	return (*C.yurewha_chunk)(unsafe.Pointer(&chunks[0]))
}

func levelsPointer(levels []Level) *C.yurewha_level {
	if len(levels) == 0 {
		return nil
	}
	return (*C.yurewha_level)(unsafe.Pointer(&levels[0]))
}

func hashesPointer(hashes []Hash) *C.yurewha_hash {
	if len(hashes) == 0 {
		return nil
	}
	return hashes[0].pointer()
}

func numbersPointer(numbers []uint64) *C.uint64_t {
	if len(numbers) == 0 {
		return nil
	}
	return (*C.uint64_t)(&numbers[0])
}

func truthsPointer(truths []bool) *C.uint8_t {
	if len(truths) == 0 {
		return nil
	}
	return (*C.uint8_t)(unsafe.Pointer(&truths[0]))
}

func bytesPointer(bytes *[32]byte) *C.yurewha_bytes { return (*C.yurewha_bytes)(unsafe.Pointer(bytes)) }

// Returns the data, or one byte that nobody reads.
func atLeastOne(data []byte) []byte {
	if len(data) == 0 {
		return make([]byte, 1)
	}
	return data
}

// Returns a text that a call writes. If there isn't enough room for it, the call says how much it needs, and is made once more.
func written(room int, call func(text []byte, length *cSize) cStatus) ([]byte, error) {
	for {
		text, length := make([]byte, room), cSize(0)
		found := call(text, &length)
		if found == C.YUREWHA_DONE {
			return text[:length], nil
		}
		if found != needsRoom {
			return nil, check(found)
		}
		room = int(length)
	}
}

// Returns flat lists that a call writes, in the same way, and its status.
func writtenLists(levelRoom, nodeRoom int, call func(levels []Level, nodes []Chunk, levelCount, nodeCount *cSize) cStatus) ([]Level, []Chunk, cStatus) {
	for {
		levels, nodes, levelCount, nodeCount := make([]Level, levelRoom), make([]Chunk, nodeRoom), cSize(0), cSize(0)
		found := call(levels, nodes, &levelCount, &nodeCount)
		if found != needsRoom {
			return levels[:levelCount], nodes[:nodeCount], found
		}
		levelRoom, nodeRoom = int(levelCount), int(nodeCount)
	}
}

// Version returns the version of the library, three numbers with points between them.
func Version() string {
	text, _ := written(16, func(text []byte, length *cSize) cStatus {
		return C.yurewha_version(textPointer(text), C.size_t(len(text)), length)
	})
	return string(text)
}

// ProcessorLevel returns the level of processors that the library runs for, such as "x86-64-v3".
func ProcessorLevel() string { return C.GoString(C.yurewha_processor_level()) }

// String returns the 64 hex digits of a hash.
func (h Hash) String() string {
	text, _ := written(C.YUREWHA_HEX_LENGTH, func(text []byte, length *cSize) cStatus {
		return C.yurewha_hex(h.pointer(), textPointer(text), C.size_t(len(text)), length)
	})
	return string(text)
}

// MarshalText returns the 64 hex digits of a hash.
func (h Hash) MarshalText() ([]byte, error) { return []byte(h.String()), nil }

// UnmarshalText reads 64 hex digits, lower or upper case. For any other text it returns ErrText.
func (h *Hash) UnmarshalText(text []byte) error {
	status := C.yurewha_from_hex(textPointer(text), C.size_t(len(text)), h.pointer())
	return checkTold(status, C.YUREWHA_TEXT, "the hex text of a hash must be 64 hex digits, got %s", shown(text))
}

// ParseHash returns the hash with these 64 hex digits.
func ParseHash(text string) (h Hash, err error) {
	err = h.UnmarshalText([]byte(text))
	return
}

// Base64 returns the 43 characters of a hash in the URL-safe alphabet, without padding.
func (h Hash) Base64() string {
	text, _ := written(C.YUREWHA_BASE64_LENGTH, func(text []byte, length *cSize) cStatus {
		return C.yurewha_base64(h.pointer(), textPointer(text), C.size_t(len(text)), length)
	})
	return string(text)
}

// ParseBase64 returns the hash with these 43 characters, as Base64 writes them. For any other text it returns ErrText.
func ParseBase64(text string) (h Hash, err error) {
	status := C.yurewha_from_base64(textPointer([]byte(text)), C.size_t(len(text)), h.pointer())
	err = checkTold(status, C.YUREWHA_TEXT, "the base64 text of a hash must be 43 characters, as Base64 writes them, got %s", shown([]byte(text)))
	return
}

// Bytes returns the 32 bytes of a hash.
func (h Hash) Bytes() (b [32]byte) {
	C.yurewha_hash_to_bytes(h.pointer(), bytesPointer(&b))
	return
}

// HashFromBytes returns the hash with these bytes.
func HashFromBytes(b [32]byte) (h Hash) {
	C.yurewha_hash_from_bytes(bytesPointer(&b), h.pointer())
	return
}

// HashFromSeed returns a pseudorandom hash, for tests.
func HashFromSeed(seed uint64) (h Hash) {
	C.yurewha_random_from_seed(C.uint64_t(seed), h.pointer())
	return
}

// Compare returns -1, 0 or 1 if the first hash is less, equal or greater. The order is that of the words, and of the texts.
func (h Hash) Compare(other Hash) int { return int(C.yurewha_compare(h.pointer(), other.pointer())) }

// Hmac returns the keyed BLAKE3 hash of the bytes of a hash, under the bytes of another one.
func (h Hash) Hmac(key Hash) (result Hash) {
	C.yurewha_hmac(h.pointer(), key.pointer(), result.pointer())
	return
}

// Remainder returns the last word of a hash modulo a divisor, or ErrArguments if that is 0.
func (h Hash) Remainder(divisor uint64) (remainder uint64, err error) {
	status := C.yurewha_remainder(h.pointer(), C.uint64_t(divisor), (*C.uint64_t)(&remainder))
	err = checkTold(status, C.YUREWHA_ARGUMENTS, "the divisor must be at least 1, got 0")
	return
}

// DataHash returns the hash of a chunk.
func DataHash(data []byte) (h Hash) {
	some := atLeastOne(data)
	C.yurewha_data_hash(unsafe.Pointer(&some[0]), C.size_t(len(data)), h.pointer())
	return
}

// DataHashes returns the hashes of chunks in one buffer. The data of chunk i starts at offsets[i] and ends before offsets[i + 1]. It returns
// ErrArguments if there is no offset, one is less than the one before it, or one is greater than the length of the buffer.
func DataHashes(data []byte, offsets []uint64) ([]Hash, error) {
	if len(offsets) == 0 {
		return nil, refused(C.YUREWHA_ARGUMENTS, "there must be one more offset than chunks, got none")
	}
	some, hashes := atLeastOne(data), make([]Hash, len(offsets)-1)
	status := C.yurewha_data_hashes(unsafe.Pointer(&some[0]), C.size_t(len(data)), (*C.size_t)(&offsets[0]), C.size_t(len(offsets)),
		hashesPointer(hashes), C.size_t(len(hashes)))
	if status == C.YUREWHA_ARGUMENTS {
		return nil, wrongOffset(offsets, uint64(len(data)))
	}
	return hashes, check(status)
}

// Returns the error that names the first offset that is wrong.
func wrongOffset(offsets []uint64, length uint64) error {
	before := uint64(0)
	for place, offset := range offsets {
		if offset < before {
			return refused(C.YUREWHA_ARGUMENTS, "offset %d must be at least %d, got %d", place, before, offset)
		}
		before = offset
	}
	return refused(C.YUREWHA_ARGUMENTS, "the last offset must be at most %d, the number of bytes, got %d", length, before)
}

// InternalNodeHash returns the hash of an inner node of the tree, of its text.
func InternalNodeHash(text []byte) (h Hash) {
	some := atLeastOne(text)
	C.yurewha_internal_node_hash(unsafe.Pointer(&some[0]), C.size_t(len(text)), h.pointer())
	return
}

// XorbHash returns the root of a list of chunks, or ErrSizes if the sizes add up to more than 2^64 - 1.
func XorbHash(chunks []Chunk) (h Hash, err error) {
	err = checkChunks(C.yurewha_xorb_hash(chunksPointer(chunks), C.size_t(len(chunks)), h.pointer()), chunks)
	return
}

// FileHash returns the file hash of a list of chunks without a salt, or ErrSizes as XorbHash does.
func FileHash(chunks []Chunk) (h Hash, err error) {
	err = checkChunks(C.yurewha_file_hash(chunksPointer(chunks), C.size_t(len(chunks)), h.pointer()), chunks)
	return
}

// FileHashWithSalt returns the file hash of a list of chunks under a salt, or ErrSizes as XorbHash does.
func FileHashWithSalt(chunks []Chunk, salt [32]byte) (h Hash, err error) {
	status := C.yurewha_file_hash_with_salt(chunksPointer(chunks), C.size_t(len(chunks)), bytesPointer(&salt), h.pointer())
	err = checkChunks(status, chunks)
	return
}

// FindStableStart returns the first stable point of some nodes, as the number of nodes before it, and whether there is one. At a stable point
// a group ends, no matter which nodes come before and after the given ones.
func FindStableStart(nodes []Chunk) (point int, found bool) {
	var place C.size_t
	found = C.yurewha_find_stable_start(chunksPointer(nodes), C.size_t(len(nodes)), &place) == C.YUREWHA_DONE
	return int(place), found
}

// FindStableEnd returns the last stable point, as FindStableStart does the first.
func FindStableEnd(nodes []Chunk) (point int, found bool) {
	var place C.size_t
	found = C.yurewha_find_stable_end(chunksPointer(nodes), C.size_t(len(nodes)), &place) == C.YUREWHA_DONE
	return int(place), found
}

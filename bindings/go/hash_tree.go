package yurewha

// #include <yurewha.h>
import "C"

// A HashTree has all levels over a list of chunks, and makes range proofs.
type HashTree struct {
	held handle[C.yurewha_hash_tree]
}

// A Difference says in which chunks two files differ: those from First up to, but without, End of one are those up to OtherEnd of the other.
// Start, Stop and OtherStop are where in the files these begin and end, in bytes.
type Difference struct {
	First, End, OtherEnd   int
	Start, Stop, OtherStop uint64
}

func freeHashTree(tree *C.yurewha_hash_tree) { C.yurewha_hash_tree_free(tree) }

// NewHashTree returns the hash tree over some chunks, or ErrSizes if the sizes add up to more than 2^64 - 1.
func NewHashTree(chunks []Chunk) (*HashTree, error) {
	held, err := newHandle(freeHashTree, func(made *C.yurewha_hash_tree) error {
		return checkChunks(C.yurewha_hash_tree_from_chunks(chunksPointer(chunks), C.size_t(len(chunks)), made), chunks)
	})
	if err != nil {
		return nil, err
	}
	return &HashTree{held}, nil
}

func (t *HashTree) handle() (held handle[C.yurewha_hash_tree]) {
	if t != nil {
		held = t.held
	}
	return
}

// Root returns the root of the chunks.
func (t *HashTree) Root() (h Hash, err error) {
	err = t.handle().with(func(tree *C.yurewha_hash_tree) error { return check(C.yurewha_hash_tree_root(tree, h.pointer())) })
	return
}

// FileHash returns the file hash of the chunks without a salt.
func (t *HashTree) FileHash() (Hash, error) { return t.FileHashWithSalt([32]byte{}) }

// FileHashWithSalt returns the file hash of the chunks under a salt.
func (t *HashTree) FileHashWithSalt(salt [32]byte) (h Hash, err error) {
	err = t.handle().with(func(tree *C.yurewha_hash_tree) error {
		return check(C.yurewha_hash_tree_file_hash(tree, bytesPointer(&salt), h.pointer()))
	})
	return
}

// NumChunks returns the number of chunks.
func (t *HashTree) NumChunks() (int, error) {
	var count C.size_t
	err := t.handle().with(func(tree *C.yurewha_hash_tree) error { return check(C.yurewha_hash_tree_num_chunks(tree, &count)) })
	return int(count), err
}

// TotalSize returns the size of the file in bytes.
func (t *HashTree) TotalSize() (size uint64, err error) {
	err = t.handle().with(func(tree *C.yurewha_hash_tree) error {
		return check(C.yurewha_hash_tree_total_size(tree, (*C.uint64_t)(&size)))
	})
	return
}

// ChunksAt returns the least range of chunks that holds the bytes of the file from a place up to, but without, another one, or up to the end of
// the file if that comes first: the number of its first chunk, and the number after that of its last one. It returns ErrArguments if there are
// no such bytes.
func (t *HashTree) ChunksAt(from, to uint64) (first, end int, err error) {
	err = t.handle().with(func(tree *C.yurewha_hash_tree) error {
		var one, after C.size_t
		status := C.yurewha_hash_tree_chunks_at(tree, C.uint64_t(from), C.uint64_t(to), &one, &after)
		first, end = int(one), int(after)
		return checkTold(status, C.YUREWHA_ARGUMENTS, "the file has no bytes from %d up to %d", from, to)
	})
	return
}

// BytesOf returns where in the file the chunks from number first up to, but without, number end begin and end. It returns ErrArguments if there
// is no such chunk, or not all of them are there.
func (t *HashTree) BytesOf(first, end int) (from, to uint64, err error) {
	err = t.handle().with(func(tree *C.yurewha_hash_tree) error { return bytesOf(tree, first, end, &from, &to) })
	return
}

func bytesOf(tree *C.yurewha_hash_tree, first, end int, from, to *uint64) error {
	status := C.yurewha_hash_tree_bytes_of(tree, C.size_t(first), C.size_t(end), (*C.uint64_t)(from), (*C.uint64_t)(to))
	return checkTold(status, C.YUREWHA_ARGUMENTS, noChunks, first, end)
}

const noChunks = "the tree doesn't have the chunks from %d up to %d, or these are none"

// Proof returns the range proof of the chunks from number first up to, but without, number end, or ErrArguments as BytesOf does.
func (t *HashTree) Proof(first, end int) (proof *RangeProof, err error) {
	err = t.handle().with(func(tree *C.yurewha_hash_tree) error {
		levels, nodes, status := writtenLists(64, 1024, func(levels []Level, nodes []Chunk, levelCount, nodeCount *cSize) cStatus {
			return C.yurewha_hash_tree_proof(tree, C.size_t(first), C.size_t(end), levelsPointer(levels), C.size_t(len(levels)),
				chunksPointer(nodes), C.size_t(len(nodes)), levelCount, nodeCount)
		})
		if status == C.YUREWHA_DONE {
			proof = proofOf(levels, nodes)
		}
		return checkTold(status, C.YUREWHA_ARGUMENTS, noChunks, first, end)
	})
	return
}

// Diff returns in which chunks this file differs from another one, or nil if both have the same chunks. These are all from the first that
// differs to the last, even if some between them are the same.
func (t *HashTree) Diff(other *HashTree) (difference *Difference, err error) {
	err = withBoth(t.handle(), other.handle(), func(one, two *C.yurewha_hash_tree) error {
		var count, otherCount, first, same C.size_t
		if err := check(C.yurewha_hash_tree_num_chunks(one, &count)); err != nil {
			return err
		}
		if err := check(C.yurewha_hash_tree_num_chunks(two, &otherCount)); err != nil {
			return err
		}
		if err := check(C.yurewha_hash_tree_common_prefix(one, two, &first)); err != nil {
			return err
		}
		if first == count && first == otherCount {
			return nil
		}
		least := count
		if otherCount < least {
			least = otherCount
		}
		if err := check(C.yurewha_hash_tree_common_suffix(one, two, least-first, &same)); err != nil {
			return err
		}
		difference = &Difference{First: int(first), End: int(count - same), OtherEnd: int(otherCount - same)}
		return difference.place(one, two)
	})
	return
}

// Sets where in the files the chunks begin and end.
func (d *Difference) place(one, two *C.yurewha_hash_tree) error {
	for _, it := range []struct {
		tree  *C.yurewha_hash_tree
		chunk int
		to    *uint64
	}{{one, d.First, &d.Start}, {one, d.End, &d.Stop}, {two, d.OtherEnd, &d.OtherStop}} {
		if it.chunk == 0 {
			continue
		}
		if err := bytesOf(it.tree, 0, it.chunk, new(uint64), it.to); err != nil {
			return err
		}
	}
	return nil
}

// MarshalJSON returns ErrArguments: a HashTree has no JSON form, and {} would lose it without an error.
func (t HashTree) MarshalJSON() ([]byte, error) {
	return nil, refused(C.YUREWHA_ARGUMENTS, "a HashTree has no JSON form")
}

// Close frees the memory of a hash tree.
func (t *HashTree) Close() { t.handle().close(freeHashTree) }

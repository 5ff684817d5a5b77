package yurewha

// #include <yurewha.h>
import "C"

import "errors"

// A Subtree is what is kept of a range of chunks, to merge it with its neighbours.
type Subtree struct {
	held handle[C.yurewha_subtree]
}

func freeSubtree(subtree *C.yurewha_subtree) { C.yurewha_subtree_free(subtree) }

func makeSubtree(call func(*C.yurewha_subtree) error) (*Subtree, error) {
	held, err := newHandle(freeSubtree, call)
	if err != nil {
		return nil, err
	}
	return &Subtree{held}, nil
}

func (s *Subtree) handle() (held handle[C.yurewha_subtree]) {
	if s != nil {
		held = s.held
	}
	return
}

// NewSubtree returns the subtree of some chunks. atStart says that no chunk comes before them, and atEnd that none comes after them. It
// returns ErrSizes if the sizes add up to more than 2^64 - 1.
func NewSubtree(atStart bool, chunks []Chunk, atEnd bool) (*Subtree, error) {
	return makeSubtree(func(made *C.yurewha_subtree) error {
		status := C.yurewha_subtree_from_chunks(C.bool(atStart), chunksPointer(chunks), C.size_t(len(chunks)), C.bool(atEnd), made)
		return checkChunks(status, chunks)
	})
}

// SubtreeFromFlat returns the subtree with these marks and flat lists, as Flat returns them. It returns the lowest rule, Rule plus 5 to 13, that
// they break.
func SubtreeFromFlat(atStart bool, levels []Level, nodes []Chunk, atEnd bool) (*Subtree, error) {
	return makeSubtree(func(made *C.yurewha_subtree) error {
		return check(C.yurewha_subtree_from_flat(C.bool(atStart), levelsPointer(levels), C.size_t(len(levels)), chunksPointer(nodes),
			C.size_t(len(nodes)), C.bool(atEnd), made))
	})
}

// MergeSubtrees returns the subtree of adjacent ranges, in order, which stay as they were. Without ranges it is the empty subtree with both
// marks. It returns ErrArguments if a range other than the first is marked at its start, or one other than the last at its end, and ErrSizes
// if the sizes add up to more than 2^64 - 1.
func MergeSubtrees(ranges ...*Subtree) (*Subtree, error) {
	var turns []*turn
	own, seen := make([]*owned[C.yurewha_subtree], len(ranges)), map[*owned[C.yurewha_subtree]]bool{nil: true}
	for place, it := range ranges {
		// A call needs different handles, so a range that comes again is copied. One that is empty can't be.
		if seen[it.handle().owned] {
			copied, err := it.Clone()
			if errors.Is(err, ErrEmptyHandle) {
				err = refused(C.YUREWHA_EMPTY_HANDLE, emptyRange, place)
			}
			if err != nil {
				return nil, err
			}
			defer copied.Close()
			it = copied
		}
		own[place] = it.held.owned
		seen[own[place]] = true
		turns = append(turns, &own[place].turn)
	}
	defer beginAll(turns)()
	// The handles move into one array, and back.
	handles := make([]C.yurewha_subtree, len(ranges)+1)
	for place, it := range own {
		handles[place] = it.it
	}
	merged, err := makeSubtree(func(made *C.yurewha_subtree) error {
		status := C.yurewha_subtree_merge(&handles[0], C.size_t(len(ranges)), made)
		return checkRanges(status, handles[:len(ranges)])
	})
	for place, it := range own {
		it.it = handles[place]
	}
	return merged, err
}

const emptyRange = "range %d is empty: it was closed, or no call made it"

// Returns the error of a merge of ranges, or nil. It names the range that is at fault.
func checkRanges(status C.yurewha_status, ranges []C.yurewha_subtree) error {
	for place := range ranges {
		var atStart, atEnd C.bool
		marks := C.yurewha_subtree_marks(&ranges[place], &atStart, &atEnd)
		switch {
		case status == C.YUREWHA_EMPTY_HANDLE && marks == status:
			return refused(status, emptyRange, place)
		case status == C.YUREWHA_ARGUMENTS && place > 0 && bool(atStart):
			return refused(status, "range %d is marked at its start, and isn't the first", place)
		case status == C.YUREWHA_ARGUMENTS && place < len(ranges)-1 && bool(atEnd):
			return refused(status, "range %d is marked at its end, and isn't the last", place)
		}
	}
	return check(status)
}

// Clone returns a copy.
func (s *Subtree) Clone() (copied *Subtree, err error) {
	err = s.handle().with(func(subtree *C.yurewha_subtree) (err error) {
		copied, err = makeSubtree(func(made *C.yurewha_subtree) error { return check(C.yurewha_subtree_clone(subtree, made)) })
		return
	})
	return
}

// Equal returns whether two subtrees have the same marks, levels and nodes.
func (s *Subtree) Equal(other *Subtree) (bool, error) {
	var equal C.bool
	err := withBoth(s.handle(), other.handle(), func(one, two *C.yurewha_subtree) error {
		return check(C.yurewha_subtree_equal(one, two, &equal))
	})
	return bool(equal), err
}

// Marks returns whether no chunk comes before those of the subtree, and whether none comes after them.
func (s *Subtree) Marks() (atStart, atEnd bool, err error) {
	err = s.handle().with(func(subtree *C.yurewha_subtree) error {
		var start, end C.bool
		err := check(C.yurewha_subtree_marks(subtree, &start, &end))
		atStart, atEnd = bool(start), bool(end)
		return err
	})
	return
}

// TotalSize returns the total size of the chunks in bytes.
func (s *Subtree) TotalSize() (size uint64, err error) {
	err = s.handle().with(func(subtree *C.yurewha_subtree) error {
		return check(C.yurewha_subtree_total_size(subtree, (*C.uint64_t)(&size)))
	})
	return
}

// NumNodes returns the number of kept nodes.
func (s *Subtree) NumNodes() (int, error) {
	var count C.size_t
	err := s.handle().with(func(subtree *C.yurewha_subtree) error { return check(C.yurewha_subtree_num_nodes(subtree, &count)) })
	return int(count), err
}

// NumLevels returns the number of levels. There is at least one.
func (s *Subtree) NumLevels() (int, error) {
	var count C.size_t
	err := s.handle().with(func(subtree *C.yurewha_subtree) error { return check(C.yurewha_subtree_num_levels(subtree, &count)) })
	return int(count), err
}

// MergeInto appends another subtree, that of the range that follows, which stays as it was. It returns ErrArguments if this one is marked at
// its end or the other one at its start, and ErrSizes if the two sizes add up to more than 2^64 - 1.
func (s *Subtree) MergeInto(other *Subtree) error {
	_, err := s.MergeIntoCounted(other)
	return err
}

// MergeIntoCounted does the same as MergeInto. It returns how many parents were hashed for it, at most 2^64 - 1.
func (s *Subtree) MergeIntoCounted(other *Subtree) (parents uint64, err error) {
	if s.handle().owned == other.handle().owned {
		// The call needs two different handles.
		copied, err := other.Clone()
		if err != nil {
			return 0, err
		}
		defer copied.Close()
		other = copied
	}
	err = withBoth(s.handle(), other.handle(), func(front, back *C.yurewha_subtree) error {
		status := C.yurewha_subtree_merge_into_counted(front, back, (*C.uint64_t)(&parents))
		if status == C.YUREWHA_ARGUMENTS {
			var start, end, atEnd, atStart C.bool
			_, _ = C.yurewha_subtree_marks(front, &start, &atEnd), C.yurewha_subtree_marks(back, &atStart, &end)
			return refused(status, "no range comes between the two: the front one marked at its end: %v, the back one at its start: %v", atEnd, atStart)
		}
		return check(status)
	})
	return
}

// FinalHash returns the root, or ErrArguments if an end isn't marked.
func (s *Subtree) FinalHash() (h Hash, err error) {
	err = s.handle().with(func(subtree *C.yurewha_subtree) error { return finalHash(subtree, &h) })
	return
}

func finalHash(subtree *C.yurewha_subtree, h *Hash) error {
	status := C.yurewha_subtree_final_hash(subtree, h.pointer())
	if status == C.YUREWHA_ARGUMENTS {
		var atStart, atEnd C.bool
		_ = C.yurewha_subtree_marks(subtree, &atStart, &atEnd)
		return refused(status, "a subtree must be marked at both ends, got at its start: %v, at its end: %v", atStart, atEnd)
	}
	return check(status)
}

// FileHash returns the file hash without a salt, or ErrArguments if an end isn't marked.
func (s *Subtree) FileHash() (Hash, error) { return s.FileHashWithSalt([32]byte{}) }

// FileHashWithSalt returns the file hash under a salt, or ErrArguments if an end isn't marked. Without chunks it is the default hash.
func (s *Subtree) FileHashWithSalt(salt [32]byte) (h Hash, err error) {
	err = s.handle().with(func(subtree *C.yurewha_subtree) error {
		var count C.size_t
		err := check(C.yurewha_subtree_num_nodes(subtree, &count))
		if err == nil {
			err = finalHash(subtree, &h)
		}
		if err == nil && count != 0 {
			h = h.Hmac(HashFromBytes(salt))
		}
		return err
	})
	return
}

// Flat returns the flat lists of a subtree: the levels from the chunks up, and the nodes, which are the left ones of all levels, lowest level
// first, and then the right ones of all levels, highest level first.
func (s *Subtree) Flat() (levels []Level, nodes []Chunk, err error) {
	err = s.handle().with(func(subtree *C.yurewha_subtree) error {
		var status C.yurewha_status
		levels, nodes, status = writtenLists(0, 0, func(levels []Level, nodes []Chunk, levelCount, nodeCount *cSize) cStatus {
			return C.yurewha_subtree_to_flat(subtree, levelsPointer(levels), C.size_t(len(levels)), chunksPointer(nodes), C.size_t(len(nodes)),
				levelCount, nodeCount)
		})
		return check(status)
	})
	return
}

// MarshalJSON returns the compact JSON text of a subtree, which all packages read.
func (s Subtree) MarshalJSON() (text []byte, err error) {
	err = s.held.with(func(subtree *C.yurewha_subtree) (err error) {
		text, err = written(4096, func(text []byte, length *cSize) cStatus {
			return C.yurewha_subtree_to_json(subtree, textPointer(text), C.size_t(len(text)), length)
		})
		return
	})
	return
}

// UnmarshalJSON reads a subtree. For a value that is none it returns the lowest rule, Rule plus 1 to 13, that the value breaks, and for a text
// that isn't JSON ErrText. After an error the subtree is as it was.
func (s *Subtree) UnmarshalJSON(text []byte) error {
	return s.held.read(freeSubtree, func(subtree *C.yurewha_subtree) error {
		status := C.yurewha_subtree_from_json(textPointer(text), C.size_t(len(text)), subtree)
		return checkTold(status, C.YUREWHA_TEXT, "the text isn't JSON: %s", shown(text))
	})
}

// Close frees the memory of a subtree.
func (s *Subtree) Close() { s.handle().close(freeSubtree) }

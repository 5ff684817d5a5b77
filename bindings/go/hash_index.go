package yurewha

// #include <yurewha.h>
import "C"

// A HashIndex has a number for each of some hashes, such as where the chunk with this hash stands. The number that came first stays. The zero
// HashIndex has no hashes.
type HashIndex struct {
	held handle[C.yurewha_hash_index]
}

func freeHashIndex(index *C.yurewha_hash_index) { C.yurewha_hash_index_free(index) }

func beginHashIndex(made *C.yurewha_hash_index) error { return check(C.yurewha_hash_index_new(made)) }

// NewHashIndex returns an index without hashes.
func NewHashIndex() (*HashIndex, error) {
	held, err := newHandle(freeHashIndex, beginHashIndex)
	if err != nil {
		return nil, err
	}
	return &HashIndex{held}, nil
}

func (x *HashIndex) handle() (handle[C.yurewha_hash_index], error) {
	if x == nil {
		return handle[C.yurewha_hash_index]{}, check(C.YUREWHA_EMPTY_HANDLE)
	}
	return x.held.begun(freeHashIndex, beginHashIndex)
}

// Makes a call. A zero index begins by it.
func (x *HashIndex) with(call func(*C.yurewha_hash_index) error) error {
	held, err := x.handle()
	if err != nil {
		return err
	}
	return held.with(call)
}

// Insert gives each hash the number at the same place of the other list, unless the hash has one already: the number that came first stays,
// also among those of one call. It returns how many hashes are new, each counted once, or ErrArguments if the lists have different lengths.
func (x *HashIndex) Insert(hashes []Hash, numbers []uint64) (int, error) {
	var fresh C.size_t
	err := x.with(func(index *C.yurewha_hash_index) error {
		status := C.yurewha_hash_index_insert(index, hashesPointer(hashes), C.size_t(len(hashes)), numbersPointer(numbers), C.size_t(len(numbers)), &fresh)
		return checkTold(status, C.YUREWHA_ARGUMENTS, "there must be one number for each of %d hashes, got %d", len(hashes), len(numbers))
	})
	return int(fresh), err
}

// Find returns the number of each hash, and whether it has one. The number of a hash that has none is 0.
func (x *HashIndex) Find(hashes []Hash) (numbers []uint64, found []bool, err error) {
	numbers, found = make([]uint64, len(hashes)), make([]bool, len(hashes))
	err = x.with(func(index *C.yurewha_hash_index) error {
		count := C.size_t(len(hashes))
		return check(C.yurewha_hash_index_find(index, hashesPointer(hashes), count, truthsPointer(found), count, numbersPointer(numbers), count))
	})
	return
}

// Get returns the number of a hash, and whether it has one.
func (x *HashIndex) Get(hash Hash) (number uint64, found bool, err error) {
	numbers, founds, err := x.Find([]Hash{hash})
	return numbers[0], founds[0], err
}

// Len returns how many hashes have a number.
func (x *HashIndex) Len() (int, error) {
	var count C.size_t
	err := x.with(func(index *C.yurewha_hash_index) error { return check(C.yurewha_hash_index_len(index, &count)) })
	return int(count), err
}

// Entries returns all hashes, each once and in no particular order, and the number of each at the same place of the other list.
func (x *HashIndex) Entries() (hashes []Hash, numbers []uint64, err error) {
	err = x.with(func(index *C.yurewha_hash_index) error {
		var count C.size_t
		if err := check(C.yurewha_hash_index_len(index, &count)); err != nil {
			return err
		}
		hashes, numbers = make([]Hash, count), make([]uint64, count)
		return check(C.yurewha_hash_index_entries(index, hashesPointer(hashes), count, numbersPointer(numbers), count))
	})
	return
}

// MarshalJSON returns ErrArguments: a HashIndex has no JSON form, and {} would lose it without an error.
func (x HashIndex) MarshalJSON() ([]byte, error) {
	return nil, refused(C.YUREWHA_ARGUMENTS, "a HashIndex has no JSON form")
}

// Close frees the memory of an index.
func (x *HashIndex) Close() {
	if held, err := x.handle(); err == nil {
		held.close(freeHashIndex)
	}
}

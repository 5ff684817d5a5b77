package yurewha

// #include <yurewha.h>
import "C"

import "unsafe"

// A RangeProof has the nodes of some adjacent chunks of a file, and what leads from them to the root. With it, whoever knows the hash of a file
// checks a part of it. It may come from anybody.
type RangeProof struct {
	held handle[proofLists]
}

// The flat lists of a proof. Nobody writes to them.
type proofLists struct {
	levels []Level
	nodes  []Chunk
}

// A node has at least so many bytes in JSON.
const leastNode = len(`{"hash":"","size":0},`) + C.YUREWHA_HEX_LENGTH

// The most levels of a proof.
const mostLevels = 64

func proofOf(levels []Level, nodes []Chunk) *RangeProof {
	held, _ := newHandle(nil, func(lists *proofLists) error {
		*lists = proofLists{levels, nodes}
		return nil
	})
	return &RangeProof{held}
}

// NewRangeProof returns the proof with these flat lists, in the form of Levels and Nodes. It returns the lowest rule, ProofRule plus 5 to 8,
// that they break.
func NewRangeProof(levels []Level, nodes []Chunk) (*RangeProof, error) {
	levels, nodes = append([]Level(nil), levels...), append([]Chunk(nil), nodes...)
	if err := check(C.yurewha_range_proof_check(levelsPointer(levels), C.size_t(len(levels)), chunksPointer(nodes), C.size_t(len(nodes)))); err != nil {
		return nil, err
	}
	return proofOf(levels, nodes), nil
}

func (p *RangeProof) lists() (lists proofLists, err error) {
	if p == nil {
		return lists, check(C.YUREWHA_EMPTY_HANDLE)
	}
	err = p.held.with(func(it *proofLists) error {
		lists = *it
		return nil
	})
	return
}

// Levels returns the numbers of left and right nodes of each level, from the chunks up.
func (p *RangeProof) Levels() ([]Level, error) {
	lists, err := p.lists()
	return append([]Level(nil), lists.levels...), err
}

// Nodes returns all nodes in the order of the file: the left ones of all levels, lowest level first, then those of the chunks, then the right
// ones of all levels, highest level first.
func (p *RangeProof) Nodes() ([]Chunk, error) {
	lists, err := p.lists()
	return append([]Chunk(nil), lists.nodes...), err
}

// Chunks returns the nodes of the range's chunks.
func (p *RangeProof) Chunks() ([]Chunk, error) {
	lists, err := p.lists()
	nodes := lists.nodes
	for _, level := range lists.levels {
		nodes = nodes[level.Left : uint64(len(nodes))-level.Right]
	}
	return append([]Chunk(nil), nodes...), err
}

// Open opens the proof with the file hash without a salt. It returns ErrMismatch if the proof doesn't show that hash, or it is the default hash,
// which is that of the empty file.
func (p *RangeProof) Open(fileHash Hash) (*OpenedRange, error) {
	return p.OpenWithSalt(fileHash, [32]byte{})
}

// OpenWithSalt opens the proof with the file hash under a salt, as Open does.
func (p *RangeProof) OpenWithSalt(fileHash Hash, salt [32]byte) (*OpenedRange, error) {
	lists, err := p.lists()
	if err != nil {
		return nil, err
	}
	return makeOpenedRange(func(made *C.yurewha_opened_range) error {
		status := C.yurewha_range_proof_open(levelsPointer(lists.levels), C.size_t(len(lists.levels)), chunksPointer(lists.nodes),
			C.size_t(len(lists.nodes)), fileHash.pointer(), bytesPointer(&salt), made)
		return checkTold(status, C.YUREWHA_MISMATCH, "the proof doesn't show the file hash %s under this salt", fileHash)
	})
}

// OpenRoot opens the proof with the root of the file's chunks, as Open does with a file hash.
func (p *RangeProof) OpenRoot(root Hash) (*OpenedRange, error) {
	lists, err := p.lists()
	if err != nil {
		return nil, err
	}
	return makeOpenedRange(func(made *C.yurewha_opened_range) error {
		status := C.yurewha_range_proof_open_root(levelsPointer(lists.levels), C.size_t(len(lists.levels)), chunksPointer(lists.nodes),
			C.size_t(len(lists.nodes)), root.pointer(), made)
		return checkTold(status, C.YUREWHA_MISMATCH, "the proof doesn't show the root %s", root)
	})
}

// MarshalJSON returns the compact JSON text of a proof, which all packages read.
func (p RangeProof) MarshalJSON() ([]byte, error) {
	lists, err := p.lists()
	if err != nil {
		return nil, err
	}
	return written(4096, func(text []byte, length *cSize) cStatus {
		return C.yurewha_range_proof_to_json(levelsPointer(lists.levels), C.size_t(len(lists.levels)), chunksPointer(lists.nodes),
			C.size_t(len(lists.nodes)), textPointer(text), C.size_t(len(text)), length)
	})
}

// MarshalBinary returns a proof as bytes, 40 for each node, which all packages read.
func (p RangeProof) MarshalBinary() ([]byte, error) {
	lists, err := p.lists()
	if err != nil {
		return nil, err
	}
	return written(1+2*len(lists.levels)+40*len(lists.nodes), func(bytes []byte, length *cSize) cStatus {
		return C.yurewha_range_proof_to_bytes(levelsPointer(lists.levels), C.size_t(len(lists.levels)), chunksPointer(lists.nodes),
			C.size_t(len(lists.nodes)), (*C.uint8_t)(unsafe.Pointer(textPointer(bytes))), C.size_t(len(bytes)), length)
	})
}

// UnmarshalJSON reads a proof. For a value that is none it returns the lowest rule, ProofRule plus 1 to 8, that the value breaks, and
// for a text that isn't JSON ErrText. After an error the proof is as it was. Time and memory are in proportion to the text, so refuse a
// stranger's text of more than 2^24 bytes, or another limit, before: that many are enough for about 180,000 chunks.
func (p *RangeProof) UnmarshalJSON(text []byte) error {
	levels, nodes, status := writtenLists(mostLevels, len(text)/leastNode+1, func(levels []Level, nodes []Chunk, levelCount, nodeCount *cSize) cStatus {
		return C.yurewha_range_proof_from_json(textPointer(text), C.size_t(len(text)), levelsPointer(levels), C.size_t(len(levels)),
			chunksPointer(nodes), C.size_t(len(nodes)), levelCount, nodeCount)
	})
	return p.become(levels, nodes, checkTold(status, C.YUREWHA_TEXT, "the text isn't JSON: %s", shown(text)))
}

// UnmarshalBinary reads a proof from the bytes of MarshalBinary. For others it returns the lowest rule that they break: ProofRule + 1, there is
// no byte; ProofRule + 3, there are fewer levels than it says; ProofRule + 4, no whole nodes follow; or ProofRule plus 5 to 8. Refuse a
// stranger's bytes as in UnmarshalJSON.
func (p *RangeProof) UnmarshalBinary(data []byte) error {
	some := atLeastOne(data)
	levels, nodes, status := writtenLists(mostLevels, len(data)/40, func(levels []Level, nodes []Chunk, levelCount, nodeCount *cSize) cStatus {
		return C.yurewha_range_proof_from_bytes(unsafe.Pointer(&some[0]), C.size_t(len(data)), levelsPointer(levels), C.size_t(len(levels)),
			chunksPointer(nodes), C.size_t(len(nodes)), levelCount, nodeCount)
	})
	return p.become(levels, nodes, check(status))
}

// Sets what was read, unless it couldn't be.
func (p *RangeProof) become(levels []Level, nodes []Chunk, err error) error {
	if err != nil {
		return err
	}
	return p.held.read(nil, func(lists *proofLists) error {
		*lists = proofLists{levels, nodes}
		return nil
	})
}

// An OpenedRange checks the data of a range's chunks. What it says of places and of the file's size is the proof's own word until data was
// checked.
type OpenedRange struct {
	held handle[C.yurewha_opened_range]
}

func freeOpenedRange(opened *C.yurewha_opened_range) { C.yurewha_opened_range_free(opened) }

func makeOpenedRange(call func(*C.yurewha_opened_range) error) (*OpenedRange, error) {
	held, err := newHandle(freeOpenedRange, call)
	if err != nil {
		return nil, err
	}
	return &OpenedRange{held}, nil
}

func (r *OpenedRange) handle() (held handle[C.yurewha_opened_range]) {
	if r != nil {
		held = r.held
	}
	return
}

// FileSize returns the size of the file in bytes.
func (r *OpenedRange) FileSize() (size uint64, err error) {
	err = r.handle().with(func(opened *C.yurewha_opened_range) error {
		return check(C.yurewha_opened_range_file_size(opened, (*C.uint64_t)(&size)))
	})
	return
}

// NumChunks returns the number of chunks of the range.
func (r *OpenedRange) NumChunks() (int, error) {
	var count C.size_t
	err := r.handle().with(func(opened *C.yurewha_opened_range) error {
		return check(C.yurewha_opened_range_num_chunks(opened, &count))
	})
	return int(count), err
}

// BytesOf returns where in the file a chunk of the range begins and ends. The chunks of the range count from 0. It returns ErrArguments if there
// is no such chunk.
func (r *OpenedRange) BytesOf(chunk int) (from, to uint64, err error) {
	err = r.handle().with(func(opened *C.yurewha_opened_range) error { return placesOf(opened, chunk, &from, &to) })
	return
}

func placesOf(opened *C.yurewha_opened_range, chunk int, from, to *uint64) error {
	status := C.yurewha_opened_range_bytes_of(opened, C.size_t(chunk), (*C.uint64_t)(from), (*C.uint64_t)(to))
	return checkTold(status, C.YUREWHA_ARGUMENTS, "the range has no chunk %d", chunk)
}

// Check checks the data of a chunk of the range, and returns where in the file it begins. The chunks of the range count from 0. It returns
// ErrMismatch unless the data's hash and length are those of the chunk's node, and ErrArguments if there is no such chunk.
func (r *OpenedRange) Check(chunk int, data []byte) (place uint64, err error) {
	err = r.handle().with(func(opened *C.yurewha_opened_range) error { return checkChunk(opened, chunk, data, &place) })
	return
}

func checkChunk(opened *C.yurewha_opened_range, chunk int, data []byte, place *uint64) error {
	some := atLeastOne(data)
	status := C.yurewha_opened_range_check(opened, C.size_t(chunk), unsafe.Pointer(&some[0]), C.size_t(len(data)), (*C.uint64_t)(place))
	if status != C.YUREWHA_MISMATCH {
		return check(status)
	}
	var from, to uint64
	if err := placesOf(opened, chunk, &from, &to); err != nil {
		return err
	}
	made := refused(status, "this isn't the data of chunk %d of the range, which has the bytes from %d up to %d", chunk, from, to)
	made.Chunk, made.Place = chunk, from
	return made
}

// Read checks the data of all chunks of the range, which come one after another with nothing else, and returns the part of it that is the bytes
// of the file from a place up to, but without, another one. It returns ErrMismatch unless each chunk checks and the range has these bytes.
func (r *OpenedRange) Read(from, to uint64, data []byte) (bytes []byte, err error) {
	err = r.handle().with(func(opened *C.yurewha_opened_range) error {
		var start C.size_t
		some := atLeastOne(data)
		status := C.yurewha_opened_range_read(opened, C.uint64_t(from), C.uint64_t(to), unsafe.Pointer(&some[0]), C.size_t(len(data)), &start)
		if status == C.YUREWHA_MISMATCH {
			return unread(opened, from, to, data)
		}
		if status == C.YUREWHA_DONE {
			bytes = data[start : uint64(start)+to-from]
		}
		return check(status)
	})
	return
}

// Returns the error that says why bytes couldn't be read from data, with the first chunk that is wrong.
func unread(opened *C.yurewha_opened_range, from, to uint64, data []byte) error {
	var count C.size_t
	var begin, end, ignored uint64
	if err := check(C.yurewha_opened_range_num_chunks(opened, &count)); err != nil {
		return err
	}
	if err := placesOf(opened, 0, &begin, &ignored); err != nil {
		return err
	}
	if err := placesOf(opened, int(count)-1, &ignored, &end); err != nil {
		return err
	}
	if from < begin || to < from || end < to {
		return refused(C.YUREWHA_MISMATCH, "the proof is of the bytes from %d up to %d, and not of those from %d up to %d", begin, end, from, to)
	}
	length := uint64(len(data))
	made := refused(C.YUREWHA_MISMATCH, "the range has %d bytes, and the data %d", end-begin, length)
	if length > end-begin {
		return made
	}
	if wrong := firstWrong(opened, int(count), begin, data); wrong != nil && length == end-begin {
		return wrong
	} else if wrong != nil {
		made.Chunk, made.Place = wrong.Chunk, wrong.Place
	}
	return made
}

// Returns the error of the first chunk whose data is wrong or missing, or nil.
func firstWrong(opened *C.yurewha_opened_range, count int, begin uint64, data []byte) *Error {
	for chunk := 0; chunk < count; chunk++ {
		var from, to, place uint64
		if placesOf(opened, chunk, &from, &to) != nil {
			return nil
		}
		from, to = from-begin, to-begin
		if length := uint64(len(data)); length < to {
			to = length
			if length < from {
				from = length
			}
		}
		if wrong, is := checkChunk(opened, chunk, data[from:to], &place).(*Error); is {
			return wrong
		}
	}
	return nil
}

// MarshalJSON returns ErrArguments: an OpenedRange has no JSON form, and {} would lose it without an error.
func (r OpenedRange) MarshalJSON() ([]byte, error) {
	return nil, refused(C.YUREWHA_ARGUMENTS, "an OpenedRange has no JSON form")
}

// Close frees the memory of an opened range.
func (r *OpenedRange) Close() { r.handle().close(freeOpenedRange) }

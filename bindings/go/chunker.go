package yurewha

// #include <yurewha.h>
import "C"

import "unsafe"

// A Chunker finds where Xet cuts a file that comes in pieces. Each chunk has 8192 to 131072 bytes, but the last of a file may have fewer. The
// zero Chunker is at the beginning of a file, and a copy of a Chunker goes on by itself. Goroutines may not share one.
type Chunker struct {
	state C.yurewha_chunker
	begun bool
}

// NewChunker returns a chunker at the beginning of a file.
func NewChunker() *Chunker { return new(Chunker) }

// Returns the state, which begins at its first use.
func (c *Chunker) started() *C.yurewha_chunker {
	if !c.begun {
		C.yurewha_chunker_begin(&c.state)
		c.begun = true
	}
	return &c.state
}

// NextBoundary takes more of the file. If the chunk ends in the piece, it returns after how many bytes of it, and true, and takes no more than
// these: the next call begins with what follows. Otherwise it takes the whole piece, and returns false. The chunks are the same in whatever
// pieces the file comes.
func (c *Chunker) NextBoundary(piece []byte) (end int, found bool) {
	some := atLeastOne(piece)
	end = int(C.yurewha_chunker_next_boundary(c.started(), unsafe.Pointer(&some[0]), C.size_t(len(piece))))
	return end, end != 0
}

// Taken returns how many bytes of the chunk were taken so far. If the file ends here, and there are any, they are its last chunk.
func (c *Chunker) Taken() int { return int(C.yurewha_chunker_taken(c.started())) }

// MarshalJSON returns ErrArguments: a Chunker has no JSON form, and {} would lose it without an error.
func (c Chunker) MarshalJSON() ([]byte, error) {
	return nil, refused(C.YUREWHA_ARGUMENTS, "a Chunker has no JSON form")
}

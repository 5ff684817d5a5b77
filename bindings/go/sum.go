package yurewha

import (
	"errors"
	"fmt"
	"io"
	"io/fs"
	"os"
)

// ErrFileChanged says that a file became longer or shorter while SumFile read it, or that its length isn't known, as in /proc.
var ErrFileChanged = errors.New("the file changed its length while it was read")

// How many bytes of a file are read at once.
const sumPiece = 1 << 20

// Sum reads to the end, and returns the hash by which Xet names a file of these bytes. An error of the reader is returned as it is.
func Sum(reader io.Reader) (Hash, error) {
	sum, _, err := sumOf(reader)
	return sum, err
}

// SumFile returns the hash by which Xet names a file. If the file can't be opened or read, or changed its length meanwhile (ErrFileChanged), the
// error is an *fs.PathError, which has the name of the file.
func SumFile(path string) (Hash, error) {
	file, err := os.Open(path)
	if err != nil {
		return Hash{}, err
	}
	defer file.Close()
	return sumWhole(path, file)
}

// Returns the hash of a file and how many bytes were read.
func sumOf(reader io.Reader) (sum Hash, size uint64, err error) {
	hasher, err := NewFileHasher()
	if err != nil {
		return
	}
	defer hasher.Close()
	buffer := make([]byte, sumPiece)
	for err == nil {
		var count int
		count, err = fill(buffer, reader)
		if _, failure := hasher.Write(buffer[:count]); failure != nil {
			return Hash{}, 0, failure
		}
	}
	if err != io.EOF {
		return Hash{}, 0, err
	}
	if size, err = hasher.Size(); err == nil {
		sum, err = hasher.FileHash()
	}
	return
}

// Reads until the buffer is full. Unlike with io.ReadFull, the end is io.EOF alone: a body that a server cut off ends with
// io.ErrUnexpectedEOF. A reader that reads nothing again and again is an io.ErrNoProgress, as in bufio.
func fill(buffer []byte, reader io.Reader) (count int, err error) {
	const mostEmpty = 100
	for empty := 0; count < len(buffer) && err == nil; {
		var more int
		more, err = reader.Read(buffer[count:])
		count += more
		if empty++; more > 0 {
			empty = 0
		} else if err == nil && empty == mostEmpty {
			err = io.ErrNoProgress
		}
	}
	return
}

// Returns the hash of an open file, unless it has another length before or after than was read. What isn't a regular file, such as a pipe, has
// no length.
func sumWhole(path string, file fs.File) (Hash, error) {
	before, err := file.Stat()
	if err != nil {
		return Hash{}, err
	}
	if !before.Mode().IsRegular() {
		return Sum(file)
	}
	// One byte more shows that the file grew, and a file that grows faster than it is read comes to an end.
	sum, size, err := sumOf(io.LimitReader(file, before.Size()+1))
	if err != nil {
		return Hash{}, err
	}
	after, err := file.Stat()
	if err != nil {
		return Hash{}, err
	}
	if int64(size) != before.Size() || int64(size) != after.Size() {
		changed := fmt.Errorf("%w: it had %d bytes, then %d, and %d were read", ErrFileChanged, before.Size(), after.Size(), size)
		return Hash{}, &fs.PathError{Op: "read", Path: path, Err: changed}
	}
	return sum, nil
}

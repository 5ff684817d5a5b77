package yurewha

import (
	"bytes"
	"errors"
	"fmt"
	"io"
	"io/fs"
	"os"
	"path/filepath"
	"runtime/debug"
	"strings"
	"testing"
	"testing/iotest"
)

// Bytes of SplitMix64 from the seed 0, each number's lowest byte first, as the model mixes them.
var mixed = func() []byte {
	made, state := make([]byte, 0, 1000000), uint64(0)
	for len(made) < cap(made) {
		state += 0x9e3779b97f4a7c15
		number := (state ^ state>>30) * 0xbf58476d1ce4e5b9
		number = (number ^ number>>27) * 0x94d049bb133111eb
		number ^= number >> 31
		for i := 0; i < 64; i += 8 {
			made = append(made, byte(number>>i))
		}
	}
	return made
}()

var zeros = make([]byte, 400000)

// From the length of a window on, each third place of these would end a long enough chunk.
var dense = bytes.Repeat([]byte{0, 148, 143}, 10000)

// Files, where each chunk ends, and the file hash: what tests/model/chunker.py computes.
var files = []struct {
	data []byte
	ends []int
	hash string
}{
	{nil, nil, "0000000000000000000000000000000000000000000000000000000000000000"},
	{mixed[:1], []int{1}, "65013edd008b17b61b88618fc55cd84af69611d1190d67c9ca25276eaa22bb53"},
	{mixed[:63], []int{63}, "43a6a50d88dcccf1c29fd10217b28f8734d59793458775968a68d8b8ce55b3be"},
	{mixed[:64], []int{64}, "59cc2a9d4cd4da170c50d2979c5a899628a4c283eba7e6caf724c01c52f48bf0"},
	{mixed[:65], []int{65}, "0af7358254257a20bdd46e0681c17881db391cf1829a17b0778acf5db91a18d6"},
	{mixed[:8191], []int{8191}, "a2f0205f90bccc38d465dac03f8f4030d22374a1d4049d4cb54a7f5425ba9eee"},
	{mixed[:8192], []int{8192}, "fd9a9a47884c4d95ca19ee0aef1242c5f5b1b52e7b05020bc773dffc6cd83352"},
	{mixed[:8193], []int{8193}, "bb615047e38a1394afc61abe29100766c6fdc6212a0d5a5ba087e1f61a399232"},
	{mixed[:131071], []int{84493, 131071}, "323e355bd1b83fbd8e1b1d1b5d3d1490eecf860f4f36a50d38e6b4fb94bdf294"},
	{mixed[:131072], []int{84493, 131072}, "92ec576bf5c7d27fd87844eff81dfd5352a9d65cd3f90aa74dbcd38ebaaabc77"},
	{mixed[:131073], []int{84493, 131073}, "064436f9c9a2e04b4b8e28e8ea34ba6186e159abd251ad061fa8dbc9756c2bcb"},
	{mixed[:139265], []int{84493, 134421, 139265}, "92e0d8a21d5bfe9b439b8b9194cdc35f6d04326c847986700794f630d2ce50b6"},
	{mixed[:262145], []int{84493, 134421, 144853, 243318, 262145}, "ea3efc6889331ca15cd3aa63fe7880234d77bdab6e2b0d0d48241253d9dca630"},
	{mixed, []int{84493, 134421, 144853, 243318, 271793, 336457, 467529, 494581, 582000, 596735, 616815, 653164, 678202, 724510, 815591, 827760,
		958832, 991092, 1000000}, "3d17b2d7d64a0e011b6717a52d9a16bd2c3f05b743fa8adf52a7d75dafab6d89"},
	{zeros[:8192], []int{8192}, "711574865581cce65f5d06a1818a37a1dd4cfe3f65e3f4aaae2b1bacbfc253db"},
	{zeros[:131071], []int{131071}, "72f8496f548b319d8624c1c76e8520b8776a2cbea5fceeeea7fcdb18860ca407"},
	{zeros[:131072], []int{131072}, "7a7c18448d7ae35cc61c072281981c565fedb8a079b42c6ef4a0c846bb78c50d"},
	{zeros[:131073], []int{131072, 131073}, "83f8f48adc7310b5748295b256ca24cdce2aac457679c98526e3a19e0388f58a"},
	{zeros, []int{131072, 262144, 393216, 400000}, "9d19082015056c26021f5c5e03f1a342d9028634c6e005df0fedac0a3c74b916"},
	{dense[:8192], []int{8192}, "df519fe634aaaabdbb99711f4e4365b0d40e324695f1ecd4845ebda446af27cb"},
	{dense[:8193], []int{8193}, "96078eb0ea6735c002a241fa5f6da0b1fe48c59fa4fcbdac8f2e9c5398f77fc0"},
	{dense[:8194], []int{8193, 8194}, "2dfc2c3572ca6097513be005e204766e59ee146748c5cc9e995605443c447057"},
	{dense[:16385], []int{8193, 16385}, "77211dfe4812f246178ee27579e7afb9ad63ecd555f46970924391571164dae7"},
	{dense[:16386], []int{8193, 16386}, "a2e63b396fd5bdd504368d0df9cda015b2e9f0b587f2a428f3b3d3f02baea75e"},
	{dense, []int{8193, 16386, 24579, 30000}, "b02fb668a6224485e52725efd3d37c6f064502af07ca94a08197408feb57e168"},
}

// Goes through the pieces of data: of lengths that begin again and again from the first, with an empty piece before each.
func eachPiece(data []byte, lengths []int, take func(piece []byte)) {
	take(nil)
	for i := 0; len(data) > 0; i++ {
		length := lengths[i%len(lengths)]
		if length > len(data) {
			length = len(data)
		}
		take(data[:length])
		take(data[:0])
		data = data[length:]
	}
}

// Lengths of pieces. Only short files come in bytes.
func lengthsOfPieces(size int) [][]int {
	lengths := [][]int{{1000000}, {65536}, {8193, 131071, 1, 64}, {100003}}
	if size <= 16386 {
		lengths = append(lengths, []int{1})
	}
	return lengths
}

// Where each chunk ends, by a chunker that gets the file in pieces.
func endsOf(t *testing.T, data []byte, lengths []int) (ends []int) {
	var chunker Chunker
	place, begin := 0, 0
	eachPiece(data, lengths, func(piece []byte) {
		for end, found := chunker.NextBoundary(piece); found; end, found = chunker.NextBoundary(piece) {
			piece, place = piece[end:], place+end
			begin, ends = place, append(ends, place)
			expect(t, chunker.Taken(), 0)
		}
		place += len(piece)
		expect(t, chunker.Taken(), place-begin)
	})
	if chunker.Taken() != 0 {
		ends = append(ends, place)
	}
	return
}

func TestAFileIsCutAsTheModelCutsIt(t *testing.T) {
	for _, file := range files {
		for _, lengths := range lengthsOfPieces(len(file.data)) {
			if ends := endsOf(t, file.data, lengths); fmt.Sprint(ends) != fmt.Sprint(file.ends) {
				t.Errorf("%d bytes in pieces of %d are cut at %d, and not at %d", len(file.data), lengths, ends, file.ends)
			}
		}
	}
	var chunker Chunker
	chunker.NextBoundary(mixed[:80000])
	copied := chunker
	for _, it := range []*Chunker{&copied, &chunker} {
		end, found := it.NextBoundary(mixed[80000:])
		expect(t, fmt.Sprint(end, found), "4493 true")
	}
}

// The chunks of a file, by where each ends.
func chunksOf(data []byte, ends []int) (list []Chunk) {
	begin := 0
	for _, end := range ends {
		list, begin = append(list, chunkOf(data[begin:end])), end
	}
	return
}

func TestAFileHasTheHashOfTheModel(t *testing.T) {
	for _, file := range files {
		list, salt := chunksOf(file.data, file.ends), [32]byte{9}
		for _, lengths := range lengthsOfPieces(len(file.data)) {
			var hasher FileHasher
			eachPiece(file.data, lengths, func(piece []byte) {
				expect(t, must(hasher.Write(piece)), len(piece))
				if len(piece) > 1 {
					must(hasher.Root()) // which changes nothing
				}
			})
			expect(t, must(hasher.Size()), uint64(len(file.data)))
			expect(t, must(hasher.FileHash()).String(), file.hash)
			expect(t, must(hasher.Root()), must(XorbHash(list)))
			expect(t, must(hasher.FileHashWithSalt([32]byte{})).String(), file.hash)
			expect(t, must(hasher.FileHashWithSalt(salt)), must(FileHashWithSalt(list, salt)))
			hasher.Close()
		}
	}
}

// Whoever writes goes on after as many bytes as Write says.
func TestAWriteThatFailsTakesNothing(t *testing.T) {
	hasher := must(NewFileHasher())
	hasher.Close()
	count, err := hasher.Write(mixed)
	expect(t, count, 0)
	expectError(t, err, ErrEmptyHandle)
}

// ---- Sum

// A reader that returns nothing, and no error, before each piece.
type hesitant struct {
	io.Reader
	hesitates bool
}

func (h *hesitant) Read(buffer []byte) (int, error) {
	if h.hesitates = !h.hesitates; h.hesitates {
		return 0, nil
	}
	return h.Reader.Read(buffer)
}

func TestSumReadsToTheEnd(t *testing.T) {
	long := bytes.Repeat(mixed, 3)
	for _, file := range append(files, files[0]) {
		expect(t, must(Sum(bytes.NewReader(file.data))).String(), file.hash)
		expect(t, must(Sum(iotest.HalfReader(bytes.NewReader(file.data)))).String(), file.hash)
		expect(t, must(Sum(iotest.DataErrReader(bytes.NewReader(file.data)))).String(), file.hash)
		expect(t, must(Sum(&hesitant{Reader: bytes.NewReader(file.data)})).String(), file.hash)
	}
	expect(t, must(Sum(iotest.OneByteReader(bytes.NewReader(mixed)))).String(), must(Sum(bytes.NewReader(mixed))).String())
	expect(t, must(Sum(iotest.DataErrReader(bytes.NewReader(long)))), must(FileHash(chunksOf(long, endsOf(t, long, []int{len(long)})))))
}

// A reader that reads nothing, and never says why.
type silent struct{}

func (silent) Read([]byte) (int, error) { return 0, nil }

func TestAReaderThatReadsNothingHasNoSum(t *testing.T) {
	_, err := Sum(io.MultiReader(bytes.NewReader(mixed), silent{}))
	expect(t, errors.Is(err, io.ErrNoProgress), true)
}

// What ends a reader in another way isn't the end of the file, as when a server cuts off a body.
func TestAReaderThatFailsHasNoSum(t *testing.T) {
	for _, failure := range []error{io.ErrUnexpectedEOF, io.ErrClosedPipe, fmt.Errorf("wrapped: %w", io.EOF)} {
		for _, length := range []int{0, 1, 1000000} {
			cut := io.MultiReader(bytes.NewReader(mixed[:length]), iotest.ErrReader(failure))
			sum, err := Sum(cut)
			expect(t, err, failure)
			expect(t, sum, Hash{})
		}
	}
}

// A reader that keeps where the buffers are which it fills, and of what length they are.
type watched struct {
	io.Reader
	ends  map[*byte]bool
	first int
	most  int64
}

func (w *watched) Read(buffer []byte) (int, error) {
	w.ends[&buffer[len(buffer)-1]] = true
	if w.first == 0 {
		w.first = len(buffer)
	}
	if bytes := libraryBytes(); bytes > w.most {
		w.most = bytes
	}
	return w.Reader.Read(buffer)
}

// A file of any size is read into one buffer.
func TestSumHasOneBuffer(t *testing.T) {
	settle(t)
	reader := &watched{Reader: io.LimitReader(endless{}, 50000000), ends: map[*byte]bool{}}
	must(Sum(reader))
	expect(t, len(reader.ends), 1)
	expect(t, reader.first, 1<<20)
	expect(t, reader.most < 1<<20, true)
	expect(t, libraryBlocks(), int64(0))
}

// Zeros without an end, which come in odd pieces.
type endless struct{}

func (endless) Read(buffer []byte) (int, error) {
	if len(buffer) > 70001 {
		buffer = buffer[:70001]
	}
	for i := range buffer {
		buffer[i] = 0
	}
	return len(buffer), nil
}

// ---- SumFile

func writtenFile(t *testing.T, data []byte) string {
	path := filepath.Join(t.TempDir(), "some file")
	expect(t, os.WriteFile(path, data, 0o600), nil)
	return path
}

func TestSumFileReadsAWholeFile(t *testing.T) {
	for _, file := range files {
		expect(t, must(SumFile(writtenFile(t, file.data))).String(), file.hash)
	}
	sparse := writtenFile(t, nil)
	expect(t, os.Truncate(sparse, int64(len(zeros))), nil)
	expect(t, must(SumFile(sparse)), must(Sum(bytes.NewReader(zeros))))
}

// A pipe has no length, and neither has a device.
func TestSumFileReadsAPipe(t *testing.T) {
	reader, writer, err := os.Pipe()
	expect(t, err, nil)
	go func() {
		must(writer.Write(mixed))
		writer.Close()
	}()
	expect(t, must(SumFile(fmt.Sprintf("/dev/fd/%d", reader.Fd()))), must(Sum(bytes.NewReader(mixed))))
	reader.Close()
	expect(t, must(SumFile(os.DevNull)), Hash{})
}

func TestSumFileNamesAFileThatCannotBeRead(t *testing.T) {
	folder := t.TempDir()
	for _, path := range []string{folder, filepath.Join(folder, "none"), ""} {
		sum, err := SumFile(path)
		var failure *fs.PathError
		if !errors.As(err, &failure) || failure.Path != path || errors.Is(err, ErrFileChanged) {
			t.Errorf("%q: %v", path, err)
		}
		expect(t, sum, Hash{})
	}
	expect(t, errors.Is(second(SumFile(filepath.Join(folder, "none"))), fs.ErrNotExist), true)
}

// A file that becomes another one before a certain read of it, which counts from 0.
type changing struct {
	*os.File
	reads  int
	change func(path string) error
}

func (c *changing) Read(buffer []byte) (int, error) {
	if c.reads--; c.reads == -1 {
		if err := c.change(c.Name()); err != nil {
			return 0, err
		}
	}
	return c.File.Read(buffer)
}

func truncated(size int64) func(path string) error {
	return func(path string) error { return os.Truncate(path, size) }
}

func appended(path string) error {
	file, err := os.OpenFile(path, os.O_WRONLY|os.O_APPEND, 0)
	if err == nil {
		_, err = file.Write([]byte("a"))
		file.Close()
	}
	return err
}

// A file that becomes shorter or longer is an error with its name, at whatever read that happens.
func TestAFileThatChangesItsLengthHasNoSum(t *testing.T) {
	for _, size := range []int{0, 1, 1<<20 - 1, 1 << 20, 1<<20 + 1, 3000000} {
		data := bytes.Repeat(mixed, 3)[:size]
		for reads := 0; reads <= size>>20; reads++ {
			for _, change := range []func(path string) error{appended, truncated(int64(size) + 5000000), truncated(0), truncated(int64(size) / 2)} {
				path := writtenFile(t, data)
				file := &changing{must(os.Open(path)), reads, change}
				sum, err := sumWhole(path, file)
				file.Close()
				info := must(os.Stat(path))
				if info.Size() == int64(size) {
					expect(t, err, nil)
					continue
				}
				var failure *fs.PathError
				if !errors.Is(err, ErrFileChanged) || !errors.As(err, &failure) || failure.Path != path || !strings.Contains(err.Error(), fmt.Sprint(size)) {
					t.Errorf("%d bytes, which became %d before read %d: %v", size, info.Size(), reads, err)
				}
				expect(t, sum, Hash{})
			}
		}
	}
}

// A file that becomes shorter after its last byte was read, and one that is shorter at each read and long again at the end.
func TestAFileThatHasItsLengthAgainHasNoSum(t *testing.T) {
	path := writtenFile(t, mixed)
	open := must(os.Open(path))
	defer open.Close()
	// The last read finds the end, and comes after all bytes.
	file := &changing{open, 1, truncated(999999)}
	expectChanged(t, path, second(sumWhole(path, file)))
	path = writtenFile(t, mixed)
	short := &changing{must(os.Open(path)), 0, truncated(1000)}
	defer short.Close()
	expectChanged(t, path, second(sumWhole(path, &longAgain{short})))
	expect(t, must(os.Stat(path)).Size(), int64(len(mixed)))
}

// Whatever has the name of an open file at the end, the file has the hash.
func TestAFileThatIsReplacedIsTheOldOne(t *testing.T) {
	path, other := writtenFile(t, mixed), writtenFile(t, nil)
	file := &changing{must(os.Open(path)), 1, func(path string) error { return os.Rename(other, path) }}
	defer file.Close()
	expect(t, must(sumWhole(path, file)), must(Sum(bytes.NewReader(mixed))))
	expect(t, must(os.Stat(path)).Size(), int64(0))
}

// A file that has its length again when nothing more comes.
type longAgain struct{ *changing }

func (l *longAgain) Read(buffer []byte) (count int, err error) {
	if count, err = l.changing.Read(buffer); err == io.EOF {
		must(0, os.Truncate(l.Name(), int64(len(mixed))))
	}
	return
}

func expectChanged(t *testing.T, path string, err error) {
	t.Helper()
	if !errors.Is(err, ErrFileChanged) || !strings.Contains(err.Error(), path) {
		t.Errorf("%s: %v", path, err)
	}
}

// A file that grows as fast as it is read. After a while it fails.
type growing struct {
	*os.File
	rest int
}

func (g *growing) Read(buffer []byte) (int, error) {
	if g.rest--; g.rest < 0 {
		return 0, io.ErrNoProgress
	}
	return endless{}.Read(buffer)
}

func TestAFileThatGrowsWithoutAnEndIsAnError(t *testing.T) {
	path := writtenFile(t, mixed)
	file := &growing{must(os.Open(path)), 1000}
	defer file.Close()
	expectChanged(t, path, second(sumWhole(path, file)))
}

// No file stays open, without the garbage collector.
func TestSumFileClosesTheFile(t *testing.T) {
	defer debug.SetGCPercent(debug.SetGCPercent(-1))
	path := writtenFile(t, mixed)
	before := len(must(os.ReadDir("/dev/fd")))
	for i := 0; i < 20; i++ {
		must(SumFile(path))
		_, _ = SumFile(filepath.Dir(path))
	}
	expect(t, len(must(os.ReadDir("/dev/fd"))) < before+20, true)
}

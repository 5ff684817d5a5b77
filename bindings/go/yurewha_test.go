package yurewha

import (
	"encoding/json"
	"errors"
	"fmt"
	"io"
	"math/rand"
	"runtime"
	"sort"
	"strings"
	"sync"
	"testing"
)

func chunks(texts ...string) (list []Chunk) {
	for _, text := range texts {
		list = append(list, Chunk{DataHash([]byte(text)), uint64(len(text))})
	}
	return
}

// Chunks without a natural cut, so that a subtree keeps each.
func uncut(count uint64) (list []Chunk) {
	for i := uint64(0); i < count; i++ {
		list = append(list, Chunk{Hash{i, i, i, 4*i + 1}, i})
	}
	return
}

func expect(t *testing.T, found, wanted any) {
	t.Helper()
	if found != wanted {
		t.Errorf("%v, and not %v", found, wanted)
	}
}

// Expects an error with a status.
func expectError(t *testing.T, err error, wanted Status) {
	t.Helper()
	if !errors.Is(err, wanted) {
		t.Errorf("%v, and not %v", err, wanted)
	}
}

// A value without its error, which has to be nil.
func must[T any](value T, err error) T {
	if err != nil {
		panic(err)
	}
	return value
}

func TestAHashHasItsForms(t *testing.T) {
	hash := Hash{1, 2, 3, 255}
	expect(t, hash.String(), "000000000000000100000000000000020000000000000003"+"00000000000000ff")
	expect(t, must(ParseHash(strings.ToUpper(hash.String()))), hash)
	expect(t, HashFromBytes(hash.Bytes()), hash)
	expect(t, hash.Bytes()[31], byte(0))
	expect(t, hash.Bytes()[24], byte(255))
	expect(t, fmt.Sprint(hash.Compare(Hash{1, 2, 4}), hash.Compare(hash), hash.Compare(Hash{1, 2, 3})), "-1 0 1")
	_, err := ParseHash("a")
	expectError(t, err, ErrText)
	expect(t, string(must(json.Marshal(hash))), `"`+hash.String()+`"`)
}

func TestTheLibrarySaysWhatItIs(t *testing.T) {
	numbers := strings.Split(Version(), ".")
	expect(t, len(numbers), 3)
	expect(t, strings.HasPrefix(ProcessorLevel(), "x86-64") || ProcessorLevel() == "aarch64", true)
}

func TestAHasherIsAHashOfGo(t *testing.T) {
	hasher := NewHasher()
	expect(t, must(io.Copy(hasher, strings.NewReader("a ch"))), int64(4))
	copied := *hasher
	for _, piece := range []string{"", "un", "k"} {
		expect(t, must(hasher.Write([]byte(piece))), len(piece))
	}
	sum := DataHash([]byte("a chunk")).Bytes()
	expect(t, string(hasher.Sum([]byte("x"))), "x"+string(sum[:]))
	expect(t, copied.Hash(), DataHash([]byte("a ch")))
	var zero Hasher
	must(zero.Write([]byte("a ch")))
	expect(t, zero.Hash(), DataHash([]byte("a ch")))
	expect(t, hasher.Count(), uint64(7))
	hasher.Reset()
	expect(t, hasher.Hash(), DataHash(nil))
	for _, keyed := range []*Hasher{NewInternalNodeHasher(), NewKeyedHasher([32]byte{7})} {
		begun := keyed.Hash()
		must(keyed.Write([]byte("a chunk")))
		keyed.Reset()
		expect(t, keyed.Hash(), begun)
		expect(t, keyed.Hash() != DataHash(nil), true)
	}
	expect(t, hasher.Size(), len(sum))
	expect(t, hasher.BlockSize(), 64)
}

func TestRootsAndMergedRangesAgree(t *testing.T) {
	list := chunks("a chunk", "another", "and a third")
	expect(t, must(XorbHash(list[:2])).String(), "afd6af66bfc0cef6ba85f876fc16efa5fa43c2187a61a17fb1bd26710cbad464")
	expect(t, must(FileHash(list[:2])).String(), "34c6a21285884a20f7008f0e4732ea405f7fca63b68f66072805817902d23d0b")
	expect(t, must(FileHashWithSalt(list, [32]byte{})), must(FileHash(list)))
	expect(t, must(FileHashWithSalt(list, [32]byte{1})) != must(FileHash(list)), true)
	expect(t, must(XorbHash(nil)), Hash{})

	front, back := must(NewSubtree(true, list[:1], false)), must(NewSubtree(false, list[1:], true))
	_, err := front.FinalHash()
	expectError(t, err, ErrArguments)
	copied := must(front.Clone())
	expect(t, front.MergeInto(back), nil)
	expect(t, must(front.FinalHash()), must(XorbHash(list)))
	expectError(t, front.MergeInto(back), ErrArguments)
	expect(t, copied.MergeInto(back), nil)
	expect(t, must(copied.FinalHash()), must(XorbHash(list)))
	twice := must(NewSubtree(false, list, false))
	expect(t, twice.MergeInto(twice), nil)
	expect(t, string(must(twice.MarshalJSON())), string(must(must(NewSubtree(false, append(list, list...), false)).MarshalJSON())))
}

func TestASessionTakesChunksInAnyOrder(t *testing.T) {
	list := chunks("a chunk", "another", "and a third")
	for _, begin := range []func() (*Session, error){NewSession, NewSessionWithoutHashes} {
		session := must(begin())
		expect(t, must(session.Put(1, list[1:])), uint64(2))
		_, err := session.Put(2, list[:1])
		expectError(t, err, ErrSessionOverlap)
		_, err = session.Put(1<<64-1, list[:2])
		expectError(t, err, ErrSessionPositions)
		_, err = session.Finish(3)
		expectError(t, err, ErrSessionGap)
		expect(t, must(session.Put(0, list[:1])), uint64(1))
		expect(t, must(session.Finish(3)), must(FileHash(list)))
		expect(t, must(session.Root(3)), must(XorbHash(list)))
		session.Close()
		_, err = session.Root(3)
		expectError(t, err, ErrEmptyHandle)
	}
	session, light := must(NewSession()), must(NewSessionWithoutHashes())
	for _, keeps := range []bool{false, true} {
		expect(t, must(must(ParseSession(must(session.MarshalJSON()), keeps)).KeepsHashes()), keeps)
	}
	must(session.Put(0, list))
	must(light.Put(0, list))
	expect(t, must(session.Put(3, list)), uint64(0))
	expect(t, must(light.Put(3, list)), uint64(3))
}

// Many goroutines hash the parts of a file. Their ranges and sessions come in any order.
func TestPartsAreJoinedInAnyOrder(t *testing.T) {
	draws := rand.New(rand.NewSource(67))
	for round := 0; round < 100; round++ {
		list, whole, sessions := some(draws.Intn(60)), must(NewSession()), []*Session{must(NewSession())}
		total, places := uint64(len(list)), []int{0, len(list)}
		for more := draws.Intn(6); more > 0; more-- {
			places = append(places, draws.Intn(len(list)+1))
		}
		sort.Ints(places)
		for _, i := range draws.Perm(len(places) - 1) {
			first, part := uint64(places[i]), list[places[i]:places[i+1]]
			if len(part) == 0 {
				continue
			}
			subtree, count, session := must(NewSubtree(false, part, false)), uint64(len(part)), must(NewSession())
			expect(t, whole.PutRange(first, count, subtree), nil)
			// A part that comes again is refused.
			expect(t, whole.PutRange(first, count, subtree).(*Error).Position, first)
			if draws.Intn(2) == 0 {
				must(session.Put(first, part))
			} else {
				expect(t, session.PutRange(first, count, subtree), nil)
			}
			sessions = append(sessions, session)
		}
		expect(t, must(whole.Finish(total)), must(FileHash(list)))
		expect(t, len(must(whole.KnownHashes())), 0)
		for len(sessions) > 1 {
			last := len(sessions) - 1
			draws.Shuffle(len(sessions), func(i, j int) { sessions[i], sessions[j] = sessions[j], sessions[i] })
			one, other := sessions[0], sessions[last]
			known, theirs := len(must(one.KnownHashes())), state(other)
			fresh := must(one.Join(other))
			expect(t, fresh, uint64(len(must(one.KnownHashes()))-known))
			expect(t, state(other), theirs)
			if must(other.NumRuns()) > 0 {
				before := state(one)
				_, err := one.Join(other)
				expectError(t, err, ErrSessionOverlap)
				expect(t, state(one), before)
			}
			sessions = sessions[:last]
		}
		expect(t, must(sessions[0].Finish(total)), must(FileHash(list)))
	}
	session, light := sessionOf(3), must(NewSessionWithoutHashes())
	expect(t, must(light.Join(session)), uint64(3))
	expect(t, must(light.KeepsHashes()), false)
	expect(t, must(new(Session).Join(light)), uint64(0))
	for _, empty := range []*Session{new(Session), must(NewSession())} {
		expect(t, must(empty.Join(empty)), uint64(0))
	}
}

// The last position is 2^64 - 2, and a run that has it ends at 2^64 - 1.
func TestRunsEndWhereAGapBegins(t *testing.T) {
	const most = 1<<64 - 1
	session, list := new(Session), some(2)
	wanted := []Positions{{3, 5}, {7, 9}, {most - 2, most}}
	for _, run := range wanted {
		must(session.Put(run.First, list))
	}
	position := uint64(0)
	for i, positions := range wanted {
		run := must(session.Run(i))
		expect(t, run.Positions, positions)
		from, found, err := session.RunFrom(position)
		expect(t, fmt.Sprint(from.Positions, found, err), fmt.Sprint(positions, true, nil))
		expect(t, must(run.Subtree.Equal(from.Subtree)), true)
		expect(t, must(run.Subtree.TotalSize()), uint64(18))
		position = from.End
	}
	_, found, err := session.RunFrom(position)
	expect(t, fmt.Sprint(found, err), fmt.Sprint(false, nil))
	expect(t, fmt.Sprint(must(session.Gaps(10))), "[{0 3} {5 7} {9 10}]")
	expect(t, must(session.NumRuns()), 3)
	for first, position := range map[uint64]string{2: "3", 4: "4", 6: "7", most - 1: "18446744073709551614", most - 3: "18446744073709551613"} {
		_, err := session.Put(first, list)
		expect(t, fmt.Sprint(err), "yurewha: position "+position+" is taken")
	}
}

// Whoever knows the hash of a file checks a part of it by a proof, which has come as JSON or as bytes.
func TestAProofShowsAPartOfAFile(t *testing.T) {
	list := some(9)
	tree := must(NewHashTree(list))
	first, end, err := tree.ChunksAt(70, 120)
	expect(t, fmt.Sprint(first, end, err), "4 6 <nil>")
	data := append(dataOfChunk(4), dataOfChunk(5)...)
	var fromJSON, fromBytes RangeProof
	made := must(tree.Proof(first, end))
	expect(t, fromJSON.UnmarshalJSON(must(made.MarshalJSON())), nil)
	expect(t, fromBytes.UnmarshalBinary(must(made.MarshalBinary())), nil)
	for _, proof := range []*RangeProof{made, &fromJSON, &fromBytes, must(NewRangeProof(must(made.Levels()), must(made.Nodes())))} {
		expect(t, fmt.Sprint(must(proof.Chunks())), fmt.Sprint(list[first:end]))
		opened := must(proof.Open(must(FileHash(list))))
		expect(t, string(must(opened.Read(70, 120, data))), string(data[10:60]))
		expect(t, must(opened.Check(1, data[30:])), uint64(90))
		data[7] ^= 1
		_, err := opened.Read(70, 120, data)
		expectError(t, err, ErrMismatch)
		data[7] ^= 1
		expect(t, must(opened.FileSize()), must(tree.TotalSize()))
	}
	// A proof keeps no list that somebody else may change.
	text, levels, nodes := string(must(made.MarshalJSON())), must(made.Levels()), must(made.Nodes())
	copied := must(NewRangeProof(levels, nodes))
	levels[0].Left, nodes[0].Size = 7, 7
	must(copied.Nodes())[0].Size = 7
	must(copied.Levels())[0].Left = 7
	must(copied.Chunks())[0].Size = 7
	for _, proof := range []*RangeProof{made, copied} {
		expect(t, string(must(proof.MarshalJSON())), text)
	}
}

func TestTheNumberOfAHashThatCameFirstStays(t *testing.T) {
	index, one, two, three := must(NewHashIndex()), Hash{1}, Hash{2}, Hash{3}
	expect(t, must(index.Insert([]Hash{one, two, one}, []uint64{0, 1<<64 - 1, 5})), 2)
	expect(t, must(index.Insert([]Hash{two, one}, []uint64{6, 7})), 0)
	expect(t, must(index.Insert(nil, nil)), 0)
	numbers, found, err := index.Find([]Hash{three, two, one})
	expect(t, fmt.Sprint(numbers, found, err), fmt.Sprint([]uint64{0, 1<<64 - 1, 0}, []bool{false, true, true}, nil))
	for hash, wanted := range map[Hash]string{one: "0 true <nil>", two: "18446744073709551615 true <nil>", three: "0 false <nil>"} {
		number, found, err := index.Get(hash)
		expect(t, fmt.Sprint(number, found, err), wanted)
	}
	_, err = index.Insert([]Hash{three}, nil)
	expectError(t, err, ErrArguments)
	expect(t, must(index.Len()), 2)
	hashes, numbers, err := index.Entries()
	entries := map[Hash]uint64{}
	for i, hash := range hashes {
		entries[hash] = numbers[i]
	}
	expect(t, fmt.Sprint(entries, len(hashes), err), fmt.Sprint(map[Hash]uint64{one: 0, two: 1<<64 - 1}, 2, nil))
}

func TestDrawnHashesHaveTheNumbersOfAMap(t *testing.T) {
	draws := rand.New(rand.NewSource(66))
	// Hashes that have words in common, so that no single word tells them apart.
	drawn := func() (hash Hash) {
		for i := range hash {
			hash[i] = []uint64{0, 1, 1<<64 - 1}[draws.Intn(3)]
		}
		return
	}
	for round := 0; round < 100; round++ {
		index, wanted := must(NewHashIndex()), map[Hash]uint64{}
		for puts := draws.Intn(6); puts > 0; puts-- {
			hashes, numbers := make([]Hash, draws.Intn(40)), []uint64{}
			before := len(wanted)
			for i := range hashes {
				hashes[i] = drawn()
				numbers = append(numbers, draws.Uint64())
				if _, known := wanted[hashes[i]]; !known {
					wanted[hashes[i]] = numbers[i]
				}
			}
			expect(t, must(index.Insert(hashes, numbers)), len(wanted)-before)
		}
		expect(t, must(index.Len()), len(wanted))
		hashes, numbers, err := index.Entries()
		expect(t, err, nil)
		expect(t, len(hashes), len(wanted))
		for i, hash := range hashes {
			expect(t, numbers[i], wanted[hash])
		}
		for i := 0; i < 50; i++ {
			hash := drawn()
			number, found, err := index.Get(hash)
			wantedNumber, known := wanted[hash]
			expect(t, fmt.Sprint(number, found, err), fmt.Sprint(wantedNumber, known, nil))
		}
	}
}

// A text that doesn't fit is asked for once more, with the room that it needs, and so are lists.
func TestWhatDoesNotFitIsAskedForTwice(t *testing.T) {
	for length, wanted := range map[int]int{0: 1, 4096: 1, 4097: 2, 1 << 20: 2} {
		asked := 0
		text := must(written(4096, func(text []byte, needed *cSize) cStatus {
			asked++
			*needed = cSize(length)
			if len(text) < length {
				return needsRoom
			}
			return 0
		}))
		expect(t, len(text), length)
		expect(t, asked, wanted)
		asked = 0
		levels, nodes, status := writtenLists(64, 64, func(levels []Level, nodes []Chunk, levelCount, nodeCount *cSize) cStatus {
			asked++
			*levelCount, *nodeCount = 2, cSize(length)
			if len(nodes) < length {
				return needsRoom
			}
			return 0
		})
		expect(t, fmt.Sprint(len(levels), len(nodes), status), fmt.Sprint(2, length, 0))
		expect(t, asked <= 2, true)
	}
	text := must(must(NewSubtree(false, uncut(200), false)).MarshalJSON())
	expect(t, len(text) > 4096 && json.Valid(text), true)
}

// Calls that write into room are told how much there is: what is longer by one than the first room is whole, and so is what just fits.
func TestRoomIsAsGreatAsItIsSaidToBe(t *testing.T) {
	for more := 0; more < 3; more++ {
		list := uncut(uint64(1023 + more))
		tree := must(NewHashTree(list))
		expect(t, fmt.Sprint(must(must(tree.Proof(0, len(list))).Nodes())), fmt.Sprint(list))
		tree.Close()
		for name, make := range map[string]func(list []Chunk) (any, error){
			"subtree": func(list []Chunk) (any, error) { return NewSubtree(false, list, false) },
			"session": func(list []Chunk) (any, error) {
				session := must(NewSessionWithoutHashes())
				return session, second(session.Put(0, list))
			},
			"proof": func(list []Chunk) (any, error) { return must(NewHashTree(list)).Proof(0, len(list)) },
		} {
			text := func(list []Chunk) string { return string(must(json.Marshal(must(make(list))))) }
			list := uncut(45)
			for i := 0; len(text(list)) < 4095+more; i = (i + 1) % len(list) {
				list[i].Size = 10*list[i].Size + 1 // which has one digit more, unless it was 0
			}
			if found := text(list); len(found) != 4095+more || !json.Valid([]byte(found)) {
				t.Errorf("the JSON of a %s has %d bytes, and not %d: %s", name, len(found), 4095+more, found)
			}
		}
	}
}

func TestGoroutinesShareObjects(t *testing.T) {
	list := chunks("a chunk", "another", "and a third")
	open, file := must(NewSubtree(false, list, false)), must(NewSubtree(true, list, true))
	session, index := must(NewSession()), must(NewHashIndex())
	// Calls that take so long that others come while they run.
	long := must(NewSubtree(false, uncut(20000), false))
	var hashes []Hash
	var numbers []uint64
	for _, chunk := range uncut(10000) {
		hashes, numbers = append(hashes, chunk.Hash), append(numbers, chunk.Size)
	}
	var group sync.WaitGroup
	for i := 0; i < 8; i++ {
		group.Add(1)
		go func(i int) {
			defer group.Done()
			for k := 0; k < 100; k++ {
				expect(t, must(file.FinalHash()), must(XorbHash(list)))
				own := must(open.Clone())
				expect(t, own.MergeInto(open), nil)
				must(session.Put(uint64(3*(100*i+k)), list))
				_, _ = must(NewSession()), must(NewHashIndex())
				must(long.Clone()).Close()
				must(index.Insert(hashes, numbers))
				number, found, err := index.Get(hashes[k])
				expect(t, fmt.Sprint(number, found, err), fmt.Sprint(k, true, nil))
			}
			runtime.GC()
		}(i)
	}
	group.Wait()
	must(session.Root(2400))
	expect(t, must(index.Len()), len(hashes))
}

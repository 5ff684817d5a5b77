package yurewha

import (
	"bytes"
	"encoding/json"
	"errors"
	"fmt"
	"go/ast"
	"go/parser"
	"go/token"
	"io/fs"
	"os"
	"reflect"
	"runtime"
	"runtime/debug"
	"strings"
	"sync"
	"testing"
	"time"
)

// All exported methods and functions, in tables. Each test of this file goes through all of them.

// A kind has what the tests need of a type.
type kind struct {
	// Whether the zero value begins by itself.
	usable bool
	zero   func() any
	// Objects with 0, 1, 2 and more items.
	makes []func() any
	// The lock of an object, unless goroutines may not share it.
	turn func(it any) *turn
	// The methods by their names: calls with an object, and another one.
	calls map[string]func(it, other any) (any, error)
}

func kindOf[T any](usable bool, turnOf func(*T) *turn, makes []func() *T, calls map[string]func(it, other *T) (any, error)) kind {
	made := kind{usable: usable, zero: func() any { return new(T) }, calls: map[string]func(it, other any) (any, error){}}
	if turnOf != nil {
		made.turn = func(it any) *turn { return turnOf(it.(*T)) }
	}
	for _, it := range makes {
		it := it
		made.makes = append(made.makes, func() any { return it() })
	}
	for name, call := range calls {
		call := call
		made.calls[name] = func(it, other any) (any, error) { return call(it.(*T), other.(*T)) }
	}
	return made
}

// Memory that has a pointer to memory of Go, which a call may not get, beside a list that it gets. So are lists in pools of many programs.
type block[T any] struct {
	next *block[T]
	list [2048]T
}

// Returns a list of which a pointer stands beside it.
func beside[T any](list ...T) []T {
	made := new(block[T])
	made.next = made
	return made.list[:copy(made.list[:], list)]
}

// Chunks some of which are natural cuts, and the data of the first ones.
func some(count int) []Chunk {
	list := make([]Chunk, count)
	for i := range list {
		list[i] = chunkOf(dataOfChunk(i))
	}
	return beside(list...)
}

func dataOfChunk(i int) []byte { return beside([]byte(strings.Repeat("chunk ", i+1))...) }

var items = []int{0, 1, 2, 40}

// Objects of these items.
func each[T any](make func(items int) *T) (makes []func() *T) {
	for _, count := range items {
		count := count
		makes = append(makes, func() *T { return make(count) })
	}
	return
}

var kinds = map[string]kind{
	"Hash": kindOf(true, nil, each(func(items int) *Hash { return &Hash{0, uint64(items)} }),
		map[string]func(it, other *Hash) (any, error){
			"String":        func(it, _ *Hash) (any, error) { return it.String(), nil },
			"MarshalText":   func(it, _ *Hash) (any, error) { return it.MarshalText() },
			"UnmarshalText": func(it, other *Hash) (any, error) { return nil, it.UnmarshalText(beside([]byte(other.String())...)) },
			"Base64":        func(it, _ *Hash) (any, error) { return it.Base64(), nil },
			"Bytes":         func(it, _ *Hash) (any, error) { return it.Bytes(), nil },
			"Compare":       func(it, other *Hash) (any, error) { return it.Compare(*other), nil },
			"Hmac":          func(it, other *Hash) (any, error) { return it.Hmac(*other), nil },
			"Remainder":     func(it, _ *Hash) (any, error) { return it.Remainder(3) },
		}),
	"Hasher": kindOf(true, nil, each(func(items int) *Hasher {
		// A hasher may stand beside a pointer, too.
		made := &struct {
			hasher Hasher
			next   *int
		}{next: new(int)}
		must(made.hasher.Write(beside(make([]byte, items)...)))
		return &made.hasher
	}),
		map[string]func(it, other *Hasher) (any, error){
			"MarshalJSON": func(it, _ *Hasher) (any, error) { return it.MarshalJSON() },
			"Reset":       func(it, _ *Hasher) (any, error) { it.Reset(); return nil, nil },
			"Write":       func(it, _ *Hasher) (any, error) { return it.Write(dataOfChunk(3)) },
			"Count":       func(it, _ *Hasher) (any, error) { return it.Count(), nil },
			"Hash":        func(it, _ *Hasher) (any, error) { return it.Hash(), nil },
			"Sum":         func(it, _ *Hasher) (any, error) { return it.Sum(beside[byte](1, 2)), nil },
			"Size":        func(it, _ *Hasher) (any, error) { return it.Size(), nil },
			"BlockSize":   func(it, _ *Hasher) (any, error) { return it.BlockSize(), nil },
		}),
	"Chunker": kindOf(true, nil, each(func(items int) *Chunker {
		made := &struct {
			chunker Chunker
			next    *int
		}{next: new(int)}
		made.chunker.NextBoundary(beside(make([]byte, items)...))
		return &made.chunker
	}),
		map[string]func(it, other *Chunker) (any, error){
			"MarshalJSON": func(it, _ *Chunker) (any, error) { return it.MarshalJSON() },
			"NextBoundary": func(it, _ *Chunker) (any, error) {
				end, found := it.NextBoundary(dataOfChunk(3))
				return []any{end, found}, nil
			},
			"Taken": func(it, _ *Chunker) (any, error) { return it.Taken(), nil },
		}),
	"FileHasher": kindOf(true, func(it *FileHasher) *turn { return &must(it.handle()).owned.turn }, each(func(items int) *FileHasher {
		made := must(NewFileHasher())
		must(made.Write(beside(make([]byte, items)...)))
		return made
	}),
		map[string]func(it, other *FileHasher) (any, error){
			"MarshalJSON":      func(it, _ *FileHasher) (any, error) { return it.MarshalJSON() },
			"Write":            func(it, _ *FileHasher) (any, error) { return it.Write(dataOfChunk(3)) },
			"Size":             func(it, _ *FileHasher) (any, error) { return it.Size() },
			"Root":             func(it, _ *FileHasher) (any, error) { return it.Root() },
			"FileHash":         func(it, _ *FileHasher) (any, error) { return it.FileHash() },
			"FileHashWithSalt": func(it, _ *FileHasher) (any, error) { return it.FileHashWithSalt([32]byte{1}) },
			"Close":            func(it, _ *FileHasher) (any, error) { it.Close(); return nil, nil },
		}),
	"Subtree": kindOf(false, func(it *Subtree) *turn { return &it.held.owned.turn }, append(
		each(func(items int) *Subtree { return must(NewSubtree(false, some(items), false)) }),
		each(func(items int) *Subtree { return must(NewSubtree(true, some(items), true)) })...),
		map[string]func(it, other *Subtree) (any, error){
			"Clone":            func(it, _ *Subtree) (any, error) { return it.Clone() },
			"Equal":            func(it, other *Subtree) (any, error) { return it.Equal(other) },
			"Marks":            func(it, _ *Subtree) (any, error) { a, b, err := it.Marks(); return []bool{a, b}, err },
			"TotalSize":        func(it, _ *Subtree) (any, error) { return it.TotalSize() },
			"NumNodes":         func(it, _ *Subtree) (any, error) { return it.NumNodes() },
			"NumLevels":        func(it, _ *Subtree) (any, error) { return it.NumLevels() },
			"MergeInto":        func(it, other *Subtree) (any, error) { return nil, it.MergeInto(other) },
			"MergeIntoCounted": func(it, other *Subtree) (any, error) { return it.MergeIntoCounted(other) },
			"FinalHash":        func(it, _ *Subtree) (any, error) { return it.FinalHash() },
			"FileHash":         func(it, _ *Subtree) (any, error) { return it.FileHash() },
			"FileHashWithSalt": func(it, _ *Subtree) (any, error) { return it.FileHashWithSalt([32]byte{1}) },
			"Flat":             func(it, _ *Subtree) (any, error) { a, b, err := it.Flat(); return []any{a, b}, err },
			"MarshalJSON":      func(it, _ *Subtree) (any, error) { return it.MarshalJSON() },
			"UnmarshalJSON": func(it, _ *Subtree) (any, error) {
				return nil, it.UnmarshalJSON(beside([]byte(`{"at_end":false,"at_start":true,"levels":[[0,0]],"nodes":[]}`)...))
			},
			"Close": func(it, _ *Subtree) (any, error) { it.Close(); return nil, nil },
			// A function that has its objects as arguments, too.
			"MergeSubtrees": func(it, other *Subtree) (any, error) { return MergeSubtrees(it, other, it) },
		}),
	"Session": kindOf(true, func(it *Session) *turn { return &must(it.handle()).owned.turn }, each(func(items int) *Session {
		made := must(NewSession())
		must(made.Put(uint64(items), some(items)))
		must(made.Put(3*uint64(items), some(items)))
		return made
	}),
		map[string]func(it, other *Session) (any, error){
			"Put":            func(it, _ *Session) (any, error) { return it.Put(200, some(2)) },
			"Taken":          func(it, _ *Session) (any, error) { return it.Taken(2) },
			"NumChunks":      func(it, _ *Session) (any, error) { return it.NumChunks() },
			"TotalSize":      func(it, _ *Session) (any, error) { return it.TotalSize() },
			"NumRuns":        func(it, _ *Session) (any, error) { return it.NumRuns() },
			"Run":            func(it, _ *Session) (any, error) { return it.Run(0) },
			"RunFrom":        func(it, _ *Session) (any, error) { run, found, err := it.RunFrom(2); return []any{run, found}, err },
			"Gaps":           func(it, _ *Session) (any, error) { return it.Gaps(9) },
			"Root":           func(it, _ *Session) (any, error) { return it.Root(0) },
			"Finish":         func(it, _ *Session) (any, error) { return it.Finish(0) },
			"FinishWithSalt": func(it, _ *Session) (any, error) { return it.FinishWithSalt(0, [32]byte{1}) },
			"Clone":          func(it, _ *Session) (any, error) { return it.Clone() },
			"PushRun": func(it, other *Session) (any, error) {
				subtree := must(NewSubtree(false, some(2), false))
				defer subtree.Close()
				return nil, it.PushRun(Positions{300, 302}, subtree)
			},
			"PutRange": func(it, other *Session) (any, error) {
				subtree := must(NewSubtree(false, some(2), false))
				defer subtree.Close()
				return nil, it.PutRange(250, 2, subtree)
			},
			"Join":        func(it, other *Session) (any, error) { return it.Join(other) },
			"Knows":       func(it, _ *Session) (any, error) { return it.Knows(some(1)[0].Hash) },
			"KnowsEach":   func(it, _ *Session) (any, error) { return it.KnowsEach(beside(some(1)[0].Hash, Hash{})) },
			"KeepHashes":  func(it, _ *Session) (any, error) { return nil, it.KeepHashes(beside(Hash{5})) },
			"KeepsHashes": func(it, _ *Session) (any, error) { return it.KeepsHashes() },
			"KnownHashes": func(it, _ *Session) (any, error) { hashes, err := it.KnownHashes(); return len(hashes), err },
			"MarshalJSON": func(it, _ *Session) (any, error) { return it.MarshalJSON() },
			"UnmarshalJSON": func(it, _ *Session) (any, error) {
				return nil, it.UnmarshalJSON(beside([]byte(`{"runs":[],"known_hashes":[[1,2,3,4]]}`)...))
			},
			"Close": func(it, _ *Session) (any, error) { it.Close(); return nil, nil },
		}),
	"HashTree": kindOf(false, func(it *HashTree) *turn { return &it.held.owned.turn },
		each(func(items int) *HashTree { return must(NewHashTree(some(items))) }),
		map[string]func(it, other *HashTree) (any, error){
			"MarshalJSON":      func(it, _ *HashTree) (any, error) { return it.MarshalJSON() },
			"Root":             func(it, _ *HashTree) (any, error) { return it.Root() },
			"FileHash":         func(it, _ *HashTree) (any, error) { return it.FileHash() },
			"FileHashWithSalt": func(it, _ *HashTree) (any, error) { return it.FileHashWithSalt([32]byte{1}) },
			"NumChunks":        func(it, _ *HashTree) (any, error) { return it.NumChunks() },
			"TotalSize":        func(it, _ *HashTree) (any, error) { return it.TotalSize() },
			"ChunksAt":         func(it, _ *HashTree) (any, error) { a, b, err := it.ChunksAt(0, 9); return []int{a, b}, err },
			"BytesOf":          func(it, _ *HashTree) (any, error) { a, b, err := it.BytesOf(0, 1); return []uint64{a, b}, err },
			"Proof":            func(it, _ *HashTree) (any, error) { return it.Proof(0, 1) },
			"Diff":             func(it, other *HashTree) (any, error) { return it.Diff(other) },
			"Close":            func(it, _ *HashTree) (any, error) { it.Close(); return nil, nil },
		}),
	"RangeProof": kindOf(false, func(it *RangeProof) *turn { return &it.held.owned.turn }, []func() *RangeProof{
		func() *RangeProof { return proofAt(1, 0, 1) }, func() *RangeProof { return proofAt(2, 0, 2) }, func() *RangeProof { return proofAt(9, 3, 5) },
	},
		map[string]func(it, other *RangeProof) (any, error){
			"Levels":        func(it, _ *RangeProof) (any, error) { return it.Levels() },
			"Nodes":         func(it, _ *RangeProof) (any, error) { return it.Nodes() },
			"Chunks":        func(it, _ *RangeProof) (any, error) { return it.Chunks() },
			"Open":          func(it, _ *RangeProof) (any, error) { return it.Open(must(FileHash(some(9)))) },
			"OpenWithSalt":  func(it, _ *RangeProof) (any, error) { return it.OpenWithSalt(must(FileHash(some(2))), [32]byte{}) },
			"OpenRoot":      func(it, _ *RangeProof) (any, error) { return it.OpenRoot(must(XorbHash(some(1)))) },
			"MarshalJSON":   func(it, _ *RangeProof) (any, error) { return it.MarshalJSON() },
			"MarshalBinary": func(it, _ *RangeProof) (any, error) { return it.MarshalBinary() },
			"UnmarshalJSON": func(it, _ *RangeProof) (any, error) {
				return nil, it.UnmarshalJSON(beside(must(proofAt(3, 1, 2).MarshalJSON())...))
			},
			"UnmarshalBinary": func(it, _ *RangeProof) (any, error) {
				return nil, it.UnmarshalBinary(beside(must(proofAt(3, 1, 2).MarshalBinary())...))
			},
		}),
	"OpenedRange": kindOf(false, func(it *OpenedRange) *turn { return &it.held.owned.turn }, []func() *OpenedRange{
		func() *OpenedRange { return must(proofAt(1, 0, 1).OpenRoot(must(XorbHash(some(1))))) },
		func() *OpenedRange { return must(proofAt(2, 0, 2).OpenRoot(must(XorbHash(some(2))))) },
		func() *OpenedRange { return must(proofAt(9, 3, 5).OpenRoot(must(XorbHash(some(9))))) },
	},
		map[string]func(it, other *OpenedRange) (any, error){
			"MarshalJSON": func(it, _ *OpenedRange) (any, error) { return it.MarshalJSON() },
			"FileSize":    func(it, _ *OpenedRange) (any, error) { return it.FileSize() },
			"NumChunks":   func(it, _ *OpenedRange) (any, error) { return it.NumChunks() },
			"BytesOf":     func(it, _ *OpenedRange) (any, error) { a, b, err := it.BytesOf(0); return []uint64{a, b}, err },
			"Check":       func(it, _ *OpenedRange) (any, error) { return it.Check(0, dataOfChunk(0)) },
			"Read":        func(it, _ *OpenedRange) (any, error) { return it.Read(1, 3, dataOfChunk(0)) },
			"Close":       func(it, _ *OpenedRange) (any, error) { it.Close(); return nil, nil },
		}),
	"HashIndex": kindOf(true, func(it *HashIndex) *turn { return &must(it.handle()).owned.turn }, each(func(items int) *HashIndex {
		made := must(NewHashIndex())
		for i := 0; i < items; i++ {
			must(made.Insert(beside(Hash{uint64(i)}), beside(uint64(i))))
		}
		return made
	}),
		map[string]func(it, other *HashIndex) (any, error){
			"MarshalJSON": func(it, _ *HashIndex) (any, error) { return it.MarshalJSON() },
			"Insert":      func(it, _ *HashIndex) (any, error) { return it.Insert(beside(Hash{7}, Hash{8}), beside[uint64](7, 8)) },
			"Find": func(it, _ *HashIndex) (any, error) {
				a, b, err := it.Find(beside(Hash{}, Hash{1}))
				return []any{a, b}, err
			},
			"Get":     func(it, _ *HashIndex) (any, error) { a, b, err := it.Get(Hash{1}); return []any{a, b}, err },
			"Len":     func(it, _ *HashIndex) (any, error) { return it.Len() },
			"Entries": func(it, _ *HashIndex) (any, error) { return sorted(it.Entries()) },
			"Close":   func(it, _ *HashIndex) (any, error) { it.Close(); return nil, nil },
		}),
}

// A proof of chunks of a list.
func proofAt(count, first, end int) *RangeProof {
	tree := must(NewHashTree(some(count)))
	defer tree.Close()
	return must(tree.Proof(first, end))
}

// All exported functions, by their names, with a list of chunks and data.
var functions = map[string]func(list []Chunk, data []byte) (any, error){
	"Version":          func(_ []Chunk, _ []byte) (any, error) { return Version(), nil },
	"ProcessorLevel":   func(_ []Chunk, _ []byte) (any, error) { return ProcessorLevel(), nil },
	"DataHash":         func(_ []Chunk, data []byte) (any, error) { return DataHash(data), nil },
	"DataHashes":       func(_ []Chunk, data []byte) (any, error) { return DataHashes(data, beside(0, uint64(len(data)))) },
	"InternalNodeHash": func(_ []Chunk, data []byte) (any, error) { return InternalNodeHash(data), nil },
	"HashFromBytes":    func(_ []Chunk, data []byte) (any, error) { return HashFromBytes([32]byte{1}), nil },
	"HashFromSeed":     func(_ []Chunk, data []byte) (any, error) { return HashFromSeed(uint64(len(data))), nil },
	"ParseHash":        func(_ []Chunk, data []byte) (any, error) { return ParseHash(HashFromSeed(5).String()) },
	"ParseBase64":      func(_ []Chunk, data []byte) (any, error) { return ParseBase64(HashFromSeed(5).Base64()) },
	"XorbHash":         func(list []Chunk, _ []byte) (any, error) { return XorbHash(list) },
	"FileHash":         func(list []Chunk, _ []byte) (any, error) { return FileHash(list) },
	"FileHashWithSalt": func(list []Chunk, _ []byte) (any, error) { return FileHashWithSalt(list, [32]byte{1}) },
	"FindStableStart":  func(list []Chunk, _ []byte) (any, error) { a, b := FindStableStart(list); return []any{a, b}, nil },
	"FindStableEnd":    func(list []Chunk, _ []byte) (any, error) { a, b := FindStableEnd(list); return []any{a, b}, nil },
	"NewHasher":        func(_ []Chunk, data []byte) (any, error) { made := NewHasher(); return made.Write(data) },
	"NewInternalNodeHasher": func(_ []Chunk, data []byte) (any, error) {
		made := NewInternalNodeHasher()
		return made.Write(data)
	},
	"NewKeyedHasher": func(_ []Chunk, data []byte) (any, error) {
		made := NewKeyedHasher([32]byte{1})
		return made.Write(data)
	},
	"NewSubtree": func(list []Chunk, _ []byte) (any, error) { return NewSubtree(true, list, false) },
	"SubtreeFromFlat": func(list []Chunk, _ []byte) (any, error) {
		return SubtreeFromFlat(true, beside(Level{uint64(len(list)), 0}), list, false)
	},
	"MergeSubtrees": func(list []Chunk, _ []byte) (any, error) {
		subtree := must(NewSubtree(false, list, false))
		defer subtree.Close()
		return MergeSubtrees(subtree, subtree)
	},
	"NewSession":              func(list []Chunk, _ []byte) (any, error) { return NewSession() },
	"NewSessionWithoutHashes": func(list []Chunk, _ []byte) (any, error) { return NewSessionWithoutHashes() },
	"ParseSession": func(list []Chunk, _ []byte) (any, error) {
		return ParseSession(beside([]byte(`{"runs":[],"known_hashes":[[1,2,3,4]]}`)...), false)
	},
	"NewHashTree":   func(list []Chunk, _ []byte) (any, error) { return NewHashTree(list) },
	"NewRangeProof": func(list []Chunk, _ []byte) (any, error) { return NewRangeProof(beside(Level{}), list) },
	"NewHashIndex":  func(list []Chunk, _ []byte) (any, error) { return NewHashIndex() },
	"NewChunker": func(_ []Chunk, data []byte) (any, error) {
		end, found := NewChunker().NextBoundary(data)
		return []any{end, found}, nil
	},
	"NewFileHasher": func(list []Chunk, _ []byte) (any, error) { return NewFileHasher() },
	"Sum":           func(_ []Chunk, data []byte) (any, error) { return Sum(bytes.NewReader(data)) },
	"SumFile":       func(_ []Chunk, data []byte) (any, error) { return SumFile("go.mod") },
}

// Types that only carry values, and are no objects.
var values = map[string]bool{"Chunk": true, "Level": true, "Status": true, "Error": true, "Positions": true, "Run": true, "Difference": true}

// Whether objects of a kind have no JSON form, so that MarshalJSON is an error.
func formless(kind kind) bool {
	switch kind.zero().(type) {
	case *Hasher, *Chunker, *FileHasher, *HashTree, *OpenedRange, *HashIndex:
		return true
	}
	return false
}

// Goes through the methods of all kinds.
func eachMethod(t *testing.T, test func(t *testing.T, kind kind, name string, call func(it, other any) (any, error))) {
	for name, kind := range kinds {
		kind := kind
		t.Run(name, func(t *testing.T) {
			for name, call := range kind.calls {
				if name != "MarshalJSON" || !formless(kind) {
					test(t, kind, name, call)
				}
			}
		})
	}
}

// Returns what a call came to.
func outcome(result any, err error) string {
	if err != nil {
		return err.Error()
	}
	return told(result)
}

func told(result any) string {
	switch it := result.(type) {
	case Run:
		return fmt.Sprint(it.Positions, told(it.Subtree))
	case []any:
		texts := []string{}
		for _, one := range it {
			texts = append(texts, told(one))
		}
		return fmt.Sprint(texts)
	case *Difference:
		return fmt.Sprint(it == nil)
	case *Subtree:
		if it == nil {
			return "none"
		}
	}
	return state(result)
}

// Closes what a call returned.
func closeAll(result any) {
	switch it := result.(type) {
	case *Subtree:
		if it != nil {
			it.Close()
		}
	case Run:
		closeAll(it.Subtree)
	case []any:
		for _, one := range it {
			closeAll(one)
		}
	case interface{ Close() }:
		it.Close()
	}
}

// The calls that read the object which is their argument.
var takesTwo = map[string]bool{"MergeInto": true, "MergeIntoCounted": true, "Equal": true, "Diff": true, "MergeSubtrees": true, "Join": true}

// Whether a method makes a whole object, also of a closed one.
func makesWhole(name string) bool {
	return strings.HasPrefix(name, "Unmarshal") || name == "Close" || name == "Reset"
}

func TestEachExportedNameIsInATable(t *testing.T) {
	noTests := func(info fs.FileInfo) bool {
		return !strings.HasSuffix(info.Name(), "_test.go") && info.Name() != "nocgo.go"
	}
	packages := must(parser.ParseDir(token.NewFileSet(), ".", noTests, 0))
	for _, file := range packages["yurewha"].Files {
		for _, declared := range file.Decls {
			if function, is := declared.(*ast.FuncDecl); is && function.Recv == nil && function.Name.IsExported() {
				if _, is := functions[function.Name.Name]; !is {
					t.Errorf("the function %s is in no table", function.Name)
				}
			}
			if general, is := declared.(*ast.GenDecl); is && general.Tok == token.TYPE {
				for _, it := range general.Specs {
					name := it.(*ast.TypeSpec).Name
					if _, is := kinds[name.Name]; !is && name.IsExported() && !values[name.Name] {
						t.Errorf("the type %s is in no table", name)
					}
				}
			}
		}
	}
	for name, kind := range kinds {
		of := reflect.TypeOf(kind.zero())
		for i := 0; i < of.NumMethod(); i++ {
			if method := of.Method(i).Name; kind.calls[method] == nil {
				t.Errorf("the method %s of %s is in no table", method, name)
			}
		}
	}
}

// An object as its own argument does what an equal one does.
func TestAnObjectMayBeItsOwnArgument(t *testing.T) {
	eachMethod(t, func(t *testing.T, kind kind, name string, call func(it, other any) (any, error)) {
		for i, make := range kind.makes {
			it, equal, other := make(), make(), make()
			found, wanted := outcome(call(it, it)), outcome(call(equal, other))
			if found != wanted || state(it) != state(equal) {
				t.Errorf("%s of object %d: %s, and not %s; then %s, and not %s", name, i, found, wanted, state(it), state(equal))
			}
		}
	})
}

func TestAClosedObjectIsAnError(t *testing.T) {
	eachMethod(t, func(t *testing.T, kind kind, name string, call func(it, other any) (any, error)) {
		if kind.calls["Close"] == nil {
			return
		}
		for i, make := range kind.makes {
			it, other := make(), make()
			closeAll(it)
			if _, err := call(it, other); !errors.Is(err, ErrEmptyHandle) && !makesWhole(name) {
				t.Errorf("%s of closed object %d: %v", name, i, err)
			} else if makesWhole(name) {
				expect(t, err, nil)
			}
			closeAll(it)
			// As an argument it is an error, too, of calls that read it, and changes nothing.
			before := state(other)
			if _, err := call(other, it); takesTwo[name] {
				expectError(t, err, ErrEmptyHandle)
				expect(t, state(other), before)
			}
		}
	})
}

// A zero value is an object without items, or an error.
func TestAZeroValueIsUsableOrAnError(t *testing.T) {
	eachMethod(t, func(t *testing.T, kind kind, name string, call func(it, other any) (any, error)) {
		zero, made := kind.zero(), kind.makes[0]()
		found, wanted := outcome(call(zero, kind.zero())), outcome(call(made, kind.makes[0]()))
		if kind.usable {
			if found != wanted || state(zero) != state(made) {
				t.Errorf("%s of a zero value: %s, and not %s", name, found, wanted)
			}
			return
		}
		_, err := call(kind.zero(), kind.makes[0]())
		if makesWhole(name) {
			expect(t, err, nil)
		} else {
			expectError(t, err, ErrEmptyHandle)
		}
	})
}

// No object at all is an empty one.
func TestANilPointerIsAnError(t *testing.T) {
	open := must(NewSubtree(false, nil, false))
	tree := must(NewHashTree(nil))
	for name, err := range map[string]error{
		"MergeInto":        open.MergeInto(nil),
		"MergeSubtrees":    second(MergeSubtrees(open, nil)),
		"Equal":            second(open.Equal(nil)),
		"Diff":             second(tree.Diff(nil)),
		"PushRun":          new(Session).PushRun(Positions{0, 1}, nil),
		"PutRange":         new(Session).PutRange(0, 1, nil),
		"Join":             second(new(Session).Join(nil)),
		"nil.PutRange":     (*Session)(nil).PutRange(0, 1, open),
		"nil.Join":         second((*Session)(nil).Join(nil)),
		"nil.FinalHash":    second((*Subtree)(nil).FinalHash()),
		"nil.Root":         second((*HashTree)(nil).Root()),
		"nil.Session.Root": second((*Session)(nil).Root(0)),
		"nil.Len":          second((*HashIndex)(nil).Len()),
		"nil.Write":        second((*FileHasher)(nil).Write(nil)),
		"nil.Levels":       second((*RangeProof)(nil).Levels()),
		"nil.FileSize":     second((*OpenedRange)(nil).FileSize()),
	} {
		if !errors.Is(err, ErrEmptyHandle) {
			t.Errorf("%s: %v", name, err)
		}
	}
}

func second[T any](_ T, err error) error { return err }

func TestEachFunctionTakesAnyNumberOfItems(t *testing.T) {
	for name, call := range functions {
		for _, count := range items {
			data := make([]byte, count)
			result, err := call(some(count), beside(data...))
			if again := outcome(call(append([]Chunk(nil), some(count)...), data)); again != outcome(result, err) {
				t.Errorf("%s of %d items: %s, and beside no pointer %s", name, count, outcome(result, err), again)
			}
			if err != nil && !(count == 0 && errors.Is(err, ProofRule+5)) {
				t.Errorf("%s of %d items: %v", name, count, err)
			}
			closeAll(result)
		}
	}
}

// ---- Nothing lives at the end

// Waits until the library has no memory: until all that nothing refers to was freed.
func settle(t *testing.T) {
	t.Helper()
	for i := 0; i < 2000 && libraryBlocks() != 0; i++ {
		runtime.GC()
		time.Sleep(time.Millisecond)
	}
	if libraryBlocks() != 0 || libraryBytes() != 0 {
		t.Fatalf("%d blocks of %d bytes live", libraryBlocks(), libraryBytes())
	}
}

// Close frees all, and calls leave nothing, without the garbage collector.
func TestNothingLivesAfterClose(t *testing.T) {
	settle(t)
	defer debug.SetGCPercent(debug.SetGCPercent(-1))
	eachMethod(t, func(t *testing.T, kind kind, name string, call func(it, other any) (any, error)) {
		for i, make := range append(kind.makes, kind.zero) {
			for _, own := range []bool{false, true} {
				it, other := make(), make()
				if own {
					closeAll(other)
					other = it
				}
				result, _ := call(it, other)
				closeAll(result)
				closeAll(it)
				closeAll(other)
				if libraryBlocks() != 0 {
					t.Fatalf("%d blocks live after %s of object %d", libraryBlocks(), name, i)
				}
			}
		}
	})
	for name, call := range functions {
		for _, count := range items {
			result, _ := call(some(count), dataOfChunk(1))
			closeAll(result)
			if libraryBlocks() != 0 {
				t.Fatalf("%d blocks live after %s", libraryBlocks(), name)
			}
		}
	}
}

// Without Close, the garbage collector frees all.
func TestNothingLivesThatNothingRefersTo(t *testing.T) {
	settle(t)
	eachMethod(t, func(t *testing.T, kind kind, name string, call func(it, other any) (any, error)) {
		for _, make := range append(kind.makes, kind.zero) {
			it := make()
			_, _ = call(it, it)
		}
	})
	for _, call := range functions {
		_, _ = call(some(2), dataOfChunk(1))
	}
	settle(t)
}

// Objects that nobody closes don't fill the memory before the garbage collector comes.
func TestObjectsThatNobodyClosesAreCollected(t *testing.T) {
	settle(t)
	defer debug.SetGCPercent(debug.SetGCPercent(-1))
	list := uncut(3000)
	for name, make := range map[string]func(){
		"sessions, which grow": func() { must(must(NewSession()).Put(0, list)) },
		"trees, which do not":  func() { must(NewHashTree(list)) },
	} {
		most, made := int64(0), int64(0)
		for i := 0; i < 2000; i++ {
			before := libraryBytes()
			make()
			if grown := libraryBytes() - before; grown > 0 {
				made += grown
			}
			if bytes := libraryBytes(); bytes > most {
				most = bytes
			}
		}
		if made < 8*leastGrowth || most > 4*leastGrowth {
			t.Errorf("the library had up to %d bytes for %s, of %d bytes, of which none is left", most, name, made)
		}
		settle(t)
	}
}

// What is in use doesn't make this package call the garbage collector again and again. Nor does it as long as Go has more itself.
func TestTheGarbageCollectorIsCalledSeldom(t *testing.T) {
	collections := func() uint32 {
		var stats runtime.MemStats
		runtime.ReadMemStats(&stats)
		return stats.NumForcedGC
	}
	for bytes, most := range map[int]uint32{0: 4, 1 << 29: 0} {
		settle(t)
		own := make([]byte, bytes)
		before, list, kept := collections(), uncut(3000), []*Session{}
		for i := 0; i < 600; i++ {
			session := must(NewSession())
			must(session.Put(0, list))
			kept = append(kept, session)
		}
		for _, session := range kept {
			expect(t, must(session.NumChunks()), uint64(len(list)))
		}
		if found := collections() - before; found > most || libraryBytes() < 2*leastGrowth {
			t.Errorf("%d collections, for %d bytes that are in use beside %d of Go", found, libraryBytes(), bytes)
		}
		for _, session := range kept {
			session.Close()
		}
		runtime.KeepAlive(own)
	}
}

// ---- Two things at once

// Each call takes one turn at its objects, so that no other call comes in the middle of it.
func TestEachMethodTakesATurn(t *testing.T) {
	eachMethod(t, func(t *testing.T, kind kind, name string, call func(it, other any) (any, error)) {
		if kind.turn == nil {
			return
		}
		it, other := kind.makes[1](), kind.makes[1]()
		before, otherBefore := kind.turn(it).taken, kind.turn(other).taken
		_, _ = call(it, other)
		wanted := 1
		if name == "MergeSubtrees" {
			wanted = 2 // one is for a copy, since the object is two of the ranges
		}
		if turns := kind.turn(it).taken - before; turns != wanted {
			t.Errorf("%s takes %d turns", name, turns)
		}
		if takesTwo[name] != (kind.turn(other).taken > otherBefore) {
			t.Errorf("%s takes a turn at its argument: %v", name, !takesTwo[name])
		}
	})
}

// Goroutines may make any two calls at once with one object, or with two that are each other's arguments. The race detector sees by the number
// of turns whether they take turns.
func TestAnyTwoCallsAtOnce(t *testing.T) {
	for name, kind := range kinds {
		if kind.turn == nil {
			continue
		}
		kind := kind
		t.Run(name, func(t *testing.T) {
			for first, one := range kind.calls {
				for second, two := range kind.calls {
					atOnce(t, kind, first+" and "+second, one, two)
				}
			}
		})
	}
}

func atOnce(t *testing.T, kind kind, what string, calls ...func(it, other any) (any, error)) {
	it, other := kind.makes[len(kind.makes)-1](), kind.makes[1]()
	var group sync.WaitGroup
	for i, call := range calls {
		group.Add(1)
		go func(i int, call func(it, other any) (any, error)) {
			defer group.Done()
			for k := 0; k < 2; k++ {
				result, err := call(it, other)
				if i == 1 {
					result, err = call(other, it)
				}
				if errors.Is(err, ErrEmptyHandle) && !strings.Contains(what, "Close") {
					t.Errorf("%s: %v", what, err)
				}
				closeAll(result)
			}
		}(i, call)
	}
	group.Wait()
}

// Whichever object comes first in a call, turns begin in one order, so that no two goroutines wait for each other.
func TestTurnsBeginInOneOrder(t *testing.T) {
	one, two := must(NewSubtree(false, nil, false)), must(NewSubtree(false, nil, false))
	front, back := &one.held.owned.turn, &two.held.owned.turn
	expect(t, front.number < back.number, true)
	for _, turns := range [][]*turn{{front, back}, {back, front}} {
		beginAll(turns)() // which leaves them in the order in which they began
		expect(t, turns[0], front)
		expect(t, turns[1], back)
	}
	expect(t, must(one.Equal(two)), must(two.Equal(one)))
}

// Goroutines that use a zero value first use one object.
func TestAZeroValueBeginsOnce(t *testing.T) {
	for round := 0; round < 100; round++ {
		var session Session
		var index HashIndex
		var hasher FileHasher
		var group sync.WaitGroup
		for i := 0; i < 4; i++ {
			group.Add(1)
			go func(i int) {
				defer group.Done()
				must(session.Put(uint64(i), some(1)))
				must(index.Insert([]Hash{{uint64(i)}}, []uint64{1}))
				must(hasher.Write([]byte("a")))
			}(i)
		}
		group.Wait()
		expect(t, must(session.NumChunks()), uint64(4))
		expect(t, must(index.Len()), 4)
		expect(t, must(hasher.Size()), uint64(4))
		session.Close()
		index.Close()
		hasher.Close()
	}
}

// ---- Forms

// A form of an object: what writes it, and what reads it into an object that has another state.
type form struct {
	name  string
	it    any
	write func(it any) ([]byte, error)
	read  func(it any, form []byte) error
	other func() any
	// What is wrong with a form that was cut off, if that is a form, too.
	wrong func(it any) error
}

func forms() []form {
	return []form{
		{"JSON of a subtree", must(NewSubtree(false, uncut(3), true)), toJSON, fromJSON, func() any { return must(NewSubtree(true, some(1), true)) }, nil},
		{"JSON of a session", sessionOf(3), toJSON, fromJSON, func() any { return sessionOf(1) }, nil},
		{"JSON of a proof", proofAt(5, 1, 3), toJSON, fromJSON, func() any { return proofAt(1, 0, 1) }, nil},
		{"JSON of a chunk", &Chunk{Hash{1, 2, 3, 4}, 5}, toJSON, fromJSON, func() any { return &Chunk{Hash{}, 7} }, nil},
		{"bytes of a proof", proofAt(5, 1, 3), func(it any) ([]byte, error) { return it.(*RangeProof).MarshalBinary() },
			func(it any, form []byte) error { return it.(*RangeProof).UnmarshalBinary(form) }, func() any { return proofAt(1, 0, 1) },
			func(it any) error { return second(it.(*RangeProof).OpenRoot(must(XorbHash(some(5))))) }},
		{"hex of a hash", &Hash{1, 2, 3, 4}, func(it any) ([]byte, error) { return it.(*Hash).MarshalText() },
			func(it any, form []byte) error { return it.(*Hash).UnmarshalText(form) }, func() any { return &Hash{7} }, nil},
		{"base64 of a hash", &Hash{1, 2, 3, 4}, func(it any) ([]byte, error) { return []byte(it.(*Hash).Base64()), nil },
			func(it any, form []byte) error {
				hash, err := ParseBase64(string(form))
				if err == nil {
					*it.(*Hash) = hash
				}
				return err
			}, func() any { return &Hash{7} }, nil},
	}
}

func toJSON(it any) ([]byte, error)      { return json.Marshal(it) }
func fromJSON(it any, form []byte) error { return json.Unmarshal(form, it) }
func sessionOf(items int) *Session       { made := new(Session); must(made.Put(3, some(items))); return made }

// What was cut off is refused at each byte, and changes nothing. Where a byte is another one, it is refused, or another form.
func TestDamagedFormsAreRefused(t *testing.T) {
	for _, form := range forms() {
		written := must(form.write(form.it))
		whole := form.other()
		expect(t, form.read(whole, beside(written...)), nil)
		expect(t, state(whole), state(form.it))
		for length := range written {
			it := form.other()
			before := state(it)
			err := form.read(it, beside(written[:length]...))
			if err == nil && form.wrong != nil {
				expectError(t, form.wrong(it), ErrMismatch)
			} else if err == nil || state(it) != before {
				t.Errorf("%s, cut off at %d: %v, %s", form.name, length, err, state(it))
			}
		}
		for place := range written {
			for _, other := range []byte{0, '"', '9', ' ', 0xff, written[place] ^ 1} {
				damaged := beside(written...)
				damaged[place] = other
				it := form.other()
				before := state(it)
				if err := form.read(it, damaged); err != nil {
					expect(t, state(it), before)
				} else if again := form.other(); form.read(again, must(form.write(it))) != nil || state(again) != state(it) {
					t.Errorf("%s, %q at %d: read as %s", form.name, other, place, state(it))
				}
			}
		}
	}
}

type field[T any] struct{ It T }
type pointer[T any] struct{ It *T }

// A value has its form as itself, as a field, in a list and a map, and by a pointer, and is read from each.
func testForms[T any](t *testing.T, it T) {
	text := string(must(json.Marshal(&it)))
	for _, form := range []struct {
		it, to any
		text   string
	}{
		{it, new(T), text}, {&it, new(*T), text}, {field[T]{it}, new(field[T]), `{"It":` + text + `}`}, {&field[T]{it}, new(*field[T]), `{"It":` + text + `}`},
		{pointer[T]{&it}, new(pointer[T]), `{"It":` + text + `}`}, {[]T{it, it}, new([]T), "[" + text + "," + text + "]"}, {[1]T{it}, new([1]T), "[" + text + "]"},
		{map[string]T{"a": it}, new(map[string]T), `{"a":` + text + `}`}, {[]any{it}, new([]T), "[" + text + "]"}, {map[string]*T{"a": &it}, new(map[string]*T), `{"a":` + text + `}`},
	} {
		expect(t, string(must(json.Marshal(form.it))), form.text)
		expect(t, json.Unmarshal([]byte(form.text), form.to), nil)
		expect(t, string(must(json.Marshal(form.to))), form.text)
	}
	if len(text) < 3 {
		t.Errorf("%T has no form: %s", it, text)
	}
}

func TestAValueHasItsFormAnywhere(t *testing.T) {
	testForms(t, HashFromSeed(1))
	testForms(t, Chunk{HashFromSeed(1), 1<<64 - 1})
	testForms(t, *must(NewSubtree(true, some(5), false)))
	testForms(t, *sessionOf(2))
	testForms(t, *proofAt(5, 1, 2))
	expect(t, string(must(json.Marshal(Chunk{Hash{}, 1<<64 - 1}))), `{"hash":"`+strings.Repeat("0", 64)+`","size":18446744073709551615}`)
	// A node in the JSON of a subtree is a chunk.
	var file struct{ Nodes []Chunk }
	expect(t, json.Unmarshal(must(must(NewSubtree(false, uncut(3), false)).MarshalJSON()), &file), nil)
	expect(t, fmt.Sprint(file.Nodes), fmt.Sprint(uncut(3)))
}

func TestWhatHasNoFormIsNotLost(t *testing.T) {
	for _, it := range []any{*new(Hasher), Chunker{}, FileHasher{}, *must(NewHashTree(some(2))), *must(NewHashIndex()), OpenedRange{}} {
		for _, value := range []any{it, []any{it}, map[string]any{"a": it}, struct{ It any }{it}} {
			_, err := json.Marshal(value)
			expectError(t, err, ErrArguments)
		}
	}
}

// After all tests, nothing lives.
func TestMain(m *testing.M) {
	status := m.Run()
	for i := 0; i < 2000 && libraryBlocks() != 0; i++ {
		runtime.GC()
		time.Sleep(time.Millisecond)
	}
	if libraryBlocks() != 0 {
		fmt.Println("FAIL:", libraryBlocks(), "blocks live after all tests")
		status = 1
	}
	os.Exit(status)
}

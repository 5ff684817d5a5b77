package yurewha

import (
	"bufio"
	"bytes"
	"encoding/hex"
	"encoding/json"
	"errors"
	"fmt"
	"os"
	"os/exec"
	"path/filepath"
	"reflect"
	"sort"
	"strconv"
	"strings"
	"testing"
)

// The scripts of tests/vectors: calls of the library with their answers.

const vectors = "../../tests/vectors/"

// ---- Calls: what each call of the library is here

// What a call answers, and the object that it makes beside it.
type both struct{ answer, object any }

var errNone error = ErrArguments

var calls = map[string]func(a arguments) (any, error){
	"data_hash":             func(a arguments) (any, error) { return DataHash(a.data(0)), nil },
	"data_hashes":           func(a arguments) (any, error) { return DataHashes(a.data(0), a.numbers(1)) },
	"internal_node_hash":    func(a arguments) (any, error) { return InternalNodeHash(a.data(0)), nil },
	"hmac":                  func(a arguments) (any, error) { return a.hash(0).Hmac(a.hash(1)), nil },
	"random_from_seed":      func(a arguments) (any, error) { return HashFromSeed(a.number(0)), nil },
	"hash_to_bytes":         func(a arguments) (any, error) { return a.hash(0).Bytes(), nil },
	"hash_from_bytes":       func(a arguments) (any, error) { return HashFromBytes(a.bytes(0)), nil },
	"compare":               func(a arguments) (any, error) { return a.hash(0).Compare(a.hash(1)), nil },
	"remainder":             func(a arguments) (any, error) { return a.hash(0).Remainder(a.number(1)) },
	"hex":                   func(a arguments) (any, error) { return a.hash(0).String(), nil },
	"from_hex":              func(a arguments) (any, error) { return ParseHash(a.text(0)) },
	"base64":                func(a arguments) (any, error) { return a.hash(0).Base64(), nil },
	"from_base64":           func(a arguments) (any, error) { return ParseBase64(a.text(0)) },
	"hasher_begin_data":     func(a arguments) (any, error) { return NewHasher(), nil },
	"hasher_begin_internal": func(a arguments) (any, error) { return NewInternalNodeHasher(), nil },
	"hasher_begin_keyed":    func(a arguments) (any, error) { return NewKeyedHasher(a.bytes(0)), nil },
	"hasher_count":          func(a arguments) (any, error) { return of[*Hasher](a, 0).Count(), nil },
	"hasher_update":         func(a arguments) (any, error) { _, err := of[*Hasher](a, 0).Write(a.data(1)); return nil, err },
	"hasher_finalize":       func(a arguments) (any, error) { return of[*Hasher](a, 0).Hash(), nil },
	"chunks":                func(a arguments) (any, error) { return a.chunks(0), nil },
	"xorb_hash":             func(a arguments) (any, error) { return XorbHash(a.chunks(0)) },
	"file_hash":             func(a arguments) (any, error) { return FileHash(a.chunks(0)) },
	"file_hash_with_salt":   func(a arguments) (any, error) { return FileHashWithSalt(a.chunks(0), a.bytes(1)) },
	"find_stable_start":     func(a arguments) (any, error) { return orNone(FindStableStart(a.chunks(0))) },
	"find_stable_end":       func(a arguments) (any, error) { return orNone(FindStableEnd(a.chunks(0))) },

	"subtree_from_chunks": func(a arguments) (any, error) { return NewSubtree(a.truth(0), a.chunks(1), a.truth(2)) },
	"subtree_clone":       func(a arguments) (any, error) { return of[*Subtree](a, 0).Clone() },
	"subtree_equal":       func(a arguments) (any, error) { return of[*Subtree](a, 0).Equal(of[*Subtree](a, 1)) },
	"subtree_marks": func(a arguments) (any, error) {
		atStart, atEnd, err := of[*Subtree](a, 0).Marks()
		return []bool{atStart, atEnd}, err
	},
	"subtree_levels": func(a arguments) (any, error) {
		levels, _, err := of[*Subtree](a, 0).Flat()
		return levels, err
	},
	"subtree_nodes": func(a arguments) (any, error) {
		_, nodes, err := of[*Subtree](a, 0).Flat()
		return linesOf(nodes), err
	},
	"subtree_num_levels": func(a arguments) (any, error) { return of[*Subtree](a, 0).NumLevels() },
	"subtree_num_nodes":  func(a arguments) (any, error) { return of[*Subtree](a, 0).NumNodes() },
	"subtree_total_size": func(a arguments) (any, error) { return of[*Subtree](a, 0).TotalSize() },
	"subtree_merge_into": func(a arguments) (any, error) { return nil, of[*Subtree](a, 0).MergeInto(of[*Subtree](a, 1)) },
	"subtree_merge_into_counted": func(a arguments) (any, error) {
		return of[*Subtree](a, 0).MergeIntoCounted(of[*Subtree](a, 1))
	},
	"subtree_merge":      func(a arguments) (any, error) { return MergeSubtrees(a.subtrees(0)...) },
	"subtree_final_hash": func(a arguments) (any, error) { return of[*Subtree](a, 0).FinalHash() },
	"subtree_file_hash":  func(a arguments) (any, error) { return of[*Subtree](a, 0).FileHashWithSalt(a.bytes(1)) },
	"subtree_to_json":    func(a arguments) (any, error) { return asText(of[*Subtree](a, 0).MarshalJSON()) },
	"subtree_from_json": func(a arguments) (any, error) {
		made := new(Subtree)
		return made, made.UnmarshalJSON([]byte(a.text(0)))
	},
	"subtree_from_flat": func(a arguments) (any, error) {
		return SubtreeFromFlat(a.truth(0), a.levels(1), a.chunks(2), a.truth(3))
	},

	"session_new":                func(a arguments) (any, error) { return NewSession() },
	"session_new_without_hashes": func(a arguments) (any, error) { return NewSessionWithoutHashes() },
	"session_keeps_hashes":       func(a arguments) (any, error) { return of[*Session](a, 0).KeepsHashes() },
	"session_put":                func(a arguments) (any, error) { return of[*Session](a, 0).Put(a.number(1), a.chunks(2)) },
	"session_taken":              func(a arguments) (any, error) { return of[*Session](a, 0).Taken(a.number(1)) },
	"session_num_chunks":         func(a arguments) (any, error) { return of[*Session](a, 0).NumChunks() },
	"session_total_size":         func(a arguments) (any, error) { return of[*Session](a, 0).TotalSize() },
	"session_num_runs":           func(a arguments) (any, error) { return of[*Session](a, 0).NumRuns() },
	"session_run": func(a arguments) (any, error) {
		run, err := of[*Session](a, 0).Run(int(a.number(1)))
		return both{run.First, run.Subtree}, err
	},
	"session_run_from": func(a arguments) (any, error) {
		run, found, err := of[*Session](a, 0).RunFrom(a.number(1))
		if err == nil && !found {
			err = errNone
		}
		return both{run.Positions, run.Subtree}, err
	},
	"session_gaps":             func(a arguments) (any, error) { return of[*Session](a, 0).Gaps(a.number(1)) },
	"session_root":             func(a arguments) (any, error) { return of[*Session](a, 0).Root(a.number(1)) },
	"session_finish":           func(a arguments) (any, error) { return of[*Session](a, 0).Finish(a.number(1)) },
	"session_finish_with_salt": func(a arguments) (any, error) { return of[*Session](a, 0).FinishWithSalt(a.number(1), a.bytes(2)) },
	"session_copy":             func(a arguments) (any, error) { return of[*Session](a, 0).Clone() },
	"session_put_range": func(a arguments) (any, error) {
		return nil, of[*Session](a, 0).PutRange(a.number(1), a.number(2), of[*Subtree](a, 3))
	},
	"session_join": func(a arguments) (any, error) { return of[*Session](a, 0).Join(of[*Session](a, 1)) },
	"session_push_run": func(a arguments) (any, error) {
		return nil, of[*Session](a, 0).PushRun(Positions{a.number(1), a.number(2)}, of[*Subtree](a, 3))
	},
	"session_keep_hashes": func(a arguments) (any, error) { return nil, of[*Session](a, 0).KeepHashes(a.hashes(1)) },
	"session_num_known_hashes": func(a arguments) (any, error) {
		hashes, err := of[*Session](a, 0).KnownHashes()
		return len(hashes), err
	},
	"session_known_hashes": func(a arguments) (any, error) {
		hashes, err := of[*Session](a, 0).KnownHashes()
		sort.Slice(hashes, func(i, j int) bool { return hashes[i].Compare(hashes[j]) < 0 })
		return hashes, err
	},
	"session_knows":      func(a arguments) (any, error) { return of[*Session](a, 0).Knows(a.hash(1)) },
	"session_knows_each": func(a arguments) (any, error) { return of[*Session](a, 0).KnowsEach(a.hashes(1)) },
	"session_to_json":    func(a arguments) (any, error) { return asText(of[*Session](a, 0).MarshalJSON()) },
	"session_from_json": func(a arguments) (any, error) {
		made := new(Session)
		return made, asRead(made.UnmarshalJSON([]byte(a.text(0))))
	},

	"hash_tree_from_chunks": func(a arguments) (any, error) { return NewHashTree(a.chunks(0)) },
	"hash_tree_root":        func(a arguments) (any, error) { return of[*HashTree](a, 0).Root() },
	"hash_tree_file_hash":   func(a arguments) (any, error) { return of[*HashTree](a, 0).FileHashWithSalt(a.bytes(1)) },
	"hash_tree_num_chunks":  func(a arguments) (any, error) { return of[*HashTree](a, 0).NumChunks() },
	"hash_tree_total_size":  func(a arguments) (any, error) { return of[*HashTree](a, 0).TotalSize() },
	"hash_tree_chunks_at": func(a arguments) (any, error) {
		first, end, err := of[*HashTree](a, 0).ChunksAt(a.number(1), a.number(2))
		return []int{first, end}, err
	},
	"hash_tree_bytes_of": func(a arguments) (any, error) {
		from, to, err := of[*HashTree](a, 0).BytesOf(int(a.number(1)), int(a.number(2)))
		return []uint64{from, to}, err
	},
	"hash_tree_proof": func(a arguments) (any, error) {
		return of[*HashTree](a, 0).Proof(int(a.number(1)), int(a.number(2)))
	},
	"hash_tree_diff": func(a arguments) (any, error) {
		it, err := of[*HashTree](a, 0).Diff(of[*HashTree](a, 1))
		if it == nil {
			return nil, err
		}
		return []any{it.First, it.End, it.OtherEnd, it.Start, it.Stop, it.OtherStop}, err
	},
	"range_proof_levels": func(a arguments) (any, error) { return of[*RangeProof](a, 0).Levels() },
	"range_proof_nodes": func(a arguments) (any, error) {
		nodes, err := of[*RangeProof](a, 0).Nodes()
		return linesOf(nodes), err
	},
	"range_proof_to_json": func(a arguments) (any, error) { return asText(of[*RangeProof](a, 0).MarshalJSON()) },
	"range_proof_from_json": func(a arguments) (any, error) {
		made := new(RangeProof)
		return made, made.UnmarshalJSON([]byte(a.text(0)))
	},
	"range_proof_to_bytes": func(a arguments) (any, error) { return of[*RangeProof](a, 0).MarshalBinary() },
	"range_proof_from_bytes": func(a arguments) (any, error) {
		made := new(RangeProof)
		return made, made.UnmarshalBinary(a.data(0))
	},
	"range_proof_from_flat":   func(a arguments) (any, error) { return NewRangeProof(a.levels(0), a.chunks(1)) },
	"range_proof_open":        func(a arguments) (any, error) { return of[*RangeProof](a, 0).OpenWithSalt(a.hash(1), a.bytes(2)) },
	"range_proof_open_root":   func(a arguments) (any, error) { return of[*RangeProof](a, 0).OpenRoot(a.hash(1)) },
	"opened_range_file_size":  func(a arguments) (any, error) { return of[*OpenedRange](a, 0).FileSize() },
	"opened_range_num_chunks": func(a arguments) (any, error) { return of[*OpenedRange](a, 0).NumChunks() },
	"opened_range_bytes_of": func(a arguments) (any, error) {
		from, to, err := of[*OpenedRange](a, 0).BytesOf(int(a.number(1)))
		return []uint64{from, to}, err
	},
	"opened_range_check": func(a arguments) (any, error) { return of[*OpenedRange](a, 0).Check(int(a.number(1)), a.data(2)) },
	"opened_range_read": func(a arguments) (any, error) {
		return of[*OpenedRange](a, 0).Read(a.number(1), a.number(2), a.data(3))
	},

	"hash_index_new":    func(a arguments) (any, error) { return NewHashIndex() },
	"hash_index_insert": func(a arguments) (any, error) { return of[*HashIndex](a, 0).Insert(a.hashes(1), a.numbers(2)) },
	"hash_index_find": func(a arguments) (any, error) {
		numbers, found, err := of[*HashIndex](a, 0).Find(a.hashes(1))
		list := []any{}
		for i, number := range numbers {
			if list = append(list, nil); found[i] {
				list[i] = number
			}
		}
		return list, err
	},
	"hash_index_entries": func(a arguments) (any, error) { return sorted(of[*HashIndex](a, 0).Entries()) },
	"hash_index_len":     func(a arguments) (any, error) { return of[*HashIndex](a, 0).Len() },

	"chunker_begin": func(a arguments) (any, error) { return NewChunker(), nil },
	"chunker_next_boundary": func(a arguments) (any, error) {
		end, found := of[*Chunker](a, 0).NextBoundary(a.data(1))
		if !found {
			return nil, nil
		}
		return end, nil
	},
	"chunker_taken":                func(a arguments) (any, error) { return of[*Chunker](a, 0).Taken(), nil },
	"file_hasher_new":              func(a arguments) (any, error) { return NewFileHasher() },
	"file_hasher_update":           func(a arguments) (any, error) { _, err := of[*FileHasher](a, 0).Write(a.data(1)); return nil, err },
	"file_hasher_size":             func(a arguments) (any, error) { return of[*FileHasher](a, 0).Size() },
	"file_hasher_root":             func(a arguments) (any, error) { return of[*FileHasher](a, 0).Root() },
	"file_hasher_finish":           func(a arguments) (any, error) { return of[*FileHasher](a, 0).FileHash() },
	"file_hasher_finish_with_salt": func(a arguments) (any, error) { return of[*FileHasher](a, 0).FileHashWithSalt(a.bytes(1)) },
}

// Calls of the scripts that the package doesn't have.
var absent = map[string]bool{
	"session_next_gap": true, "hash_tree_common_prefix": true, "hash_tree_common_suffix": true, "range_proof_from_chunks": true,
}

func orNone(point int, found bool) (any, error) {
	if !found {
		return nil, errNone
	}
	return point, nil
}

func asText(text []byte, err error) (any, error) { return string(text), err }

// A session's rules have the statuses of the scripts.
func asRead(err error) error {
	var failure *Error
	if errors.As(err, &failure) && failure.Status > SessionRule {
		return map[int]Status{1: ErrText, 2: ErrText, 3: ErrText, 4: ErrText, 6: ErrArguments, 7: ErrSizes}[failure.Rule]
	}
	return err
}

func linesOf(nodes []Chunk) string {
	var lines strings.Builder
	for _, node := range nodes {
		fmt.Fprintf(&lines, "%s : %d\n", node.Hash, node.Size)
	}
	return lines.String()
}

// The entries of an index, sorted.
func sorted(hashes []Hash, numbers []uint64, err error) (any, error) {
	entries := make([][]any, len(hashes))
	for i, hash := range hashes {
		entries[i] = []any{hash, numbers[i]}
	}
	sort.Slice(entries, func(i, j int) bool { return entries[i][0].(Hash).Compare(entries[j][0].(Hash)) < 0 })
	return entries, err
}

// ---- Values: what a script says, and how it would say what the package returns; tests/vectors/README.md has the rules

// The arguments of a step, as the script says them, and the objects of the test.
type arguments struct {
	given   []any
	objects map[string]any
}

func of[T any](a arguments, i int) T { return a.objects[a.given[i].(string)].(T) }

func (a arguments) number(i int) uint64      { return numberOf(a.given[i]) }
func (a arguments) numbers(i int) []uint64   { return listOf(a.given[i], numberOf) }
func (a arguments) truth(i int) bool         { return a.given[i].(bool) }
func (a arguments) text(i int) string        { return a.given[i].(string) }
func (a arguments) hash(i int) Hash          { return hashOf(a.given[i]) }
func (a arguments) hashes(i int) []Hash      { return listOf(a.given[i], hashOf) }
func (a arguments) bytes(i int) (b [32]byte) { copy(b[:], must(hex.DecodeString(a.text(i)))); return }
func (a arguments) data(i int) []byte        { return dataOf(a.given[i]) }

func (a arguments) levels(i int) []Level {
	return listOf(a.given[i], func(it any) Level { return Level{numberOf(it.([]any)[0]), numberOf(it.([]any)[1])} })
}

func (a arguments) subtrees(i int) []*Subtree {
	return listOf(a.given[i], func(name any) *Subtree { return a.objects[name.(string)].(*Subtree) })
}

func (a arguments) chunks(i int) []Chunk {
	if name, is := a.given[i].(string); is {
		return a.objects[name].([]Chunk)
	}
	told := a.given[i].(map[string]any)
	for rule, read := range rules {
		if it, is := told[rule]; is {
			list := read(it)
			if part, is := told["part"]; is {
				ends := listOf(part, numberOf)
				list = list[ends[0]:ends[1]]
			}
			return list
		}
	}
	panic(fmt.Sprint("no rule for ", told))
}

func numberOf(it any) uint64 { return must(strconv.ParseUint(fmt.Sprint(it), 10, 64)) }

func hashOf(it any) Hash { return must(ParseHash(it.(string))) }

func listOf[T any](it any, read func(any) T) []T {
	list := []T{}
	for _, one := range it.([]any) {
		list = append(list, read(one))
	}
	return list
}

func dataOf(it any) []byte {
	if text, is := it.(string); is {
		return must(hex.DecodeString(text))
	}
	told := it.(map[string]any)
	if part, is := told["mixed"]; is {
		ends := listOf(part, numberOf)
		return mixed[ends[0]:ends[1]]
	}
	part, at := told["message"], func(i uint64) byte { return byte(i % 251) }
	if text, is := told["repeated"]; is {
		repeated := must(hex.DecodeString(text.(string)))
		part, at = told["part"], func(i uint64) byte { return repeated[i%uint64(len(repeated))] }
	}
	data, ends := []byte{}, listOf(part, numberOf)
	for i := ends[0]; i < ends[1]; i++ {
		data = append(data, at(i))
	}
	return data
}

// The chunks of lists that count their members.
func countedChunks(it any, chunk func(member func(string) uint64, i uint64) Chunk) (list []Chunk) {
	member := func(name string) uint64 { return numberOf(it.(map[string]any)[name]) }
	for i := uint64(0); i < member("count"); i++ {
		list = append(list, chunk(member, i))
	}
	return
}

func chunkOf(data []byte) Chunk { return Chunk{DataHash(data), uint64(len(data))} }

var rules = map[string]func(it any) []Chunk{
	"pattern": func(it any) (list []Chunk) {
		for i, letter := range it.(string) {
			k, last := uint64(i+1), uint64(0)
			if letter != '|' {
				last = 1
			}
			list = append(list, Chunk{Hash{k, 2 * k, 3 * k, 4*k + last}, 100*k - 93})
		}
		return
	},
	"drawn": func(it any) []Chunk {
		return countedChunks(it, func(member func(string) uint64, i uint64) Chunk {
			return Chunk{HashFromSeed(member("firstSeed") + i), 100 + 977*i%9901}
		})
	},
	"seeds": func(it any) []Chunk {
		return listOf(it, func(it any) (chunk Chunk) {
			if seed := numberOf(it); seed != 0 {
				chunk = Chunk{HashFromSeed(seed), 100 * seed}
			}
			return
		})
	},
	"nodes": func(it any) []Chunk {
		return listOf(it, func(it any) Chunk {
			node := it.(map[string]any)
			return Chunk{hashOf(node["hash"]), numberOf(node["size"])}
		})
	},
	"counted": func(it any) []Chunk {
		return countedChunks(it, func(member func(string) uint64, i uint64) Chunk {
			last, every := uint64(1), member("cutEvery")
			if every != 0 && i%every == every-1 {
				last = 0
			}
			return Chunk{Hash{i, 0, 0, last}, 1}
		})
	},
	"numbers": func(it any) []Chunk {
		lengths := listOf(it.(map[string]any)["lengths"], numberOf)
		return countedChunks(it, func(member func(string) uint64, i uint64) Chunk {
			length := int(lengths[i%uint64(len(lengths))])
			return chunkOf([]byte(strings.Repeat(fmt.Sprintf("%d ", member("first")+i), length)[:length]))
		})
	},
	"chunkBytes": func(it any) []Chunk { return listOf(it, func(it any) Chunk { return chunkOf(dataOf(it)) }) },
}

// Returns a value as a script says it.
func said(it any) any {
	switch it := it.(type) {
	case nil, bool, string:
		return it
	case Hash:
		return it.String()
	case []byte:
		return hex.EncodeToString(it)
	case [32]byte:
		return hex.EncodeToString(it[:])
	case Level:
		return said([]uint64{it.Left, it.Right})
	case Positions:
		return said([]uint64{it.First, it.End})
	}
	value := reflect.ValueOf(it)
	if value.Kind() == reflect.Slice {
		list := []any{}
		for i := 0; i < value.Len(); i++ {
			list = append(list, said(value.Index(i).Interface()))
		}
		return list
	}
	text := fmt.Sprint(it)
	if text[0] == '-' || numberOf(text) < 1<<53 {
		return json.Number(text)
	}
	return text
}

// Returns all that an object says of itself.
func state(it any) string {
	switch it := it.(type) {
	case *Hasher:
		return fmt.Sprint(it.Hash(), it.Count())
	case *Chunker:
		// All that tells of a chunker: where a copy cuts what follows.
		copied := *it
		end, found := copied.NextBoundary(mixed[:200000])
		return fmt.Sprint(it.Taken(), end, found)
	case *FileHasher:
		size, err := it.Size()
		root, again := it.Root()
		return fmt.Sprint(size, err, root, again)
	case *HashIndex:
		return fmt.Sprint(sorted(it.Entries()))
	case *HashTree:
		root, err := it.Root()
		count, again := it.NumChunks()
		return fmt.Sprint(root, err, count, again)
	case *OpenedRange:
		size, err := it.FileSize()
		count, again := it.NumChunks()
		return fmt.Sprint(size, err, count, again)
	case interface{ MarshalJSON() ([]byte, error) }:
		text, err := it.MarshalJSON()
		return fmt.Sprint(string(text), err)
	}
	return fmt.Sprint(it)
}

func states(objects map[string]any) string {
	list := map[string]string{}
	for name, it := range objects {
		list[name] = state(it)
	}
	return fmt.Sprint(list)
}

// ---- Steps

var statuses = map[string]Status{
	"ARGUMENTS": ErrArguments, "SIZES": ErrSizes, "TEXT": ErrText, "MISMATCH": ErrMismatch, "RULE": Rule, "PROOF_RULE": ProofRule,
	"SESSION_OVERLAP": ErrSessionOverlap, "SESSION_POSITIONS": ErrSessionPositions, "SESSION_GAP": ErrSessionGap,
}

// Returns what is wrong with the error of a refused call, or "".
func wrongError(call string, answer map[string]any, err error) string {
	wanted := statuses[answer["error"].(string)]
	rule, hasRule := answer["rule"]
	if hasRule {
		wanted += Status(numberOf(rule))
	}
	// That there is no such chunk is another error here.
	if !errors.Is(err, wanted) && !(call == "opened_range_check" && answer["chunk"] == nil && errors.Is(err, ErrArguments)) {
		return fmt.Sprintf("error %v, and not %v", err, wanted)
	}
	var failure *Error
	if !errors.As(err, &failure) {
		return ""
	}
	chunk, place := any(nil), any(nil)
	if failure.Chunk != -1 {
		chunk, place = said(failure.Chunk), said(failure.Place)
	}
	found := map[string]any{"rule": said(failure.Rule), "position": said(failure.Position), "chunk": chunk, "place": place}
	for name := range found {
		if it, told := answer[name]; told && !reflect.DeepEqual(it, found[name]) {
			return fmt.Sprintf("%s %v, and not %v, of %v", name, found[name], it, err)
		}
	}
	return ""
}

// Makes a call, and returns what is wrong with its answer, or "". A refused call may change nothing.
func wrongStep(step []any, objects map[string]any) string {
	call, given, answer := step[0].(string), step[1].([]any), map[string]any{}
	if len(step) > 2 {
		answer = step[2].(map[string]any)
	}
	make, is := calls[call]
	if !is {
		return "there is no such call"
	}
	if _, is := answer["error"]; is {
		before := states(objects)
		_, err := make(arguments{given, objects})
		if after := states(objects); before != after {
			return "a refused call changed something"
		}
		return wrongError(call, answer, err)
	}
	found, err := make(arguments{given, objects})
	if err != nil {
		return err.Error()
	}
	if name, is := answer["as"]; is {
		if two, is := found.(both); is {
			found, objects[name.(string)] = two.answer, two.object
		} else {
			found, objects[name.(string)] = nil, found
		}
	}
	if hash, is := answer["hash"]; is && DataHash([]byte(found.(string))).String() != hash {
		return fmt.Sprint("another text: ", found)
	}
	if _, is := answer["hash"]; !is && !reflect.DeepEqual(said(found), answer["is"]) {
		return fmt.Sprintf("%v, and not %v", said(found), answer["is"])
	}
	return ""
}

// Runs the steps of a test, except calls that the package lacks, and calls on what these would have made. Returns what is wrong, or "".
func wrongTest(steps []any) string {
	objects, lacking := map[string]any{}, map[any]bool{}
	for i, it := range steps {
		step := it.([]any)
		leftOut := absent[step[0].(string)]
		for _, argument := range step[1].([]any) {
			name, is := argument.(string)
			leftOut = leftOut || is && lacking[name]
		}
		if leftOut {
			if len(step) > 2 && step[2].(map[string]any)["as"] != nil {
				lacking[step[2].(map[string]any)["as"]] = true
			}
			continue
		}
		if wrong := wrongStep(step, objects); wrong != "" {
			return fmt.Sprintf("step %d, %v: %s", i, step[0], wrong)
		}
	}
	return ""
}

// Reads a line of a script. Numbers stay texts.
func read(line []byte, to any) error {
	decoder := json.NewDecoder(bytes.NewReader(line))
	decoder.UseNumber()
	return decoder.Decode(to)
}

type head struct {
	NumberOfTests int
	Calls         map[string]any
}

// The files of the scripts, which are made if they aren't there.
func scripts(t *testing.T) []string {
	if told, err := exec.Command("python3", vectors+"make_vectors", "--scripts").CombinedOutput(); err != nil {
		t.Fatalf("python3 tests/vectors/make_vectors --scripts makes the scripts, and failed: %v\n%s", err, told)
	}
	return must(filepath.Glob(vectors + "out/scripts/*.jsonl"))
}

func TestVectors(t *testing.T) {
	for _, path := range scripts(t) {
		t.Run(strings.TrimSuffix(filepath.Base(path), ".jsonl"), func(t *testing.T) {
			file := must(os.Open(path))
			defer file.Close()
			lines := bufio.NewReader(file)
			var head head
			expect(t, read(must(lines.ReadBytes('\n')), &head), nil)
			count := 0
			for line, err := lines.ReadBytes('\n'); err == nil; line, err = lines.ReadBytes('\n') {
				var test struct {
					Test  string
					Steps []any
				}
				expect(t, read(line, &test), nil)
				if wrong := wrongTest(test.Steps); wrong != "" {
					t.Errorf("%s: %s", test.Test, wrong)
				}
				count++
			}
			expect(t, count, head.NumberOfTests)
		})
	}
}

// A call of the table isn't left out, and scripts make it.
func TestEachCallThatThePackageHasIsMade(t *testing.T) {
	called := map[string]bool{}
	for _, path := range scripts(t) {
		var head head
		line, _, _ := bytes.Cut(must(os.ReadFile(path)), []byte("\n"))
		expect(t, read(line, &head), nil)
		for call := range head.Calls {
			called[call] = true
		}
	}
	for call := range called {
		_, is := calls[call]
		if is == absent[call] {
			t.Errorf("%s stands in no table, or in both", call)
		}
	}
	expect(t, len(called), len(calls)+len(absent))
}

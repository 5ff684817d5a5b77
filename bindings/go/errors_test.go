package yurewha

import (
	"errors"
	"strings"
	"testing"
)

// Chunks whose sizes are too large together from number 2 on.
var huge = []Chunk{{Hash{1}, 1 << 63}, {Hash{2}, 1<<63 - 1}, {Hash{3}, 1}, {Hash{4}, 1}}

func third[A, B any](_ A, _ B, err error) error { return err }

// Each error says its status, and in its text the numbers that are known.
func TestErrorsNameWhatIsWrong(t *testing.T) {
	list := some(4)
	open, closed := must(NewSubtree(false, list, false)), must(NewSubtree(false, list, false))
	closed.Close()
	whole := must(NewSubtree(true, list, true))
	heavy, other, more := must(NewSubtree(false, huge[:1], false)), sessionOf(0), new(Session)
	for _, first := range []uint64{0, 5, 8, 12} {
		must(other.Put(first, some(2)))
	}
	must(more.Put(20, huge[:1]))
	session, light, tree, index := sessionOf(2), must(NewSessionWithoutHashes()), must(NewHashTree(list)), must(NewHashIndex())
	must(session.Put(9, []Chunk{{Hash{}, 1 << 63}}))
	proof := must(tree.Proof(1, 3))
	opened := must(proof.OpenRoot(must(tree.Root())))
	data := append(dataOfChunk(1), dataOfChunk(2)...)
	wrong := append(dataOfChunk(1), dataOfChunk(0)...)
	for _, test := range []struct {
		err    error
		status Status
		text   string
	}{
		{second(ParseHash("zz")), ErrText, `must be 64 hex digits, got "zz"`},
		{second(ParseHash(strings.Repeat("z", 70))), ErrText, strings.Repeat("z", 64) + `".. of 70 bytes`},
		{second(ParseBase64("??")), ErrText, `must be 43 characters, as Base64 writes them, got "??"`},
		{second(Hash{}.Remainder(0)), ErrArguments, "the divisor must be at least 1, got 0"},
		{second(DataHashes(data, nil)), ErrArguments, "one more offset than chunks, got none"},
		{second(DataHashes(data, []uint64{0, 5, 4})), ErrArguments, "offset 2 must be at least 5, got 4"},
		{second(DataHashes(data, []uint64{0, 99})), ErrArguments, "the last offset must be at most 30, the number of bytes, got 99"},
		{second(NewSubtree(false, huge, false)), ErrSizes, "the chunks up to number 2 add up"},
		{second(whole.MergeIntoCounted(open)), ErrArguments, "the front one marked at its end: true, the back one at its start: false"},
		{second(open.MergeIntoCounted(whole)), ErrArguments, "the front one marked at its end: false, the back one at its start: true"},
		{second(MergeSubtrees(open, whole, open)), ErrArguments, "range 1 is marked at its start, and isn't the first"},
		{second(MergeSubtrees(whole, open)), ErrArguments, "range 0 is marked at its end, and isn't the last"},
		{second(MergeSubtrees(open, closed)), ErrEmptyHandle, "range 1 is empty: it was closed"},
		{second(MergeSubtrees(open, open, nil)), ErrEmptyHandle, "range 2 is empty: it was closed"},
		{second(closed.NumNodes()), ErrEmptyHandle, "the object is empty: it was closed, or no call made it"},
		{second(open.FinalHash()), ErrArguments, "must be marked at both ends, got at its start: false, at its end: false"},
		{new(Subtree).UnmarshalJSON([]byte("[")), ErrText, `the text isn't JSON: "["`},
		{new(Subtree).UnmarshalJSON([]byte("7")), Rule + 1, "invalid subtree: rule 1: "},
		{second(SubtreeFromFlat(true, nil, nil, true)), Rule + 5, "invalid subtree: rule 5: "},
		{second(session.Put(0, some(7))), ErrSessionOverlap, "position 3 is taken"},
		{second(session.Put(4, some(1))), ErrSessionOverlap, "position 4 is taken"},
		{second(session.Put(1<<64-1, some(2))), ErrSessionPositions, "the first position 18446744073709551615 plus 2 chunks"},
		{second(session.Put(20, []Chunk{{Hash{}, 1 << 63}})), ErrSizes, "the session's chunks and of 1 more add up"},
		{second(session.Root(10)), ErrSessionGap, "the positions from 0 to 2 have no chunk"},
		{second(must(session.Clone()).Root(1)), ErrSessionGap, "position 0 has no chunk"},
		{second(new(Session).Finish(1)), ErrSessionGap, "position 0 has no chunk"},
		{second(session.FinishWithSalt(10, [32]byte{})), ErrSessionGap, "the positions from 0 to 2 have no chunk"},
		{second(must(NewSessionWithoutHashes()).Root(3)), ErrSessionGap, "the positions from 0 to 2 have no chunk"},
		{second(light.Put(0, some(3))), 0, ""},
		{second(light.Root(2)), ErrSessionGap, "position 2 is taken, and the total is 2"},
		{second(session.Run(2)), ErrArguments, "the session has no run 2"},
		{second(session.Run(-1)), ErrArguments, "the session has no run -1"},
		{session.PushRun(Positions{30, 30}, open), ErrArguments, "must be more than its first position 30, got 30"},
		{session.PushRun(Positions{30, 31}, whole), ErrArguments, "must be open, got one marked at its start: true, at its end: true"},
		{session.PushRun(Positions{10, 11}, open), ErrArguments, "position 9 or one after it is taken"},
		{session.PutRange(0, 7, open), ErrSessionOverlap, "position 3 is taken"},
		{session.PutRange(4, 1, heavy), ErrSessionOverlap, "position 4 is taken"},
		{session.PutRange(1<<64-1, 2, open), ErrSessionPositions, "the first position 18446744073709551615 plus 2 chunks"},
		{session.PutRange(20, 1<<64-1, heavy), ErrSessionPositions, "the first position 20 plus 18446744073709551615 chunks"},
		{session.PutRange(20, 1, heavy), ErrSizes, "the session's chunks and of 1 more add up"},
		{session.PutRange(3, 0, open), ErrArguments, "a range must have a chunk, got one of 0 chunks from position 3 on"},
		{session.PutRange(3, 4, whole), ErrArguments, "the subtree of a range must be open, got one marked at its start: true, at its end: true"},
		{session.PutRange(20, 4, closed), ErrEmptyHandle, "the object is empty"},
		{second(session.Join(session)), ErrSessionOverlap, "position 3 is taken in both"},
		{second(session.Join(other)), ErrSessionOverlap, "position 9 is taken in both"},
		{second(other.Join(session)), ErrSessionOverlap, "position 9 is taken in both"},
		{second(session.Join(more)), ErrSizes, "the sizes of the chunks of both sessions add up to more than 2^64 - 1"},
		{light.KeepHashes([]Hash{{}}), ErrArguments, "the session keeps no hashes, got 1"},
		{new(Session).UnmarshalJSON([]byte("7")), SessionRule + 1, "invalid session: rule 1: "},
		{third(tree.ChunksAt(99, 100)), ErrArguments, "the file has no bytes from 99 up to 100"},
		{third(tree.BytesOf(3, 5)), ErrArguments, "the tree doesn't have the chunks from 3 up to 5"},
		{second(tree.Proof(-1, 2)), ErrArguments, "the tree doesn't have the chunks from -1 up to 2"},
		{second(NewRangeProof(nil, nil)), ProofRule + 5, "invalid range proof: rule 5: "},
		{second(proof.Open(Hash{7})), ErrMismatch, "the proof doesn't show the file hash 0000000000000007"},
		{second(proof.OpenRoot(Hash{7})), ErrMismatch, "the proof doesn't show the root 0000000000000007"},
		{third(opened.BytesOf(2)), ErrArguments, "the range has no chunk 2"},
		{second(opened.Check(2, data)), ErrArguments, "the range has no chunk 2"},
		{second(opened.Check(1, data)), ErrMismatch, "this isn't the data of chunk 1 of the range, which has the bytes from 18 up to 36"},
		{second(opened.Read(6, 36, wrong)), ErrMismatch, "the range has 30 bytes, and the data 18"},
		{second(opened.Read(6, 36, append(data[:29:29], 0))), ErrMismatch, "this isn't the data of chunk 1 of the range"},
		{second(opened.Read(5, 6, data)), ErrMismatch, "the proof is of the bytes from 6 up to 36, and not of those from 5 up to 6"},
		{second(opened.Read(8, 7, data)), ErrMismatch, "and not of those from 8 up to 7"},
		{second(index.Insert([]Hash{{}}, nil)), ErrArguments, "one number for each of 1 hashes, got 0"},
	} {
		if test.status == 0 {
			expect(t, test.err, nil)
			continue
		}
		var failure *Error
		if !errors.As(test.err, &failure) || failure.Status != test.status || !strings.Contains(failure.Error(), test.text) {
			t.Errorf("%v, and not %s", test.err, test.text)
		}
	}
}

// The facts of an error are also numbers.
func TestErrorsHaveNumbers(t *testing.T) {
	session := sessionOf(2)
	tree := must(NewHashTree(some(4)))
	opened := must(must(tree.Proof(1, 3)).OpenRoot(must(tree.Root())))
	for _, test := range []struct{ err, wanted error }{
		{second(session.Put(0, some(7))), &Error{Status: ErrSessionOverlap, Position: 3, Chunk: -1}},
		{session.PutRange(0, 7, must(NewSubtree(false, some(7), false))), &Error{Status: ErrSessionOverlap, Position: 3, Chunk: -1}},
		{second(session.Join(session)), &Error{Status: ErrSessionOverlap, Position: 3, Chunk: -1}},
		{second(session.Root(4)), &Error{Status: ErrSessionGap, Chunk: -1}},
		{second(session.Clone()), nil},
		{second(opened.Check(1, nil)), &Error{Status: ErrMismatch, Chunk: 1, Place: 18}},
		{second(opened.Read(6, 7, dataOfChunk(1))), &Error{Status: ErrMismatch, Chunk: 1, Place: 18}},
		{second(opened.Read(6, 7, make([]byte, 99))), &Error{Status: ErrMismatch, Chunk: -1}},
		{new(RangeProof).UnmarshalBinary(nil), &Error{Status: ProofRule + 1, Rule: 1, Chunk: -1}},
		{new(Session).UnmarshalJSON([]byte("{}")), &Error{Status: SessionRule + 2, Rule: 2, Chunk: -1}},
		{new(Subtree).UnmarshalJSON([]byte("{}")), &Error{Status: Rule + 2, Rule: 2, Chunk: -1}},
	} {
		var failure *Error
		if errors.As(test.err, &failure) {
			failure.text = ""
			expect(t, *failure, *test.wanted.(*Error))
		} else {
			expect(t, test.err, test.wanted)
		}
	}
	expect(t, ErrSizes.Error() != ErrText.Error() && len(ErrSizes.Error()) > 5, true)
}

// What several calls can do, each does with the same result, and refuses with the same error.
func TestTwinsAgree(t *testing.T) {
	for _, count := range items {
		list, salt, total := some(count), [32]byte{9}, uint64(count)
		whole, tree, session := must(NewSubtree(true, list, true)), must(NewHashTree(list)), new(Session)
		must(session.Put(0, list))
		var merged, counted *Subtree
		for i, chunk := range list {
			one := must(NewSubtree(i == 0, []Chunk{chunk}, i == count-1))
			if merged == nil {
				merged, counted = one, must(one.Clone())
			} else {
				expect(t, merged.MergeInto(one), nil)
				must(counted.MergeIntoCounted(one))
			}
		}
		if merged == nil {
			merged, counted = must(MergeSubtrees()), must(MergeSubtrees())
		}
		for _, hashes := range [][]Hash{
			{must(XorbHash(list)), must(whole.FinalHash()), must(tree.Root()), must(session.Root(total)), must(merged.FinalHash()), must(counted.FinalHash()),
				must(must(MergeSubtrees(whole)).FinalHash())},
			{must(FileHash(list)), must(FileHashWithSalt(list, [32]byte{})), must(whole.FileHash()), must(tree.FileHash()), must(session.Finish(total)),
				must(whole.FileHashWithSalt([32]byte{})), must(tree.FileHashWithSalt([32]byte{})), must(session.FinishWithSalt(total, [32]byte{}))},
			{must(FileHashWithSalt(list, salt)), must(whole.FileHashWithSalt(salt)), must(tree.FileHashWithSalt(salt)), must(session.FinishWithSalt(total, salt))},
		} {
			for _, hash := range hashes {
				expect(t, hash, hashes[0])
			}
		}
		for i, hash := range must(DataHashes(make([]byte, count), make([]uint64, count+1))) {
			expect(t, hash, DataHash(nil))
			known := must(session.Knows(list[i].Hash))
			expect(t, known, must(session.KnowsEach([]Hash{list[i].Hash}))[0])
		}
	}
	for _, call := range []func([]Chunk) error{
		func(list []Chunk) error { return second(XorbHash(list)) },
		func(list []Chunk) error { return second(FileHash(list)) },
		func(list []Chunk) error { return second(FileHashWithSalt(list, [32]byte{})) },
		func(list []Chunk) error { return second(NewSubtree(true, list, true)) },
		func(list []Chunk) error { return second(NewHashTree(list)) },
	} {
		err := call(huge)
		expectError(t, err, ErrSizes)
		expect(t, strings.Contains(err.Error(), "up to number 2 add up"), true)
		expect(t, call(huge[:2]), nil)
	}
}

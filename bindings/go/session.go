package yurewha

// #include <yurewha.h>
import "C"

import "math"

// A Session takes the chunks of a file in any order, by their positions. The zero Session has no chunks, and keeps hashes.
type Session struct {
	held handle[C.yurewha_session]
}

// Positions are adjacent ones, from First up to, but without, End.
type Positions struct {
	First, End uint64
}

// A Run is as many adjacent taken positions as there are, and the subtree of their chunks, which is open at both ends.
type Run struct {
	Positions
	Subtree *Subtree
}

func freeSession(session *C.yurewha_session) { C.yurewha_session_free(session) }

func beginSession(made *C.yurewha_session) error { return check(C.yurewha_session_new(made)) }

func makeSession(call func(*C.yurewha_session) error) (*Session, error) {
	held, err := newHandle(freeSession, call)
	if err != nil {
		return nil, err
	}
	return &Session{held}, nil
}

// Makes a call. A zero session begins by it.
func (s *Session) with(call func(*C.yurewha_session) error) error {
	held, err := s.handle()
	if err != nil {
		return err
	}
	return held.with(call)
}

func (s *Session) handle() (handle[C.yurewha_session], error) {
	if s == nil {
		return handle[C.yurewha_session]{}, check(C.YUREWHA_EMPTY_HANDLE)
	}
	return s.held.begun(freeSession, beginSession)
}

// NewSession returns a session without chunks.
func NewSession() (*Session, error) { return makeSession(beginSession) }

// NewSessionWithoutHashes returns a session that keeps no hashes, so that its memory is in proportion to its runs.
func NewSessionWithoutHashes() (*Session, error) {
	return makeSession(func(made *C.yurewha_session) error { return check(C.yurewha_session_new_without_hashes(made)) })
}

// ParseSession reads a session from JSON text, as UnmarshalJSON does. If keepHashes is false, it keeps none, and those of the text are left out.
func ParseSession(text []byte, keepHashes bool) (*Session, error) {
	return makeSession(func(made *C.yurewha_session) error { return readSession(text, keepHashes, made) })
}

func readSession(text []byte, keepHashes bool, to *C.yurewha_session) error {
	status := C.yurewha_session_from_json(textPointer(text), C.size_t(len(text)), C.bool(keepHashes), to)
	return checkTold(status, C.YUREWHA_TEXT, "the text isn't JSON, or an object in it has a member twice: %s", shown(text))
}

// Put puts chunks at the positions from first on. It returns how many of their hashes the session didn't know, each counted once. It returns
// ErrSessionOverlap if a position is taken, otherwise ErrSessionPositions if one would be past 2^64 - 2, and otherwise ErrSizes if the sizes of
// all chunks add up to more than 2^64 - 1.
func (s *Session) Put(first uint64, chunks []Chunk) (fresh uint64, err error) {
	err = s.with(func(session *C.yurewha_session) error {
		status := C.yurewha_session_put(session, C.uint64_t(first), chunksPointer(chunks), C.size_t(len(chunks)), (*C.uint64_t)(&fresh))
		return checkPut(status, session, first, uint64(len(chunks)))
	})
	return
}

// PutRange puts a range of count chunks at the positions from first on, as Put puts chunks. The session gets a copy of their subtree, and doesn't
// know their hashes. That the subtree is of so many chunks can't be seen. It returns ErrArguments if count is 0 or the subtree is marked at an
// end, and otherwise errors as Put does.
func (s *Session) PutRange(first, count uint64, subtree *Subtree) error {
	held, err := s.handle()
	if err != nil {
		return err
	}
	return withBoth(held, subtree.handle(), func(session *C.yurewha_session, it *C.yurewha_subtree) error {
		status := C.yurewha_session_put_range(session, C.uint64_t(first), C.uint64_t(count), it)
		if status != C.YUREWHA_ARGUMENTS {
			return checkPut(status, session, first, count)
		}
		if err := checkOpen(status, it, "range"); err != nil {
			return err
		}
		return refused(status, "a range must have a chunk, got one of %d chunks from position %d on", count, first)
	})
}

// Join puts copies of all runs of another session at their positions, and keeps the hashes that it knows, unless this one keeps none. It
// returns how many of these hashes this session didn't know. Of many sessions that have no position in common any two can be joined first, and
// the last one stands for the chunks of all. The other session stays as it was. It returns ErrSessionOverlap if a position is taken in both, and
// otherwise ErrSizes if the sizes of all chunks add up to more than 2^64 - 1.
func (s *Session) Join(other *Session) (fresh uint64, err error) {
	held, err := s.handle()
	if err != nil {
		return 0, err
	}
	added, err := other.handle()
	if err != nil {
		return 0, err
	}
	if held.owned == added.owned {
		// The call needs two different handles.
		copied, err := other.Clone()
		if err != nil {
			return 0, err
		}
		defer copied.Close()
		added = copied.held
	}
	err = withBoth(held, added, func(session, it *C.yurewha_session) error {
		status := C.yurewha_session_join(session, it, (*C.uint64_t)(&fresh))
		switch status {
		case C.YUREWHA_SESSION_OVERLAP:
			return overlap("position %d is taken in both", takenInBoth(session, it))
		case C.YUREWHA_SIZES:
			return refused(status, "the sizes of the chunks of both sessions add up to more than 2^64 - 1")
		}
		return check(status)
	})
	return
}

// Returns the error of a put of so many chunks at the positions from one on, or nil.
func checkPut(status C.yurewha_status, session *C.yurewha_session, first, count uint64) error {
	switch status {
	case C.YUREWHA_SESSION_OVERLAP:
		return overlap("position %d is taken", nextTaken(session, first))
	case C.YUREWHA_SESSION_POSITIONS:
		return refused(status, "the first position %d plus %d chunks is more than 2^64 - 1", first, count)
	case C.YUREWHA_SIZES:
		return refused(status, "the sizes of the session's chunks and of %d more add up to more than 2^64 - 1", count)
	}
	return check(status)
}

// Returns the error that names a position that is taken.
func overlap(format string, position uint64) error {
	made := refused(C.YUREWHA_SESSION_OVERLAP, format, position)
	made.Position = position
	return made
}

// Returns the error of a subtree that is marked, and nil of an open one.
func checkOpen(status C.yurewha_status, it *C.yurewha_subtree, what string) error {
	var atStart, atEnd C.bool
	_ = C.yurewha_subtree_marks(it, &atStart, &atEnd)
	if bool(atStart) || bool(atEnd) {
		return refused(status, "the subtree of a %s must be open, got one marked at its start: %v, at its end: %v", what, atStart, atEnd)
	}
	return nil
}

// Returns the first position that is taken in both sessions. There has to be one.
func takenInBoth(one, other *C.yurewha_session) uint64 {
	position := nextTaken(one, 0)
	for {
		theirs := nextTaken(other, position)
		if theirs == position {
			return position
		}
		position = nextTaken(one, theirs)
	}
}

// Returns the first position that is taken, from one on. There has to be one.
func nextTaken(session *C.yurewha_session, from uint64) uint64 {
	var first, end C.uint64_t
	gap := C.yurewha_session_next_gap(session, C.uint64_t(from), math.MaxUint64, &first, &end)
	if gap == C.YUREWHA_DONE && uint64(first) <= from {
		return uint64(end)
	}
	return from
}

// Returns the first position that is free, from one on. That may be the one after all positions.
func nextFree(session *C.yurewha_session, from uint64) uint64 {
	var first, end C.uint64_t
	if C.yurewha_session_next_gap(session, C.uint64_t(from), math.MaxUint64, &first, &end) != C.YUREWHA_DONE {
		return math.MaxUint64
	}
	return uint64(first)
}

// Returns the error of a status, or nil. A gap is told by its first position.
func checkTotal(status C.yurewha_status, session *C.yurewha_session, total uint64) error {
	if status != C.YUREWHA_SESSION_GAP {
		return check(status)
	}
	var first, end C.uint64_t
	var made *Error
	switch gap := C.yurewha_session_next_gap(session, 0, C.uint64_t(total), &first, &end); {
	case gap == C.YUREWHA_DONE && end-first == 1:
		made = refused(status, "position %d has no chunk", first)
	case gap == C.YUREWHA_DONE:
		made = refused(status, "the positions from %d to %d have no chunk", first, end-1)
	default:
		first = C.uint64_t(nextTaken(session, total))
		made = refused(status, "position %d is taken, and the total is %d", first, total)
	}
	made.Position = uint64(first)
	return made
}

// Taken returns whether a position is taken.
func (s *Session) Taken(position uint64) (bool, error) {
	var taken C.bool
	err := s.with(func(session *C.yurewha_session) error {
		return check(C.yurewha_session_taken(session, C.uint64_t(position), &taken))
	})
	return bool(taken), err
}

// NumChunks returns the number of chunks, which is that of taken positions.
func (s *Session) NumChunks() (count uint64, err error) {
	err = s.with(func(session *C.yurewha_session) error {
		return check(C.yurewha_session_num_chunks(session, (*C.uint64_t)(&count)))
	})
	return
}

// TotalSize returns the total size of the chunks in bytes.
func (s *Session) TotalSize() (size uint64, err error) {
	err = s.with(func(session *C.yurewha_session) error {
		return check(C.yurewha_session_total_size(session, (*C.uint64_t)(&size)))
	})
	return
}

// NumRuns returns the number of runs.
func (s *Session) NumRuns() (int, error) {
	var count C.size_t
	err := s.with(func(session *C.yurewha_session) error { return check(C.yurewha_session_num_runs(session, &count)) })
	return int(count), err
}

// Run returns a run. Runs are numbered from 0, by rising position. It returns ErrArguments if there is no such run.
func (s *Session) Run(number int) (run Run, err error) {
	err = s.with(func(session *C.yurewha_session) (err error) {
		var first C.uint64_t
		run.Subtree, err = makeSubtree(func(made *C.yurewha_subtree) error {
			status := C.yurewha_session_run(session, C.size_t(number), &first, made)
			return checkTold(status, C.YUREWHA_ARGUMENTS, "the session has no run %d", number)
		})
		if err == nil {
			run.Positions = Positions{uint64(first), nextFree(session, uint64(first))}
		}
		return
	})
	return
}

// RunFrom returns the first run that ends after a position, which is the one that holds it or else the next one, and whether there is one. To
// go through all runs, begin at position 0 and go on at each run's end.
func (s *Session) RunFrom(position uint64) (run Run, found bool, err error) {
	err = s.with(func(session *C.yurewha_session) (err error) {
		var first, end C.uint64_t
		run.Subtree, err = makeSubtree(func(made *C.yurewha_subtree) error {
			return check(C.yurewha_session_run_from(session, C.uint64_t(position), &first, &end, made))
		})
		run.Positions = Positions{uint64(first), uint64(end)}
		return
	})
	if failure, is := err.(*Error); is && failure.Status == ErrArguments {
		return Run{}, false, nil
	}
	return run, err == nil, err
}

// Gaps returns the gaps below a total, by rising position: adjacent free positions, as many as there are.
func (s *Session) Gaps(total uint64) (gaps []Positions, err error) {
	err = s.with(func(session *C.yurewha_session) error {
		var first, end C.uint64_t
		for {
			status := C.yurewha_session_next_gap(session, end, C.uint64_t(total), &first, &end)
			if status == C.YUREWHA_ARGUMENTS {
				return nil
			}
			if status != C.YUREWHA_DONE {
				return check(status)
			}
			gaps = append(gaps, Positions{uint64(first), uint64(end)})
		}
	})
	return
}

// Root returns the root of all chunks, or ErrSessionGap if the taken positions aren't exactly those below total.
func (s *Session) Root(total uint64) (h Hash, err error) {
	err = s.with(func(session *C.yurewha_session) error {
		return checkTotal(C.yurewha_session_root(session, C.uint64_t(total), h.pointer()), session, total)
	})
	return
}

// Finish returns the file hash of all chunks without a salt, or ErrSessionGap as Root does. The session can go on.
func (s *Session) Finish(total uint64) (h Hash, err error) {
	err = s.with(func(session *C.yurewha_session) error {
		return checkTotal(C.yurewha_session_finish(session, C.uint64_t(total), h.pointer()), session, total)
	})
	return
}

// FinishWithSalt returns the file hash of all chunks under a salt, or ErrSessionGap as Root does. The session can go on.
func (s *Session) FinishWithSalt(total uint64, salt [32]byte) (h Hash, err error) {
	err = s.with(func(session *C.yurewha_session) error {
		return checkTotal(C.yurewha_session_finish_with_salt(session, C.uint64_t(total), bytesPointer(&salt), h.pointer()), session, total)
	})
	return
}

// Clone returns a copy, which has the same chunks and knows the same hashes.
func (s *Session) Clone() (copied *Session, err error) {
	err = s.with(func(session *C.yurewha_session) (err error) {
		copied, err = makeSession(func(made *C.yurewha_session) error { return check(C.yurewha_session_copy(session, made)) })
		return
	})
	return
}

// PushRun adds a run after all runs of a session, of which it gets a copy. The session doesn't know the hashes of its chunks. That the subtree
// is of as many chunks as there are positions can't be seen. It returns ErrArguments if there is no position, the subtree is marked at an end,
// or a position from the one before the first on is taken, and otherwise ErrSizes as Put does.
func (s *Session) PushRun(positions Positions, subtree *Subtree) error {
	held, err := s.handle()
	if err != nil {
		return err
	}
	return withBoth(held, subtree.handle(), func(session *C.yurewha_session, it *C.yurewha_subtree) error {
		first, end := C.uint64_t(positions.First), C.uint64_t(positions.End)
		status := C.yurewha_session_push_run(session, first, end, it)
		if status != C.YUREWHA_ARGUMENTS {
			return check(status)
		}
		if end <= first {
			return refused(status, "the end of a run must be more than its first position %d, got %d", first, end)
		}
		if err := checkOpen(status, it, "run"); err != nil {
			return err
		}
		return refused(status, "position %d or one after it is taken", first-1)
	})
}

// Knows returns whether the session knows a hash: whether a put had it, or it was kept.
func (s *Session) Knows(hash Hash) (bool, error) {
	known, err := s.KnowsEach([]Hash{hash})
	return err == nil && known[0], err
}

// KnowsEach returns for each of some hashes whether the session knows it.
func (s *Session) KnowsEach(hashes []Hash) (known []bool, err error) {
	known = make([]bool, len(hashes))
	err = s.with(func(session *C.yurewha_session) error {
		count := C.size_t(len(hashes))
		return check(C.yurewha_session_knows_each(session, hashesPointer(hashes), count, truthsPointer(known), count))
	})
	return
}

// KeepHashes keeps hashes, as if an earlier put had had them. It returns ErrArguments if there are some, and the session keeps none.
func (s *Session) KeepHashes(hashes []Hash) error {
	return s.with(func(session *C.yurewha_session) error {
		status := C.yurewha_session_keep_hashes(session, hashesPointer(hashes), C.size_t(len(hashes)))
		return checkTold(status, C.YUREWHA_ARGUMENTS, "the session keeps no hashes, got %d", len(hashes))
	})
}

// KeepsHashes returns whether a session keeps the hashes of its chunks.
func (s *Session) KeepsHashes() (bool, error) {
	var keeps C.bool
	err := s.with(func(session *C.yurewha_session) error { return check(C.yurewha_session_keeps_hashes(session, &keeps)) })
	return bool(keeps), err
}

// KnownHashes returns all hashes that a session knows, each once, in no particular order.
func (s *Session) KnownHashes() (hashes []Hash, err error) {
	err = s.with(func(session *C.yurewha_session) error {
		var count C.size_t
		if err := check(C.yurewha_session_num_known_hashes(session, &count)); err != nil {
			return err
		}
		hashes = make([]Hash, count)
		return check(C.yurewha_session_known_hashes(session, hashesPointer(hashes), count))
	})
	return
}

// MarshalJSON returns the compact JSON text of a session with its runs and known hashes, which all packages read.
func (s Session) MarshalJSON() (text []byte, err error) {
	if s.held.owned == nil {
		defer s.Close() // of the copy, which begins here
	}
	err = s.with(func(session *C.yurewha_session) (err error) {
		text, err = written(4096, func(text []byte, length *cSize) cStatus {
			return C.yurewha_session_to_json(session, true, textPointer(text), C.size_t(len(text)), length)
		})
		return
	})
	return
}

// UnmarshalJSON reads a session, which then keeps hashes. For a value that is none it returns the lowest rule that the value breaks, SessionRule
// plus 1 to 7, or Rule plus 1 to 13 of a run's subtree, and for a text that isn't JSON ErrText. After an error the session is as it was. Time and
// memory are in proportion to the text, so refuse a stranger's text above a limit before.
func (s *Session) UnmarshalJSON(text []byte) error {
	return s.with(func(session *C.yurewha_session) error { return readSession(text, true, session) })
}

// Close frees the memory of a session.
func (s *Session) Close() {
	if held, err := s.handle(); err == nil {
		held.close(freeSession)
	}
}

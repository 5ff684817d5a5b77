package yurewha

// #include <yurewha.h>
import "C"

import (
	"fmt"
	"math/bits"
	"unsafe"
)

// A Status is the kind of a failure. Errors of this package are of type *Error, and errors.Is finds the status:
//
//	errors.Is(err, yurewha.ErrSessionGap)
type Status uint32

// The statuses have the names of the header, and mean the same.
const (
	// The arguments don't fit together, or the requested thing doesn't exist.
	ErrArguments Status = C.YUREWHA_ARGUMENTS
	// Sizes or lengths add up to more than 2^64 - 1.
	ErrSizes Status = C.YUREWHA_SIZES
	// An allocation failed.
	ErrMemory Status = C.YUREWHA_MEMORY
	// A text doesn't have the expected form.
	ErrText Status = C.YUREWHA_TEXT
	// The object is empty: it was closed, or no call made it.
	ErrEmptyHandle Status = C.YUREWHA_EMPTY_HANDLE
	// A range proof doesn't show the hash, or the data isn't that of the range.
	ErrMismatch Status = C.YUREWHA_MISMATCH
	// A position is taken.
	ErrSessionOverlap Status = C.YUREWHA_SESSION_OVERLAP
	// The first position plus the number of chunks is more than 2^64 - 1.
	ErrSessionPositions Status = C.YUREWHA_SESSION_POSITIONS
	// The taken positions aren't exactly those below the total.
	ErrSessionGap Status = C.YUREWHA_SESSION_GAP
)

// What breaks a rule has one of these statuses plus the number of the rule: Rule for a subtree, and for one in the JSON of a session; ProofRule
// for a range proof; SessionRule for a session. The header lists the rules.
const (
	Rule        Status = C.YUREWHA_RULE
	ProofRule   Status = C.YUREWHA_PROOF_RULE
	SessionRule Status = C.YUREWHA_SESSION_RULE
)

// Error returns what the status means, in English.
func (s Status) Error() string {
	var text [C.YUREWHA_STATUS_TEXT_LENGTH]byte
	var length C.size_t
	_ = C.yurewha_status_text(C.yurewha_status(s), (*C.char)(unsafe.Pointer(&text)), C.size_t(len(text)), &length)
	return string(text[:length])
}

// The kinds of rules: the status before that of rule 1, how many rules there are, and what breaks them.
var kindsOfRules = []struct {
	before Status
	count  int
	what   string
}{{Rule, 13, "subtree"}, {ProofRule, 8, "range proof"}, {SessionRule, 7, "session"}}

// An Error says why a call failed, and what is known of it. After a failure nothing has changed.
type Error struct {
	// Status is the kind of the failure.
	Status Status
	// Rule is the number of the lowest rule that a text, bytes or lists break. It is 0 for any other failure.
	Rule int
	// Position is, with ErrSessionOverlap, the first position that is taken, or taken in both sessions. With ErrSessionGap it is the first
	// position below the total that isn't taken, or else the first one from the total on that is.
	Position uint64
	// Chunk and Place are, with ErrMismatch of an OpenedRange, the number of the first chunk whose data is wrong, and where in the file it
	// begins. Chunk is -1 if no single chunk is wrong, as with every other failure.
	Chunk int
	Place uint64
	text  string
}

// Error returns what failed, in English.
func (e *Error) Error() string { return "yurewha: " + e.text }

// Unwrap returns the status.
func (e *Error) Unwrap() error { return e.Status }

// Returns the error of a status, or nil if the call succeeded.
func check(status C.yurewha_status) error {
	if status == C.YUREWHA_DONE {
		return nil
	}
	return failed(status)
}

func failed(status C.yurewha_status) *Error {
	made := &Error{Status: Status(status), Chunk: -1, text: Status(status).Error()}
	for _, kind := range kindsOfRules {
		if made.Status > kind.before && made.Status <= kind.before+Status(kind.count) {
			made.Rule = int(made.Status - kind.before)
			made.text = fmt.Sprintf("invalid %s: %s", kind.what, made.text)
		}
	}
	if status == C.YUREWHA_EMPTY_HANDLE {
		made.text = "the object is empty: it was closed, or no call made it"
	}
	return made
}

// Returns the error of a status, or nil. If the status is a certain one, the error has a text of its own.
func checkTold(status, which C.yurewha_status, format string, arguments ...any) error {
	if status == which {
		return refused(status, format, arguments...)
	}
	return check(status)
}

func refused(status C.yurewha_status, format string, arguments ...any) *Error {
	made := failed(status)
	made.text = fmt.Sprintf(format, arguments...)
	return made
}

// Returns the error of a call on a list of chunks, or nil. If the sizes are too large, it names the chunk at which they are.
func checkChunks(status C.yurewha_status, chunks []Chunk) error {
	sum, carry := uint64(0), uint64(0)
	for place := 0; status == C.YUREWHA_SIZES && place < len(chunks); place++ {
		if sum, carry = bits.Add64(sum, chunks[place].Size, 0); carry != 0 {
			return refused(status, "the sizes of the chunks up to number %d add up to more than 2^64 - 1", place)
		}
	}
	return check(status)
}

// A text, as an error shows it: a long one by its first bytes.
type shown []byte

func (s shown) String() string {
	if len(s) > 64 {
		return fmt.Sprintf("%q.. of %d bytes", []byte(s[:64]), len(s))
	}
	return fmt.Sprintf("%q", []byte(s))
}

package yurewha

// #include <yurewha.h>
import "C"

import (
	"runtime"
	"sort"
	"sync"
	"sync/atomic"
	"unsafe"
)

// A turn is the lock by which goroutines take turns at an object.
type turn struct {
	lock sync.Mutex
	// Locks of several objects are taken by rising number, so that no two goroutines wait for each other.
	number uint64
	// How many turns there were. The race detector sees this number, but not what the library writes to.
	taken int
}

var lastNumber uint64

func (t *turn) begin() {
	t.lock.Lock()
	t.taken++
}

func (t *turn) end() { t.lock.Unlock() }

// What an object owns, such as a handle of the library. With a handle there is no Go pointer beside it, because cgo looks at all of it.
type owned[H any] struct {
	turn
	it H
}

// A handle is what objects have: copies of an object are the same object. A zero one owns nothing.
type handle[H any] struct {
	owned *owned[H]
}

// Makes an object by a call, and has it freed when nothing refers to it. Without an error there is one.
func newHandle[H any](free func(*H), call func(*H) error) (handle[H], error) {
	made := new(owned[H])
	made.number = atomic.AddUint64(&lastNumber, 1)
	if err := call(&made.it); err != nil {
		return handle[H]{}, err
	}
	if free != nil {
		runtime.SetFinalizer(made, func(made *owned[H]) { free(&made.it) })
	}
	collect()
	return handle[H]{made}, nil
}

// Makes a call that reads or changes what is owned.
func (h handle[H]) with(call func(*H) error) error {
	if h.owned == nil {
		return check(C.YUREWHA_EMPTY_HANDLE)
	}
	defer collect()
	h.owned.begin()
	defer h.owned.end()
	return call(&h.owned.it)
}

// Makes a call with what two objects own. If they are the same one, the call gets it twice.
func withBoth[H, K any](one handle[H], two handle[K], call func(*H, *K) error) error {
	if one.owned == nil || two.owned == nil {
		return check(C.YUREWHA_EMPTY_HANDLE)
	}
	defer collect()
	turns := []*turn{&one.owned.turn, &two.owned.turn}
	if turns[0] == turns[1] {
		turns = turns[:1]
	}
	defer beginAll(turns)()
	return call(&one.owned.it, &two.owned.it)
}

// Begins turns at different objects. Returns what ends them.
func beginAll(turns []*turn) (end func()) {
	sort.Slice(turns, func(i, j int) bool { return turns[i].number < turns[j].number })
	for _, it := range turns {
		it.begin()
	}
	return func() {
		for _, it := range turns {
			it.end()
		}
	}
}

// Reads an object: makes a call that writes a whole one. A zero object becomes one.
func (h *handle[H]) read(free func(*H), call func(*H) error) error {
	if h.owned != nil {
		return h.with(call)
	}
	made, err := newHandle(free, call)
	if err == nil {
		*h = made
	}
	return err
}

// Returns an object that begins by itself at its first use, also if several goroutines use it first.
func (h *handle[H]) begun(free func(*H), call func(*H) error) (handle[H], error) {
	place := (*unsafe.Pointer)(unsafe.Pointer(&h.owned))
	if it := atomic.LoadPointer(place); it != nil {
		return handle[H]{(*owned[H])(it)}, nil
	}
	made, err := newHandle(free, call)
	if err != nil {
		return handle[H]{}, err
	}
	if !atomic.CompareAndSwapPointer(place, nil, unsafe.Pointer(made.owned)) {
		made.close(free)
	}
	return handle[H]{(*owned[H])(atomic.LoadPointer(place))}, nil
}

// Frees what is owned. Any other call then finds it empty.
func (h handle[H]) close(free func(*H)) {
	_ = h.with(func(it *H) error {
		free(it)
		return nil
	})
}

package yurewha

// #include "memory.h"
import "C"

import (
	"runtime"
	"runtime/metrics"
	"sync"
	"sync/atomic"
	"unsafe"
)

// The garbage collector isn't called for less than this many bytes.
const leastGrowth = 32 << 20

// The least number of bytes that the library had since the last collection that this package asked for.
var leastBytes int64

// By this lock goroutines wait for a collection, and don't allocate meanwhile, or ask for another one.
var collecting sync.Mutex

func init() { C.yurewha_go_count() }

// Returns how many bytes the library has.
func libraryBytes() int64 {
	return atomic.LoadInt64((*int64)(unsafe.Pointer(&C.yurewha_go_bytes)))
}

// Returns how many blocks of memory the library has.
func libraryBlocks() int64 {
	return atomic.LoadInt64((*int64)(unsafe.Pointer(&C.yurewha_go_blocks)))
}

// Whether the memory of Go and of the library together has doubled, by what the library got. Since finalizers run after a collection, the least
// number of bytes says what is in use.
func hasDoubled() bool {
	bytes, least := libraryBytes(), atomic.LoadInt64(&leastBytes)
	if bytes < least {
		atomic.StoreInt64(&leastBytes, bytes)
		return false
	}
	return bytes-least > leastGrowth && bytes-least > least+goBytes()
}

// Returns how many bytes the objects of Go have, with garbage.
func goBytes() int64 {
	sample := []metrics.Sample{{Name: "/memory/classes/heap/objects:bytes"}}
	metrics.Read(sample)
	return int64(sample[0].Value.Uint64())
}

// Collects objects that nothing refers to, once memory has doubled. The garbage collector sees of an object only the few bytes that Go has of
// it, so it would come too late by itself.
func collect() {
	if !hasDoubled() {
		return
	}
	collecting.Lock()
	defer collecting.Unlock()
	if !hasDoubled() {
		return
	}
	runtime.GC()
	atomic.StoreInt64(&leastBytes, libraryBytes())
}

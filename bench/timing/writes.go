// Times writes of a field of a box by Go's write barrier, or reads of one.
//
// writes THREADS WRITES COLLECTING NODES LEAST [reads]
//
// The field names one value and another in turn: by a plain write, by an atomic store, by a compare
// and exchange. With `reads` it is read instead: by a plain read, by an atomic load. With
// COLLECTING 1 a live tree of NODES nodes is made, and runtime.GC is called again and again
// meanwhile; with 0 nothing is collected. WRITES are made as often as it takes to last for LEAST
// ms. A line for each kind and thread: the kind, nanoseconds by the clock and of the thread's own
// processor time, the writes that were made and those that were tried, and from when to when, in ms
// since the start.
package main

import (
	"fmt"
	"os"
	"runtime"
	"runtime/debug"
	"strconv"
	"sync"
	"sync/atomic"
	"syscall"
	"time"
	"unsafe"
)

var began = time.Now()

type node struct{ left, right *node }

type value struct {
	number uint64
	_      [15]uint64
}

type box struct {
	field *value
	_     [15]uint64
}

type atomicBox struct {
	field atomic.Pointer[value]
	_     [15]uint64
}

var live *node

func tree(nodes int) *node {
	if nodes == 0 {
		return nil
	}
	half := (nodes - 1) / 2
	return &node{tree(half), tree(nodes - 1 - half)}
}

//go:noinline
func plain(b *box, one, other *value, turns int) int {
	for t := 0; t < turns; t++ {
		for k := 0; k < 64; k++ {
			one, other = other, one
			b.field = one
		}
	}
	return 64 * turns
}

//go:noinline
func stores(b *atomicBox, one, other *value, turns int) int {
	for t := 0; t < turns; t++ {
		for k := 0; k < 32; k++ {
			b.field.Store(other)
			b.field.Store(one)
		}
	}
	return 64 * turns
}

//go:noinline
func exchanges(b *atomicBox, one, other *value, turns int) int {
	made := 0
	for t := 0; t < turns; t++ {
		for k := 0; k < 32; k++ {
			if b.field.CompareAndSwap(one, other) {
				made++
			}
			if b.field.CompareAndSwap(other, one) {
				made++
			}
		}
	}
	return made
}

//go:noinline
func reads(b *box, one *value, turns int) int {
	found := 0
	for t := 0; t < turns; t++ {
		for k := 0; k < 64; k++ {
			if b.field == one {
				found++
			}
		}
	}
	return found
}

//go:noinline
func loads(b *atomicBox, one *value, turns int) int {
	found := 0
	for t := 0; t < turns; t++ {
		for k := 0; k < 64; k++ {
			if b.field.Load() == one {
				found++
			}
		}
	}
	return found
}

func own() int64 {
	var t syscall.Timespec
	syscall.RawSyscall(syscall.SYS_CLOCK_GETTIME, 3, uintptr(unsafe.Pointer(&t)), 0)
	return t.Nano()
}

func write(kind string, turns int, least time.Duration, start *sync.WaitGroup) string {
	runtime.LockOSThread()
	b, a, one, other := new(box), new(atomicBox), new(value), new(value)
	b.field = one
	a.field.Store(one)
	start.Done()
	start.Wait()
	from, cpu, made, tried := time.Now(), own(), 0, 0
	for tried == 0 || time.Since(from) < least {
		tried += 64 * turns
		switch kind {
		case "plain":
			made += plain(b, one, other, turns)
		case "store":
			made += stores(a, one, other, turns)
		case "exchange":
			made += exchanges(a, one, other, turns)
		case "read":
			made += reads(b, one, turns)
		case "load":
			made += loads(a, one, turns)
		}
	}
	cpu = own() - cpu
	wall := time.Since(from)
	at := float64(from.Sub(began).Microseconds()) / 1000
	return fmt.Sprintf("%s %d %d %d %d %.3f %.3f", kind, wall.Nanoseconds(), cpu, made, tried, at,
		at+float64(wall.Microseconds())/1000)
}

func main() {
	var n [5]int
	for k := range n {
		n[k], _ = strconv.Atoi(os.Args[k+1])
	}
	debug.SetGCPercent(-1)
	var stop atomic.Bool
	var collector sync.WaitGroup
	if n[2] == 1 {
		live = tree(n[3])
		runtime.GC()
		collector.Add(1)
		go func() {
			for !stop.Load() {
				runtime.GC()
			}
			collector.Done()
		}()
	}
	least := time.Duration(n[4]) * time.Millisecond
	kinds := []string{"plain", "store", "exchange"}
	if len(os.Args) > 6 {
		kinds = []string{"read", "load"}
	}
	for _, kind := range kinds {
		var start sync.WaitGroup
		start.Add(n[0])
		lines := make(chan string)
		for k := 0; k < n[0]; k++ {
			go func() { lines <- write(kind, n[1]/64, least, &start) }()
		}
		for k := 0; k < n[0]; k++ {
			fmt.Println(<-lines)
		}
	}
	stop.Store(true)
	collector.Wait()
	runtime.KeepAlive(live)
}

// The same map as examples/c/record_map.c, in Go.
//
//	record_map [THREADS [EVERY [ROUNDS [SIZE]]]]
package main

import (
	"fmt"
	"os"
	"strconv"
	"strings"
	"sync"
	"time"
)

const stay = 4

type node struct {
	key, value, height uint64
	left, right        *node
}

func (n *node) tall() uint64 {
	if n == nil {
		return 0
	}
	return n.height
}

func joined(left *node, key, value uint64, right *node) *node {
	height := left.tall()
	if right.tall() > height {
		height = right.tall()
	}
	return &node{key, value, height + 1, left, right}
}

func balanced(left *node, key, value uint64, right *node) *node {
	one, other := left.tall(), right.tall()
	if one > other+2 {
		if left.left.tall() >= left.right.tall() {
			return joined(left.left, left.key, left.value, joined(left.right, key, value, right))
		}
		m := left.right
		return joined(joined(left.left, left.key, left.value, m.left), m.key, m.value,
			joined(m.right, key, value, right))
	}
	if other > one+2 {
		if right.right.tall() >= right.left.tall() {
			return joined(joined(left, key, value, right.left), right.key, right.value, right.right)
		}
		m := right.left
		return joined(joined(left, key, value, m.left), m.key, m.value,
			joined(m.right, right.key, right.value, right.right))
	}
	return joined(left, key, value, right)
}

func (n *node) add(key, value uint64) *node {
	switch {
	case n == nil:
		return joined(nil, key, value, nil)
	case key == n.key:
		return joined(n.left, key, value, n.right)
	case key < n.key:
		return balanced(n.left.add(key, value), n.key, n.value, n.right)
	}
	return balanced(n.left, n.key, n.value, n.right.add(key, value))
}

func (n *node) find(key uint64) *node {
	for n != nil && n.key != key {
		if key < n.key {
			n = n.left
		} else {
			n = n.right
		}
	}
	return n
}

func nextKey(key uint64) uint64 { return (key*1103515245 + 12345) % (1 << 31) }

type worker struct {
	versions        [stay]*node
	published       int
	adding, finding time.Duration
}

func (w *worker) works(round, size, every uint64) {
	from := time.Now()
	first := round*7919 + 1
	var last *node
	key := first
	for i := uint64(0); i < size; i++ {
		last = last.add(key, i)
		if i%every == every-1 {
			w.versions[w.published%stay] = last
			w.published++
		}
		key = nextKey(key)
	}
	between := time.Now()
	key = first
	for i := uint64(0); i < size; i++ {
		if n := last.find(key); n == nil || n.value != i {
			panic("a key is lost")
		}
		key = nextKey(key)
	}
	w.adding += between.Sub(from)
	w.finding += time.Since(between)
}

func mostMemory() string {
	status, _ := os.ReadFile("/proc/self/status")
	for _, line := range strings.Split(string(status), "\n") {
		if words := strings.Fields(line); len(words) > 1 && words[0] == "VmHWM:" {
			most, _ := strconv.Atoi(words[1])
			return strconv.Itoa(most / 1024)
		}
	}
	return "0"
}

func main() {
	given := []int{1, 10000, 8, 100000}
	for i, word := range os.Args[1:] {
		given[i], _ = strconv.Atoi(word)
	}
	threads, every, rounds, size := given[0], given[1], given[2], given[3]
	workers := make([]worker, threads)
	var all sync.WaitGroup
	for i := range workers {
		all.Add(1)
		go func(i int) {
			for round := i; round < rounds; round += threads {
				workers[i].works(uint64(round), uint64(size), uint64(every))
			}
			all.Done()
		}(i)
	}
	all.Wait()
	published, adding, finding := 0, int64(0), int64(0)
	for _, w := range workers {
		published += w.published
		adding += w.adding.Nanoseconds()
		finding += w.finding.Nanoseconds()
	}
	done := int64(rounds) * int64(size)
	fmt.Printf("%d rounds of %d insertions and look-ups, %d versions published\n", rounds, size,
		published)
	fmt.Fprintf(os.Stderr, "memory %s MB\nan insertion %d ns, a look-up %d ns\n", mostMemory(),
		adding/done, finding/done)
}

// The same trees as examples/c/record_trees.c, in Go.
//
//	record_trees [THREADS [DEPTH]]
package main

import (
	"fmt"
	"os"
	"strconv"
	"strings"
	"sync"
)

const shortest = 4

type node struct{ left, right *node }

func sizeOf(depth int) int { return 2<<depth - 1 }

func grow(depth int) *node {
	if depth == 0 {
		return &node{}
	}
	left := grow(depth - 1)
	return &node{left, grow(depth - 1)}
}

func (n *node) count() int {
	found := 1
	if n.left != nil {
		found += n.left.count()
	}
	if n.right != nil {
		found += n.right.count()
	}
	return found
}

var kept [64]*node

// A thread's part of the trees that die young, and how many nodes it made.
func makesTrees(number, threads, depth int) int {
	made := 0
	for d := shortest; d <= depth-2; d += 2 {
		rounds := 2 * (2 * sizeOf(depth) / sizeOf(d))
		for i := number; i < rounds; i += threads {
			kept[number] = grow(d)
			made += sizeOf(d)
		}
	}
	kept[number] = nil
	return made
}

func mostMemory() string {
	status, _ := os.ReadFile("/proc/self/status")
	for _, line := range strings.Split(string(status), "\n") {
		if words := strings.Fields(line); len(words) > 1 && words[0] == "VmHWM:" {
			most, _ := strconv.Atoi(words[1])
			return strconv.Itoa(most / 1024)
		}
	}
	return "0"
}

func main() {
	threads, depth := 1, 18
	if len(os.Args) > 1 {
		threads, _ = strconv.Atoi(os.Args[1])
	}
	if len(os.Args) > 2 {
		depth, _ = strconv.Atoi(os.Args[2])
	}
	made := sizeOf(depth) + sizeOf(depth-2)
	kept[0] = grow(depth)
	kept[0] = nil
	stays := grow(depth - 2)
	parts := make([]int, threads)
	var all sync.WaitGroup
	for i := 0; i < threads; i++ {
		all.Add(1)
		go func(i int) {
			parts[i] = makesTrees(i, threads, depth)
			all.Done()
		}(i)
	}
	all.Wait()
	for _, part := range parts {
		made += part
	}
	fmt.Printf("%d nodes made; the tree that stays has %d\n", made, stays.count())
	fmt.Fprintf(os.Stderr, "memory %s MB\n", mostMemory())
}

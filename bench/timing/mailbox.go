// Times a channel that several goroutines fill and one empties.
//
// mailbox SENDERS LINES ROOM RUNS
//
// Each sender makes LINES / SENDERS numbers on a goroutine of its own, and the main one takes all.
// The channel has room for ROOM of them. A line for each run: nanoseconds by the clock and of the
// process's processor time.
package main

import (
	"fmt"
	"os"
	"strconv"
	"syscall"
	"time"
)

type sent struct {
	sender uint32
	value  uint64
}

type item struct {
	position uint64
	sender   uint32
	value    uint64
}

func processorNanos() int64 {
	var usage syscall.Rusage
	if syscall.Getrusage(syscall.RUSAGE_SELF, &usage) != nil {
		panic("no processor time")
	}
	return usage.Utime.Nano() + usage.Stime.Nano()
}

func run(senders, each, room int) []item {
	channel := make(chan sent, room)
	for sender := 1; sender <= senders; sender++ {
		go func(sender uint32) {
			for value := 0; value < each; value++ {
				channel <- sent{sender, uint64(value)}
			}
		}(uint32(sender))
	}
	var items []item
	for position := 1; position <= senders*each; position++ {
		one := <-channel
		items = append(items, item{uint64(position), one.sender, one.value})
	}
	return items
}

func main() {
	var numbers []int
	for _, word := range os.Args[1:] {
		number, wrong := strconv.Atoi(word)
		if wrong != nil {
			panic(wrong)
		}
		numbers = append(numbers, number)
	}
	senders, each := numbers[0], numbers[1]/numbers[0]
	for k := 0; k < numbers[3]; k++ {
		wall, own := time.Now(), processorNanos()
		items := run(senders, each, numbers[2])
		took, spent := time.Since(wall).Nanoseconds(), processorNanos()-own
		if len(items) != senders*each {
			panic("items are missing")
		}
		fmt.Println(took, spent)
	}
}

// So many records go from one goroutine to another through a buffered channel, as samples go through gp's ring: a time, a tag, a header
// of one word and a stack of one. RECORDS ROOM [wait]: how many records, and how many the channel holds; where there is no room a
// record is lost and the sender yields, or with `wait` it waits. It tells how many were lost, and how long it took.
package main

import (
	"fmt"
	"os"
	"runtime"
	"strconv"
	"time"
)

type record struct {
	time, tag, header uint64
	stack             [1]uint64
}

// Sends so many records, and gives how many were lost, and the nanoseconds that the sends took.
func send(ring chan<- record, records uint64, wait bool) (uint64, int64) {
	lost := uint64(0)
	begun := time.Now()
	for number := uint64(0); number < records; number++ {
		next := record{number, number, 1, [1]uint64{7}}
		if wait {
			ring <- next
			continue
		}
		select {
		case ring <- next:
		default:
			lost++
			runtime.Gosched()
		}
	}
	writes := time.Since(begun).Nanoseconds()
	close(ring)
	return lost, writes
}

func main() {
	if len(os.Args) < 3 {
		fmt.Println("RECORDS ROOM [wait]")
		os.Exit(1)
	}
	records, _ := strconv.ParseUint(os.Args[1], 10, 64)
	room, _ := strconv.Atoi(os.Args[2])
	ring := make(chan record, room)
	lost, writes := uint64(0), int64(0)
	begun := time.Now()
	go func() { lost, writes = send(ring, records, len(os.Args) > 3) }()
	came, next := uint64(0), uint64(0)
	for r := range ring {
		if r.tag < next || r.time != r.tag {
			fmt.Println("out of order")
			os.Exit(1)
		}
		came, next = came+1, r.tag+1
	}
	whole := time.Since(begun).Nanoseconds()
	if came+lost != records {
		fmt.Println("not all came or were lost")
		os.Exit(1)
	}
	fmt.Printf("lost %d, writes %d ns, whole %d ns\n", lost, writes, whole)
}

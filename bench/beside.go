// The operations of programs.py's files, in Go, with the block and the mutex profile on. For `mixed` and `shared` the whole
// run counts; `blocked` prints the processor time of a goroutine profile in seconds, of eight that it takes once all wait.
// (Go packs the bytes, which gp doesn't.)
package main

import (
	"fmt"
	"io"
	"os"
	"runtime"
	"runtime/pprof"
	"strconv"
	"sync"
	"sync/atomic"
	"syscall"
	"time"
)

const (
	classes  = 4
	rounds   = 256
	calls    = 28
	profiles = 8
)

var (
	mutexes  [classes]sync.Mutex
	channels [classes]chan int
	never    = make(chan int)
	waiting  int64
)

func fatal(err error) {
	if err != nil {
		fmt.Println(err)
		os.Exit(1)
	}
}

// The processor time of the process so far, in seconds.
func used() float64 {
	var usage syscall.Rusage
	fatal(syscall.Getrusage(syscall.RUSAGE_SELF, &usage))
	seconds := func(t syscall.Timeval) float64 { return float64(t.Sec) + float64(t.Usec)/1e6 }
	return seconds(usage.Utime) + seconds(usage.Stime)
}

//go:noinline
func work(n int) int {
	sum := 0
	for i := 0; i < n; i++ {
		sum += i ^ sum
	}
	return sum
}

//go:noinline
func mixedRound(c int) int {
	sum := work(20)
	mutexes[c].Lock()
	sum += work(5)
	mutexes[c].Unlock()
	channels[c] <- sum
	sum += work(3)
	return sum + <-channels[c]
}

//go:noinline
func sharedRound(c int) int {
	mutexes[c].Lock()
	mutexes[c].Unlock()
	channels[c] <- c
	return <-channels[c]
}

func workers(goroutines int, round func(int) int) {
	done := make(chan int, goroutines)
	for c := range channels {
		channels[c] = make(chan int, 8)
	}
	for j := 0; j < goroutines; j++ {
		go func(c int) {
			sum := 0
			for r := 0; r < rounds; r++ {
				sum += round(c)
			}
			done <- sum
		}(j % classes)
	}
	for j := 0; j < goroutines; j++ {
		<-done
	}
}

// Which of the two lines calls is told by a bit of the path, so that each path has a stack of its own. The stack has 32
// frames at most with those of the goroutine's beginning and of the receive, so that none is cut.
func wait(left, path int) {
	if left == 0 {
		atomic.AddInt64(&waiting, 1)
		<-never
	} else if path&1 == 0 {
		wait(left-1, path>>1)
	} else {
		wait(left-1, path>>1)
	}
}

func blocked(goroutines int, kind string) {
	for k := 1; k < goroutines; k++ {
		path := 0
		if kind == "distinct" {
			path = k
		}
		go wait(calls, path)
	}
	for atomic.LoadInt64(&waiting) < int64(goroutines-1) {
		time.Sleep(time.Millisecond)
	}
	time.Sleep(10 * time.Millisecond)
	before := used()
	for k := 0; k < profiles; k++ {
		fatal(pprof.Lookup("goroutine").WriteTo(io.Discard, 0))
	}
	fmt.Println((used() - before) / profiles)
}

func main() {
	runtime.SetBlockProfileRate(1)
	runtime.SetMutexProfileFraction(1)
	goroutines, err := strconv.Atoi(os.Args[2])
	fatal(err)
	switch os.Args[1] {
	case "mixed":
		workers(goroutines, mixedRound)
	case "shared":
		workers(goroutines, sharedRound)
	default:
		blocked(goroutines, os.Args[3])
	}
}

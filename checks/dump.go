// Makes profiles by Go's own runtime/pprof, tells what pprof shows of one as the lines that `gp dump` writes, and changes single
// bytes of one.
//
//	dump make                 puts goroutine.pb, heap.pb, cpu.pb, block.pb and mutex.pb of this program, without compression
//	dump lines <RAW           the lines of a profile by what `go tool pprof -raw` prints of it, but for the duration, which pprof rounds,
//	                          and with the labels of a sample by their bytes, since pprof sorts them
//	dump plain FILE <LINES    the same of lines that `gp dump` wrote of FILE: as many samples as the file holds, and those with equal
//	                          frames and labels made one, as pprof does
//	dump change GP FILE N     changes one byte of FILE, N times, and dumps what comes out: each dump ends with status 0 or 2 within
//	                          a second, and on 2 writes one line
package main

import (
	"bufio"
	"bytes"
	"compress/gzip"
	"context"
	"encoding/binary"
	"errors"
	"fmt"
	"io"
	"os"
	"os/exec"
	"regexp"
	"runtime"
	"runtime/pprof"
	"sort"
	"strconv"
	"strings"
	"sync"
	"time"
)

func fatal(err error) {
	if err != nil {
		fmt.Fprintln(os.Stderr, err)
		os.Exit(1)
	}
}

var (
	kept   [][]byte
	number int
	guard  sync.Mutex
)

//go:noinline
func allocate(size int) {
	for i := 0; i < 50; i++ {
		kept = append(kept, make([]byte, size+i))
	}
}

func inlined(x int) int { return x*7 + 1 }

//go:noinline
func work(rounds int) int {
	sum := 0
	for i := 0; i < rounds; i++ {
		sum ^= inlined(sum + i)
	}
	return sum
}

//go:noinline
func contend() {
	guard.Lock()
	time.Sleep(200 * time.Microsecond)
	number++
	guard.Unlock()
}

// Goroutines with and without labels, at several places; work for the processor; memory; waits.
func exercise() {
	ctx := context.Background()
	forever := make(chan int)
	for i := 0; i < 5; i++ {
		labels := pprof.Labels("kind", "waiter", "odd key=", fmt.Sprint("a|b#", i%2, "\té\\"))
		go pprof.Do(ctx, labels, func(context.Context) { <-forever })
	}
	go func() { select {} }()
	var all sync.WaitGroup
	for i := 0; i < 4; i++ {
		all.Add(1)
		go func() {
			defer all.Done()
			for k := 0; k < 20; k++ {
				contend()
			}
		}()
	}
	all.Wait()
	for i := 1; i < 6; i++ {
		allocate(1 << (i * 2))
	}
	until := time.Now().Add(600 * time.Millisecond)
	pprof.Do(ctx, pprof.Labels("phase", "work", "at", "a:b@c"), func(context.Context) {
		for time.Now().Before(until) {
			number += work(100000)
		}
	})
	for i := 0; i < 10; i++ {
		number += work(1000000)
	}
}

func put(name string, packed []byte) {
	unpacked, err := gzip.NewReader(bytes.NewReader(packed))
	fatal(err)
	held, err := io.ReadAll(unpacked)
	fatal(err)
	fatal(os.WriteFile(name+".pb", held, 0o644))
}

func makeProfiles() {
	runtime.MemProfileRate = 1
	runtime.SetBlockProfileRate(1)
	runtime.SetMutexProfileFraction(1)
	var cpu bytes.Buffer
	fatal(pprof.StartCPUProfile(&cpu))
	exercise()
	pprof.StopCPUProfile()
	put("cpu", cpu.Bytes())
	runtime.GC()
	for _, name := range []string{"goroutine", "heap", "block", "mutex"} {
		var held bytes.Buffer
		fatal(pprof.Lookup(name).WriteTo(&held, 0))
		put(name, held.Bytes())
	}
}

// A text with gp's escapes.
func escaped(text string) string {
	var out strings.Builder
	for i := 0; i < len(text); i++ {
		if b := text[i]; b <= 0x20 || b == 0x7f || strings.IndexByte(`\#=:|@`, b) >= 0 {
			fmt.Fprintf(&out, `\x%02x`, b)
		} else {
			out.WriteByte(b)
		}
	}
	return out.String()
}

func kind(text string) string {
	if text == "" {
		return "-"
	}
	return escaped(text)
}

var (
	sampleLine = regexp.MustCompile(`^((?: +-?\d+)+): ([\d ]*)$`)
	location   = regexp.MustCompile(`^ *(\d+): 0x[0-9a-f]+ (?:M=\d+ )?(.*)$`)
	place      = regexp.MustCompile(`^(.*) (\S*):(-?\d+)(?::\d+)? s=-?\d+(?:\(.*\))?$`)
	numbers    = regexp.MustCompile(`^(\S+):\[(-?\d+)(?: (\S+))?\]$`)
	textual    = regexp.MustCompile(`([^:\]]+):\[([^\]]*)\]`)
	nothing    = regexp.MustCompile(`^sample (?:0 )+\|`)
)

// What pprof prints in its raw form, as the lines of a dump.
func lines(raw io.Reader) {
	var heads, values []string
	var labels [][]string
	frames := map[string][]string{}
	var ids [][]string
	part, periodKind, last := "", "- -", ""
	in := bufio.NewScanner(raw)
	in.Buffer(nil, 1<<26)
	for in.Scan() {
		line := in.Text()
		switch {
		case strings.HasPrefix(line, "PeriodType: "):
			periodKind = kinds(strings.TrimPrefix(line, "PeriodType: "), " ")
		case strings.HasPrefix(line, "Period: "):
			heads = append(heads, "period "+periodKind+" "+strings.TrimPrefix(line, "Period: "))
		case line == "Samples:":
			part = "types"
		case line == "Locations":
			part = "locations"
		case line == "Mappings":
			part = "mappings"
		case part == "types":
			for _, one := range strings.Fields(line) {
				heads = append(heads, "type "+kinds(strings.TrimSuffix(one, "[dflt]"), "/"))
			}
			part = "samples"
		case part == "samples" && sampleLine.MatchString(line):
			found := sampleLine.FindStringSubmatch(line)
			values = append(values, strings.Join(strings.Fields(found[1]), " "))
			ids = append(ids, strings.Fields(found[2]))
			labels = append(labels, nil)
		case part == "samples":
			labels[len(labels)-1] = append(labels[len(labels)-1], labelsOf(strings.TrimSpace(line))...)
		case part == "locations":
			if found := location.FindStringSubmatch(line); found != nil {
				last, line = found[1], found[2]
			}
			if found := place.FindStringSubmatch(strings.TrimSpace(line)); found != nil {
				frames[last] = append(frames[last], escaped(found[1])+"@"+escaped(found[2])+":"+found[3])
			} else {
				frames[last] = append(frames[last], "@:0")
			}
		}
	}
	fatal(in.Err())
	out := bufio.NewWriter(os.Stdout)
	for _, head := range []string{"type ", "period "} {
		for _, line := range heads {
			if strings.HasPrefix(line, head) {
				fmt.Fprintln(out, line)
			}
		}
	}
	var held samples
	for i := range values {
		shown := " |"
		for _, id := range ids[i] {
			for _, frame := range frames[id] {
				shown += " " + frame
			}
		}
		held.add(strings.Fields(values[i]), shown+" |"+together(labels[i]))
	}
	held.write(out)
	fatal(out.Flush())
}

// Samples in the order in which each stack with its labels first comes, the values of equal ones added up: pprof makes those with
// the same locations one, and addresses aren't told in a dump, so those with the same frames are made one on both sides.
type samples struct {
	order []string
	sums  map[string][]int64
}

func (held *samples) add(values []string, shown string) {
	if held.sums == nil {
		held.sums = map[string][]int64{}
	}
	sum, there := held.sums[shown]
	if !there {
		held.order = append(held.order, shown)
		sum = make([]int64, len(values))
	}
	for i, text := range values {
		value, err := strconv.ParseInt(text, 10, 64)
		fatal(err)
		sum[i] += value
	}
	held.sums[shown] = sum
}

func (held *samples) write(out io.Writer) {
	for _, shown := range held.order {
		fmt.Fprint(out, "sample")
		for _, value := range held.sums[shown] {
			fmt.Fprint(out, " ", value)
		}
		fmt.Fprintln(out, shown)
	}
}

// How many samples the bytes of a profile hold: the messages of field 2.
func count(profile []byte) int {
	next := func() uint64 {
		value, size := binary.Uvarint(profile)
		if size <= 0 {
			fatal(errors.New("a number is cut off"))
		}
		profile = profile[size:]
		return value
	}
	found := 0
	for len(profile) > 0 {
		switch tag := next(); tag & 7 {
		case 0:
			next()
		case 2:
			profile = profile[next():]
			if tag>>3 == 2 {
				found++
			}
		default:
			fatal(fmt.Errorf("field %d", tag))
		}
	}
	return found
}

func kinds(text, between string) string {
	name, unit, _ := strings.Cut(text, between)
	return kind(name) + " " + kind(unit)
}

// The labels of a line: one with a number, or those with texts.
func labelsOf(line string) []string {
	if found := numbers.FindStringSubmatch(line); found != nil {
		unit := ""
		if found[3] != "" {
			unit = ":" + escaped(found[3])
		}
		return []string{escaped(found[1]) + "=#" + found[2] + unit}
	}
	var out []string
	for _, found := range textual.FindAllStringSubmatch(line, -1) {
		out = append(out, escaped(strings.TrimPrefix(found[1], " "))+"="+escaped(found[2]))
	}
	return out
}

// Labels as they stand in a line, sorted by their bytes.
func together(labels []string) string {
	sort.Strings(labels)
	out := ""
	for _, label := range labels {
		out += " " + label
	}
	return out
}

// The lines of a dump without its duration, the labels of each sample sorted.
func plain(dumped io.Reader, file string) {
	in := bufio.NewScanner(dumped)
	in.Buffer(nil, 1<<26)
	out := bufio.NewWriter(os.Stdout)
	var held samples
	told := 0
	for in.Scan() {
		line := in.Text()
		if strings.HasPrefix(line, "duration ") {
			continue
		}
		if !strings.HasPrefix(line, "sample ") {
			fmt.Fprintln(out, line)
			continue
		}
		told++
		// (pprof passes over a sample whose values are all 0)
		if nothing.MatchString(line) {
			continue
		}
		values, shown, _ := strings.Cut(strings.TrimPrefix(line, "sample "), " |")
		at := strings.LastIndex(shown, " |")
		held.add(strings.Fields(values), " |"+shown[:at]+" |"+together(strings.Fields(shown[at+2:])))
	}
	fatal(in.Err())
	held.write(out)
	fatal(out.Flush())
	profile, err := os.ReadFile(file)
	fatal(err)
	if holds := count(profile); told != holds {
		fatal(fmt.Errorf("%d samples are told, %s holds %d", told, file, holds))
	}
}

func change(gp, file, times string) {
	held, err := os.ReadFile(file)
	fatal(err)
	n, err := strconv.Atoi(times)
	fatal(err)
	state := uint64(20)
	next := func() uint64 {
		state = state*6364136223846793005 + 1442695040888963407
		return state >> 33
	}
	read, refused := 0, 0
	for i := 0; i < n; i++ {
		at := int(next() % uint64(len(held)))
		changed := append([]byte(nil), held...)
		changed[at] ^= byte(1 + next()%255)
		fatal(os.WriteFile("changed.pb", changed, 0o644))
		ctx, cancel := context.WithTimeout(context.Background(), time.Second)
		said, err := exec.CommandContext(ctx, gp, "dump", "changed.pb").Output()
		late := ctx.Err() != nil
		cancel()
		var exit *exec.ExitError
		switch {
		case !late && err == nil:
			read++
		case !late && errors.As(err, &exit) && exit.ExitCode() == 2 && bytes.HasPrefix(said, []byte("refused at ")) && bytes.Count(said, []byte("\n")) == 1:
			refused++
		default:
			fmt.Printf("byte %d of %s as %d: %v, '%.60s'\n", at, file, changed[at], err, said)
			os.Exit(1)
		}
	}
	// (both kinds come, or the changes show little)
	if read == 0 || refused == 0 {
		fmt.Printf("%d read and %d refused of %s\n", read, refused, file)
		os.Exit(1)
	}
}

func main() {
	switch os.Args[1] {
	case "make":
		makeProfiles()
	case "lines":
		lines(os.Stdin)
	case "plain":
		plain(os.Stdin, os.Args[2])
	case "change":
		change(os.Args[2], os.Args[3], os.Args[4])
	}
}

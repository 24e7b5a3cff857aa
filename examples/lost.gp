# Samples that are lost. Four workers run a goroutine each. With a sample for each instruction, and a ring that has room for four,
# the reader, one of five that take turns, often comes too late. The samples that found no room are counted, and the profile has
# them as a function of its own, `runtime/pprof.lostProfileEvent`.
chan done 4

func main {
	loop 4 {
		spawn busy
	}
	loop 4 {
		recv done
	}
}

func busy {
	work 500
	send done
}

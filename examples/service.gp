# A small service that answers requests of two kinds. Three goroutines answer reads and two answer writes, which
# take the store's lock one after another. Labels tell the kinds apart in a profile.
chan reads 4
chan writes 4
chan stop 0
mutex store

labels read  kind=read  tier=front
labels write kind=write tier=front
labels none

func main {
	# who is born has the labels of the one that bears it
	labels read
	loop 3 {
		spawn reader
	}
	labels write
	loop 2 {
		spawn writer
	}
	labels none

	# six requests of each kind
	loop 6 {
		send reads
		send writes
	}
	recv stop
}

func reader {
	loop 1000 {
		recv reads
		work 40
		call answer
	}
}

func writer {
	loop 1000 {
		recv writes
		lock store
		work 120
		call answer
		unlock store
	}
}

func answer {
	work 10
}

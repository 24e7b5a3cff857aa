# A hot loop behind two callers. Most of the time goes into `scan`, and of that three quarters on behalf of `search`, which is the
# one to ask for less. What a function takes by itself shows `scan` alone; who calls it is told by its callers, and by the labels.
labels load   task=load
labels search task=search

func main {
	labels load
	call load
	labels search
	call search
}

func load {
	loop 100 {
		work 400
		call scan
	}
}

func search {
	loop 300 {
		call scan
		work 100
	}
}

func scan {
	loop 20 {
		work 150
	}
}

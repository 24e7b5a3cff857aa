# A lock convoy. Four goroutines change a table under one mutex, each of them a hundred times: ten instructions of work while it
# holds the mutex, and twenty while it doesn't. `slow` holds it for three slices first, and so all four come to wait. From then
# on nobody finds it free: who unlocks it hands it to the first in line, and is in line again before the others are through.
mutex table
chan done 5

func main {
	spawn slow
	loop 4 {
		spawn quick
	}
	loop 5 {
		recv done
	}
}

func slow {
	lock table
	work 3000
	unlock table
	send done
}

func quick {
	loop 100 {
		call change
		work 20
	}
	send done
}

func change {
	lock table
	work 10
	unlock table
}

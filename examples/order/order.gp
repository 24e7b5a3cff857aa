# A deadlock that only some orders meet. `pay` takes the two mutexes in one order, and `refund` in the other. Mostly `pay` is through
# before `refund`, which looks the payment up, begins to lock. Where each has its first mutex, both wait for ever.
mutex buyer
mutex seller
chan done 2

func main {
	spawn pay
	spawn refund
	loop 2 {
		recv done
	}
}

func pay {
	lock buyer
	work 10
	lock seller
	work 10
	unlock seller
	unlock buyer
	send done
}

func refund {
	work 1500
	lock seller
	work 10
	lock buyer
	work 10
	unlock buyer
	unlock seller
	send done
}

# The program of order.gp, with both mutexes taken in one order.
mutex buyer
mutex seller
chan done 2

func main {
	spawn pay
	spawn refund
	loop 2 {
		recv done
	}
}

func pay {
	lock buyer
	work 10
	lock seller
	work 10
	unlock seller
	unlock buyer
	send done
}

func refund {
	work 1500
	lock buyer
	work 10
	lock seller
	work 10
	unlock seller
	unlock buyer
	send done
}

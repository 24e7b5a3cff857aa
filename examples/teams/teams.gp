# One index, and two teams that ask it. `lookup` is where time goes and where goroutines stand, for either team: labels tell whose
# they are. Who is born has the labels of the one that bears it.
labels ads    team=ads
labels search team=search
labels none

mutex index
chan done 0

func main {
	labels ads
	loop 3 {
		spawn campaign
	}
	labels search
	spawn query
	labels none
	loop 4 {
		recv done
	}
}

func campaign {
	loop 100 {
		work 100
		call lookup
	}
	send done
}

func query {
	loop 200 {
		work 500
		call lookup
	}
	send done
}

func lookup {
	lock index
	work 400
	unlock index
}

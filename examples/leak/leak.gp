# A leak. For each of thirty requests two replicas are asked, and the first answer is enough: nobody comes for the second one. So
# whoever sends it waits for ever.
chan answers 0

func main {
	loop 30 {
		call handle
	}
	work 2000
}

func handle {
	spawn ask
	spawn ask
	recv answers
	work 200
}

func ask {
	work 100
	send answers
}

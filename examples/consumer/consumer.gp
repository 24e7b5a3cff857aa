# A slow consumer behind a full channel. Two producers make an item in 20 instructions, and the consumer takes 200 for each. The
# channel holds four, so it's soon full, and then the producers wait for the consumer.
chan items 4
chan done 0

func main {
	spawn consumer
	spawn producer
	spawn producer
	recv done
}

func producer {
	loop 50 {
		work 20
		call deliver
	}
}

func deliver {
	send items
}

func consumer {
	loop 100 {
		recv items
		work 200
	}
	send done
}

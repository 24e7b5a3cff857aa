func main {
	spawn f
	call f
}
func f {
	work 50000
}

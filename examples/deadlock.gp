chan c 0
func main {
spawn f
recv c
}
func f {
recv c
}

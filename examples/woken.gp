chan c 0
func main {
spawn f
work 1000
send c
work 5
}
func f {
recv c
work 7
}

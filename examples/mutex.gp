mutex m
chan d 2
func main {
spawn b
spawn b
lock m
work 1002
unlock m
recv d
recv d
}
func b {
lock m
unlock m
send d
}

func main {
spawn f
work 5
}
func f {
work 2
}

func main {
work 1000
work 500
}

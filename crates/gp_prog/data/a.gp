func main {
work 1
}

func main {
call c1
}
func c1 {
call c2
}
func c2 {
call c3
}
func c3 {
call c4
}
func c4 {
call c5
}
func c5 {
call c6
}
func c6 {
call c7
}
func c7 {
call c8
}
func c8 {
call c9
}
func c9 {
call c10
}
func c10 {
call c11
}
func c11 {
call c12
}
func c12 {
call c13
}
func c13 {
call c14
}
func c14 {
call c15
}
func c15 {
call c16
}
func c16 {
call c17
}
func c17 {
call c18
}
func c18 {
call c19
}
func c19 {
call c20
}
func c20 {
call c21
}
func c21 {
call c22
}
func c22 {
call c23
}
func c23 {
call c24
}
func c24 {
call c25
}
func c25 {
call c26
}
func c26 {
call c27
}
func c27 {
call c28
}
func c28 {
call c29
}
func c29 {
call c30
}
func c30 {
call c31
}
func c31 {
call c32
}
func c32 {
call c33
}
func c33 {
call c34
}
func c34 {
call c35
}
func c35 {
call c36
}
func c36 {
call c37
}
func c37 {
call c38
}
func c38 {
call c39
}
func c39 {
work 2
}

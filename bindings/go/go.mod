module scl

go 1.19

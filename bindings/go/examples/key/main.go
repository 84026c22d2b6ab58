// The key of `gcc -c a.c -O2 -DX=1`: which rows a cache hashes as they are, which it looks up and hashes with their answer, and
// which it hashes only if the macro counts (docs/CACHE.md). Of a row `by name` the fields say where to look, and only the name is hashed.
package main

import (
	"fmt"
	"log"
	"scl"
	"strings"
)

func main() {
	answer, err := (&scl.Request{Compiler: "gcc", Words: []string{"-c", "a.c", "-O2", "-DX=1"}}).Ask()
	if err != nil {
		log.Fatal(err)
	}
	if !answer.IsCacheable || len(answer.Fields("key")) == 0 {
		fmt.Println("keep nothing")
		return
	}
	for _, row := range answer.Fields("key") {
		switch row[0] {
		case "is", "output":
			fmt.Println("hash", strings.Join(row, " "))
		case "shown":
			fmt.Println("hash if it counts", strings.Join(row, " "))
		case "plan", "run", "run-else", "pch":
			fmt.Println("look up", row[0]+", by name")
		default:
			fmt.Println("look up", row[0])
		}
	}
}

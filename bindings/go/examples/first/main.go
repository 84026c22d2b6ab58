// A first question: which command may run in the place of `gcc -c a.c -O2`, and what it reads and makes.
package main

import (
	"fmt"
	"log"
	"scl"
	"strings"
)

func main() {
	answer, err := (&scl.Request{Compiler: "gcc", Words: []string{"-c", "a.c", "-O2"}}).Ask()
	if err != nil {
		log.Fatal(err)
	}
	if answer.Outcome != scl.Compiled || len(answer.Words("hazard")) > 0 {
		fmt.Println("run the given words")
		return
	}
	fmt.Println("run: gcc", strings.Join(answer.Words("arg"), " "))
	fmt.Println("reads:", answer.Word("input"))
	for _, output := range answer.Fields("output") {
		fmt.Println("makes:", output[1])
	}
	fmt.Println("may be kept:", map[bool]string{true: "yes", false: "no"}[answer.IsCacheable])
}

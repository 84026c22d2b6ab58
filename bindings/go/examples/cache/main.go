// The loop of a cache over three command lines: it asks until no file is wanted that is there, and decides. The files of this
// example are in memory. The look-ups are left out, and so are hits: docs/CACHE.md goes through a whole cache.
package main

import (
	"fmt"
	"log"
	"scl"
	"strings"
)

var disk = map[string]string{"/w/flags": "-O2 -DX=1"}

// look adds each file that is wanted and there, and says whether there is one.
func look(answer *scl.Answer, request *scl.Request) bool {
	before := len(request.Files)
	for _, path := range answer.Wanted("file") {
		if text, isThere := disk[path]; isThere {
			fmt.Println("  reads", path)
			request.Files = append(request.Files, scl.Pair{Key: path, Value: text})
		}
	}
	return len(request.Files) > before
}

func decision(answer *scl.Answer) string {
	if answer.Outcome == scl.CannotCache {
		return "run it as given: " + answer.Word("reason")
	}
	for _, keep := range answer.Fields("keep") {
		if keep[0] != "yes" {
			return "run it as given: " + strings.Join(keep[1:], " ")
		}
	}
	names := answer.Words("key")
	if !answer.IsCacheable || len(names) == 0 {
		return "run it as given"
	}
	facts, macros := 0, 0
	for _, name := range names {
		switch name {
		case "is", "output":
			facts++
		case "shown":
			macros++
		}
	}
	return fmt.Sprintf("hash %d rows, look up %d, hash %d if it counts", facts, len(names)-facts-macros, macros)
}

func main() {
	for _, line := range []string{"gcc -c a.c @flags", "gcc -E a.c", "gcc -c a.c -o -"} {
		fmt.Println(line)
		request := scl.Request{Compiler: "gcc", Words: strings.Split(line, " ")[1:], Directory: "/w"}
		answer, err := request.Ask()
		for err == nil && look(answer, &request) {
			answer, err = request.Ask()
		}
		if err != nil {
			log.Fatal(err)
		}
		fmt.Println("  " + decision(answer))
	}
}

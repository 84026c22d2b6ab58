// What can go wrong, and how it is reported: in each case run the given words, and keep nothing.
package main

import (
	"errors"
	"fmt"
	"scl"
)

func ask(title string, request scl.Request) {
	request.Words = []string{"-E", "a.c"}
	answer, err := request.Ask()
	switch {
	case errors.Is(err, scl.ErrBadCatalogue):
		fmt.Printf("%s: %v\n", title, scl.ErrBadCatalogue)
	case err != nil:
		fmt.Printf("%s: %v\n", title, err)
	default:
		fmt.Printf("%s: answered\n", title)
		if answer.Outcome == scl.CannotCache {
			fmt.Printf("word %s, %s: %s\n", answer.Word("at"), answer.Word("reason"), answer.Word("sentence"))
		}
	}
}

func main() {
	ask("rustc", scl.Request{Compiler: "rustc"})
	ask("a setting", scl.Request{Compiler: "gcc", Settings: []string{"what-none-knows 1"}})
	ask("one word at most", scl.Request{Compiler: "gcc", Settings: []string{"bound 1"}})
	ask("a catalogue", scl.Request{Compiler: "gcc", Catalogue: "what is this\n"})
	ask("gcc -E", scl.Request{Compiler: "gcc"})
}

// A compile database: how many entries a cache gains, and why the rest is lost. `scl database` does the same for files, with words
// of a shell's text.
package main

import (
	"encoding/json"
	"fmt"
	"log"
	"scl"
)

const database = `[
  {"directory": "/w", "file": "a.c", "arguments": ["gcc", "-c", "a.c"]},
  {"directory": "/w", "file": "c.c", "arguments": ["gcc", "-E", "c.c"]},
  {"directory": "/w", "file": "d.c", "arguments": ["gcc", "-c", "d.c", "-MD", "-MT", "one", "-MT", "two"]}
]`

func main() {
	var entries []struct {
		Directory string
		Arguments []string
	}
	if err := json.Unmarshal([]byte(database), &entries); err != nil {
		log.Fatal(err)
	}
	cached, withHazard := 0, 0
	for at, entry := range entries {
		answer, err := (&scl.Request{Compiler: entry.Arguments[0], Words: entry.Arguments[1:], Directory: entry.Directory}).Ask()
		if err != nil {
			log.Fatal(err)
		}
		if answer.Outcome == scl.Compiled {
			cached++
		}
		if answer.Outcome == scl.CannotCache {
			fmt.Printf("entry %d cannot be cached: %s\n", at+1, answer.Word("reason"))
		}
		hazards := answer.Words("hazard")
		if len(hazards) > 0 {
			withHazard++
		}
		for _, hazard := range hazards {
			fmt.Printf("entry %d has a hazard: %s\n", at+1, hazard)
		}
	}
	fmt.Printf("%d entries, %d can be cached, %d with a hazard\n", len(entries), cached, withHazard)
}

// go run hello.go, where pkg-config finds scl: the command of a line, what became of its options, and its hazards, by the rows of a
// description (docs/PROTOCOL.md).
package main

/*
#cgo pkg-config: scl
#include "scl.h"
*/
import "C"

import (
	"fmt"
	"os"
	"strings"
	"unsafe"
)

// Describe gives the rows of the description of the answer to a request's text.
func Describe(request []byte) ([]string, error) {
	// (an empty line says nothing, and so there is a first byte to point at)
	request = append(request, '\n')
	room, wanted := make([]byte, 1024), C.size_t(0)
	for {
		status := C.scl_describe((*C.uint8_t)(unsafe.Pointer(&request[0])), C.size_t(len(request)), (*C.uint8_t)(unsafe.Pointer(&room[0])), C.size_t(len(room)), &wanted)
		switch status {
		case C.SCL_OK:
			return strings.SplitAfter(string(room[:wanted]), "\n"), nil
		case C.SCL_SHORT:
			room = make([]byte, wanted)
		case C.SCL_BAD, C.SCL_NEWER:
			return nil, fmt.Errorf("bad line %d", wanted)
		default:
			return nil, fmt.Errorf("out of memory")
		}
	}
}

func main() {
	rows, err := Describe([]byte("compiler gcc\nword -c\nword a.c\nword -O2\nword -MD\nword -MT\nword x\nword -MT\nword y\n"))
	if err != nil {
		fmt.Fprintln(os.Stderr, err)
		os.Exit(1)
	}
	for _, row := range rows {
		switch name, _, _ := strings.Cut(row, " "); name {
		case "arg", "option", "hazard":
			fmt.Print(row)
		}
	}
}

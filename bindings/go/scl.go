// Package scl says what a compiler's command line asks for, and which command may run in its place.
//
//	answer, err := (&scl.Request{Compiler: "gcc", Words: []string{"-c", "a.c"}}).Ask()
//	command := answer.Words("arg")
//
// It calls libscl, which pkg-config finds. Strings hold any bytes. The answers are those of the library; nothing is proved of this
// package, which writes requests and reads rows (docs/PROTOCOL.md).
package scl

/*
#cgo pkg-config: scl
#include <scl.h>
*/
import "C"

import (
	"errors"
	"fmt"
	"strconv"
	"strings"
	"sync"
	"unsafe"
)

// Why there is no answer. In each case run the given words, and keep nothing.
var (
	ErrUnknownCompiler = errors.New("no such compiler")
	ErrTooManyWords    = errors.New("too many words")
	ErrNewer           = errors.New("not known to this library")
	ErrBadCatalogue    = errors.New("a bad catalogue")
	ErrNoMemory        = errors.New("out of memory")
)

// Pair is a name and its value, or the path of a file and its text.
type Pair struct{ Key, Value string }

// Request is what is asked. All but the compiler may be left out.
type Request struct {
	Compiler    string   // gcc, g++, clang, clang++, cl, clang-cl, diab, tasking
	Directory   string   // the path of the directory in which the words are read
	Words       []string // after the program
	Environment []Pair
	Files       []Pair   // response files
	Directories []string // paths that are directories
	Existing    []string // paths at which there is something
	Multiarch   bool     // several architectures are allowed
	Settings    []string // lines `setting` of docs/PROTOCOL.md, without that word, as `bound 10`
	Catalogue   string   // the text of a catalogue over the built-in one, which is read in each call; empty: the built-in one alone
	Bases       []string // directories that differ from checkout to checkout: paths of the key are written by them
}

// Text is the request's text.
func (r *Request) Text() string {
	var to strings.Builder
	fmt.Fprintf(&to, "compiler %s\ncwd %s\n", field(r.Compiler), field(r.Directory))
	for _, list := range []struct {
		keyword string
		items   []string
	}{{"word", r.Words}, {"dir", r.Directories}, {"exists", r.Existing}} {
		for _, item := range list.items {
			fmt.Fprintf(&to, "%s %s\n", list.keyword, field(item))
		}
	}
	for _, list := range []struct {
		keyword string
		pairs   []Pair
	}{{"env", r.Environment}, {"file", r.Files}} {
		for _, pair := range list.pairs {
			fmt.Fprintf(&to, "%s %s\t%s\n", list.keyword, field(pair.Key), field(pair.Value))
		}
	}
	if r.Multiarch {
		to.WriteString("multiarch\n")
	}
	for _, base := range r.Bases {
		fmt.Fprintf(&to, "setting base %s\n", field(base))
	}
	for _, setting := range r.Settings {
		fmt.Fprintf(&to, "setting %s\n", escaped(setting, " \\"))
	}
	return to.String()
}

// Ask asks the library.
func (r *Request) Ask() (*Answer, error) {
	text, err := respond(r.Catalogue, r.Text())
	if err != nil {
		return nil, err
	}
	return answerOf(text)
}

// Name says which word of a whole command line is the program, by its index, launchers passed over; -1 if each is a launcher or belongs
// to one. And which compiler it is by its name, as a Request takes it; "" if the name is not known.
func Name(words []string) (program int, compiler string, err error) {
	var request strings.Builder
	request.WriteString("name\n")
	for _, word := range words {
		fmt.Fprintf(&request, "word %s\n", field(word))
	}
	said, err := otherAnswer(request.String())
	if program, isNumber := strconv.Atoi(said.Word("program")); err == nil && isNumber == nil {
		return program, said.Word("compiler"), nil
	}
	return -1, "", err
}

// Maker is which release of the library answers, as 1.0.0, by the rules of which sccache, as 0.19.0, and the protocol of its answers.
type Maker struct{ Release, Rules, Protocol string }

// MadeBy says what made the answers of this library: what a cache has to tell apart.
func MadeBy() (Maker, error) {
	said, err := otherAnswer("made-by\n")
	made := Maker{said.Word("made-by"), said.Word("rules"), said.Word("version")}
	if err == nil && (made.Release == "" || made.Rules == "") {
		err = ErrNewer
	}
	return made, err
}

// Line is a line of a request: a keyword, and fields.
func Line(fields ...string) string {
	escaped := make([]string, len(fields))
	for at, it := range fields {
		escaped[at] = field(it)
	}
	return strings.Join(escaped, " ")
}

// Rows gives the rows of the answer to a request of any kind, which has these lines (docs/PROTOCOL.md, A request).
func Rows(lines []string) ([]Row, error) {
	said, err := otherAnswer(strings.Join(append(lines, ""), "\n"))
	return said.Rows, err
}

// otherAnswer gives the rows that are answered to a request of another kind than of a command line.
func otherAnswer(request string) (Answer, error) {
	text, err := respond("", request)
	if errors.Is(err, ErrUnknownCompiler) {
		err = ErrNewer
	}
	rows, isWhole := rowsOf(text)
	said := Answer{Rows: rows}
	if err == nil && (!isWhole || said.Word("version") != protocol) {
		err = ErrNewer
	}
	return said, err
}

// bytesOf gives bytes with a first one to point at, and their number.
func bytesOf(text string) (*C.uint8_t, C.size_t) {
	bytes := append([]byte(text), 0)
	return (*C.uint8_t)(unsafe.Pointer(&bytes[0])), C.size_t(len(text))
}

// builtIn is the built-in catalogue, which is read once a process.
var (
	builtIn     *C.scl_catalogue
	builtInLock sync.Mutex
)

func readBuiltIn() (*C.scl_catalogue, error) {
	builtInLock.Lock()
	defer builtInLock.Unlock()
	wanted := C.size_t(0)
	if builtIn == nil && C.scl_catalogue_new(nil, 0, &builtIn, &wanted) != C.SCL_OK {
		return nil, ErrNoMemory
	}
	return builtIn, nil
}

// respond gives the text of the description of the answer to a request's text.
func respond(catalogue, request string) (string, error) {
	known, err := readBuiltIn()
	if err != nil {
		return "", err
	}
	named, namedLen := bytesOf(catalogue)
	asked, askedLen := bytesOf(request)
	room, wanted := make([]byte, 4096+8*len(request)), C.size_t(0)
	for {
		var status C.int32_t
		to, toLen := (*C.uint8_t)(unsafe.Pointer(&room[0])), C.size_t(len(room))
		if catalogue == "" {
			status = C.scl_catalogue_describe(known, asked, askedLen, to, toLen, &wanted)
		} else {
			status = C.scl_describe_with(named, namedLen, asked, askedLen, to, toLen, &wanted)
		}
		switch status {
		case C.SCL_OK:
			return string(room[:wanted]), nil
		case C.SCL_SHORT:
			room = make([]byte, wanted)
		case C.SCL_BAD, C.SCL_NEWER:
			// (the first line names the compiler; each other one is right, or not known)
			if wanted == 1 {
				return "", ErrUnknownCompiler
			}
			return "", ErrNewer
		case C.SCL_BAD_CATALOGUE:
			return "", fmt.Errorf("%w: line %d", ErrBadCatalogue, wanted)
		default:
			return "", ErrNoMemory
		}
	}
}

// escaped writes each byte that does not stand for itself as two digits; those of `plain` stand for themselves.
func escaped(text, plain string) string {
	var to strings.Builder
	for at := 0; at < len(text); at++ {
		it := text[at]
		if it > 0x20 && it < 0x7f && it != '\\' || strings.IndexByte(plain, it) >= 0 {
			to.WriteByte(it)
		} else {
			fmt.Fprintf(&to, "\\x%02x", it)
		}
	}
	return to.String()
}

func field(text string) string { return escaped(text, "") }

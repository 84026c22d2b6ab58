package scl

import (
	"strconv"
	"strings"
)

const protocol = "1"

// Outcome is what became of a command line.
type Outcome string

// The outcomes.
const (
	Compiled       Outcome = "ok"
	CannotCache    Outcome = "cannot-cache"
	NotCompilation Outcome = "not-compilation"
)

// Row is a row of an answer: a name, and fields as the bytes that they stand for.
type Row struct {
	Name   string
	Fields []string
}

// Answer is an outcome, and rows in order (docs/PROTOCOL.md, A description).
type Answer struct {
	Outcome Outcome
	Rows    []Row
	// IsCacheable says whether the outcome of the command may be kept. It is false if the answer says more than this package knows
	// of that.
	IsCacheable bool
}

// mostFields has the rows that decide what is kept, and how many fields each has at most.
var mostFields = map[string]int{"arg": 1, "hazard": 1, "cacheable": 1, "output": 3, "environment": 2, "language": 1, "color": 1, "dependency": 1,
	"preprocessor": 1, "common": 1, "arch": 1, "unhashed": 1, "dist": 1, "hash": 1, "input": 1, "compilation-flag": 1, "depfile": 1, "too-hard": 1,
	"double-dash-input": 0, "external-assembler": 0, "show-includes": 0, "explicit-language": 0, "profile-generate": 0, "no-rewrite-includes-only": 0}

const many = int(^uint(0) >> 1)

// keys has the rows of a key, and how many fields may follow the name.
var keys = map[string]struct{ least, most int }{"is": {1, many}, "output": {2, 3}, "directory": {0, 0}, "compiler": {0, 0}, "plan": {0, many},
	"env": {1, 1}, "unset": {1, 1}, "file": {1, 1}, "maybe": {1, 1}, "regular": {1, 1}, "run": {0, many}, "run-else": {0, many}, "pch": {0, many},
	"sources": {0, 0}, "sources-if-shown": {1, 1}, "times": {0, 0}, "refuse-if-shown": {1, 1}, "bases": {0, 0}, "bases-if-beside": {0, 0},
	"bases-if-shown": {1, 1}, "bases-if-planned": {1, 1}, "shown": {1, 1}}

// kept has the rows `keep`, and how many fields each has.
var kept = map[string]int{"yes": 1, "no": 3, "unknown": 2}

// isRefusal says whether the row says that nothing is kept.
func (r Row) isRefusal() bool {
	return r.Name == "keep" && (len(r.Fields) == 0 || r.Fields[0] != "yes")
}

func (r Row) isKnown() bool {
	switch r.Name {
	case "keep":
		return len(r.Fields) > 0 && len(r.Fields) == kept[r.Fields[0]]
	case "key":
		if len(r.Fields) == 0 {
			return false
		}
		key, isKnown := keys[r.Fields[0]]
		return isKnown && len(r.Fields) > key.least && len(r.Fields)-1 <= key.most
	}
	most, isKnown := mostFields[r.Name]
	return !isKnown || len(r.Fields) <= most
}

// answerOf reads a description.
func answerOf(text string) (*Answer, error) {
	first, rest, isLine := strings.Cut(text, "\n")
	outcome, _, _ := strings.Cut(first, " ")
	rows, isWhole := rowsOf(rest)
	answer := &Answer{Outcome: Outcome(outcome), Rows: rows}
	if !isLine || !isWhole || answer.Word("version") != protocol {
		return nil, ErrNewer
	}
	switch outcome {
	case "too-many-words":
		return nil, ErrTooManyWords
	case string(Compiled), string(CannotCache), string(NotCompilation):
	default:
		return nil, ErrNewer
	}
	answer.IsCacheable = answer.Word("cacheable") == "yes"
	for _, row := range answer.Rows {
		answer.IsCacheable = answer.IsCacheable && row.isKnown() && !row.isRefusal()
	}
	return answer, nil
}

// rowsOf reads the rows of a text, and says whether the last one has its end.
func rowsOf(text string) ([]Row, bool) {
	var rows []Row
	for _, line := range strings.SplitAfter(text, "\n") {
		if !strings.HasSuffix(line, "\n") {
			return rows, line == ""
		}
		fields := strings.Split(line[:len(line)-1], " ")
		for at, it := range fields {
			fields[at] = unescaped(it)
		}
		rows = append(rows, Row{fields[0], fields[1:]})
	}
	return rows, true
}

// unescaped gives the bytes that a field stands for.
func unescaped(field string) string {
	parts := strings.Split(field, "\\x")
	for at, part := range parts[1:] {
		if len(part) < 2 {
			return field
		}
		value, err := strconv.ParseUint(part[:2], 16, 8)
		if err != nil {
			return field
		}
		parts[at+1] = string([]byte{byte(value)}) + part[2:]
	}
	return strings.Join(parts, "")
}

// Fields gives the fields of each row of this name.
func (a *Answer) Fields(name string) [][]string {
	var all [][]string
	for _, row := range a.Rows {
		if row.Name == name {
			all = append(all, row.Fields)
		}
	}
	return all
}

// Words gives the first field of each row of this name: `arg` has the command's words, `hazard` the hazards.
func (a *Answer) Words(name string) []string {
	var all []string
	for _, fields := range a.Fields(name) {
		if len(fields) > 0 {
			all = append(all, fields[0])
		}
	}
	return all
}

// Word gives the first field of the first row of this name, or nothing.
func (a *Answer) Word(name string) string {
	words := a.Words(name)
	if len(words) == 0 {
		return ""
	}
	return words[0]
}

// Wanted gives the paths of a kind (`file`, `dir`, `exists`) whose presence could change the answer.
func (a *Answer) Wanted(kind string) []string {
	var all []string
	for _, fields := range a.Fields("wants") {
		if len(fields) > 1 && fields[0] == kind {
			all = append(all, fields[1])
		}
	}
	return all
}

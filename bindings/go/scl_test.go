package scl

import (
	"errors"
	"fmt"
	"strings"
	"testing"
)

func told(rows string) *Answer {
	answer, err := answerOf("ok\narg -c\ncacheable yes\nversion 1\n" + rows)
	if err != nil {
		panic(err)
	}
	return answer
}

func TestBytesAreWrittenAsFields(t *testing.T) {
	request := Request{Compiler: "gcc", Directory: "/w d", Words: []string{"a b\\\xff"}, Files: []Pair{{"/r", "x\n"}}, Settings: []string{"version a b"}, Bases: []string{"/w d"}}
	wanted := "compiler gcc\ncwd /w\\x20d\nword a\\x20b\\x5c\\xff\nfile /r\tx\\x0a\nsetting base /w\\x20d\nsetting version a b\n"
	if request.Text() != wanted {
		t.Errorf("%q", request.Text())
	}
}

func TestFieldsAreRead(t *testing.T) {
	answer := told("output obj a\\x20b\\x5c optional\nenvironment K \n")
	if got := fmt.Sprintf("%q %q", answer.Fields("output"), answer.Fields("environment")); got != `[["obj" "a b\\" "optional"]] [["K" ""]]` {
		t.Error(got)
	}
}

func TestWhatIsNotKnownIsNotKept(t *testing.T) {
	for rows, isKept := range map[string]bool{"": true, "notes a b c\nkey env A\n": true, "key what A\n": false, "key bases\nkey bases-if-beside\nkey bases-if-shown a\nkey bases-if-planned a\n": true,
		"key shown -DA\n": true, "key shown\n": false, "key env\n": false, "key env A B\n": false,
		"keep yes\n": true, "keep yes x\n": false, "keep unknown x\n": false, "keep no hazard x\n": false, "keep not\n": false, "hazard a b\n": false} {
		if told(rows).IsCacheable != isKept {
			t.Errorf("%q: %v", rows, !isKept)
		}
	}
}

func TestAnotherProtocolIsRefused(t *testing.T) {
	for _, text := range []string{"ok\nversion 2\n", "ok\n", "", "what\nversion 1\n", "ok\nversion 1"} {
		if _, err := answerOf(text); err != ErrNewer {
			t.Errorf("%q: %v", text, err)
		}
	}
}

func TestErrorsAreToldApart(t *testing.T) {
	plain := Request{Compiler: "gcc", Words: []string{"-c", "a.c"}}
	other, unknown, bounded, wrong := plain, plain, plain, plain
	other.Compiler = "rustc"
	unknown.Settings = []string{"what-none-knows"}
	bounded.Settings = []string{"bound 1"}
	wrong.Catalogue = "what is this\n"
	for _, it := range []struct {
		request *Request
		wanted  error
	}{{&plain, nil}, {&other, ErrUnknownCompiler}, {&unknown, ErrNewer}, {&bounded, ErrTooManyWords}, {&wrong, ErrBadCatalogue}} {
		if _, err := it.request.Ask(); !errors.Is(err, it.wanted) {
			t.Errorf("%q: %v", it.request.Text(), err)
		}
	}
}

func TestASettingIsOneLine(t *testing.T) {
	request := Request{Compiler: "gcc", Words: []string{"-c", "a.c"}, Settings: []string{"bound 9\nword -E"}}
	if _, err := request.Ask(); !errors.Is(err, ErrNewer) {
		t.Error(err)
	}
}

func TestTheProgramIsNamed(t *testing.T) {
	for _, it := range []struct {
		words    []string
		program  int
		compiler string
	}{{[]string{"ccache", "gcc-12", "-c"}, 1, "gcc"}, {[]string{"/usr/bin/x86_64-linux-gnu-g++"}, 0, "g++"}, {[]string{"rustc"}, 0, ""},
		{[]string{"env", "A=b"}, -1, ""}, {nil, -1, ""}, {[]string{"a\nword gcc"}, 0, ""}} {
		if program, compiler, err := Name(it.words); program != it.program || compiler != it.compiler || err != nil {
			t.Errorf("%q: %d %q %v", it.words, program, compiler, err)
		}
	}
}

func TestTheMakerIsNamed(t *testing.T) {
	made, err := MadeBy()
	text, _ := respond("", "made-by\n")
	if err != nil || text != fmt.Sprintf("made-by %s\nrules %s\nversion %s\n", made.Release, made.Rules, made.Protocol) {
		t.Errorf("%q %q %v", made, text, err)
	}
}

func TestARequestOfAnyKindIsAnswered(t *testing.T) {
	rows, err := Rows([]string{"lookup", Line("compiler", "gcc"), Line("word", "-c"), Line("word", "\xff a.c")})
	isAsked := false
	for _, row := range rows {
		isAsked = isAsked || row.Name == "ask" && strings.Join(row.Fields, "|") == "file|\xff a.c"
	}
	if err != nil || !isAsked {
		t.Errorf("%q %v", rows, err)
	}
	if _, err := Rows([]string{"what-none-knows"}); !errors.Is(err, ErrNewer) {
		t.Error(err)
	}
}

func TestALongAnswerHasRoom(t *testing.T) {
	request := Request{Compiler: "gcc", Words: []string{"-c", "a.c"}}
	for at := 0; at < 5000; at++ {
		request.Words = append(request.Words, fmt.Sprintf("-DNAME%d=1", at))
	}
	answer, err := request.Ask()
	if err != nil || strings.Count(strings.Join(answer.Words("arg"), " "), "-DNAME") != 5000 {
		t.Error(err)
	}
}

func TestAnyBytesComeBack(t *testing.T) {
	word := []byte("-D")
	for it := 1; it < 256; it++ {
		word = append(word, byte(it))
	}
	answer, err := (&Request{Compiler: "gcc", Words: []string{"-c", "a.c", string(word)}}).Ask()
	if err != nil || !strings.Contains(strings.Join(answer.Words("arg"), "\x00"), string(word)) {
		t.Error(err)
	}
}

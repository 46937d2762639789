package stmprogram

import (
	"encoding/json"
	"errors"
	"strings"
	"testing"

	"stmprogram/reading"
)

func load(t *testing.T, text string) *Program {
	t.Helper()
	program, err := Load([]byte(text))
	if err != nil {
		t.Fatalf("%s: %v", text, err)
	}
	return program
}

// endOf runs a program over no keys, and says how it ends.
func endOf(t *testing.T, text string) string {
	t.Helper()
	attempt, err := load(t, text).Attempt(emptyMemory())
	if err != nil {
		return err.Error()
	}
	output, _ := json.Marshal(orEmpty(attempt.Output))
	return string(output)
}

// nested is an expression of additions of zeros, so many deep.
func nested(depth int) string {
	return strings.Repeat(`["add",0,`, depth) + "0" + strings.Repeat("]", depth)
}

// The language's limits, numbers and faults, as docs/FORMATS.md and docs/MODEL.md have them.
func TestEnds(t *testing.T) {
	for text, wanted := range map[string]string{
		`[["emit",["num_of","x"]]]`:                                               "faulted: NotANumber",
		`[["emit",["num_of","-"]]]`:                                               "faulted: NotANumber",
		`[["emit",["num_of","+1"]]]`:                                              "faulted: NotANumber",
		`[["emit",["num_of"," 1"]]]`:                                              "faulted: NotANumber",
		`[["emit",["num_of","1_0"]]]`:                                             "faulted: NotANumber",
		`[["emit",["num_of",""]]]`:                                                "faulted: NotANumber",
		`[["emit",["num_of","9223372036854775808"]]]`:                             "faulted: NotANumber",
		`[["emit",["num_of","-0009"]],["emit",["num_of","-0"]]]`:                  "[-9,0]",
		`[["emit",["num_of","-9223372036854775808"]]]`:                            "[-9223372036854775808]",
		`[["emit",["add",9223372036854775807,1]]]`:                                "faulted: Overflow",
		`[["emit",["sub",-9223372036854775808,1]]]`:                               "faulted: Overflow",
		`[["emit",["sub",0,-9223372036854775808]]]`:                               "faulted: Overflow",
		`[["emit",["mul",3037000500,3037000500]]]`:                                "faulted: Overflow",
		`[["emit",["mul",-9223372036854775808,-1]]]`:                              "faulted: Overflow",
		`[["emit",["mul",-9223372036854775808,1]]]`:                               "[-9223372036854775808]",
		`[["emit",["mul",4611686018427387904,-2]]]`:                               "[-9223372036854775808]",
		`[["emit",["div",1,0]]]`:                                                  "faulted: ZeroDivisor",
		`[["emit",["rem",-9223372036854775808,0]]]`:                               "faulted: ZeroDivisor",
		`[["emit",["div",-9223372036854775808,-1]]]`:                              "faulted: Overflow",
		`[["emit",["rem",-9223372036854775808,-1]]]`:                              "faulted: Overflow",
		`[["emit",["div",-7,2]],["emit",["rem",-7,2]]]`:                           "[-3,-1]",
		`[["emit",["div",7,-2]],["emit",["rem",7,-2]]]`:                           "[-3,1]",
		`[["emit",["add","1",2]]]`:                                                "faulted: Kind",
		`[["emit",["cat","1",2]]]`:                                                "faulted: Kind",
		`[["emit",["text_of","1"]]]`:                                              "faulted: Kind",
		`[["emit",["num_of",1]]]`:                                                 "faulted: Kind",
		`[["emit",["get",1]]]`:                                                    "faulted: Kind",
		`[["emit",["rev",""]]]`:                                                   "faulted: EmptyKey",
		`[["put","","v",0]]`:                                                      "faulted: EmptyKey",
		`[["put","",5,0]]`:                                                        "faulted: Kind",
		`[["del",""]]`:                                                            "faulted: EmptyKey",
		`[["abort",5]]`:                                                           "faulted: Kind",
		`[["put","a","1",0],["abort","no"]]`:                                      "aborted: no",
		`[["if",["eq","1",1],[],[]]]`:                                             "faulted: Kind",
		`[["if",["less","a",1],[],[]]]`:                                           "faulted: Kind",
		`[["if",["less","B","a"],[["emit",1]],[]]]`:                               "[1]",
		`[["if",["less","é","f"],[["emit",1]],[["emit",2]]]]`:                     "[2]",
		`[["if",["or",["eq",1,1],["eq",1,"1"]],[["emit",1]],[]]]`:                 "[1]",
		`[["if",["and",["eq",1,2],["eq",1,"1"]],[],[["emit",2]]]]`:                "[2]",
		`[["if",["not",["less",2,1]],[["emit",1]],[]]]`:                           "[1]",
		`[["for",0,5,4,[]]]`:                                                      "faulted: LoopTooLong",
		`[["for",0,"5",4,[]]]`:                                                    "faulted: Kind",
		`[["for",0,5,5,[["emit",["var",0]]]],["emit",["var",0]]]`:                 "[0,1,2,3,4,4]",
		`[["for",0,-1,0,[["emit",1]]],["emit",["var",0]]]`:                        "[0]",
		`[["for",0,3,3,[["set",0,7]]],["emit",["var",0]]]`:                        "[7]",
		`[["for",0,100,100,[["for",1,99,99,[]]]]]`:                                "[]",
		`[["for",0,100,100,[["for",1,100,100,[]]]]]`:                              "faulted: TurnLimit",
		`[["set",0,"x"],["for",1,16,16,[["set",0,["cat",["var",0],["var",0]]]]]]`: "[]",
		`[["set",0,"x"],["for",1,17,17,[["set",0,["cat",["var",0],["var",0]]]]]]`: "faulted: TextTooLong",
		`[["emit",["add",["add","a",1],["div",1,0]]]]`:                            "faulted: Kind",
		`[["emit",["add",["div",1,0],"a"]]]`:                                      "faulted: ZeroDivisor",
		`[["emit",["add","a",["div",1,0]]]]`:                                      "faulted: ZeroDivisor",
		`[["emit",` + nested(30) + `]]`:                                           "[0]",
	} {
		if got := endOf(t, text); got != wanted {
			t.Errorf("%s: %s, not %s", text, got, wanted)
		}
	}
}

// What was written is read back, a revision is not; both are in the trace.
func TestOwnWrites(t *testing.T) {
	keys := emptyMemory()
	keys.values["a"], keys.mods["a"] = "1", 7
	attempt, err := load(t, `[["put","a","2",0],["emit",["get","a"]],["emit",["rev","a"]],["del","a"],["emit",["get","a"]],["put","b",["get","c"],0]]`).Attempt(keys)
	if err != nil {
		t.Fatal(err)
	}
	output, _ := json.Marshal(attempt.Output)
	trace, _ := json.Marshal(attempt.Trace)
	if string(output) != `["2",7,""]` || string(trace) != `[["get","a","2"],["rev","a",7],["get","a",""],["get","c",""]]` {
		t.Errorf("output %s, trace %s", output, trace)
	}
}

// The first fault of a text that is no program.
func TestFaults(t *testing.T) {
	many := strings.TrimSuffix(strings.Repeat(`["emit",1],`, 2048), ",")
	keys := make([]string, 129)
	for i := range keys {
		keys[i] = `"` + strings.Repeat("k", i+1) + `"`
	}
	for text, wanted := range map[string]string{
		`[["emit",1]`:                     "at : NotJson",
		`{}`:                              "at : Shape",
		`[["emit",1.5]]`:                  "at /0/1: Shape",
		`[["emit",-0]]`:                   "at /0/1: Shape",
		`[["emit",["var",16]]]`:           "at /0/1/1: Range",
		`[["emit",9223372036854775808]]`:  "at /0/1: Range",
		`[["emit",18446744073709551616]]`: "at /0/1: Shape",
		`[["put","a","1"]]`:               "at /0: Shape",
		`[["put","a","1",-1]]`:            "at /0/3: Range",
		`[["for",0,1,1001,[]]]`:           "at /0/3: Range",
		`[["prefetch",["p","p"]]]`:        "at /0/1/1: Shape",
		`[["prefetch",[""]]]`:             "at /0/1/0: Shape",
		`[["emit",1],["prefetch",["p"]]]`: "at /1: Shape",
		`[["prefetch",[` + strings.Join(keys, ",") + `]]]`: "at /0/1/128: TooMany",
		`[["emit","` + strings.Repeat("x", 65537) + `"]]`:  "at /0/1: TooLong",
		`[["emit",` + nested(31) + `]]`:                    "at /0/1" + strings.Repeat("/2", 30) + "/1: TooDeep",
		`[` + many + `,["emit",1]]`:                        "at /2048: TooManyNodes",
		strings.Repeat("[", 128):                           "at : NotJson",
	} {
		_, err := Load([]byte(text))
		if fault := (*reading.Fault)(nil); !errors.As(err, &fault) || fault.Error() != wanted {
			t.Errorf("%.80s: %v, not %s", text, err, wanted)
		}
	}
	if _, err := Load([]byte(`[` + many + `]`)); err != nil {
		t.Errorf("4096 nodes: %v", err)
	}
}

package stmprogram

import (
	"context"
	"errors"
	"fmt"
	"testing"

	"go.etcd.io/etcd/etcdserver/api/v3rpc/rpctypes"

	"stmprogram/reading"
)

const increment = `[["set",0,["get","n"]],["if",["eq",["var",0],""],[["set",0,"0"]],[]],["put","n",["text_of",["add",["num_of",["var",0]],1]],0],["emit",["var",0]]]`

func lineOf(t *testing.T, s *store, text, level string, options ...Option) string {
	t.Helper()
	result, err := Run(context.Background(), s.client(), load(t, text), Levels[level], options...)
	if err != nil {
		t.Fatalf("%s: %v", text, err)
	}
	return string(result.Line())
}

func TestCommitsAtEachLevel(t *testing.T) {
	for _, level := range LevelNames {
		s := newStore()
		s.put("n", "4")
		if got := lineOf(t, s, increment, level); got != `["committed",3,1,["4"],[["get","n","4"]]]` {
			t.Errorf("%s: %s", level, got)
		}
		if s.now()["n"] == nil || string(s.now()["n"].Value) != "5" {
			t.Errorf("%s: %v", level, s.now())
		}
	}
}

func TestEndsWithoutACommit(t *testing.T) {
	for text, wanted := range map[string]string{
		`[["put","n","1",0],["abort","no"]]`:              `["aborted","no",0]`,
		`[["put","n","1",0],["emit",["div",1,0]]]`:        `["faulted","ZeroDivisor",0]`,
		`[["emit",["get","n"]],["del","n"],["abort",""]]`: `["aborted","",0]`,
	} {
		s := newStore()
		if got := lineOf(t, s, text, "Serializable"); got != wanted || s.revision != 1 {
			t.Errorf("%s: %s at %d", text, got, s.revision)
		}
	}
}

// A key that another client changes before each commit: a comparing level tries again, until it may not; ReadCommitted overwrites.
func TestConflicts(t *testing.T) {
	changed := func(times int) *store {
		s := newStore()
		s.before = func(s *store, isCommit bool) error {
			if isCommit && times > 0 {
				times--
				s.put("n", "10")
			}
			return nil
		}
		return s
	}
	for _, level := range LevelNames[:3] {
		if got := lineOf(t, changed(2), increment, level); got != `["committed",4,3,["10"],[["get","n","10"]]]` {
			t.Errorf("%s: %s", level, got)
		}
		if got := lineOf(t, changed(2), increment, level, WithAttempts(2)); got != `["gaveup",2]` {
			t.Errorf("%s: %s", level, got)
		}
		if got := lineOf(t, changed(2), increment, level, WithAttempts(3)); got != `["committed",4,3,["10"],[["get","n","10"]]]` {
			t.Errorf("%s: %s", level, got)
		}
	}
	if got := lineOf(t, changed(2), increment, "ReadCommitted", WithAttempts(1)); got != `["committed",3,1,["0"],[["get","n",""]]]` {
		t.Error(got)
	}
}

// A blind write over a key that was changed since the first read conflicts at SerializableSnapshot alone.
func TestBlindWrites(t *testing.T) {
	for level, wanted := range map[string]string{"SerializableSnapshot": `["gaveup",1]`, "Serializable": `["committed",4,1,[],[["get","a",""]]]`} {
		s := newStore()
		s.put("x", "1")
		s.before = func(s *store, isCommit bool) error {
			if isCommit && s.sent == 1 {
				s.put("b", "2")
			}
			return nil
		}
		if got := lineOf(t, s, `[["set",0,["get","a"]],["put","b","9",0]]`, level, WithAttempts(1)); got != wanted {
			t.Errorf("%s: %s", level, got)
		}
	}
}

// A program's list is read in one request, and compared whether the program reads it or not.
func TestList(t *testing.T) {
	s := newStore()
	s.put("p", "1")
	s.before = func(s *store, isCommit bool) error {
		if isCommit && s.sent == 1 {
			s.put("q", "1")
		}
		return nil
	}
	if got := lineOf(t, s, `[["prefetch",["p","q"]],["emit",["get","p"]]]`, "Serializable"); got != `["committed",3,2,["1"],[["get","p","1"]]]` {
		t.Error(got)
	}
	if s.sent != 3 {
		t.Errorf("%d requests, not one for the list and two commits", s.sent)
	}
}

func TestRefusals(t *testing.T) {
	refusing := func(refusal error, atCommit bool) *store {
		s := newStore()
		s.before = func(_ *store, isCommit bool) error {
			if isCommit == atCommit {
				return refusal
			}
			return nil
		}
		return s
	}
	for refusal, wanted := range map[error]string{rpctypes.ErrLeaseNotFound: `["ended","LeaseNotFound",1]`, rpctypes.ErrTooManyOps: `["ended","TooManyOps",1]`} {
		if got := lineOf(t, refusing(refusal, true), increment, "Serializable"); got != wanted {
			t.Error(got)
		}
	}
	if got := lineOf(t, refusing(rpctypes.ErrCompacted, false), increment, "Serializable"); got != `["ended","Compacted",0]` {
		t.Error(got)
	}
}

// A member that lags behind the attempt's first revision refuses a fetch: the attempt is begun again, and no commit is counted for it.
func TestLaggingMembers(t *testing.T) {
	s, lags := newStore(), 3
	s.before = func(_ *store, isCommit bool) error {
		if !isCommit && lags > 0 {
			lags--
			return rpctypes.ErrFutureRev
		}
		return nil
	}
	if got := lineOf(t, s, increment, "Serializable", WithAttempts(1)); got != `["committed",2,1,["0"],[["get","n",""]]]` {
		t.Error(got)
	}
}

// A commit without an answer may have been made; a fetch without one, a refusal for want of space, and a commit that writes nothing, have changed nothing.
func TestLostAnswers(t *testing.T) {
	run := func(s *store, text string) error {
		_, err := Run(context.Background(), s.client(), load(t, text), Levels["Serializable"])
		return err
	}
	isUnknown := func(err error) bool { return errors.As(err, &Unknown{}) }
	answers := func(err error, atCommit bool) func(*store, bool) error {
		return func(_ *store, isCommit bool) error {
			if isCommit == atCommit {
				return err
			}
			return nil
		}
	}
	taken := newStore()
	taken.after = answers(context.DeadlineExceeded, true)
	if err := run(taken, increment); !isUnknown(err) || !errors.Is(err, context.DeadlineExceeded) || taken.revision != 2 {
		t.Errorf("made: %v at %d", err, taken.revision)
	}
	lost := newStore()
	lost.before = answers(rpctypes.ErrTimeout, true)
	if err := run(lost, increment); !isUnknown(err) || lost.revision != 1 {
		t.Errorf("not made: %v at %d", err, lost.revision)
	}
	reading := newStore()
	reading.after = answers(context.DeadlineExceeded, true)
	if err := run(reading, `[["emit",["get","n"]]]`); err == nil || isUnknown(err) {
		t.Errorf("nothing written: %v", err)
	}
	full := newStore()
	full.before = answers(rpctypes.ErrNoSpace, true)
	if err := run(full, increment); err == nil || isUnknown(err) {
		t.Errorf("no space: %v", err)
	}
	fetch := newStore()
	fetch.before = answers(rpctypes.ErrTimeout, false)
	if err := run(fetch, increment); err == nil || isUnknown(err) {
		t.Errorf("fetch: %v", err)
	}
}

// What was found and is wanted, and where, of texts that are no program.
func TestExplainsBadPrograms(t *testing.T) {
	for text, wanted := range map[string]string{
		"[[\"del\",\"b\"],\n [\"put\",\"a\",\"1\"]]": `2:2: elements after "put": 2 found, 3 wanted: ["put",EXPRESSION,EXPRESSION,LEASE]`,
		`[["set",16,1]]`:                   `1:9: found 16, where a variable, 0 to 15, is wanted`,
		`[["if",["eq",1,1],["abort"],[]]]`: `1:20: found "abort", where a statement is wanted: an array that begins with one of abort, del, emit, for, if, put, set`,
		`[["prefetch",["a",""]]]`:          `1:19: found "", where a text that is not empty and stands in the list once is wanted`,
		"[[\"emit\",1],\n]":                `2:1: no JSON: invalid character ']' looking for beginning of value`,
	} {
		_, err := Load([]byte(text))
		fault, isFault := err.(*reading.Fault)
		if !isFault {
			t.Fatalf("%s: %v", text, err)
		}
		offset, words := Explained([]byte(text), fault)
		line, column := Position([]byte(text), offset)
		if got := fmt.Sprintf("%d:%d: %s", line, column, words); got != wanted {
			t.Errorf("%s: %s", text, got)
		}
	}
}

// The innermost node at which a run stopped, with the values of its parts.
func TestExplainsFaults(t *testing.T) {
	for text, wanted := range map[string]string{
		`[["put","n","1",0],["emit",["div",1,["sub",2,2]]]]`:    `ZeroDivisor at /1/1: of 1 and 0`,
		`[["if",["eq",0,["num_of",["get","n"]]],[],[]]]`:        `NotANumber at /0/1/2: of ""`,
		`[["for",0,9,8,[["abort","no"]]]]`:                      `LoopTooLong at /0: of 9`,
		`[["for",0,2,2,[["if",["less",["var",0],"b"],[],[]]]]]`: `Kind at /0/4/0/1: of 0 and "b"`,
	} {
		result, err := Run(context.Background(), newStore().client(), load(t, text), Levels["Serializable"])
		if err != nil || result.Stopped == nil {
			t.Fatalf("%s: %v %v", text, err, result)
		}
		if got := result.Stopped.Reason(result.Detail); got != wanted {
			t.Errorf("%s: %s", text, got)
		}
	}
}

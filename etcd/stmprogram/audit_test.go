package stmprogram

import (
	"context"
	"encoding/json"
	"fmt"
	"os"
	"os/exec"
	"path/filepath"
	"strconv"
	"strings"
	"sync"
	"testing"
	"time"

	"go.etcd.io/etcd/clientv3"
	"go.etcd.io/etcd/clientv3/concurrency"
	"stmprogram/tracing"
)

// Two people are on call. Each goes off call where the other one is on call, and comes back where that one is not: at a level that compares what was read somebody
// is always on call.
func goOffCall(person, other string) func(concurrency.STM) error {
	return func(stm concurrency.STM) error {
		isOn := stm.Get(other) != "no"
		time.Sleep(time.Millisecond) // so that the two transactions overlap
		if isOn {
			stm.Put(person, "no")
		} else {
			stm.Put(person, "yes")
		}
		return nil
	}
}

// Each adds one to a counter that both share.
func count(stm concurrency.STM) error {
	n, _ := strconv.Atoi(stm.Get("n"))
	time.Sleep(time.Millisecond)
	stm.Put("n", strconv.Itoa(n+1))
	return nil
}

// beginning is the first line of the traces: the store is older than the log, and has Ana on call and a counter.
const beginning = `["begin",4,[["ana","yes",3],["n","7",4]]]`

// traceOf runs transactions of two clients side by side at a level on an etcd that has keys, and returns their trace's file.
func traceOf(t *testing.T, level concurrency.Isolation, folder string) string {
	members := startMembers(t, 1)
	for _, put := range [][2]string{{"ana", "no"}, {"ana", "yes"}, {"n", "7"}} {
		if _, err := clientOf(t, members...).Put(context.Background(), put[0], put[1]); err != nil {
			t.Fatal(err)
		}
	}
	log := &tracing.Log{}
	var group sync.WaitGroup
	for _, people := range [][2]string{{"ana", "ben"}, {"ben", "ana"}} {
		group.Add(1)
		go func(client *clientv3.Client, person, other string) {
			defer group.Done()
			ctx, cancel := context.WithTimeout(context.Background(), time.Minute)
			defer cancel()
			for i := 0; i < 50; i++ {
				for _, apply := range []func(concurrency.STM) error{goOffCall(person, other), count} {
					if _, err := log.NewSTM(ctx, client, level, apply); err != nil {
						t.Errorf("%s: %v", person, err)
					}
				}
			}
		}(clientOf(t, members...), people[0], people[1])
	}
	group.Wait()
	members[0].stop()
	path := filepath.Join(folder, fmt.Sprintf("%d.json", level))
	file, err := os.Create(path)
	if err != nil {
		t.Fatal(err)
	}
	defer file.Close()
	if _, err := log.WriteTo(file); err != nil {
		t.Fatal(err)
	}
	return path
}

// traced is a commit of a trace.
type traced struct {
	level    string
	revision int64
	reads    [][]interface{}
	writes   [][]string
}

func (c *traced) UnmarshalJSON(text []byte) error {
	return json.Unmarshal(text, &[]interface{}{&c.level, &c.revision, &c.reads, &c.writes})
}

func (c *traced) writesTo(key string) bool {
	for _, write := range c.writes {
		if write[1] == key {
			return true
		}
	}
	return false
}

// hasRead says whether the commit read a key that another one writes.
func (c *traced) hasRead(other *traced) bool {
	for _, read := range c.reads {
		if other.writesTo(read[0].(string)) {
			return true
		}
	}
	return false
}

// staleReads counts, by the writes of a trace in their order alone, the commits one of whose keys had been changed since it was read: those that write that key (lost
// updates), those that write what the commit had read that changed it first (write skews), and the others. The trace begins at revision 4 and only puts.
func staleReads(t *testing.T, path string) (lost, skews, others int) {
	var trace []*traced
	if err := json.Unmarshal([]byte(withoutBeginning(t, path)), &trace); err != nil {
		t.Fatal(err)
	}
	for i, one := range trace {
		if one.revision != int64(i+5) {
			t.Fatalf("%s: commit %d has revision %d", path, i+1, one.revision)
		}
		for _, read := range one.reads {
			key, of := read[0].(string), int64(read[3].(float64))
			for _, other := range trace[of-4 : i] {
				if !other.writesTo(key) {
					continue
				}
				switch {
				case one.writesTo(key):
					lost++
				case other.hasRead(one):
					skews++
				default:
					others++
				}
				break
			}
		}
	}
	return lost, skews, others
}

// withoutBeginning is the trace of a file without its first line.
func withoutBeginning(t *testing.T, path string) string {
	text, err := os.ReadFile(path)
	if err != nil {
		t.Fatal(err)
	}
	rest := strings.TrimPrefix(string(text), "["+beginning+",\n")
	if rest == string(text) {
		t.Fatalf("%s does not begin with %s: %.200s", path, beginning, text)
	}
	return "[" + rest
}

// TestAudit logs what a real etcd and its Go client commit: at ReadCommitted there are write skews and lost updates, and at the other levels each key is at the commit
// as it was read. Where the variable STMRUN names the program, that says the same of the traces, and of one without its first line that this is missing.
func TestAudit(t *testing.T) {
	folder := t.TempDir()
	for i, level := range LevelNames {
		path := traceOf(t, Levels[level], folder)
		lost, skews, others := staleReads(t, path)
		t.Logf("%s: %d write skews, %d lost updates, %d other stale reads in 200 commits", level, skews, lost, others)
		if isWeakest := i == len(LevelNames)-1; isWeakest != (skews > 0) || isWeakest != (lost > 0) || others > 0 {
			t.Errorf("%s: unexpected", level)
		}
		if stmrun := os.Getenv("STMRUN"); stmrun != "" {
			printed, err := exec.Command(stmrun, "audit", path).Output()
			said := string(printed)
			if err != nil || strings.Count(said, `"LostUpdate"`) != lost || strings.Count(said, `"WriteSkew"`) != skews || strings.Count(said, "\n") != lost+skews+1 {
				t.Errorf("%s: %v: %s", level, err, said)
			}
			older := exec.Command(stmrun, "audit")
			older.Stdin = strings.NewReader(withoutBeginning(t, path))
			if both, err := older.CombinedOutput(); err == nil || !strings.Contains(string(both), `"DirtyRead"`) || !strings.Contains(string(both), `["begin",4,`) {
				t.Errorf("%s, older than its log: %v: %s", level, err, both)
			}
		}
	}
}

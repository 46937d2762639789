// Runs programs alone, each over keys of its own that nobody else changes, for etcd/same: a line of standard input is [KEYS,PROGRAM], KEYS as
// [[KEY,VALUE,REVISION],..], and gives a line [END,DETAIL,[OUTPUT..],[LOOKED..],[[KEY,VALUE]..]], the last being the keys as the run leaves them.
package main

import (
	"bufio"
	"encoding/json"
	"fmt"
	"os"
	"sort"

	"stmprogram"
	"stmprogram/reading"
)

const longestLine = 1 << 24

// keys are a memory over a map.
type keys struct {
	values map[string]string
	mods   map[string]int64
	puts   map[string]string
	dels   map[string]bool
}

func (k *keys) Get(key string) string {
	if value, isPut := k.puts[key]; isPut {
		return value
	}
	if k.dels[key] {
		return ""
	}
	return k.values[key]
}

func (k *keys) Rev(key string) int64 { return k.mods[key] }

func (k *keys) Put(key, value string, _ int64) {
	delete(k.dels, key)
	k.puts[key] = value
}

func (k *keys) Del(key string) {
	delete(k.puts, key)
	k.dels[key] = true
}

// left are the keys after the run, ascending.
func (k *keys) left() [][]string {
	after := map[string]string{}
	for key, value := range k.values {
		if !k.dels[key] {
			after[key] = value
		}
	}
	for key, value := range k.puts {
		after[key] = value
	}
	left := [][]string{}
	for key, value := range after {
		left = append(left, []string{key, value})
	}
	sort.Slice(left, func(i, j int) bool { return left[i][0] < left[j][0] })
	return left
}

func keysOf(value interface{}) (*keys, error) {
	read := &keys{map[string]string{}, map[string]int64{}, map[string]string{}, map[string]bool{}}
	elements, err := reading.Array(value, "/0")
	if err != nil {
		return nil, err
	}
	for i, element := range elements {
		parts, err := reading.Array(element, reading.Within("/0", i))
		if err != nil {
			return nil, err
		}
		key, value := parts[0].(string), parts[1].(string)
		read.values[key] = value
		if read.mods[key], err = reading.Count(parts[2], "/0"); err != nil {
			return nil, err
		}
	}
	return read, nil
}

func answer(text []byte) ([]interface{}, error) {
	value, err := reading.Value(text)
	if err != nil {
		return nil, err
	}
	parts, err := reading.Array(value, "")
	if err != nil {
		return nil, err
	}
	store, err := keysOf(parts[0])
	if err != nil {
		return nil, err
	}
	program, err := stmprogram.Read(parts[1], "/1")
	if err != nil {
		return nil, err
	}
	attempt, err := program.Attempt(store)
	end, detail := "committed", ""
	switch stopped := err.(type) {
	case stmprogram.Aborted:
		end, detail = "aborted", stopped.Text
	case stmprogram.Faulted:
		end, detail = "faulted", string(stopped)
	}
	return []interface{}{end, stmprogram.TextOf(detail), attempt.Output, attempt.Trace, store.left()}, nil
}

func main() {
	lines := bufio.NewScanner(os.Stdin)
	lines.Buffer(make([]byte, 0, 1<<20), longestLine)
	out := bufio.NewWriter(os.Stdout)
	defer out.Flush()
	encoder := json.NewEncoder(out)
	encoder.SetEscapeHTML(false)
	for lines.Scan() {
		told, err := answer(lines.Bytes())
		if err != nil {
			told = []interface{}{"bad", err.Error()}
		}
		encoder.Encode(told)
	}
	if err := lines.Err(); err != nil {
		fmt.Fprintln(os.Stderr, "etcd/alone:", err)
		os.Exit(3)
	}
}

// Package stmprogram runs the programs of this project, which stmrun explores and plays, on a real etcd: through the transactional memory of etcd's own
// Go client (clientv3/concurrency), which is not changed.
//
// A program is read by Load from its JSON (docs/FORMATS.md has the grammar) and run by Run. What its statements mean, its limits and its faults are those of
// stmrun; what is fetched, compared and committed is the Go client's and etcd's.
package stmprogram

import (
	"encoding/json"
	"math"

	"stmprogram/reading"
)

const (
	mostNodes   = 4096
	deepestNode = 32
	longestText = 65536
	mostTurns   = 10000
	mostListed  = 128
)

// Program is a program that keeps to its grammar.
type Program struct {
	list       []string
	statements []*node
}

// List returns the keys that each attempt reads before the program's first statement, by WithPrefetch of etcd's Go client.
func (p *Program) List() []string { return append([]string(nil), p.list...) }

// Load reads a program from its JSON. What is no program is refused as a *reading.Fault, with the place of the first part that is wrong and its cause:
// NotJson, TooLong, Shape, Range, TooDeep, TooManyNodes or TooMany.
func Load(text []byte) (*Program, error) {
	value, err := reading.Value(text)
	if err != nil {
		return nil, err
	}
	return Read(value, "")
}

// Read reads a program from a value of reading.Value that stands at a place of its text; faults have their places in that text.
func Read(value interface{}, place string) (*Program, error) {
	elements, err := reading.Array(value, place)
	if err != nil {
		return nil, err
	}
	read := &Program{}
	first := 0
	if len(elements) > 0 && reading.BeginsWith(elements[0], "prefetch") {
		if read.list, err = readList(elements[0], reading.Within(place, 0)); err != nil {
			return nil, err
		}
		first = 1
	}
	read.statements, err = new(programReader).statements(elements, first, place, 1)
	if err != nil {
		return nil, err
	}
	return read, nil
}

// node is a statement, an expression or a condition of a program.
type node struct {
	word     string // "text" and "number" for these
	place    string
	text     string // of a text
	number   int64  // of a number
	variable int64
	lease    int64
	limit    int64
	parts    []*node
	blocks   [][]*node
}

// What the elements after a word are: e an expression, c a condition, b a list of statements, v a variable, l a lease, n the limit of a loop.
var (
	statementForms = map[string]string{
		"set": "ve", "put": "eel", "del": "e", "if": "cbb", "for": "venb", "emit": "e", "abort": "e",
	}
	expressionForms = map[string]string{
		"var": "v", "get": "e", "rev": "e", "add": "ee", "sub": "ee", "mul": "ee", "div": "ee", "rem": "ee",
		"cat": "ee", "text_of": "e", "num_of": "e",
	}
	conditionForms = map[string]string{"eq": "ee", "less": "ee", "not": "c", "and": "cc", "or": "cc"}
)

// lengthsOf are the lengths of the arrays of these forms.
func lengthsOf(forms map[string]string) map[string]int {
	lengths := map[string]int{}
	for word, form := range forms {
		lengths[word] = 1 + len(form)
	}
	return lengths
}

var (
	statementLengths  = lengthsOf(statementForms)
	expressionLengths = lengthsOf(expressionForms)
	conditionLengths  = lengthsOf(conditionForms)
)

// programReader counts the nodes of a program while it reads it.
type programReader struct {
	nodes int
}

// readList reads the list of a program: the keys that each attempt reads first.
func readList(value interface{}, place string) ([]string, error) {
	_, elements, err := reading.Word(value, place, map[string]int{"prefetch": 2})
	if err != nil {
		return nil, err
	}
	listed, err := reading.Array(elements[1], reading.Within(place, 1))
	if err != nil {
		return nil, err
	}
	keys := make([]string, 0, len(listed))
	isListed := map[string]bool{}
	for i, element := range listed {
		at := reading.Within(reading.Within(place, 1), i)
		if i == mostListed {
			return nil, &reading.Fault{Place: at, Cause: "TooMany"}
		}
		key, isText := element.(string)
		if !isText || key == "" || isListed[key] {
			return nil, &reading.Fault{Place: at, Cause: "Shape"}
		}
		if len(key) > longestText {
			return nil, &reading.Fault{Place: at, Cause: "TooLong"}
		}
		isListed[key] = true
		keys = append(keys, key)
	}
	return keys, nil
}

func (r *programReader) block(value interface{}, place string, depth int) ([]*node, error) {
	elements, err := reading.Array(value, place)
	if err != nil {
		return nil, err
	}
	return r.statements(elements, 0, place, depth)
}

// statements reads the elements of an array from the one with this index on.
func (r *programReader) statements(elements []interface{}, first int, place string, depth int) ([]*node, error) {
	statements := make([]*node, 0, len(elements))
	for i := first; i < len(elements); i++ {
		if err := r.enter(reading.Within(place, i), depth); err != nil {
			return nil, err
		}
		statement, err := r.worded(elements[i], reading.Within(place, i), depth, statementForms, statementLengths)
		if err != nil {
			return nil, err
		}
		statements = append(statements, statement)
	}
	return statements, nil
}

// enter counts a node.
func (r *programReader) enter(place string, depth int) error {
	if depth > deepestNode {
		return &reading.Fault{Place: place, Cause: "TooDeep"}
	}
	r.nodes++
	if r.nodes > mostNodes {
		return &reading.Fault{Place: place, Cause: "TooManyNodes"}
	}
	return nil
}

func (r *programReader) expression(value interface{}, place string, depth int) (*node, error) {
	if err := r.enter(place, depth); err != nil {
		return nil, err
	}
	switch v := value.(type) {
	case string:
		if len(v) > longestText {
			return nil, &reading.Fault{Place: place, Cause: "TooLong"}
		}
		return &node{word: "text", place: place, text: v}, nil
	case json.Number:
		number, err := reading.Number(v, place, math.MinInt64, math.MaxInt64)
		return &node{word: "number", place: place, number: number}, err
	}
	return r.worded(value, place, depth, expressionForms, expressionLengths)
}

func (r *programReader) condition(value interface{}, place string, depth int) (*node, error) {
	if err := r.enter(place, depth); err != nil {
		return nil, err
	}
	return r.worded(value, place, depth, conditionForms, conditionLengths)
}

// worded reads a node that is an array with a word of one of these forms.
func (r *programReader) worded(value interface{}, place string, depth int, forms map[string]string, lengths map[string]int) (*node, error) {
	word, elements, err := reading.Word(value, place, lengths)
	if err != nil {
		return nil, err
	}
	read := &node{word: word, place: place}
	for i, kind := range forms[word] {
		if err := r.element(read, kind, elements[i+1], reading.Within(place, i+1), depth+1); err != nil {
			return nil, err
		}
	}
	return read, nil
}

// element reads what follows a node's word, and puts it into the node.
func (r *programReader) element(read *node, kind rune, value interface{}, place string, depth int) error {
	var err error
	switch kind {
	case 'v':
		read.variable, err = reading.Number(value, place, 0, 15)
	case 'l':
		read.lease, err = reading.Count(value, place)
	case 'n':
		read.limit, err = reading.Number(value, place, 0, 1000)
	case 'b':
		var statements []*node
		statements, err = r.block(value, place, depth)
		read.blocks = append(read.blocks, statements)
	case 'e':
		var part *node
		part, err = r.expression(value, place, depth)
		read.parts = append(read.parts, part)
	case 'c':
		var part *node
		part, err = r.condition(value, place, depth)
		read.parts = append(read.parts, part)
	}
	return err
}

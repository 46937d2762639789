package main

import (
	"math"

	"go.etcd.io/etcd/clientv3"
	"go.etcd.io/etcd/clientv3/concurrency"

	"stmprogram"
	"stmprogram/reading"
)

const (
	mostEvents     = 100000
	highestBegin   = math.MaxInt64 - 1
	mostOperations = 128
	mostCommits    = math.MaxUint32
	mostLeaseTime  = 9000000000
)

// event is one of a scenario: taking it gives its line of the report.
type event interface {
	take(w *world) (line, error)
}

type startEvent struct {
	level   concurrency.Isolation
	limit   int64
	program *stmprogram.Program
}
type stepEvent struct{ runner int64 }
type txnEvent struct {
	compares        []clientv3.Cmp
	then, otherwise []clientv3.Op
}
type grantEvent struct{ id, ttl int64 }
type keepEvent struct{ id int64 }
type revokeEvent struct{ id int64 }
type advanceEvent struct{ now int64 }
type watchEvent struct {
	first string
	end   string // "" for the one key
	from  int64
}
type compactEvent struct{ revision int64 }
type pollEvent struct{ watcher, most int64 }
type cancelEvent struct{ watcher int64 }

// scenario is where the store opens, how many operations it takes, and the events with their places in the text.
type scenario struct {
	begin      int64
	operations int64
	events     []event
	places     []string
}

var eventLengths = map[string]int{
	"start": 4, "step": 2, "txn": 4, "grant": 3, "keep": 2, "revoke": 2, "advance": 2, "compact": 2,
	"watch_key": 3, "watch_range": 4, "poll": 3, "cancel": 2,
}

// readScenario reads a scenario, or returns its first fault.
func readScenario(text []byte) (*scenario, error) {
	value, err := reading.Value(text)
	if err != nil {
		return nil, err
	}
	elements, err := reading.Array(value, "")
	if err != nil {
		return nil, err
	}
	read := &scenario{begin: 1, operations: mostOperations}
	for i, element := range elements {
		place := reading.Within("", i)
		if i == 0 && reading.BeginsWith(element, "begin") {
			if err = read.open(element, place); err != nil {
				return nil, err
			}
			continue
		}
		if len(read.events) == mostEvents {
			return nil, &reading.Fault{Place: place, Cause: "TooMany"}
		}
		one, err := readEvent(element, place)
		if err != nil {
			return nil, err
		}
		read.events = append(read.events, one)
		read.places = append(read.places, place)
	}
	return read, nil
}

// open reads where the store opens, and how many operations it takes, where that is said.
func (s *scenario) open(value interface{}, place string) error {
	length := 2
	if elements, isArray := value.([]interface{}); isArray && len(elements) == 3 {
		length = 3
	}
	_, elements, err := reading.Word(value, place, map[string]int{"begin": length})
	if err != nil {
		return err
	}
	if s.begin, err = reading.Number(elements[1], reading.Within(place, 1), 1, highestBegin); err != nil || length == 2 {
		return err
	}
	s.operations, err = reading.Number(elements[2], reading.Within(place, 2), 1, mostOperations)
	return err
}

func readEvent(value interface{}, place string) (event, error) {
	word, elements, err := reading.Word(value, place, eventLengths)
	if err != nil {
		return nil, err
	}
	switch word {
	case "start":
		return readStart(elements, place)
	case "txn":
		return readTxn(elements, place)
	case "watch_key", "watch_range":
		return readWatch(elements, place)
	}
	return readNumbers(word, elements, place)
}

func readStart(elements []interface{}, place string) (event, error) {
	name, isText := elements[1].(string)
	level, isLevel := stmprogram.Levels[name]
	if !isText || !isLevel {
		return nil, &reading.Fault{Place: reading.Within(place, 1), Cause: "Shape"}
	}
	limit, err := reading.Number(elements[2], reading.Within(place, 2), 0, mostCommits)
	if err != nil {
		return nil, err
	}
	program, err := stmprogram.Read(elements[3], reading.Within(place, 3))
	return &startEvent{level, limit, program}, err
}

func readWatch(elements []interface{}, place string) (event, error) {
	read := &watchEvent{}
	var err error
	if read.first, err = reading.Text(elements[1], reading.Within(place, 1)); err != nil {
		return nil, err
	}
	if len(elements) == 4 {
		if read.end, err = reading.Text(elements[2], reading.Within(place, 2)); err != nil {
			return nil, err
		}
		if read.end <= read.first {
			read.end = noKeys
		}
	}
	last := len(elements) - 1
	read.from, err = reading.Count(elements[last], reading.Within(place, last))
	return read, err
}

// readNumbers reads an event that has numbers alone.
func readNumbers(word string, elements []interface{}, place string) (event, error) {
	numbers := [2]int64{}
	for i, element := range elements[1:] {
		number, err := reading.Count(element, reading.Within(place, i+1))
		if err != nil {
			return nil, err
		}
		numbers[i] = number
	}
	switch word {
	case "step":
		return &stepEvent{numbers[0]}, nil
	case "grant":
		return &grantEvent{numbers[0], numbers[1]}, nil
	case "keep":
		return &keepEvent{numbers[0]}, nil
	case "revoke":
		return &revokeEvent{numbers[0]}, nil
	case "advance":
		return &advanceEvent{numbers[0]}, nil
	case "compact":
		return &compactEvent{numbers[0]}, nil
	case "poll":
		return &pollEvent{numbers[0], numbers[1]}, nil
	}
	return &cancelEvent{numbers[0]}, nil
}

package main

import (
	"math"

	"go.etcd.io/etcd/clientv3"
	pb "go.etcd.io/etcd/etcdserver/etcdserverpb"

	"stmprogram"
	"stmprogram/reading"
)

var compareLengths = map[string]int{"version": 4, "create": 4, "mod": 4, "lease": 4, "value": 4}

var operationLengths = map[string]int{"get": 3, "put": 4, "del": 2}

var orders = map[string]bool{"=": true, "!=": true, ">": true, "<": true}

func readTxn(elements []interface{}, place string) (event, error) {
	read := &txnEvent{}
	compares, err := reading.Array(elements[1], reading.Within(place, 1))
	if err != nil {
		return nil, err
	}
	for i, element := range compares {
		compare, err := readCompare(element, reading.Within(reading.Within(place, 1), i))
		if err != nil {
			return nil, err
		}
		read.compares = append(read.compares, compare)
	}
	if read.then, err = readOperations(elements[2], reading.Within(place, 2)); err != nil {
		return nil, err
	}
	read.otherwise, err = readOperations(elements[3], reading.Within(place, 3))
	return read, err
}

func readCompare(value interface{}, place string) (clientv3.Cmp, error) {
	none := clientv3.Cmp{}
	word, elements, err := reading.Word(value, place, compareLengths)
	if err != nil {
		return none, err
	}
	key, err := reading.Text(elements[1], reading.Within(place, 1))
	if err != nil {
		return none, err
	}
	order, isText := elements[2].(string)
	if !isText || !orders[order] {
		return none, &reading.Fault{Place: reading.Within(place, 2), Cause: "Shape"}
	}
	if word == "value" {
		text, err := reading.Text(elements[3], reading.Within(place, 3))
		if err != nil {
			return none, err
		}
		return clientv3.Compare(clientv3.Value(key), order, text), nil
	}
	number, err := reading.Count(elements[3], reading.Within(place, 3))
	if err != nil {
		return none, err
	}
	return compareOfNumber(word, key, order, number), nil
}

func compareOfNumber(word, key, order string, number int64) clientv3.Cmp {
	switch word {
	case "version":
		return clientv3.Compare(clientv3.Version(key), order, number)
	case "create":
		return clientv3.Compare(clientv3.CreateRevision(key), order, number)
	case "mod":
		return clientv3.Compare(clientv3.ModRevision(key), order, number)
	}
	return clientv3.Compare(clientv3.LeaseValue(key), order, number)
}

func readOperations(value interface{}, place string) ([]clientv3.Op, error) {
	elements, err := reading.Array(value, place)
	if err != nil {
		return nil, err
	}
	var operations []clientv3.Op
	for i, element := range elements {
		operation, err := readOperation(element, reading.Within(place, i))
		if err != nil {
			return nil, err
		}
		operations = append(operations, operation)
	}
	return operations, nil
}

func readOperation(value interface{}, place string) (clientv3.Op, error) {
	none := clientv3.Op{}
	word, elements, err := reading.Word(value, place, operationLengths)
	if err != nil {
		return none, err
	}
	key, err := reading.Text(elements[1], reading.Within(place, 1))
	if err != nil {
		return none, err
	}
	switch word {
	case "get":
		revision, err := reading.Number(elements[2], reading.Within(place, 2), 0, math.MaxInt64)
		return clientv3.OpGet(key, clientv3.WithRev(revision)), err
	case "put":
		text, err := reading.Text(elements[2], reading.Within(place, 2))
		if err != nil {
			return none, err
		}
		lease, err := reading.Count(elements[3], reading.Within(place, 3))
		return clientv3.OpPut(key, text, clientv3.WithLease(clientv3.LeaseID(lease))), err
	}
	return clientv3.OpDelete(key), nil
}

// request is a transaction that is sent to etcd.
type request struct {
	compares        []clientv3.Cmp
	then, otherwise []clientv3.Op
}

// send sends a transaction, and keeps what it changed.
func (w *world) send(r *request) (*clientv3.TxnResponse, error) {
	response, err := w.client.Txn(w.context).If(r.compares...).Then(r.then...).Else(r.otherwise...).Commit()
	if err != nil {
		return nil, err
	}
	w.advanceTo(response.Header.Revision, changedKeys(r.branch(response), response.Responses))
	return response, nil
}

// branch are the operations that ran.
func (r *request) branch(response *clientv3.TxnResponse) []clientv3.Op {
	if response.Succeeded {
		return r.then
	}
	return r.otherwise
}

// changedKeys are the keys that operations with these answers changed.
func changedKeys(operations []clientv3.Op, answers []*pb.ResponseOp) []string {
	var keys []string
	for i, operation := range operations {
		if operation.IsPut() || operation.IsDelete() && answers[i].GetResponseDeleteRange().Deleted > 0 {
			keys = append(keys, string(operation.KeyBytes()))
		}
	}
	return keys
}

func (e *txnEvent) take(w *world) (line, error) {
	sent := &request{e.compares, e.then, e.otherwise}
	before := w.revision
	response, err := w.send(sent)
	if err != nil {
		return refusedBy(err)
	}
	if w.revision > before {
		w.entries++
	}
	answers := line{}
	for i, operation := range sent.branch(response) {
		answers = append(answers, answerLine(operation, response.Responses[i]))
	}
	return line{"txn", response.Succeeded, response.Header.Revision, answers}, nil
}

// refusedBy is the line of a refusal of etcd's; another error ends the run.
func refusedBy(err error) (line, error) {
	name, isRefusal := stmprogram.RefusalName(err)
	if !isRefusal {
		return nil, err
	}
	return refused(name), nil
}

// answerLine is what the report has of an operation's answer.
func answerLine(operation clientv3.Op, answer *pb.ResponseOp) line {
	switch {
	case operation.IsPut():
		return line{"put"}
	case operation.IsDelete():
		return line{"del", answer.GetResponseDeleteRange().Deleted}
	}
	read := answer.GetResponseRange()
	if len(read.Kvs) == 0 {
		return line{"get", read.Header.Revision, nil}
	}
	kv := read.Kvs[0]
	return line{"get", read.Header.Revision, line{string(kv.Value), kv.CreateRevision, kv.ModRevision, kv.Version, kv.Lease}}
}

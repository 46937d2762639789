package main

import (
	"context"
	"fmt"

	"go.etcd.io/etcd/clientv3"
	"go.etcd.io/etcd/clientv3/concurrency"
	pb "go.etcd.io/etcd/etcdserver/etcdserverpb"

	"stmprogram"
)

// runner is a goroutine in which a program runs over the client's unmodified transactional memory. Its transactions pass a gate, at which each waits
// for the runner's next step.
type runner struct {
	number   int64
	level    concurrency.Isolation
	limit    int64
	program  *stmprogram.Program
	commits  int64
	hasEnded bool
	hasList  bool     // whether the attempt has its list, or has none to read
	noted    *attempt // the last attempt of which a note was made
	attempt  *attempt // what runs; the driver looks at it only while the runner stands at the gate or has ended
	answers  line     // what was fetched, as ReadCommitted reports it
	arrivals chan arrival
	replies  chan reply
}

// arrival is what a runner comes to: a transaction at the gate, or its end.
type arrival struct {
	sent     *request // nil at the end
	response *clientv3.TxnResponse
	err      error
}

// reply is what the driver lets through the gate.
type reply struct {
	response *clientv3.TxnResponse
	err      error
}

// gate is the store that a runner's transactional memory is given: it has the transactions of etcd's client, and nothing else.
type gate struct {
	clientv3.KV
	runner *runner
}

// gatedTxn gathers a transaction, and waits at the gate when it is sent.
type gatedTxn struct {
	runner *runner
	sent   request
}

func (g gate) Txn(context.Context) clientv3.Txn { return &gatedTxn{runner: g.runner} }

func (t *gatedTxn) If(compares ...clientv3.Cmp) clientv3.Txn {
	t.sent.compares = compares
	return t
}

func (t *gatedTxn) Then(operations ...clientv3.Op) clientv3.Txn {
	t.sent.then = operations
	return t
}

func (t *gatedTxn) Else(operations ...clientv3.Op) clientv3.Txn {
	t.sent.otherwise = operations
	return t
}

func (t *gatedTxn) Commit() (*clientv3.TxnResponse, error) {
	t.runner.arrivals <- arrival{sent: &t.sent}
	passed := <-t.runner.replies
	return passed.response, passed.err
}

// start runs the program until it arrives somewhere.
func (r *runner) start(ctx context.Context) {
	r.arrivals, r.replies = make(chan arrival), make(chan reply)
	client := clientv3.NewCtxClient(ctx)
	client.KV = gate{runner: r}
	apply := func(stm concurrency.STM) error {
		var readBefore map[string]bool
		if r.attempt != nil {
			readBefore = r.attempt.isRead
		}
		if len(r.program.List()) == 0 {
			r.answers = line{}
		}
		r.hasList = true
		r.attempt = newAttempt(stm, r.program.List(), readBefore)
		return r.attempt.run.Run(r.program)
	}
	go func() {
		response, err := concurrency.NewSTM(client, apply, concurrency.WithIsolation(r.level), concurrency.WithPrefetch(r.program.List()...))
		r.arrivals <- arrival{response: response, err: err}
	}()
}

// finish lets a last answer through the gate, and waits for what the transactional memory makes of it.
func (r *runner) finish(last reply) error {
	r.replies <- last
	end := <-r.arrivals
	r.hasEnded = true
	if end.sent != nil || end.response != last.response || end.err != last.err {
		return fmt.Errorf("runner %d did not end with the answer to its commit", r.number)
	}
	return nil
}

func (e *startEvent) take(w *world) (line, error) {
	if e.limit == 0 {
		return refused("BadLimit"), nil
	}
	r := &runner{number: int64(len(w.runners)) + 1, level: e.level, limit: e.limit, program: e.program}
	w.runners = append(w.runners, r)
	r.hasList = len(r.program.List()) == 0
	r.start(w.context)
	return line{"started", r.number}, nil
}

func (e *stepEvent) take(w *world) (line, error) {
	if e.runner < 1 || e.runner > int64(len(w.runners)) || w.runners[e.runner-1].hasEnded {
		return refused("NoRunner"), nil
	}
	r := w.runners[e.runner-1]
	came := <-r.arrivals
	r.note(w)
	if came.sent == nil {
		r.hasEnded = true
		return r.endLine(came.err)
	}
	if isFetch(came.sent) && !r.hasList {
		return r.fetchList(w, came.sent)
	}
	if isFetch(came.sent) {
		return r.fetch(w, came.sent)
	}
	return r.commit(w, came.sent)
}

// note prints once of an attempt, where notes are wanted, that etcd's client does otherwise than stmrun in it.
func (r *runner) note(w *world) {
	isSerializable := r.level == concurrency.SerializableSnapshot || r.level == concurrency.Serializable
	if w.notes != nil && isSerializable && r.attempt != nil && r.attempt.isApart && r.noted != r.attempt {
		r.noted = r.attempt
		fmt.Fprintf(w.notes, "[\"asked\",%d,%d]\n", w.event, r.number)
	}
}

// endLine is the line of an end by the program.
func (r *runner) endLine(err error) (line, error) {
	switch end := err.(type) {
	case stmprogram.Aborted:
		return line{"aborted", r.number, end.Text}, nil
	case stmprogram.Faulted:
		return line{"faulted", r.number, string(end)}, nil
	}
	return nil, fmt.Errorf("runner %d ended with %v", r.number, err)
}

// isFetch says whether a transaction is the one read of a fetch, and not a commit, whose operations are writes.
func isFetch(sent *request) bool {
	return len(sent.then) > 0 && sent.then[0].IsGet()
}

func (r *runner) fetch(w *world, sent *request) (line, error) {
	response, err := w.send(sent)
	if err != nil {
		return r.refusedEnd(err)
	}
	answer := response.Responses[0].GetResponseRange()
	key, shown := string(sent.then[0].KeyBytes()), sent.then[0].Rev()
	if shown == 0 {
		shown = answer.Header.Revision
	}
	content, mod := contentOf(answer)
	r.answers = append(r.answers, line{key, content, mod, shown})
	r.replies <- reply{response: response}
	return line{"fetched", r.number, key, mod, shown, answer.Header.Revision}, nil
}

// fetchList is the fetch of a program's list.
func (r *runner) fetchList(w *world, sent *request) (line, error) {
	response, err := w.send(sent)
	if err != nil {
		return r.refusedEnd(err)
	}
	read := line{}
	r.answers = line{}
	for i, one := range response.Responses {
		content, mod := contentOf(one.GetResponseRange())
		key := string(sent.then[i].KeyBytes())
		read = append(read, line{key, mod})
		r.answers = append(r.answers, line{key, content, mod, response.Header.Revision})
	}
	r.replies <- reply{response: response}
	return line{"prefetched", r.number, response.Header.Revision, read}, nil
}

// refusedEnd is the line of an end by a refusal of etcd's.
func (r *runner) refusedEnd(err error) (line, error) {
	name, isRefusal := stmprogram.RefusalName(err)
	if !isRefusal {
		return nil, err
	}
	return line{"ended", r.number, name}, r.finish(reply{err: err})
}

// contentOf is the value, nil where the key is absent, and the modification revision, 0 there.
func contentOf(answer *pb.RangeResponse) (interface{}, int64) {
	if len(answer.Kvs) == 0 {
		return nil, 0
	}
	return string(answer.Kvs[0].Value), answer.Kvs[0].ModRevision
}

func (r *runner) commit(w *world, sent *request) (line, error) {
	r.commits++
	response, err := w.send(sent)
	if err != nil {
		return r.refusedEnd(err)
	}
	if !response.Succeeded {
		return r.conflict(w, sent, response)
	}
	w.entries++
	answers := line{}
	if r.level == concurrency.ReadCommitted {
		answers = r.answers
	}
	told := line{"committed", r.number, response.Header.Revision, r.commits, r.attempt.outputs(), r.attempt.trace(), answers}
	return told, r.finish(reply{response: response})
}

func (r *runner) conflict(w *world, sent *request, response *clientv3.TxnResponse) (line, error) {
	failed, err := w.firstFailed(r.attempt, sent.compares, response.Header.Revision)
	if err != nil {
		return nil, err
	}
	r.hasList = len(r.program.List()) == 0
	if r.commits < r.limit {
		r.replies <- reply{response: response}
		return line{"conflict", r.number, failed.key, failed.seen, failed.now}, nil
	}
	told := line{"gaveup", r.number, r.commits, failed.key, failed.seen, failed.now}
	return told, r.finish(reply{err: context.Canceled})
}

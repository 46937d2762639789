// Package tracing logs the commits of etcd's transactional memory, in the form that stmrun audit reads, behind what the store had before the first of them.
//
// NewSTM in it does what concurrency.NewSTM does, by that. What was read is taken from etcd's own answers, since the memory tells neither the modification revision
// of all that it read nor the revision that an answer is of.
package tracing

import (
	"context"
	"encoding/json"
	"io"
	"sort"
	"sync"
	"unicode/utf8"

	"go.etcd.io/etcd/clientv3"
	"go.etcd.io/etcd/clientv3/concurrency"
	pb "go.etcd.io/etcd/etcdserver/etcdserverpb"
)

// Log keeps the commits of the transactions that were run with it, of any number of clients.
type Log struct {
	// Prefix is what all keys begin with that the transactions may read or delete. Where it is said, the trace begins with these keys alone: a user of etcd
	// may have no right to read others, or there may be too many.
	Prefix  string
	mutex   sync.Mutex
	begin   []interface{} // the store before the first of them: the first line of a trace
	commits []commit
}

// commit is a commit: a line of a trace.
type commit struct {
	level    string
	revision int64
	changed  bool // whether it changed anything, so that the revision is its own
	reads    []interface{}
	writes   []interface{}
}

// NewSTM does what concurrency.NewSTM does at a level, and logs the commit. Before its first one a log fetches what the store has.
func (l *Log) NewSTM(ctx context.Context, client *clientv3.Client, level concurrency.Isolation, apply func(concurrency.STM) error) (*clientv3.TxnResponse, error) {
	if err := l.open(ctx, client); err != nil {
		return nil, err
	}
	over := clientv3.NewCtxClient(ctx)
	answers := &answers{KV: client.KV, shown: map[string]interface{}{}}
	over.KV = answers
	var last *memory
	response, err := concurrency.NewSTM(over, func(stm concurrency.STM) error {
		last = &memory{STM: stm, answers: answers, writes: []interface{}{}, written: map[string]bool{}, read: map[string]bool{}}
		return apply(last)
	}, concurrency.WithIsolation(level), concurrency.WithAbortContext(ctx))
	if err == nil {
		l.add(commit{name(level), response.Header.Revision, hasChanged(response), answers.of(last.reads), last.writes})
	}
	return response, err
}

// open fetches what the store has, unless that was done.
func (l *Log) open(ctx context.Context, client *clientv3.Client) error {
	l.mutex.Lock()
	defer l.mutex.Unlock()
	if l.begin != nil {
		return nil
	}
	answer, err := client.Get(ctx, l.Prefix, clientv3.WithPrefix())
	if err != nil {
		return err
	}
	keys := []interface{}{}
	for _, one := range answer.Kvs {
		if utf8.Valid(one.Key) { // JSON has no other texts
			keys = append(keys, []interface{}{string(one.Key), string(one.Value), one.ModRevision})
		}
	}
	l.begin = []interface{}{"begin", answer.Header.Revision, keys}
	return nil
}

func (l *Log) add(one commit) {
	l.mutex.Lock()
	defer l.mutex.Unlock()
	l.commits = append(l.commits, one)
}

// WriteTo writes the trace: what the store had before, and then a commit a line, in the order of their revisions, each behind the one that made its revision.
func (l *Log) WriteTo(w io.Writer) (int64, error) {
	l.mutex.Lock()
	defer l.mutex.Unlock()
	sort.SliceStable(l.commits, func(i, j int) bool {
		a, b := l.commits[i], l.commits[j]
		return a.revision < b.revision || a.revision == b.revision && a.changed && !b.changed
	})
	lines := []interface{}{}
	if l.begin != nil {
		lines = append(lines, l.begin)
	}
	for _, one := range l.commits {
		lines = append(lines, []interface{}{one.level, one.revision, one.reads, one.writes})
	}
	text := []byte("[")
	for i, line := range lines {
		written, err := json.Marshal(line)
		if err != nil {
			return 0, err
		}
		if i > 0 {
			text = append(text, ",\n"...)
		}
		text = append(text, written...)
	}
	count, err := w.Write(append(text, "]\n"...))
	return int64(count), err
}

func name(level concurrency.Isolation) string {
	return [...]string{"SerializableSnapshot", "Serializable", "RepeatableReads", "ReadCommitted"}[level]
}

func hasChanged(response *clientv3.TxnResponse) bool {
	for _, one := range response.Responses {
		if deleted := one.GetResponseDeleteRange(); deleted == nil || deleted.Deleted > 0 {
			return true
		}
	}
	return false
}

// memory is the memory of one attempt: it notes what is read, in the order of first reads, and what is written.
type memory struct {
	concurrency.STM
	answers       *answers
	reads         []string
	writes        []interface{}
	read, written map[string]bool
}

// Get reads no key where the attempt has written one of them. Where it has read one of them, the memory may fetch none of the others.
func (m *memory) Get(keys ...string) string {
	for _, key := range keys {
		if m.written[key] {
			return m.STM.Get(keys...)
		}
	}
	value := m.STM.Get(keys...)
	m.note(keys...)
	return value
}

// Rev reads the key also where the attempt has written it.
func (m *memory) Rev(key string) int64 {
	revision := m.STM.Rev(key)
	m.note(key)
	return revision
}

// note notes those of these keys that have been answered: at this attempt, or by the commit before it that failed.
func (m *memory) note(keys ...string) {
	for _, key := range keys {
		if m.answers.shown[key] != nil && !m.read[key] {
			m.read[key] = true
			m.reads = append(m.reads, key)
		}
	}
}

func (m *memory) Put(key, value string, options ...clientv3.OpOption) {
	m.STM.Put(key, value, options...)
	m.written[key] = true
	m.writes = append(m.writes, []interface{}{"put", key, value})
}

func (m *memory) Del(key string) {
	m.STM.Del(key)
	m.written[key] = true
	m.writes = append(m.writes, []interface{}{"del", key})
}

// answers is a client's KV that keeps the last answer that etcd gave for each key, since the last commit that failed.
type answers struct {
	clientv3.KV
	shown map[string]interface{}
}

// of is what a trace says of these keys.
func (a *answers) of(keys []string) []interface{} {
	reads := []interface{}{}
	for _, key := range keys {
		reads = append(reads, a.shown[key])
	}
	return reads
}

func (a *answers) Txn(ctx context.Context) clientv3.Txn { return &txn{Txn: a.KV.Txn(ctx), answers: a} }

// txn is a transaction that hands its answers on.
type txn struct {
	clientv3.Txn
	answers          *answers
	success, failure []clientv3.Op
}

func (t *txn) If(compares ...clientv3.Cmp) clientv3.Txn { t.Txn = t.Txn.If(compares...); return t }
func (t *txn) Then(ops ...clientv3.Op) clientv3.Txn {
	t.Txn, t.success = t.Txn.Then(ops...), ops
	return t
}
func (t *txn) Else(ops ...clientv3.Op) clientv3.Txn {
	t.Txn, t.failure = t.Txn.Else(ops...), ops
	return t
}

func (t *txn) Commit() (*clientv3.TxnResponse, error) {
	response, err := t.Txn.Commit()
	if err != nil {
		return nil, err
	}
	ops := t.success
	if !response.Succeeded { // a commit that failed: the next attempt begins with its answers alone
		ops = t.failure
		t.answers.shown = map[string]interface{}{}
	}
	for i, op := range ops {
		if op.IsGet() {
			t.answers.shown[string(op.KeyBytes())] = read(op, response.Responses[i].GetResponseRange(), response.Header.Revision)
		}
	}
	return response, nil
}

// read is a read of a trace: the key, its value and modification revision, and the revision that the answer is of.
func read(op clientv3.Op, answer *pb.RangeResponse, revision int64) []interface{} {
	if op.Rev() != 0 {
		revision = op.Rev()
	}
	if len(answer.Kvs) == 0 {
		return []interface{}{string(op.KeyBytes()), nil, 0, revision}
	}
	return []interface{}{string(op.KeyBytes()), string(answer.Kvs[0].Value), answer.Kvs[0].ModRevision, revision}
}

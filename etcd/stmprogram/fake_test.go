package stmprogram

import (
	"context"

	"go.etcd.io/etcd/clientv3"
	"go.etcd.io/etcd/etcdserver/api/v3rpc/rpctypes"
	pb "go.etcd.io/etcd/etcdserver/etcdserverpb"
	"go.etcd.io/etcd/mvcc/mvccpb"
)

// memory is the four calls over keys that nobody else changes.
type memory struct {
	values map[string]string
	mods   map[string]int64
	writes map[string]string // what was put last, "" after a deletion
}

func (m *memory) Get(key string) string {
	if value, isWritten := m.writes[key]; isWritten {
		return value
	}
	return m.values[key]
}
func (m *memory) Rev(key string) int64           { return m.mods[key] }
func (m *memory) Put(key, value string, _ int64) { m.writes[key] = value }
func (m *memory) Del(key string)                 { m.writes[key] = "" }

func emptyMemory() *memory {
	return &memory{map[string]string{}, map[string]int64{}, map[string]string{}}
}

// store is an etcd of one member with what the Go client's transactional memory asks of it: transactions that compare modification revisions, get, put and delete.
type store struct {
	clientv3.KV
	revision int64
	states   []map[string]*mvccpb.KeyValue // the state at each revision from 1 on
	leases   map[int64]bool
	sent     int
	// before is called before a transaction is taken; an error of it is its answer, and it is not taken.
	before func(s *store, isCommit bool) error
	// after is called once a transaction is taken; an error of it is its answer.
	after func(s *store, isCommit bool) error
}

func newStore() *store {
	return &store{revision: 1, states: []map[string]*mvccpb.KeyValue{{}, {}}, leases: map[int64]bool{}}
}

// client is a client of the store.
func (s *store) client() *clientv3.Client {
	made := clientv3.NewCtxClient(context.Background())
	made.KV = s
	return made
}

// put is another client's put.
func (s *store) put(key, value string) {
	s.apply([]clientv3.Op{clientv3.OpPut(key, value)})
}

func (s *store) now() map[string]*mvccpb.KeyValue { return s.states[s.revision] }

type storeTxn struct {
	store           *store
	compares        []clientv3.Cmp
	then, otherwise []clientv3.Op
}

func (s *store) Txn(context.Context) clientv3.Txn { return &storeTxn{store: s} }

func (t *storeTxn) If(compares ...clientv3.Cmp) clientv3.Txn {
	t.compares = compares
	return t
}

func (t *storeTxn) Then(operations ...clientv3.Op) clientv3.Txn {
	t.then = operations
	return t
}

func (t *storeTxn) Else(operations ...clientv3.Op) clientv3.Txn {
	t.otherwise = operations
	return t
}

func (t *storeTxn) Commit() (*clientv3.TxnResponse, error) {
	s := t.store
	isCommit := len(t.then) == 0 || !t.then[0].IsGet()
	if s.before != nil {
		if err := s.before(s, isCommit); err != nil {
			return nil, err
		}
	}
	s.sent++
	branch, holds := t.then, t.holds()
	if !holds {
		branch = t.otherwise
	}
	responses, err := s.apply(branch)
	if err != nil {
		return nil, err
	}
	if s.after != nil {
		if err := s.after(s, isCommit); err != nil {
			return nil, err
		}
	}
	return &clientv3.TxnResponse{Header: &pb.ResponseHeader{Revision: s.revision}, Succeeded: holds, Responses: responses}, nil
}

func (t *storeTxn) holds() bool {
	for _, compare := range t.compares {
		mod := int64(0)
		if kv := t.store.now()[string(compare.Key)]; kv != nil {
			mod = kv.ModRevision
		}
		bound := compare.TargetUnion.(*pb.Compare_ModRevision).ModRevision
		if compare.Result == pb.Compare_EQUAL && mod != bound || compare.Result == pb.Compare_LESS && mod >= bound {
			return false
		}
	}
	return true
}

// apply runs operations as one revision, or none where they change nothing.
func (s *store) apply(operations []clientv3.Op) ([]*pb.ResponseOp, error) {
	next := map[string]*mvccpb.KeyValue{}
	for key, kv := range s.now() {
		next[key] = kv
	}
	hasChanged := false
	var gets []clientv3.Op
	for _, operation := range operations {
		key := string(operation.KeyBytes())
		switch {
		case operation.IsGet():
			gets = append(gets, operation)
		case operation.IsPut():
			hasChanged = true
			next[key] = &mvccpb.KeyValue{Key: operation.KeyBytes(), Value: operation.ValueBytes(), ModRevision: s.revision + 1}
		case next[key] != nil:
			hasChanged = true
			delete(next, key)
		}
	}
	if hasChanged {
		s.revision++
		s.states = append(s.states, next)
	}
	var responses []*pb.ResponseOp
	for _, get := range gets {
		response, err := s.read(get)
		if err != nil {
			return nil, err
		}
		responses = append(responses, response)
	}
	return responses, nil
}

func (s *store) read(get clientv3.Op) (*pb.ResponseOp, error) {
	at := get.Rev()
	if at == 0 {
		at = s.revision
	}
	if at > s.revision {
		return nil, rpctypes.ErrFutureRev
	}
	found := &pb.RangeResponse{Header: &pb.ResponseHeader{Revision: s.revision}}
	if kv := s.states[at][string(get.KeyBytes())]; kv != nil {
		found.Kvs = []*mvccpb.KeyValue{kv}
	}
	return &pb.ResponseOp{Response: &pb.ResponseOp_ResponseRange{ResponseRange: found}}, nil
}

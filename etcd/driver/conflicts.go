package main

import (
	"errors"

	"go.etcd.io/etcd/clientv3"
	pb "go.etcd.io/etcd/etcdserver/etcdserverpb"
)

// failedCompare is the key of a compare that failed, what was seen of it, and its modification revision.
type failedCompare struct {
	key       string
	seen, now int64
}

// firstFailed finds the first compare that fails, the keys read standing before those written and each in the order of the program; etcd itself says
// only that one fails, so the keys are read once more at the revision of that answer.
func (w *world) firstFailed(made *attempt, compares []clientv3.Cmp, revision int64) (*failedCompare, error) {
	ordered := inOrder(made, compares)
	mods, err := w.modsAt(ordered, revision)
	if err != nil {
		return nil, err
	}
	for i, compare := range ordered {
		bound, now := boundOf(compare), mods[i]
		if compare.Result == pb.Compare_EQUAL && now != bound {
			return &failedCompare{string(compare.Key), bound, now}, nil
		}
		if compare.Result == pb.Compare_LESS && now >= bound {
			return &failedCompare{string(compare.Key), bound - 1, now}, nil
		}
	}
	return nil, errors.New("a commit failed of which no compare fails")
}

// inOrder puts the compares of a commit, which come in the order of a map, into that of the program.
func inOrder(made *attempt, compares []clientv3.Cmp) []clientv3.Cmp {
	var ordered []clientv3.Cmp
	add := func(keys []string, result pb.Compare_CompareResult) {
		for _, key := range keys {
			for _, compare := range compares {
				if string(compare.Key) == key && compare.Result == result {
					ordered = append(ordered, compare)
				}
			}
		}
	}
	add(made.reads, pb.Compare_EQUAL)
	add(made.writes, pb.Compare_LESS)
	return ordered
}

// boundOf is the number that a modification revision is compared with.
func boundOf(compare clientv3.Cmp) int64 {
	return compare.TargetUnion.(*pb.Compare_ModRevision).ModRevision
}

// modsAt reads the modification revisions of the compares' keys at a revision.
func (w *world) modsAt(compares []clientv3.Cmp, revision int64) ([]int64, error) {
	var mods []int64
	for len(compares) > 0 {
		count := len(compares)
		if int64(count) > w.operations {
			count = int(w.operations)
		}
		var reads []clientv3.Op
		for _, compare := range compares[:count] {
			reads = append(reads, clientv3.OpGet(string(compare.Key), clientv3.WithRev(revision)))
		}
		response, err := w.client.Txn(w.context).Then(reads...).Commit()
		if err != nil {
			return nil, err
		}
		for _, answer := range response.Responses {
			_, mod := contentOf(answer.GetResponseRange())
			mods = append(mods, mod)
		}
		compares = compares[count:]
	}
	return mods, nil
}

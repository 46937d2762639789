package main

import (
	"bytes"
	"context"
	"fmt"
	"io"
	"sort"

	"go.etcd.io/etcd/clientv3"
)

// world is a real etcd, and what the driver keeps beside it.
type world struct {
	context    context.Context
	client     *clientv3.Client
	runners    []*runner
	leases     map[int64]*term
	moment     uint64
	watchers   []*watcher
	revision   int64 // the last one that an answer of etcd's carried
	floor      int64 // the revision of the last compaction
	changes    []change
	entries    int64
	operations int64     // how many a transaction may have
	event      int       // the number of the event that is taken
	notes      io.Writer // nil where none are wanted
}

// advanceTo keeps the revision that an answer carries, and the keys that it changed where it is a new one.
func (w *world) advanceTo(revision int64, keys []string) {
	if revision > w.revision {
		w.revision = revision
		w.changes = append(w.changes, change{revision, keys})
	}
}

// play takes all events of a scenario in a new etcd, and writes the report.
func play(ctx context.Context, client *clientv3.Client, s *scenario, notes io.Writer) ([]byte, error) {
	w := &world{context: ctx, client: client, leases: map[int64]*term{}, notes: notes, operations: s.operations}
	if err := w.open(s.begin); err != nil {
		return nil, err
	}
	var report bytes.Buffer
	for i, one := range s.events {
		w.event = i + 1
		told, err := one.take(w)
		if err != nil {
			return nil, fmt.Errorf("event %d: %v", w.event, err)
		}
		append(line{int64(w.event)}, told...).write(&report)
		report.WriteByte('\n')
	}
	last, err := w.lastLines()
	if err != nil {
		return nil, err
	}
	for _, one := range last {
		one.write(&report)
		report.WriteByte('\n')
	}
	return report.Bytes(), nil
}

// open brings the new etcd to a revision at which it is empty: puts of a key that no scenario has, and its deletion.
func (w *world) open(begin int64) error {
	for next := int64(2); next <= begin; next++ {
		write := clientv3.OpPut(scratchKey, "")
		if next == begin {
			write = clientv3.OpDelete(scratchKey)
		}
		if _, err := w.client.Do(w.context, write); err != nil {
			return err
		}
	}
	response, err := w.client.Get(w.context, scratchKey)
	if err != nil {
		return err
	}
	w.revision = response.Header.Revision
	if w.revision != begin {
		return fmt.Errorf("the new etcd is at revision %d and not %d", w.revision, begin)
	}
	return nil
}

// lastLines are those of the keys, the leases and the end.
func (w *world) lastLines() ([]line, error) {
	present, err := w.client.Get(w.context, "\x00", clientv3.WithFromKey(), clientv3.WithSort(clientv3.SortByKey, clientv3.SortAscend))
	if err != nil {
		return nil, err
	}
	var last []line
	for _, kv := range present.Kvs {
		last = append(last, line{"key", string(kv.Key), string(kv.Value), kv.CreateRevision, kv.ModRevision, kv.Version, kv.Lease})
	}
	live, err := w.liveLeases()
	if err != nil {
		return nil, err
	}
	for _, id := range live {
		held := w.leases[id]
		if held == nil {
			return nil, fmt.Errorf("etcd has a lease %d that was not granted here, or has ended", id)
		}
		last = append(last, line{"lease", id, held.ttl, held.renewed})
	}
	return append(last, line{"end", present.Header.Revision, w.entries}), nil
}

// liveLeases are the ids of the leases that etcd has, ascending.
func (w *world) liveLeases() ([]int64, error) {
	response, err := w.client.Leases(w.context)
	if err != nil {
		return nil, err
	}
	ids := make([]int64, 0, len(response.Leases))
	for _, one := range response.Leases {
		ids = append(ids, int64(one.ID))
	}
	sort.Slice(ids, func(i, j int) bool { return ids[i] < ids[j] })
	return ids, nil
}

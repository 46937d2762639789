package main

import (
	"context"
	"errors"
	"fmt"
	"os"
	"time"

	"go.etcd.io/etcd/clientv3"
)

// longestWait is how long an event is waited for that etcd has to send.
const longestWait = 20 * time.Second

// watcher is a watch of etcd's client, and what it has received.
type watcher struct {
	watched  watchEvent
	channel  clientv3.WatchChan
	cancel   context.CancelFunc // nil once it is cancelled
	told     int64              // the polls have given everything up to this revision
	received []*clientv3.Event  // what etcd sent and no poll has given
	newest   int64              // the revision of the last event that etcd sent
	lost     int64              // the compacted revision where etcd has cancelled it for that, else 0
}

// change is what a revision changed.
type change struct {
	revision int64
	keys     []string
}

func (e *watchEvent) take(w *world) (line, error) {
	ctx, cancel := context.WithCancel(w.context)
	options := []clientv3.OpOption{clientv3.WithRev(e.from), clientv3.WithCreatedNotify()}
	if e.end != "" {
		options = append(options, clientv3.WithRange(e.end))
	}
	made := &watcher{watched: *e, cancel: cancel, told: w.revision}
	if e.from > 0 {
		made.told = e.from - 1
	}
	made.channel = w.client.Watch(ctx, e.first, options...)
	if !made.receive(longestWait) {
		cancel()
		return nil, errors.New("etcd made no watch")
	}
	for e.from > 0 && e.from < w.floor && made.receive(longestWait) {
	}
	w.watchers = append(w.watchers, made)
	return line{"watching", int64(len(w.watchers))}, nil
}

// receive waits for one answer of etcd's, and keeps its events.
func (t *watcher) receive(patience time.Duration) bool {
	select {
	case response, isOpen := <-t.channel:
		if isOpen && response.CompactRevision > 0 {
			t.lost = response.CompactRevision
		}
		if !isOpen || response.Err() != nil {
			return false
		}
		t.received = append(t.received, response.Events...)
		if count := len(response.Events); count > 0 {
			t.newest = response.Events[count-1].Kv.ModRevision
		}
		return true
	case <-time.After(patience):
		return false
	}
}

func (e *watchEvent) matches(key string) bool {
	if e.end == "" {
		return key == e.first
	}
	return e.first <= key && key < e.end
}

// lastDue is the last revision whose events etcd has to send to a watcher, 0 where there is none.
func (w *world) lastDue(t *watcher) int64 {
	for i := len(w.changes) - 1; i >= 0; i-- {
		if w.changes[i].revision <= t.told {
			return 0
		}
		for _, key := range w.changes[i].keys {
			if t.watched.matches(key) {
				return w.changes[i].revision
			}
		}
	}
	return 0
}

// await receives until etcd has sent the last revision that is due.
func (w *world) await(number int64, t *watcher) {
	due := w.lastDue(t)
	for until := time.Now().Add(longestWait); t.newest < due; {
		if !t.receive(time.Until(until)) {
			if t.lost > 0 {
				return
			}
			fmt.Fprintf(os.Stderr, "etcd/run: watcher %d was not told of revision %d\n", number, due)
			return
		}
	}
	for t.receive(0) {
	}
}

// watcherOf is a watcher that was not cancelled, or nil.
func (w *world) watcherOf(number int64) *watcher {
	if number < 1 || number > int64(len(w.watchers)) || w.watchers[number-1].cancel == nil {
		return nil
	}
	return w.watchers[number-1]
}

func (e *pollEvent) take(w *world) (line, error) {
	t := w.watcherOf(e.watcher)
	if t == nil {
		return refused("NoWatcher"), nil
	}
	w.await(e.watcher, t)
	if t.lost > 0 && len(t.received) == 0 {
		t.cancel()
		t.cancel = nil
		return line{"lost", e.watcher, t.lost}, nil
	}
	count, revisions, last := 0, int64(0), int64(0)
	events := line{}
	for ; count < len(t.received); count++ {
		if revision := t.received[count].Kv.ModRevision; revision != last {
			if revisions == e.most {
				break
			}
			revisions, last = revisions+1, revision
		}
		events = append(events, eventLine(t.received[count]))
	}
	t.received = t.received[count:]
	switch {
	case len(t.received) > 0 && last > 0:
		t.told = last
	case len(t.received) == 0 && w.revision > t.told:
		t.told = w.revision
	}
	return line{"batch", e.watcher, t.told, events}, nil
}

func eventLine(told *clientv3.Event) line {
	kv := told.Kv
	if told.Type == clientv3.EventTypeDelete {
		return line{"DELETE", string(kv.Key), kv.ModRevision}
	}
	return line{"PUT", string(kv.Key), string(kv.Value), kv.CreateRevision, kv.ModRevision, kv.Version, kv.Lease}
}

func (e *cancelEvent) take(w *world) (line, error) {
	t := w.watcherOf(e.watcher)
	if t == nil {
		return refused("NoWatcher"), nil
	}
	t.cancel()
	t.cancel = nil
	return line{"cancelled", e.watcher}, nil
}

func (e *compactEvent) take(w *world) (line, error) {
	if _, err := w.client.Compact(w.context, e.revision); err != nil {
		return refusedBy(err)
	}
	w.floor = e.revision
	return line{"compacted", e.revision}, nil
}

package main

import (
	"sort"

	"go.etcd.io/etcd/clientv3"
	pb "go.etcd.io/etcd/etcdserver/etcdserverpb"
)

// heldFor is the time to live, in seconds, that each lease has on the server: long enough that it ends only where the driver revokes it.
const heldFor = 1000000

// term is what the driver keeps of a live lease.
type term struct {
	ttl, renewed uint64
}

func (t *term) due() uint64 {
	return t.renewed + t.ttl
}

func (e *grantEvent) take(w *world) (line, error) {
	// The client's own Grant leaves the choice of the id to the server.
	sent := &pb.LeaseGrantRequest{ID: e.id, TTL: heldFor}
	if _, err := pb.NewLeaseClient(w.client.ActiveConnection()).LeaseGrant(w.context, sent); err != nil {
		return refusedBy(err)
	}
	w.leases[e.id] = &term{uint64(e.ttl), w.moment}
	w.entries++
	return line{"granted", e.id}, nil
}

func (e *keepEvent) take(w *world) (line, error) {
	if _, err := w.client.KeepAliveOnce(w.context, clientv3.LeaseID(e.id)); err != nil {
		return refusedBy(err)
	}
	w.leases[e.id].renewed = w.moment
	w.entries++
	return line{"kept", e.id}, nil
}

func (e *revokeEvent) take(w *world) (line, error) {
	revision, err := w.revoke(e.id)
	if err != nil {
		return refusedBy(err)
	}
	return line{"revoked", e.id, revision}, nil
}

// revoke ends a lease, and returns the revision after it.
func (w *world) revoke(id int64) (int64, error) {
	attached, err := w.client.TimeToLive(w.context, clientv3.LeaseID(id), clientv3.WithAttachedKeys())
	if err != nil {
		return 0, err
	}
	response, err := w.client.Revoke(w.context, clientv3.LeaseID(id))
	if err != nil {
		return 0, err
	}
	var keys []string
	for _, key := range attached.Keys {
		keys = append(keys, string(key))
	}
	w.advanceTo(response.Header.Revision, keys)
	delete(w.leases, id)
	w.entries++
	return response.Header.Revision, nil
}

// take sets the moment and revokes what is due: the time of a real etcd is not set.
func (e *advanceEvent) take(w *world) (line, error) {
	now := uint64(e.now)
	if now < w.moment {
		return refused("TimeGoesBack"), nil
	}
	w.moment = now
	ended := line{}
	for _, id := range w.dueLeases() {
		revision, err := w.revoke(id)
		if err != nil {
			return nil, err
		}
		ended = append(ended, line{id, revision})
	}
	return line{"advanced", e.now, ended}, nil
}

// dueLeases are the leases that are due, by the moment when they were and by id.
func (w *world) dueLeases() []int64 {
	var due []int64
	for id, t := range w.leases {
		if t.due() <= w.moment {
			due = append(due, id)
		}
	}
	sort.Slice(due, func(i, j int) bool {
		a, b := w.leases[due[i]].due(), w.leases[due[j]].due()
		return a < b || a == b && due[i] < due[j]
	})
	return due
}

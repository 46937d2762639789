package main

import (
	"go.etcd.io/etcd/clientv3/concurrency"

	"stmprogram"
)

// attempt is one attempt at a program over etcd's own transactional memory, which keeps what the driver asks of it beside the program's run.
type attempt struct {
	stmprogram.Memory
	run        *stmprogram.Attempt
	reads      []string // the keys that are looked up, in the order of first look-ups
	writes     []string // the keys that are written, in the order of first writes
	isRead     map[string]bool
	isWritten  map[string]bool
	readBefore map[string]bool // what the attempt before read, so that its failed commit read it again
	// isApart says that the program asked for the revision of a key that it had written, where etcd's client does otherwise than stmrun.
	isApart bool
}

// newAttempt is an attempt that has read its program's list.
func newAttempt(stm concurrency.STM, list []string, readBefore map[string]bool) *attempt {
	a := &attempt{Memory: stmprogram.Over(stm), isRead: map[string]bool{}, isWritten: map[string]bool{}, readBefore: readBefore}
	a.run = stmprogram.NewAttempt(a)
	for _, key := range list {
		a.noteRead(key)
	}
	return a
}

func (a *attempt) noteRead(key string) {
	if !a.isRead[key] {
		a.isRead[key] = true
		a.reads = append(a.reads, key)
	}
}

func (a *attempt) noteWrite(key string) {
	if !a.isWritten[key] {
		a.isWritten[key] = true
		a.writes = append(a.writes, key)
	}
}

// Get notes the read of a key that is not written, and gives etcd's client's answer.
func (a *attempt) Get(key string) string {
	if !a.isWritten[key] {
		a.noteRead(key)
	}
	return a.Memory.Get(key)
}

// Rev notes the read. That of a written key is fetched: as the first read it fixes no base, and what a failed commit read of it is not taken.
func (a *attempt) Rev(key string) int64 {
	if a.isWritten[key] && !a.isRead[key] {
		a.isApart = a.isApart || len(a.reads) == 0 || a.readBefore[key]
	}
	a.noteRead(key)
	return a.Memory.Rev(key)
}

// Put notes the write.
func (a *attempt) Put(key, value string, lease int64) {
	a.noteWrite(key)
	a.Memory.Put(key, value, lease)
}

// Del notes the write.
func (a *attempt) Del(key string) {
	a.noteWrite(key)
	a.Memory.Del(key)
}

// outputs is what the attempt emitted, as a line has it.
func (a *attempt) outputs() line {
	told := line{}
	for _, value := range a.run.Output {
		told = append(told, elementOf(value))
	}
	return told
}

// trace is what the attempt looked up, as a line has it.
func (a *attempt) trace() line {
	told := line{}
	for _, item := range a.run.Trace {
		told = append(told, line{item.Word, item.Key, elementOf(item.Value)})
	}
	return told
}

func elementOf(value stmprogram.Value) interface{} {
	if value.IsText {
		return value.Text
	}
	return value.Number
}

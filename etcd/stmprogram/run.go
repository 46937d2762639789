package stmprogram

import (
	"context"
	"errors"
	"fmt"
	"time"

	"go.etcd.io/etcd/clientv3"
	"go.etcd.io/etcd/clientv3/concurrency"
	"go.etcd.io/etcd/etcdserver/api/v3rpc/rpctypes"
	"google.golang.org/grpc/codes"
)

// Level is an isolation level of etcd's Go client.
type Level = concurrency.Isolation

// Levels are the four levels by the names that stmrun has for them, the strongest first in LevelNames.
var Levels = map[string]Level{
	"SerializableSnapshot": concurrency.SerializableSnapshot,
	"Serializable":         concurrency.Serializable,
	"RepeatableReads":      concurrency.RepeatableReads,
	"ReadCommitted":        concurrency.ReadCommitted,
}

// LevelNames are the names of the levels, from the strongest to the weakest.
var LevelNames = []string{"SerializableSnapshot", "Serializable", "RepeatableReads", "ReadCommitted"}

// End says how a run ended.
type End string

const (
	// IsCommitted: the writes stand in the store at Result.Revision.
	IsCommitted End = "committed"
	// IsAborted: the program aborted with the text Result.Detail; nothing was committed.
	IsAborted End = "aborted"
	// IsFaulted: the program faulted by Result.Detail; nothing was committed.
	IsFaulted End = "faulted"
	// IsGivenUp: the last commit that was allowed failed, as each before; nothing was committed.
	IsGivenUp End = "gaveup"
	// IsRefused: etcd refused a fetch or the commit for the cause Result.Detail; nothing was committed.
	IsRefused End = "ended"
)

// Result says how a run ended, and what its last attempt emitted and looked up.
type Result struct {
	End      End
	Detail   string // of an abort its text, of a fault and a refusal its name, else ""
	Revision int64  // of a commit the store's revision after it, else 0
	Attempts int64  // how many commits were sent
	Output   []Value
	Trace    []Looked
	Stopped  *Stopped // of a fault where the program stopped, else nil
}

// Unknown is the error of a run whose commit was sent and had no answer: it may have been made, now or later, or not.
type Unknown struct{ Cause error }

func (u Unknown) Error() string { return fmt.Sprintf("not known whether it committed: %v", u.Cause) }

// Unwrap returns why no answer came.
func (u Unknown) Unwrap() error { return u.Cause }

// Option changes how a program is run.
type Option func(*running)

// WithAttempts ends the run as IsGivenUp once so many commits have failed. Without it a run goes on until it commits or its context ends, as NewSTM does.
func WithAttempts(most uint32) Option {
	return func(r *running) { r.most = int64(most) }
}

// running is a run under way.
type running struct {
	program *Program
	most    int64 // how many commits are sent at most, 0 for any number
	sent    int64
	attempt *Attempt
	memory  *over
	// isCommitting says that the last attempt came to its end, so that what comes next is the answer to its commit.
	isCommitting bool
}

var errGivenUp = errors.New("given up")

// patience is how long a run waits for a member that lags.
const patience = 5 * time.Millisecond

// Run runs a program at a level by concurrency.NewSTM, and says how it ended. Where it has an error, nothing was committed, unless the error is an Unknown.
//
// In a cluster a fetch at an attempt's first revision may come to a member that has not reached it yet. NewSTM ends then; Run waits and begins the attempt again.
func Run(ctx context.Context, client *clientv3.Client, program *Program, level Level, options ...Option) (Result, error) {
	r := &running{program: program}
	for _, option := range options {
		option(r)
	}
	for {
		response, err := concurrency.NewSTM(client, r.apply, concurrency.WithIsolation(level), concurrency.WithAbortContext(ctx))
		switch {
		case err == nil:
			return r.result(IsCommitted, "", response.Header.Revision), nil
		case r.isCommitting || rpctypes.Error(err) != rpctypes.ErrFutureRev:
			return r.ended(err)
		}
		select {
		case <-ctx.Done():
			return Result{}, ctx.Err()
		case <-time.After(patience):
		}
	}
}

// apply is one attempt. The program's list is read as WithPrefetch does it, but here, so that an error tells a fetch from a commit.
func (r *running) apply(stm concurrency.STM) error {
	r.isCommitting = false
	if r.most > 0 && r.sent == r.most {
		return errGivenUp
	}
	r.memory = &over{stm: stm}
	r.attempt = NewAttempt(r.memory)
	if len(r.program.list) > 0 {
		stm.Get(r.program.list...)
	}
	if err := r.attempt.Run(r.program); err != nil {
		return err
	}
	r.sent++
	r.isCommitting = true
	return nil
}

// ended says how a run ended that did not commit.
func (r *running) ended(err error) (Result, error) {
	if err == errGivenUp {
		return r.result(IsGivenUp, "", 0), nil
	}
	switch end := err.(type) {
	case Aborted:
		return r.result(IsAborted, end.Text, 0), nil
	case Faulted:
		return r.result(IsFaulted, string(end), 0), nil
	}
	if name, isRefusal := RefusalName(err); isRefusal {
		return r.result(IsRefused, name, 0), nil
	}
	if r.isCommitting && r.memory.hasWritten && !isAnswered(err) {
		return Result{}, Unknown{err}
	}
	return Result{}, err
}

func (r *running) result(end End, detail string, revision int64) Result {
	return Result{end, detail, revision, r.sent, r.attempt.Output, r.attempt.Trace, r.attempt.Stopped}
}

// refusals are the names of etcd's refusals of a transaction, a lease call or a compaction.
var refusals = []struct {
	cause error
	name  string
}{
	{rpctypes.ErrTooManyOps, "TooManyOps"},
	{rpctypes.ErrEmptyKey, "EmptyKey"},
	{rpctypes.ErrDuplicateKey, "DuplicateKey"},
	{rpctypes.ErrFutureRev, "FutureRevision"},
	{rpctypes.ErrCompacted, "Compacted"},
	{rpctypes.ErrLeaseNotFound, "LeaseNotFound"},
	{rpctypes.ErrLeaseExist, "LeaseExists"},
	{rpctypes.ErrLeaseTTLTooLarge, "TtlOutOfRange"},
}

// RefusalName is stmrun's name of an etcd's refusal; an error of another kind is none.
func RefusalName(err error) (string, bool) {
	for _, one := range refusals {
		if rpctypes.Error(err) == one.cause {
			return one.name, true
		}
	}
	return "", false
}

// isAnswered says whether an error is etcd's own answer that it did not take a request, such as for want of space or of a permission.
func isAnswered(err error) bool {
	answer, isEtcds := rpctypes.Error(err).(rpctypes.EtcdError)
	if !isEtcds {
		return false
	}
	switch answer.Code() {
	case codes.InvalidArgument, codes.NotFound, codes.OutOfRange, codes.FailedPrecondition, codes.ResourceExhausted, codes.PermissionDenied, codes.Unauthenticated:
		return true
	}
	return false
}

// over is a memory over the transactional memory of etcd's Go client.
type over struct {
	stm        concurrency.STM
	hasWritten bool
}

// Over is a memory over the transactional memory of etcd's Go client.
func Over(stm concurrency.STM) Memory { return &over{stm: stm} }

func (o *over) Get(key string) string { return o.stm.Get(key) }
func (o *over) Rev(key string) int64  { return o.stm.Rev(key) }

func (o *over) Put(key, value string, lease int64) {
	o.hasWritten = true
	o.stm.Put(key, value, clientv3.WithLease(clientv3.LeaseID(lease)))
}

func (o *over) Del(key string) {
	o.hasWritten = true
	o.stm.Del(key)
}

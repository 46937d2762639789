package stmprogram

import (
	"context"
	"errors"
	"fmt"
	"math/rand"
	"os"
	"sort"
	"strconv"
	"sync"
	"sync/atomic"
	"testing"
	"time"

	"go.etcd.io/etcd/clientv3"
)

// The programs of stmrun recipe; their laws are proved of stmrun's store, and are looked at here on a cluster.
const (
	transferText = `[["set",0,["num_of",["get",%[1]q]]],["if",["less",["var",0],%[3]d],[["abort","insufficient"]],[]],["put",%[1]q,["text_of",["sub",["var",0],%[3]d]],0],
 ["put",%[2]q,["text_of",["add",["num_of",["get",%[2]q]],%[3]d]],0]]`
	enqueueText = `[["set",0,["get","%[1]s/tail"]],["if",["eq",["var",0],""],[["set",0,"0"]],[]],["put",["cat","%[1]s/",["var",0]],%[2]q,0],
 ["put","%[1]s/tail",["text_of",["add",["num_of",["var",0]],1]],0]]`
	dequeueText = `[["set",0,["get","%[1]s/head"]],["if",["eq",["var",0],""],[["set",0,"0"]],[]],["set",1,["get","%[1]s/tail"]],["if",["eq",["var",1],""],[["set",1,"0"]],[]],
 ["if",["eq",["var",0],["var",1]],[["abort","empty"]],[]],["set",2,["cat","%[1]s/",["var",0]]],["emit",["get",["var",2]]],["del",["var",2]],
 ["put","%[1]s/head",["text_of",["add",["num_of",["var",0]],1]],0]]`
	reserveText = `[["if",["eq",["rev",%[1]q],0],[],[["abort","held"]]],["put",%[1]q,%[2]q,0]]`
	releaseText = `[["if",["eq",["get",%[1]q],%[2]q],[["del",%[1]q]],[["abort","not held"]]]]`
)

const (
	accounts  = 8
	slots     = 3
	inAccount = 100
)

// call is a run of a recipe that committed, or may have.
type call struct {
	kind, detail, holder string
	revision             int64
	isUnknown            bool
}

// clients are several clients of one cluster that call recipes, and what came of it.
type clients struct {
	t     *testing.T
	mutex sync.Mutex
	made  []call
	done  int64
}

func (c *clients) note(one call) {
	c.mutex.Lock()
	defer c.mutex.Unlock()
	c.made = append(c.made, one)
}

// run runs a program until it has an end or may have committed: a run that failed before its commit is begun again.
func (c *clients) run(client *clientv3.Client, text string, level Level) (Result, bool) {
	program, err := Load([]byte(text))
	if err != nil {
		c.t.Errorf("%s: %v", text, err)
		return Result{}, false
	}
	for begun := time.Now(); time.Since(begun) < 2*time.Minute; time.Sleep(20 * time.Millisecond) {
		ctx, cancel := context.WithTimeout(context.Background(), 5*time.Second)
		result, err := Run(ctx, client, program, level)
		cancel()
		if err == nil {
			return result, false
		}
		if errors.As(err, &Unknown{}) {
			return Result{}, true
		}
	}
	c.t.Errorf("%s did not end in two minutes", text)
	return Result{}, false
}

// calls makes calls of random recipes, at the three levels that compare.
func (c *clients) calls(client *clientv3.Client, number, count int) {
	draw := rand.New(rand.NewSource(int64(number)))
	for i := 0; i < count; i++ {
		level := Levels[LevelNames[draw.Intn(3)]]
		one, text := c.drawn(draw, number, i)
		result, isUnknown := c.run(client, text, level)
		atomic.AddInt64(&c.done, 1)
		if result.End == IsCommitted || isUnknown {
			one.revision, one.isUnknown = result.Revision, isUnknown
			if one.kind == "dequeue" && !isUnknown {
				one.detail = result.Output[0].Text
			}
			c.note(one)
		} else if result.End != IsAborted {
			c.t.Errorf("%s ended as %s", text, result.Line())
		}
	}
}

func (c *clients) drawn(draw *rand.Rand, number, i int) (call, string) {
	holder := fmt.Sprintf("client %d", number)
	slot := fmt.Sprintf("slot/%d", draw.Intn(slots))
	switch draw.Intn(6) {
	case 0:
		item := fmt.Sprintf("%d.%d", number, i)
		return call{kind: "enqueue", detail: item}, fmt.Sprintf(enqueueText, "queue", item)
	case 1:
		return call{kind: "dequeue"}, fmt.Sprintf(dequeueText, "queue")
	case 2:
		return call{kind: "reserve", detail: slot, holder: holder}, fmt.Sprintf(reserveText, slot, holder)
	case 3:
		return call{kind: "release", detail: slot, holder: holder}, fmt.Sprintf(releaseText, slot, holder)
	}
	from, to := draw.Intn(accounts), draw.Intn(accounts)
	return call{kind: "transfer"}, fmt.Sprintf(transferText, account(from), account(to), draw.Intn(30))
}

func account(i int) string { return fmt.Sprintf("account/%d", i) }

// TestClusterKeepsTheLaws has four clients call recipes on a cluster of three members, of which one is ended in the middle and started again, and looks at the
// laws of the bank, the queue and the slots by another client. STM_CALLS says how many calls are made; 400 if it is not there.
func TestClusterKeepsTheLaws(t *testing.T) {
	count := 400
	if said, err := strconv.Atoi(os.Getenv("STM_CALLS")); err == nil {
		count = said
	}
	members := startMembers(t, 3)
	first := clientOf(t, members...)
	for i := 0; i < accounts; i++ {
		if _, err := first.Put(context.Background(), account(i), strconv.Itoa(inAccount)); err != nil {
			t.Fatal(err)
		}
	}
	c := &clients{t: t}
	var all sync.WaitGroup
	for number := 0; number < 4; number++ {
		client := clientOf(t, members...)
		all.Add(1)
		go func(number int) {
			defer all.Done()
			c.calls(client, number, count/4)
		}(number)
	}
	await := func(done int) {
		for atomic.LoadInt64(&c.done) < int64(done) {
			time.Sleep(10 * time.Millisecond)
		}
	}
	await(count / 3)
	members[0].stop()
	await(2 * count / 3)
	members[0].start(t)
	all.Wait()
	c.judge(clientOf(t, members[1]))
}

// judge reads the store by another client and looks at the laws.
func (c *clients) judge(reader *clientv3.Client) {
	response, err := reader.Get(context.Background(), "\x00", clientv3.WithFromKey())
	if err != nil {
		c.t.Fatal(err)
	}
	left := map[string]string{}
	for _, kv := range response.Kvs {
		left[string(kv.Key)] = string(kv.Value)
	}
	sort.Slice(c.made, func(i, j int) bool { return c.made[i].revision < c.made[j].revision })
	counts := map[string]int{}
	for _, one := range c.made {
		name := one.kind
		if one.isUnknown {
			name += " not known"
		}
		counts[name]++
	}
	c.t.Logf("committed: %v, revision %d", counts, response.Header.Revision)
	c.judgeBank(left)
	c.judgeQueue(left, counts["dequeue not known"])
	c.judgeSlots(left)
}

// judgeBank: transfers leave the sum of all accounts.
func (c *clients) judgeBank(left map[string]string) {
	sum := 0
	for i := 0; i < accounts; i++ {
		held, err := strconv.Atoi(left[account(i)])
		if err != nil || held < 0 {
			c.t.Errorf("%s holds %q", account(i), left[account(i)])
		}
		sum += held
	}
	if sum != accounts*inAccount {
		c.t.Errorf("the accounts have %d, not %d", sum, accounts*inAccount)
	}
}

// judgeQueue: no item is taken twice, none is taken that was not put, and each that was put is taken or still there, unless a call that had no answer took it.
func (c *clients) judgeQueue(left map[string]string, unknownTakes int) {
	put, mayBePut, taken := map[string]bool{}, map[string]bool{}, map[string]bool{}
	for _, one := range c.made {
		switch {
		case one.kind == "enqueue" && one.isUnknown:
			mayBePut[one.detail] = true
		case one.kind == "enqueue":
			put[one.detail] = true
		case one.kind == "dequeue" && !one.isUnknown:
			if taken[one.detail] {
				c.t.Errorf("item %s was taken twice", one.detail)
			}
			taken[one.detail] = true
		}
	}
	head, _ := strconv.Atoi(left["queue/head"])
	tail, _ := strconv.Atoi(left["queue/tail"])
	queued := map[string]bool{}
	for i := head; i < tail; i++ {
		item, isThere := left[fmt.Sprintf("queue/%d", i)]
		if !isThere || taken[item] {
			c.t.Errorf("place %d of the queue has %q", i, item)
		}
		queued[item] = true
	}
	for item := range taken {
		if !put[item] && !mayBePut[item] {
			c.t.Errorf("item %s was taken and not put", item)
		}
	}
	lost := 0
	for item := range put {
		if !taken[item] && !queued[item] {
			lost++
		}
	}
	if lost > unknownTakes {
		c.t.Errorf("%d items are lost, and %d calls that had no answer may have taken one", lost, unknownTakes)
	}
}

// judgeSlots: between two reservations of a slot its holder released it, unless a call that had no answer may have.
func (c *clients) judgeSlots(left map[string]string) {
	isBlurred := map[string]bool{}
	for _, one := range c.made {
		if one.isUnknown && (one.kind == "reserve" || one.kind == "release") {
			isBlurred[one.detail] = true
		}
	}
	holder := map[string]string{}
	for _, one := range c.made {
		if isBlurred[one.detail] {
			continue
		}
		switch one.kind {
		case "reserve":
			if holder[one.detail] != "" {
				c.t.Errorf("%s was given to %s at revision %d while %s held it", one.detail, one.holder, one.revision, holder[one.detail])
			}
			holder[one.detail] = one.holder
		case "release":
			if holder[one.detail] != one.holder {
				c.t.Errorf("%s was released by %s at revision %d, and %q held it", one.detail, one.holder, one.revision, holder[one.detail])
			}
			holder[one.detail] = ""
		}
	}
	for slot, held := range holder {
		if left[slot] != held {
			c.t.Errorf("%s is held by %q and not by %q", slot, left[slot], held)
		}
	}
}

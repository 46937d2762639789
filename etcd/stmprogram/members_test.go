package stmprogram

import (
	"context"
	"fmt"
	"net"
	"os"
	"os/exec"
	"path/filepath"
	"strings"
	"syscall"
	"testing"
	"time"

	"go.etcd.io/etcd/clientv3"
	"go.uber.org/zap"
)

// member is a member of an etcd cluster on the loopback.
type member struct {
	arguments []string
	endpoint  string
	process   *exec.Cmd
}

// freePort is an address of the loopback whose port is free; the next member may not be given it, so that it stays listened to until all have theirs.
func freePort(t *testing.T) net.Listener {
	t.Helper()
	listener, err := net.Listen("tcp", "127.0.0.1:0")
	if err != nil {
		t.Fatal(err)
	}
	return listener
}

// startMembers starts a cluster of so many members, which end with the test. The test is left out where there is no etcd.
func startMembers(t *testing.T, count int) []*member {
	t.Helper()
	program, err := exec.LookPath("etcd")
	if err != nil {
		t.Skip("left out: there is no program etcd on the path")
	}
	folder, err := os.MkdirTemp("/dev/shm", "etcd_test_")
	if err != nil {
		folder = t.TempDir()
	}
	t.Cleanup(func() { os.RemoveAll(folder) })
	listeners := make([]net.Listener, 2*count)
	for i := range listeners {
		listeners[i] = freePort(t)
	}
	address := func(i int) string { return "http://" + listeners[i].Addr().String() }
	var cluster []string
	for i := 0; i < count; i++ {
		cluster = append(cluster, fmt.Sprintf("m%d=%s", i, address(2*i+1)))
	}
	members := make([]*member, count)
	for i := range members {
		clients, peers := address(2*i), address(2*i+1)
		members[i] = &member{endpoint: clients, arguments: []string{program, fmt.Sprintf("--name=m%d", i), "--data-dir=" + filepath.Join(folder, fmt.Sprint(i)),
			"--listen-client-urls=" + clients, "--advertise-client-urls=" + clients, "--listen-peer-urls=" + peers, "--initial-advertise-peer-urls=" + peers,
			"--initial-cluster=" + strings.Join(cluster, ","), "--logger=zap", "--log-level=error", "--log-outputs=/dev/null"}}
	}
	for _, listener := range listeners {
		listener.Close()
	}
	for _, one := range members {
		one.start(t)
		t.Cleanup(one.stop)
	}
	return members
}

func (m *member) start(t *testing.T) {
	t.Helper()
	m.process = exec.Command(m.arguments[0], m.arguments[1:]...)
	for _, setting := range os.Environ() {
		if !strings.HasPrefix(setting, "ETCD") {
			m.process.Env = append(m.process.Env, setting)
		}
	}
	m.process.SysProcAttr = &syscall.SysProcAttr{Pdeathsig: syscall.SIGKILL}
	if err := m.process.Start(); err != nil {
		t.Fatal(err)
	}
}

// stop ends the process at once, by its number.
func (m *member) stop() {
	m.process.Process.Kill()
	m.process.Wait()
}

// clientOf is a client of members that waits until they answer.
func clientOf(t *testing.T, members ...*member) *clientv3.Client {
	t.Helper()
	var endpoints []string
	for _, one := range members {
		endpoints = append(endpoints, one.endpoint)
	}
	client, err := clientv3.New(clientv3.Config{Endpoints: endpoints, LogConfig: &zap.Config{Level: zap.NewAtomicLevelAt(zap.FatalLevel), Encoding: "json"}})
	if err != nil {
		t.Fatal(err)
	}
	t.Cleanup(func() { client.Close() })
	ctx, cancel := context.WithTimeout(context.Background(), time.Minute)
	defer cancel()
	for {
		if _, err := client.Get(ctx, "k"); err == nil {
			return client
		} else if ctx.Err() != nil {
			t.Fatalf("etcd does not answer: %v", err)
		}
		time.Sleep(50 * time.Millisecond)
	}
}

package main

import (
	"context"
	"errors"
	"fmt"
	"net"
	"os"
	"os/exec"
	"path/filepath"
	"strconv"
	"strings"
	"syscall"
	"time"

	"go.etcd.io/etcd/clientv3"
	"go.uber.org/zap"
)

const (
	// attempts is how often a start is tried: another program may take the port that was free.
	attempts = 3
	// longestStart is how long a new etcd may take until it answers.
	longestStart = 60 * time.Second
)

// server is an etcd of this run alone, in a folder of its own.
type server struct {
	folder   string
	name     string
	endpoint string
	process  *exec.Cmd
	ended    chan struct{}
}

// startServer starts an etcd with an empty store.
func startServer(ctx context.Context, operations int64) (*server, *clientv3.Client, error) {
	var err error
	for i := 0; i < attempts; i++ {
		var started *server
		if started, err = launch(operations); err != nil {
			return nil, nil, err
		}
		var client *clientv3.Client
		if client, err = started.connect(ctx); err == nil {
			return started, client, nil
		}
		err = fmt.Errorf("%v\n%s", err, started.lastWords())
		started.stop()
		if ctx.Err() != nil {
			break
		}
	}
	return nil, nil, err
}

func launch(operations int64) (*server, error) {
	path, err := exec.LookPath("etcd")
	if err != nil {
		return nil, errors.New("there is no program etcd on the path")
	}
	folder, err := os.MkdirTemp(memoryFolder(), "etcd_run_")
	if err != nil {
		return nil, err
	}
	clients, peers, err := freeAddresses()
	if err != nil {
		os.RemoveAll(folder)
		return nil, err
	}
	name := filepath.Base(folder)
	made := &server{folder: folder, name: name, endpoint: clients, ended: make(chan struct{})}
	made.process = exec.Command(path, "--name="+name, "--data-dir="+filepath.Join(folder, "data"),
		"--listen-client-urls="+clients, "--advertise-client-urls="+clients, "--listen-peer-urls="+peers,
		"--initial-advertise-peer-urls="+peers, "--initial-cluster="+name+"="+peers,
		"--max-txn-ops="+strconv.FormatInt(operations, 10), "--heartbeat-interval=50", "--election-timeout=500", "--logger=zap", "--log-level=error", "--log-outputs=stderr")
	made.process.Env = plainEnvironment()
	// etcd ends with the driver, however that ends.
	made.process.SysProcAttr = &syscall.SysProcAttr{Pdeathsig: syscall.SIGKILL}
	if err := made.begin(); err != nil {
		os.RemoveAll(folder)
		return nil, err
	}
	return made, nil
}

// begin starts the process, whose words go into a file.
func (s *server) begin() error {
	words, err := os.Create(filepath.Join(s.folder, "words"))
	if err != nil {
		return err
	}
	defer words.Close()
	s.process.Stdout, s.process.Stderr = words, words
	if err := s.process.Start(); err != nil {
		return err
	}
	go func() {
		s.process.Wait()
		close(s.ended)
	}()
	return nil
}

// memoryFolder is a folder that is held in memory, or else the system's for files that go away.
func memoryFolder() string {
	const folder = "/dev/shm"
	probe, err := os.MkdirTemp(folder, "etcd_run_")
	if err != nil {
		return os.TempDir()
	}
	os.Remove(probe)
	return folder
}

// freeAddresses are two loopback addresses whose ports are free.
func freeAddresses() (string, string, error) {
	var addresses [2]string
	for i := range addresses {
		listener, err := net.Listen("tcp", "127.0.0.1:0")
		if err != nil {
			return "", "", err
		}
		defer listener.Close()
		addresses[i] = "http://" + listener.Addr().String()
	}
	return addresses[0], addresses[1], nil
}

// plainEnvironment is the environment without the settings that etcd and its client read there.
func plainEnvironment() []string {
	var plain []string
	for _, setting := range os.Environ() {
		if !strings.HasPrefix(setting, "ETCD") {
			plain = append(plain, setting)
		}
	}
	return plain
}

// connect makes a client once the server answers.
func (s *server) connect(ctx context.Context) (*clientv3.Client, error) {
	patience, cancel := context.WithTimeout(ctx, longestStart)
	defer cancel()
	if err := s.awaitPort(patience); err != nil {
		return nil, err
	}
	client, err := clientv3.New(clientv3.Config{Endpoints: []string{s.endpoint}, Context: ctx, LogConfig: silence()})
	if err != nil {
		return nil, err
	}
	if err = s.greet(patience, client); err != nil {
		client.Close()
		return nil, err
	}
	return client, nil
}

// greet waits for the first answer, and sees that it is this server's: another one may have taken the port.
func (s *server) greet(patience context.Context, client *clientv3.Client) error {
	if _, err := client.Get(patience, scratchKey); err != nil {
		return fmt.Errorf("etcd does not answer: %v", err)
	}
	known, err := client.MemberList(patience)
	if err != nil {
		return err
	}
	if len(known.Members) != 1 || known.Members[0].Name != s.name {
		return errors.New("another etcd answers at " + s.endpoint)
	}
	return nil
}

// awaitPort waits until the server listens.
func (s *server) awaitPort(patience context.Context) error {
	for {
		connection, err := net.Dial("tcp", strings.TrimPrefix(s.endpoint, "http://"))
		if err == nil {
			return connection.Close()
		}
		select {
		case <-s.ended:
			return errors.New("etcd ended before it answered")
		case <-patience.Done():
			return fmt.Errorf("etcd does not answer: %v", err)
		case <-time.After(10 * time.Millisecond):
		}
	}
}

// silence is a log of the client that prints nothing: each error comes to the driver, too.
func silence() *zap.Config {
	return &zap.Config{Level: zap.NewAtomicLevelAt(zap.FatalLevel), Encoding: "json"}
}

// lastWords are the end of what etcd said.
func (s *server) lastWords() string {
	words, _ := os.ReadFile(filepath.Join(s.folder, "words"))
	if len(words) > 2000 {
		words = words[len(words)-2000:]
	}
	return strings.TrimSpace(string(words))
}

// stop ends the process and removes its folder.
func (s *server) stop() {
	s.process.Process.Kill()
	<-s.ended
	os.RemoveAll(s.folder)
}

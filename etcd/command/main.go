// Runs a program on an etcd cluster, through the transactional memory of etcd's Go client, and prints how it ended as a line of JSON.
package main

import (
	"context"
	"errors"
	"flag"
	"fmt"
	"io"
	"os"
	"os/exec"
	"os/signal"
	"strings"
	"syscall"
	"time"

	"go.etcd.io/etcd/clientv3"
	"go.etcd.io/etcd/pkg/transport"
	"go.uber.org/zap"
	"google.golang.org/grpc/grpclog"

	"stmprogram"
	"stmprogram/reading"
)

// The statuses are those of stmrun, and one that says that the store may or may not have been changed.
const (
	statusDone    = 0
	statusNo      = 1
	statusBad     = 2
	statusDevice  = 3
	statusUnknown = 5
)

const usage = `Usage: etcd/stm --endpoints ADDRESS[,ADDRESS..] [OPTION..] PROGRAM.json
       etcd/stm --endpoints ADDRESS[,ADDRESS..] [OPTION..] SOURCE.stm NAME ARGUMENT..

Runs the program of the file (- for standard input), or the one of that name in a source, with these arguments as stmrun compile takes them, on an etcd
cluster, and prints how it ended:
  ["committed",REVISION,ATTEMPTS,[OUTPUT..],[LOOKED..]]   its writes stand in the store; LOOKED as ["get",KEY,VALUE] or ["rev",KEY,REVISION]
  ["aborted",TEXT,ATTEMPTS]      the program aborted; nothing was committed
  ["faulted",FAULT,ATTEMPTS]     the program faulted; nothing was committed
  ["gaveup",ATTEMPTS]            the last commit that was allowed failed; nothing was committed
  ["ended",CAUSE,ATTEMPTS]       etcd refused a fetch or the commit; nothing was committed

  --endpoints ADDRESSES  where the members answer, as 127.0.0.1:2379
  --level LEVEL          SerializableSnapshot (if not said), Serializable, RepeatableReads or ReadCommitted
  --attempts N           gives up once N commits have failed; if not said, tries until the time is up
  --timeout TIME         ends the run after that time, as 5s (if not said: 10s)
  --user NAME[:PASSWORD] the password is asked of the environment's ETCD_PASSWORD if not said
  --cacert, --cert, --key FILE   for TLS
  --explain              says where in the file a program that is none is wrong, and where a run came to a fault, as FILE:LINE:COLUMN: WORDS on standard
                         error; the default where that is a terminal, which --explain=false ends
  --stmrun PROGRAM       what compiles a source, in place of ./stmrun
Options may begin with one dash, too.

Statuses: 0 committed, 1 ended otherwise and nothing committed, 2 bad program or usage, 3 the cluster or a device failed and nothing was committed,
5 not known whether it committed: its commit was sent and had no answer; 70 the command could not be built.
`

// settings are what the command line says.
type settings struct {
	endpoints, level, user string
	authority, certificate string
	key                    string
	attempts               uint
	timeout                time.Duration
	explain                bool
	stmrun                 string
	words                  []string
}

// isSource says whether the program is one of a source.
func (s *settings) isSource() bool { return strings.HasSuffix(s.words[0], ".stm") }

// name is what the text of the program is called: that of a source is the line that it was compiled to.
func (s *settings) name() string {
	if s.isSource() {
		return s.words[0] + ", compiled"
	}
	return s.words[0]
}

func main() {
	grpclog.SetLoggerV2(grpclog.NewLoggerV2(io.Discard, io.Discard, io.Discard))
	os.Exit(answer(os.Args[1:]))
}

func say(err error) { fmt.Fprintln(os.Stderr, "etcd/stm:", err) }

func answer(arguments []string) int {
	said, err := settingsOf(arguments)
	if errors.Is(err, flag.ErrHelp) {
		fmt.Print(usage)
		return statusDone
	}
	if err != nil {
		say(err)
		fmt.Fprintln(os.Stderr, "etcd/stm --help has the options")
		return statusBad
	}
	text, status := said.text()
	if status != statusDone {
		return status
	}
	program, err := stmprogram.Load(text)
	if err != nil {
		return refused(said, text, err)
	}
	return run(said, text, program)
}

func settingsOf(arguments []string) (*settings, error) {
	said := &settings{}
	flags := flag.NewFlagSet("etcd/stm", flag.ContinueOnError)
	flags.SetOutput(io.Discard)
	flags.StringVar(&said.endpoints, "endpoints", "", "")
	flags.StringVar(&said.level, "level", stmprogram.LevelNames[0], "")
	flags.UintVar(&said.attempts, "attempts", 0, "")
	flags.DurationVar(&said.timeout, "timeout", 10*time.Second, "")
	flags.StringVar(&said.user, "user", "", "")
	flags.StringVar(&said.authority, "cacert", "", "")
	flags.StringVar(&said.certificate, "cert", "", "")
	flags.StringVar(&said.key, "key", "", "")
	flags.BoolVar(&said.explain, "explain", isTerminal(os.Stderr), "")
	flags.StringVar(&said.stmrun, "stmrun", os.Getenv("STMRUN"), "")
	if err := flags.Parse(arguments); err != nil {
		return nil, err
	}
	said.words = flags.Args()
	return said, said.check(flags)
}

func (s *settings) check(flags *flag.FlagSet) error {
	hasAttempts := false
	flags.Visit(func(one *flag.Flag) { hasAttempts = hasAttempts || one.Name == "attempts" })
	switch _, isLevel := stmprogram.Levels[s.level]; {
	case s.endpoints == "":
		return errors.New("--endpoints is wanted: where the members answer")
	case !isLevel:
		return fmt.Errorf("%q is no level: one of %s is wanted", s.level, strings.Join(stmprogram.LevelNames, ", "))
	case hasAttempts && s.attempts == 0 || s.attempts > 1<<32-1:
		return errors.New("--attempts is from 1 to 4294967295")
	case s.timeout <= 0:
		return errors.New("--timeout is above 0")
	case len(s.words) == 0:
		return errors.New("a program is wanted")
	case s.isSource() && len(s.words) == 1:
		return fmt.Errorf("the name of a program is wanted behind %s, and its arguments", s.words[0])
	case len(s.words) > 1 && !s.isSource():
		return fmt.Errorf("%q is one word too many: one program is run", s.words[1])
	}
	return nil
}

func isTerminal(file *os.File) bool {
	found, err := file.Stat()
	return err == nil && found.Mode()&os.ModeCharDevice != 0
}

// refused says why a text is no program.
func refused(said *settings, text []byte, err error) int {
	say(fmt.Errorf("%s: bad program %v", said.name(), err))
	if fault := (*reading.Fault)(nil); errors.As(err, &fault) {
		offset, words := stmprogram.Explained(text, fault)
		said.point(text, offset, words)
	}
	return statusBad
}

// point says what stands at a place of the program's file, where that is asked for.
func (s *settings) point(text []byte, offset int, words string) {
	if s.explain {
		line, column := stmprogram.Position(text, offset)
		fmt.Fprintf(os.Stderr, "%s:%d:%d: %s\n", s.name(), line, column, words)
	}
}

// text is the program as JSON. Where there is none it says why, and gives the status.
func (s *settings) text() ([]byte, int) {
	if s.isSource() {
		return s.compiled()
	}
	text, err := textOf(s.words[0])
	if err != nil {
		say(err)
		return nil, statusDevice
	}
	return text, statusDone
}

// compiled is what stmrun compiles the program of a source to. Where there is none stmrun says why.
func (s *settings) compiled() ([]byte, int) {
	explain := "--explain=never"
	if s.explain {
		explain = "--explain"
	}
	compile := exec.Command(s.stmrun, append([]string{"compile", explain}, s.words...)...)
	compile.Stderr = os.Stderr
	text, err := compile.Output()
	if exit := (*exec.ExitError)(nil); errors.As(err, &exit) && exit.ExitCode() == statusBad {
		return nil, statusBad
	}
	if err != nil {
		say(fmt.Errorf("%s is not compiled: %w", s.words[0], err))
		return nil, statusDevice
	}
	return text, statusDone
}

func textOf(path string) ([]byte, error) {
	if path == "-" {
		return io.ReadAll(io.LimitReader(os.Stdin, reading.LongestInput+1))
	}
	file, err := os.Open(path)
	if err != nil {
		return nil, err
	}
	defer file.Close()
	return io.ReadAll(io.LimitReader(file, reading.LongestInput+1))
}

func run(said *settings, text []byte, program *stmprogram.Program) int {
	ctx, stop := signal.NotifyContext(context.Background(), os.Interrupt, syscall.SIGTERM)
	defer stop()
	ctx, cancel := context.WithTimeout(ctx, said.timeout)
	defer cancel()
	client, err := connect(ctx, said)
	if err != nil {
		say(err)
		return statusDevice
	}
	defer client.Close()
	var options []stmprogram.Option
	if said.attempts > 0 {
		options = append(options, stmprogram.WithAttempts(uint32(said.attempts)))
	}
	result, err := stmprogram.Run(ctx, client, program, stmprogram.Levels[said.level], options...)
	if err != nil {
		return failed(fmt.Errorf("%s: %w", said.endpoints, err))
	}
	status := printed(result)
	if result.End == stmprogram.IsFaulted && result.Stopped != nil {
		said.point(text, reading.Offset(text, reading.Steps(result.Stopped.Place)), result.Stopped.Reason(result.Detail))
	}
	return status
}

func connect(ctx context.Context, said *settings) (*clientv3.Client, error) {
	config := clientv3.Config{Endpoints: strings.Split(said.endpoints, ","), DialTimeout: said.timeout, Context: ctx,
		LogConfig: &zap.Config{Level: zap.NewAtomicLevelAt(zap.FatalLevel), Encoding: "json"}}
	if said.user != "" {
		name, password, hasPassword := strings.Cut(said.user, ":")
		if !hasPassword {
			password = os.Getenv("ETCD_PASSWORD")
		}
		config.Username, config.Password = name, password
	}
	if said.authority != "" || said.certificate != "" || said.key != "" {
		tls, err := transport.TLSInfo{CertFile: said.certificate, KeyFile: said.key, TrustedCAFile: said.authority}.ClientConfig()
		if err != nil {
			return nil, err
		}
		config.TLS = tls
	}
	return clientv3.New(config)
}

func failed(err error) int {
	say(err)
	if unknown := (stmprogram.Unknown{}); errors.As(err, &unknown) {
		return statusUnknown
	}
	return statusDevice
}

func printed(result stmprogram.Result) int {
	fmt.Println(string(result.Line()))
	if result.End == stmprogram.IsCommitted {
		return statusDone
	}
	return statusNo
}

// Plays a scenario on a real etcd, through the transactional memory of etcd's Go client, and writes the report.
package main

import (
	"context"
	"fmt"
	"io"
	"os"
	"os/signal"
	"runtime"
	"strings"
	"syscall"

	"google.golang.org/grpc/grpclog"

	"stmprogram/reading"
)

// The statuses are those of stmrun.
const (
	statusDone   = 0
	statusBad    = 2
	statusDevice = 3
)

const usage = `Usage: etcd/run [--notes] [SCENARIO]

Plays the scenario of the file, or of standard input, on a real etcd that it starts and ends, and prints the report.

  --notes  puts a line ["asked",N,RUNNER] on standard error for each attempt at a serializable level in which, at event N
           for the first time, the program asked for the revision of a key that it had written and not read, as its first
           read or after an attempt that read the key: there the Go client does otherwise than stmrun

Statuses: 0 done, 2 bad input or usage, or what a real etcd cannot be driven to, 3 etcd or a device failed,
70 the driver could not be built.
`

func main() {
	// etcd ends with the thread that started it, so that is to be the process's first one, which lives as long as the process.
	runtime.LockOSThread()
	grpclog.SetLoggerV2(grpclog.NewLoggerV2(io.Discard, io.Discard, io.Discard))
	os.Exit(answer(os.Args[1:]))
}

func say(err error) {
	fmt.Fprintln(os.Stderr, "etcd/run:", err)
}

func answer(arguments []string) int {
	if len(arguments) == 1 && (arguments[0] == "-h" || arguments[0] == "--help") {
		fmt.Print(usage)
		return statusDone
	}
	var notes io.Writer
	if len(arguments) > 0 && arguments[0] == "--notes" {
		notes, arguments = os.Stderr, arguments[1:]
	}
	if len(arguments) > 1 || len(arguments) == 1 && strings.HasPrefix(arguments[0], "-") {
		fmt.Fprint(os.Stderr, usage)
		return statusBad
	}
	text, err := readInput(arguments)
	if err != nil {
		say(err)
		return statusDevice
	}
	read, err := readScenario(text)
	if err != nil {
		say(fmt.Errorf("bad scenario %v", err))
		return statusBad
	}
	if err := checkReach(read); err != nil {
		say(err)
		return statusBad
	}
	return report(read, notes)
}

// readInput reads the file or standard input, and of it no more than shows that it is too long.
func readInput(arguments []string) ([]byte, error) {
	input := os.Stdin
	if len(arguments) == 1 {
		file, err := os.Open(arguments[0])
		if err != nil {
			return nil, err
		}
		defer file.Close()
		input = file
	}
	return io.ReadAll(io.LimitReader(input, reading.LongestInput+1))
}

// report plays the scenario and writes the report once it is whole.
func report(read *scenario, notes io.Writer) int {
	ctx, stop := signal.NotifyContext(context.Background(), os.Interrupt, syscall.SIGTERM, syscall.SIGHUP)
	defer stop()
	etcd, client, err := startServer(ctx, read.operations)
	if err != nil {
		say(err)
		return statusDevice
	}
	defer etcd.stop()
	go func() {
		// What still waits for an etcd that has ended is not to wait any longer.
		<-etcd.ended
		stop()
	}()
	lines, err := play(ctx, client, read, notes)
	if err == nil {
		_, err = os.Stdout.Write(lines)
	}
	if err != nil {
		say(err)
		return statusDevice
	}
	return statusDone
}

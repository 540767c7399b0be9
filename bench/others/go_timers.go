// Timers of Go's package time, by the operations of bench/compare.c.
//
// A start is time.NewTimer, which makes a timer and its channel, and a cancel Timer.Stop. Both are calls of one
// goroutine, with GOMAXPROCS at 1, so that the collections of memory by the runtime, and all else that it does
// for timers, are in the time. A start asks the operating system for the time. A stopped timer may stay in the
// runtime's heap until a later call or the scheduler takes it out.
//
//	start_cancel     a timer is made and stopped
//	start            after a collection, with all timers of earlier passes stopped
//	cancel           in the order that all programs have
//	restart          Timer.Reset. The heap gets to know later, where the old deadline is due.
//	packet           Timer.Reset of the idle timeout; the request's is stopped, and one made anew. The goroutine yields
//	                 once in 100 packets, so that the scheduler takes out those that were stopped.
//	expire_at_once   all are due at one instant, a tenth of a microsecond or so apart. When it has passed, the
//	                 goroutine receives from each channel, which lets the scheduler fire the timers: the receive
//	                 is what stands for delivery and the message that is taken.
//
// Deadlines are in real time: of the spread ones a few pass before their timer is stopped, and their Stop says so.
// expire_spread isn't here, since a program can't set the runtime's clock, and idle_pass isn't, since the loop is the
// runtime's own.
//
// The command line, and what is printed, are those that measure.h tells.
package main

import (
	"fmt"
	"os"
	"runtime"
	"sort"
	"strconv"
	"time"
)

const (
	spread         = 60000
	timeout        = 5 * time.Second
	idleTimeout    = time.Minute
	requestTimeout = 30 * time.Second
	packets        = 100
	mostPasses     = 15
	fewPasses      = 3
	longPass       = 2 * time.Second
	mostTries      = 100
)

// measurement is what is measured: how many calls a pass makes, the waits of the timers, the order of cancels, and the
// timer of each call.
type measurement struct {
	calls  int
	waits  []uint32
	order  []uint32
	rounds []uint32
}

// operation makes one pass, and gives how long it took.
type operation struct {
	pass    func(*measurement) time.Duration
	byCalls bool
}

func expect(holds bool) {
	if !holds {
		fmt.Fprintln(os.Stderr, "a timer did otherwise than it has to")
		os.Exit(1)
	}
}

// random is Marsaglia's xorshift of 32 bits.
type random uint32

func (r *random) next() uint32 {
	*r ^= *r << 13
	*r ^= *r >> 17
	*r ^= *r << 5
	return uint32(*r)
}

func spreadWaits(count int) []uint32 {
	r := random(1)
	waits := make([]uint32, count)
	for i := range waits {
		waits[i] = r.next()%spread + 1
	}
	return waits
}

func randomOrder(count int) []uint32 {
	r := random(2)
	order := make([]uint32, count)
	for i := range order {
		order[i] = uint32(i)
	}
	for i := count; i > 1; i-- {
		j := r.next() % uint32(i)
		order[i-1], order[j] = order[j], order[i-1]
	}
	return order
}

// roundsOf gives the timers of so many calls: each timer once in this order, then each once in another one, and so on.
func roundsOf(order []uint32, calls int) []uint32 {
	rounds := append(make([]uint32, 0, calls+len(order)), order...)
	for len(rounds) < calls && len(order) > 0 {
		last := rounds[len(rounds)-len(order):]
		for _, place := range order {
			rounds = append(rounds, last[place])
		}
	}
	return rounds[:min(calls, len(rounds))]
}

func min(a, b int) int {
	if a < b {
		return a
	}
	return b
}

func digest(numbers []uint32) uint32 {
	sum := uint32(0)
	for _, number := range numbers {
		sum = sum*31 + number
	}
	return sum
}

func start(wait uint32) *time.Timer {
	return time.NewTimer(time.Duration(wait) * time.Millisecond)
}

func startAll(waits []uint32, timers []*time.Timer) {
	for i, wait := range waits {
		timers[i] = start(wait)
	}
}

// forget stops timers, and lets the runtime forget them.
func forget(timers []*time.Timer) {
	for i, timer := range timers {
		timer.Stop()
		timers[i] = nil
	}
	runtime.Gosched()
	runtime.GC()
}

func passStartCancel(what *measurement) time.Duration {
	others := make([]*time.Timer, len(what.waits))
	startAll(what.waits, others)
	begun := time.Now()
	for i := 0; i < what.calls; i++ {
		timer := time.NewTimer(timeout)
		expect(timer.Stop())
	}
	taken := time.Since(begun)
	forget(others)
	return taken
}

func passStart(what *measurement) time.Duration {
	timers := make([]*time.Timer, len(what.waits))
	begun := time.Now()
	startAll(what.waits, timers)
	taken := time.Since(begun)
	forget(timers)
	return taken
}

func passCancel(what *measurement) time.Duration {
	timers := make([]*time.Timer, len(what.waits))
	startAll(what.waits, timers)
	late := 0
	begun := time.Now()
	for _, i := range what.order {
		if !timers[i].Stop() {
			late++
		}
	}
	taken := time.Since(begun)
	expect(late <= len(timers)/10)
	forget(timers)
	return taken
}

func passRestart(what *measurement) time.Duration {
	timers := startEach(len(what.waits), idleTimeout)
	begun := time.Now()
	for _, i := range what.rounds {
		expect(timers[i].Reset(idleTimeout))
	}
	taken := time.Since(begun)
	forget(timers)
	return taken
}

func passPacket(what *measurement) time.Duration {
	idle := startEach(len(what.waits), idleTimeout)
	requests := startEach(len(what.waits), requestTimeout)
	begun := time.Now()
	for call, i := range what.rounds {
		if call%packets == 0 {
			runtime.Gosched()
		}
		expect(idle[i].Reset(idleTimeout))
		expect(requests[i].Stop())
		requests[i] = time.NewTimer(requestTimeout)
	}
	taken := time.Since(begun)
	forget(idle)
	forget(requests)
	return taken
}

// startEach starts so many timers of the same wait.
func startEach(count int, wait time.Duration) []*time.Timer {
	timers := make([]*time.Timer, count)
	for i := range timers {
		timers[i] = time.NewTimer(wait)
	}
	return timers
}

func passExpireAtOnce(what *measurement) time.Duration {
	timers := make([]*time.Timer, len(what.waits))
	lead := 100*time.Millisecond + time.Duration(len(timers))*4*time.Microsecond
	for tries := 0; !startDueAtOnce(timers, time.Now().Add(lead)); tries++ {
		expect(tries < mostTries)
		forget(timers)
	}
	begun := time.Now()
	for _, timer := range timers {
		<-timer.C
	}
	taken := time.Since(begun)
	forget(timers)
	return taken
}

// startDueAtOnce starts timers that are due at one instant, and waits until it has passed. It tells whether
// the first hasn't expired yet: the scheduler leaves a goroutine alone for some milliseconds, but not where other
// work on the machine delays it.
func startDueAtOnce(timers []*time.Timer, due time.Time) bool {
	for i := range timers {
		timers[i] = time.NewTimer(time.Until(due))
	}
	time.Sleep(time.Until(due) - time.Millisecond)
	if time.Until(due) <= 0 {
		return false
	}
	for time.Since(due) < 10*time.Microsecond {
	}
	return len(timers[0].C) == 0
}

// resident gives the bytes of memory that the process has (Linux, proc(5), the second word of statm).
func resident() int {
	text, err := os.ReadFile("/proc/self/statm")
	expect(err == nil)
	var size, pages int
	_, err = fmt.Sscan(string(text), &size, &pages)
	expect(err == nil)
	return pages * os.Getpagesize()
}

// bytes gives the memory of timers that are outstanding and of the program's pointers to them, after a collection.
func bytes(what *measurement) int {
	runtime.GC()
	before := resident()
	timers := make([]*time.Timer, len(what.waits))
	startAll(what.waits, timers)
	runtime.GC()
	taken := resident() - before
	runtime.KeepAlive(timers)
	return taken
}

func measure(operation operation, what *measurement, passes int) {
	each := float64(len(what.waits))
	if operation.byCalls {
		each = float64(what.calls)
	}
	taken := []time.Duration{}
	for len(taken) < passes {
		pass := operation.pass(what)
		taken = append(taken, pass)
		if pass > longPass && passes > fewPasses {
			passes = fewPasses
		}
	}
	sort.Slice(taken, func(i, j int) bool { return taken[i] < taken[j] })
	median := float64(taken[len(taken)/2].Nanoseconds()) / each
	least := float64(taken[0].Nanoseconds()) / each
	fmt.Printf("%.2f %.2f %d\n", median, least, len(taken))
}

func number(word string) int {
	value, err := strconv.Atoi(word)
	if err != nil || value < 0 {
		fmt.Fprintln(os.Stderr, "no such number:", word)
		os.Exit(2)
	}
	return value
}

func main() {
	if len(os.Args) != 5 {
		fmt.Fprintln(os.Stderr, "usage: PROGRAM OPERATION TIMERS CALLS PASSES")
		os.Exit(2)
	}
	runtime.GOMAXPROCS(1)
	timers, passes := number(os.Args[2]), number(os.Args[4])
	calls, order := number(os.Args[3]), randomOrder(timers)
	what := &measurement{calls, spreadWaits(timers), order, roundsOf(order, calls)}
	operations := map[string]operation{
		"start_cancel":   {passStartCancel, true},
		"start":          {passStart, false},
		"cancel":         {passCancel, false},
		"restart":        {passRestart, true},
		"packet":         {passPacket, true},
		"expire_at_once": {passExpireAtOnce, false},
	}
	switch os.Args[1] {
	case "version":
		fmt.Println(runtime.Version()[len("go"):])
	case "order":
		fmt.Println(digest(what.waits), digest(what.order))
	case "bytes":
		fmt.Printf("%.1f\n", float64(bytes(what))/float64(timers))
	default:
		operation, known := operations[os.Args[1]]
		if !known || passes == 0 || passes > mostPasses {
			fmt.Fprintln(os.Stderr, "no such operation, or no such number of passes")
			os.Exit(2)
		}
		measure(operation, what, passes)
	}
}

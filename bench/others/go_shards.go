// The rows start_cancel and cancel of bench/shards.c by Go's package time: each thread is a goroutine on an operating system
// thread of its own, a start is time.AfterFunc and a cancel Timer.Stop. A start asks the operating system for the time, and
// a stopped timer may stay in the runtime's heap for a while. The memory of earlier passes is collected before each, so there
// are fewer of them. Else threads and passes are as bench/threads.h says.
package main

import (
	"fmt"
	"math/rand"
	"os"
	"runtime"
	"sync"
	"sync/atomic"
	"syscall"
	"time"
	"unsafe"
)

const (
	passes      = 200
	calls       = 10000
	timers      = 16384
	mostThreads = 4
)

func onDue() {}

func startAndCancel(int) {
	for i := 0; i < calls; i++ {
		if !time.AfterFunc(500*time.Second, onDue).Stop() {
			os.Exit(1)
		}
	}
}

// started has the timers of each thread.
var started [mostThreads][timers]*time.Timer

func startAll(thread int) {
	for i := range started[thread] {
		started[thread][i] = time.AfterFunc(time.Duration(1000+rand.Intn(500000))*time.Millisecond, onDue)
	}
}

// allowed has a bit for each processor that the program may use.
var allowed [16]uint64

func affinity(call uintptr, processors *[16]uint64) bool {
	_, _, failed := syscall.RawSyscall(call, 0, unsafe.Sizeof(*processors), uintptr(unsafe.Pointer(processors)))
	return failed == 0
}

// takeProcessor gives the calling thread the processor of this number among those.
func takeProcessor(number int) {
	for i := 0; i < 64*len(allowed); i++ {
		if allowed[i/64]>>(i%64)&1 == 1 {
			if number == 0 {
				var one [16]uint64
				one[i/64] = 1 << (i % 64)
				affinity(syscall.SYS_SCHED_SETAFFINITY, &one)
			}
			number--
		}
	}
}

// measure prints a row: its name, the threads, and the least nanoseconds for a call overall.
func measure(name string, threads int, job func(int), before func(int), count int) {
	best := time.Duration(1 << 62)
	for pass := 0; pass < passes; pass++ {
		runtime.GC()
		var ready, done sync.WaitGroup
		var there int32
		begin := make(chan struct{})
		begun, ended := make([]time.Time, threads), make([]time.Time, threads)
		ready.Add(threads)
		done.Add(threads)
		for i := 0; i < threads; i++ {
			go func(i int) {
				// The thread ends with the goroutine.
				runtime.LockOSThread()
				takeProcessor(i)
				if before != nil {
					before(i)
				}
				ready.Done()
				<-begin
				atomic.AddInt32(&there, 1)
				for atomic.LoadInt32(&there) < int32(threads) {
				}
				begun[i] = time.Now()
				job(i)
				ended[i] = time.Now()
				done.Done()
			}(i)
		}
		ready.Wait()
		close(begin)
		done.Wait()
		first, last := begun[0], ended[0]
		for i := range begun {
			if begun[i].Before(first) {
				first = begun[i]
			}
			if ended[i].After(last) {
				last = ended[i]
			}
		}
		if taken := last.Sub(first); taken < best {
			best = taken
		}
	}
	fmt.Printf("%s %d %.1f\n", name, threads, float64(best.Nanoseconds())/float64(count)/float64(threads))
}

func main() {
	runtime.GOMAXPROCS(mostThreads)
	affinity(syscall.SYS_SCHED_GETAFFINITY, &allowed)
	for threads := 1; threads <= mostThreads; threads *= 2 {
		measure("start_cancel", threads, startAndCancel, nil, calls)
		measure("cancel", threads, func(thread int) {
			for i := 0; i < timers; i++ {
				started[(thread+1)%threads][i*7919%timers].Stop()
			}
		}, startAll, timers)
	}
}

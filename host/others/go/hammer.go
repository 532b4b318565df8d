// Threads that call sync.Mutex and sync.Cond of Go at random, by a seed, and note their calls: a history is written to
// RECORD_FILE. A mutex is given up by the one that took it alone, since an unlock by another one is none of POSIX.
// Neither locks nor waits have deadlines there.
package main

import (
	"bufio"
	"flag"
	"fmt"
	"math/rand"
	"os"
	"runtime"
	"sort"
	"sync"
	"sync/atomic"
	"time"
)

const busy = 16

// What is noted: a line with its place in the one order.
type noted struct {
	place uint64
	line  string
}

var places uint64

// A thread of the history: what it noted, what it chooses by, and what it holds, the last taken last.
type thread struct {
	number int
	lines  []noted
	random *rand.Rand
	held   []int
}

func (t *thread) note(line string) {
	t.lines = append(t.lines, noted{atomic.AddUint64(&places, 1), line})
}

func (t *thread) begin(call string) { t.note(fmt.Sprintf("begin t%d %s", t.number, call)) }

func (t *thread) answer(answer int) { t.note(fmt.Sprintf("answer t%d %d", t.number, answer)) }

func (t *thread) happens(perCent int) bool { return t.random.Intn(100) < perCent }

// What all threads share.
type objects struct {
	mutexes   []sync.Mutex
	variables []*sync.Cond
	waiting   []int32
}

func makeObjects(mutexes, variables int) *objects {
	all := &objects{make([]sync.Mutex, mutexes), make([]*sync.Cond, variables), make([]int32, variables)}
	for i := range all.variables {
		all.variables[i] = sync.NewCond(&all.mutexes[i%mutexes])
	}
	return all
}

func (o *objects) lock(t *thread, mutex int) {
	call := fmt.Sprintf("lock m%d", mutex+1)
	t.begin(call)
	o.mutexes[mutex].Lock()
	t.answer(0)
	t.held = append(t.held, mutex)
}

func (o *objects) trylock(t *thread, mutex int) {
	t.begin(fmt.Sprintf("trylock m%d", mutex+1))
	if o.mutexes[mutex].TryLock() {
		t.answer(0)
		t.held = append(t.held, mutex)
	} else {
		t.answer(busy)
	}
}

func (o *objects) unlock(t *thread) {
	last := len(t.held) - 1
	t.begin(fmt.Sprintf("unlock m%d", t.held[last]+1))
	o.mutexes[t.held[last]].Unlock()
	t.answer(0)
	t.held = t.held[:last]
}

func (o *objects) wait(t *thread, variable, mutex int) {
	atomic.AddInt32(&o.waiting[variable], 1)
	t.begin(fmt.Sprintf("wait c%d m%d", variable+1, mutex+1))
	o.variables[variable].Wait()
	t.answer(0)
	atomic.AddInt32(&o.waiting[variable], -1)
}

func (o *objects) signal(t *thread, variable int) {
	t.begin(fmt.Sprintf("signal c%d", variable+1))
	o.variables[variable].Signal()
	t.answer(0)
}

func (o *objects) broadcast(t *thread, variable int) {
	t.begin(fmt.Sprintf("broadcast c%d", variable+1))
	o.variables[variable].Broadcast()
	t.answer(0)
}

func (o *objects) take(t *thread, mutex, trylocks int) {
	if t.happens(trylocks) {
		o.trylock(t, mutex)
	} else {
		o.lock(t, mutex)
	}
}

// One call. Mutexes are taken in rising order, so that no circle of threads waits.
func (o *objects) step(t *thread, waits, trylocks int) {
	if len(t.held) == 0 {
		if len(o.variables) > 0 && t.happens(waits) {
			variable := t.random.Intn(len(o.variables))
			if t.happens(70) {
				o.signal(t, variable)
			} else {
				o.broadcast(t, variable)
			}
		} else {
			o.take(t, t.random.Intn(len(o.mutexes)), trylocks)
		}
		return
	}
	last := t.held[len(t.held)-1]
	if len(t.held) == 1 && last < len(o.variables) && t.happens(waits) {
		o.wait(t, last, last)
	} else if last+1 < len(o.mutexes) && t.happens(20) {
		o.take(t, last+1, trylocks)
	} else {
		o.unlock(t)
	}
}

func (o *objects) work(t *thread, calls, waits, trylocks int) {
	for ; calls > 0; calls-- {
		o.step(t, waits, trylocks)
		for left := t.random.Intn(200); left > 0; left-- {
			runtime.KeepAlive(left)
		}
	}
	for len(t.held) > 0 {
		o.unlock(t)
	}
}

// Wakes those that wait, until all have ended.
func (o *objects) pace(t *thread, left *int32) {
	for atomic.LoadInt32(left) > 0 {
		time.Sleep(300 * time.Microsecond)
		for variable := range o.variables {
			if atomic.LoadInt32(&o.waiting[variable]) > 0 {
				o.broadcast(t, variable)
			}
		}
	}
}

func write(name string, threads []*thread, mutexes, variables int) error {
	all := []noted{}
	for _, t := range threads {
		all = append(all, t.lines...)
	}
	sort.Slice(all, func(i, j int) bool { return all[i].place < all[j].place })
	file, err := os.Create(name)
	if err != nil {
		return err
	}
	defer file.Close()
	out := bufio.NewWriter(file)
	for range threads {
		fmt.Fprintln(out, "thread 1")
	}
	for i := 0; i < mutexes; i++ {
		fmt.Fprintln(out, "mutex normal")
	}
	for i := 0; i < variables; i++ {
		fmt.Fprintf(out, "cond m%d\n", i%mutexes+1)
	}
	for _, line := range all {
		fmt.Fprintln(out, line.line)
	}
	return out.Flush()
}

func main() {
	count := flag.Int("threads", 3, "how many run at once")
	mutexes := flag.Int("mutexes", 1, "how many there are")
	variables := flag.Int("variables", 1, "of the mutexes in turn")
	calls := flag.Int("calls", 30, "how many each thread makes")
	waits := flag.Int("waits", 30, "of a hundred calls so many wait, or signal")
	trylocks := flag.Int("trylock", 20, "of a hundred locks so many are trylocks")
	seed := flag.Int("seed", 1, "what they choose")
	flag.Parse()
	all := makeObjects(*mutexes, *variables)
	threads := make([]*thread, *count+1)
	for i := range threads {
		threads[i] = &thread{number: i + 1, random: rand.New(rand.NewSource(int64(*seed*1000 + i)))}
	}
	left := int32(*count)
	for _, t := range threads[:*count] {
		go func(t *thread) {
			all.work(t, *calls, *waits, *trylocks)
			atomic.AddInt32(&left, -1)
		}(t)
	}
	all.pace(threads[*count], &left)
	if name := os.Getenv("RECORD_FILE"); name != "" {
		if err := write(name, threads, *mutexes, *variables); err != nil {
			fmt.Fprintln(os.Stderr, "hammer:", err)
			os.Exit(1)
		}
	}
}

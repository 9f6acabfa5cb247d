// Counts what four goroutines measure, in one histogram that they share, and prints a quantile.
//
//	PKG_CONFIG_PATH=PREFIX/lib/pkgconfig go run main.go
package main

/*
#cgo pkg-config: dkap
#include <dkap.h>
*/
import "C"

import (
	"errors"
	"fmt"
	"log"
	"sync"
)

// Histogram owns a handle. A call that changes it excludes all others: readers share the lock.
type Histogram struct {
	lock   sync.RWMutex
	handle C.struct_dkap_histogram
}

func check(status C.dkap_status) error {
	if status == C.DKAP_OK {
		return nil
	}
	return errors.New(C.GoString(C.dkap_strerror(status)))
}

// New creates a histogram that grows. It is not copied, as the handle in it must not be, and it is closed after use.
func New(digits uint8) (*Histogram, error) {
	h := new(Histogram)
	return h, check(C.dkap_init_auto(&h.handle, C.uint8_t(digits)))
}

// Close frees the histogram.
func (h *Histogram) Close() {
	h.lock.Lock()
	defer h.lock.Unlock()
	C.dkap_close(&h.handle)
}

// RecordAll records each value once, with one call of C for all of them.
func (h *Histogram) RecordAll(values []uint64) error {
	if len(values) == 0 {
		return nil
	}
	h.lock.Lock()
	defer h.lock.Unlock()
	var done C.size_t
	return check(C.dkap_record_all(&h.handle, (*C.uint64_t)(&values[0]), C.size_t(len(values)), &done))
}

// Quantile returns the value at the quantile num/den.
func (h *Histogram) Quantile(num, den uint64) (uint64, error) {
	h.lock.RLock()
	defer h.lock.RUnlock()
	var value C.uint64_t
	err := check(C.dkap_value_at_quantile(&h.handle, C.uint64_t(num), C.uint64_t(den), &value))
	return uint64(value), err
}

// measure stands for a worker: its values are first, first + 1, .. first + 999.
func measure(h *Histogram, first uint64) error {
	values := make([]uint64, 1000)
	for i := range values {
		values[i] = first + uint64(i)
	}
	return h.RecordAll(values)
}

func main() {
	h, err := New(3)
	if err != nil {
		log.Fatal(err)
	}
	defer h.Close()
	var workers sync.WaitGroup
	for i := uint64(0); i < 4; i++ {
		workers.Add(1)
		go func(first uint64) {
			defer workers.Done()
			if err := measure(h, first); err != nil {
				log.Fatal(err)
			}
		}(1000*i + 1)
	}
	workers.Wait()
	p99, err := h.Quantile(99, 100)
	if err != nil {
		log.Fatal(err)
	}
	fmt.Println("p99", p99)
}

// Package rackd has the simulated PROFIBUS DP slaves of a rack inside a Go program, by cgo: no server, socket or clock.
//
//	cd examples/embed/go && go test
package rackd

/*
#cgo CFLAGS: -I${SRCDIR}/../../../include
#cgo LDFLAGS: -L${SRCDIR}/../../../dist/x86_64-linux -l:librackd.a
#include "rackd.h"
*/
import "C"

import (
	"fmt"
	"unsafe"
)

// Fault is a call that is refused, with the number that rackd.h names.
type Fault uint32

func (fault Fault) Error() string { return fmt.Sprintf("rackd: fault %d", uint32(fault)) }

// The faults that a program asks for most.
const (
	NoLine  Fault = C.RACKD_NO_LINE
	NoFrame Fault = C.RACKD_NO_FRAME
	NoEntry Fault = C.RACKD_NO_ENTRY
	Closed  Fault = C.RACKD_CLOSED
)

// Answer is the answer to a telegram. A reply of no octets is silence.
type Answer struct {
	Reply []byte
	Rule  string
	Place uint32
}

// Facts are the facts of a reason, as rackd_facts of rackd.h has them.
type Facts struct {
	Since                                       uint64
	Value, Limit                                uint
	Reason, Slave, Point, Master, State, Detail uint8
}

// Rack is a rack in this process. Close it after use. Not for several goroutines at the same time.
type Rack struct {
	handle C.rackd_rack
}

func octets(text []byte) *C.uint8_t {
	if len(text) == 0 {
		text = []byte{0}
	}
	return (*C.uint8_t)(unsafe.Pointer(&text[0]))
}

func checked(done C.uint32_t) error {
	if done == C.RACKD_OK {
		return nil
	}
	return Fault(done)
}

// Open opens the rack that the text of a rack file describes. Endless lines forget old entries.
func Open(text string, endless bool) (*Rack, error) {
	rack := &Rack{}
	done := C.rackd_checked_open(&rack.handle, octets([]byte(text)), C.size_t(len(text)), C.bool(endless))
	if err := checked(done); err != nil {
		return nil, err
	}
	return rack, nil
}

// Close closes the rack. A second call does nothing.
func (rack *Rack) Close() { C.rackd_checked_close(&rack.handle) }

// Request takes one whole telegram of a master.
func (rack *Rack) Request(line, master uint8, telegram []byte) (Answer, error) {
	reply := make([]byte, C.RACKD_MOST_REPLY)
	var count C.size_t
	var rule C.uint8_t
	var place C.uint32_t
	done := C.rackd_checked_request(&rack.handle, C.uint8_t(line), C.uint8_t(master), octets(telegram),
		C.size_t(len(telegram)), octets(reply), C.size_t(len(reply)), &count, &rule, &place)
	if err := checked(done); err != nil {
		return Answer{}, err
	}
	return Answer{reply[:count], ruleName(rule), uint32(place)}, nil
}

// Tick lets units of 10 ms pass on a line.
func (rack *Rack) Tick(line uint8, units uint32) error {
	return checked(C.rackd_checked_tick(&rack.handle, C.uint8_t(line), C.uint32_t(units)))
}

// Operate obeys a line of an operator, and returns its answer.
func (rack *Rack) Operate(line uint8, command string) (string, error) {
	answer := make([]byte, C.RACKD_MOST_TEXT)
	var count C.size_t
	done := C.rackd_checked_operate(&rack.handle, C.uint8_t(line), octets([]byte(command)), C.size_t(len(command)),
		octets(answer), C.size_t(len(answer)), &count)
	if err := checked(done); err != nil {
		return "", err
	}
	return string(answer[:count]), nil
}

// Row returns the row at a place of the audit text of a line; its header is at place 0.
func (rack *Rack) Row(line uint8, place uint32) (string, error) {
	row := make([]byte, C.RACKD_MOST_TEXT)
	var count C.size_t
	done := C.rackd_checked_row(&rack.handle, C.uint8_t(line), C.uint32_t(place), octets(row), C.size_t(len(row)), &count)
	if err := checked(done); err != nil {
		return "", err
	}
	return string(row[:count]), nil
}

// Why returns why the entry at a place has its outcome: the sentence of `rackd explain`, and its facts.
func (rack *Rack) Why(line uint8, place uint32) (string, Facts, error) {
	var facts C.rackd_facts
	var count C.size_t
	for room := make([]byte, C.RACKD_MOST_TEXT); ; room = make([]byte, count) {
		done := C.rackd_checked_why(&rack.handle, C.uint8_t(line), C.uint32_t(place), octets(room), C.size_t(len(room)),
			&count, &facts)
		if done == C.RACKD_SHORT_ROOM {
			continue
		}
		if err := checked(done); err != nil {
			return "", Facts{}, err
		}
		return string(room[:count]), Facts{uint64(facts.since), uint(facts.value), uint(facts.limit), uint8(facts.reason),
			uint8(facts.slave), uint8(facts.point), uint8(facts.master), uint8(facts.state), uint8(facts.detail)}, nil
	}
}

func ruleName(rule C.uint8_t) string {
	name := make([]byte, 32)
	var count C.size_t
	C.rackd_rule_name(rule, octets(name), C.size_t(len(name)), &count)
	return string(name[:count])
}

// Package recorder logs what a node sends and receives, for `synchrony import`.
//
//	log := recorder.New("a", file)
//	name := log.Sends("b")        // before the call that sends; the message carries this name
//	log.Received("b.1", "b.2")    // after a poll, with the names of all that it took, or with none
//
// Each node has a recorder and a file of its own. The lines of one file below the other's make one log (docs/LOGS.md).
package recorder

import (
	"fmt"
	"io"
	"strings"
	"sync"
	"time"
)

// Header is the first line of a log.
const Header = "time,node,event,to,message\n"

// Recorder has the events of one node. Goroutines of the node may share it.
type Recorder struct {
	lock sync.Mutex
	out  io.Writer
	node string
	sent int
	err  error
}

// New begins a log. The name of a node has no space, comma or quote.
func New(node string, out io.Writer) *Recorder {
	_, err := io.WriteString(out, Header)
	return &Recorder{out: out, node: node, err: err}
}

// Sends notes that a message goes to the node `to`, and returns the name of the message.
func (r *Recorder) Sends(to string) string {
	r.lock.Lock()
	defer r.lock.Unlock()
	r.sent++
	message := fmt.Sprintf("%s.%d", r.node, r.sent)
	r.note("send", to, message)
	return message
}

// Received notes that a poll ended, with the names of the messages that it took.
func (r *Recorder) Received(messages ...string) {
	r.lock.Lock()
	defer r.lock.Unlock()
	r.note("receive", "", strings.Join(messages, " "))
}

// Err returns the first error of a write, if there was one: the log lacks what came after it.
func (r *Recorder) Err() error {
	r.lock.Lock()
	defer r.lock.Unlock()
	return r.err
}

// The time is read under the lock, so that the lines of a node are in the order of their times.
func (r *Recorder) note(event, to, message string) {
	if r.err == nil {
		_, r.err = fmt.Fprintf(r.out, "%d,%s,%s,%s,%s\n", time.Now().UnixNano(), r.node, event, to, message)
	}
}

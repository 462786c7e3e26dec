package recorder

import (
	"bytes"
	"os"
	"strings"
	"sync"
	"testing"
	"time"
)

// Two nodes over channels: a sends to b, which polls twice as often. The log goes to the file that LOG names, if it does.
func TestTwoNodes(t *testing.T) {
	const beats = 40
	mail := make(chan string, beats)
	var a, b bytes.Buffer
	var nodes sync.WaitGroup
	nodes.Add(2)
	go func() {
		defer nodes.Done()
		log := New("a", &a)
		for i := 0; i < beats; i++ {
			mail <- log.Sends("b")
			time.Sleep(2 * time.Millisecond)
		}
	}()
	go func() {
		defer nodes.Done()
		log := New("b", &b)
		for taken := 0; taken < beats; {
			var names []string
			for len(mail) > 0 {
				names = append(names, <-mail)
			}
			log.Received(names...)
			taken += len(names)
			time.Sleep(time.Millisecond)
		}
	}()
	nodes.Wait()
	log := a.String() + strings.TrimPrefix(b.String(), Header)
	if got := strings.Count(log, ",send,b,a."); got != beats {
		t.Errorf("%d sends in the log, not %d", got, beats)
	}
	if path := os.Getenv("LOG"); path != "" {
		if err := os.WriteFile(path, []byte(log), 0o644); err != nil {
			t.Fatal(err)
		}
	}
}

type broken struct{}

func (broken) Write([]byte) (int, error) { return 0, os.ErrClosed }

func TestKeepsTheFirstError(t *testing.T) {
	log := New("a", broken{})
	log.Sends("b")
	if log.Err() != os.ErrClosed {
		t.Errorf("the error is %v", log.Err())
	}
}

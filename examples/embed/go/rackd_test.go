package rackd

import (
	"bytes"
	"testing"
)

const text = "[[line]]\nnumber = 1\ncapacity = 1000\nmasters = [1, 2]\n" +
	"[[line.slave]]\naddress = 5\nident = 0x80A1\ncfg = \"2111\"\n"

var (
	diagnosis = []byte{0x68, 5, 5, 0x68, 0x85, 0x81, 0x6D, 0x3C, 0x3E, 0xED, 0x16}
	// an exchange of two octets with a slave that waits for parameters
	exchange = []byte{0x68, 5, 5, 0x68, 5, 1, 0x6D, 0x12, 0x34, 0xB9, 0x16}
)

func open(t *testing.T) *Rack {
	rack, err := Open(text, false)
	if err != nil {
		t.Fatal(err)
	}
	t.Cleanup(rack.Close)
	return rack
}

func TestDiagnosis(t *testing.T) {
	answer, err := open(t).Request(1, 1, diagnosis)
	if err != nil || answer.Rule != "Done" || answer.Place != 1 || !bytes.Equal(answer.Reply[9:15], []byte{2, 5, 0, 0xFF, 0x80, 0xA1}) {
		t.Fatal(answer, err)
	}
}

func TestTimeAndOperator(t *testing.T) {
	rack := open(t)
	if err := rack.Tick(1, 10); err != nil {
		t.Fatal(err)
	}
	if answer, err := rack.Operate(1, "in 5 0102"); err != nil || answer != "done\n" {
		t.Fatal(answer, err)
	}
	if row, err := rack.Row(1, 0); err != nil || row != "rack-audit 2 line 1\n" {
		t.Fatal(row, err)
	}
	if err := rack.Tick(2, 1); err != NoLine {
		t.Fatal(err)
	}
}

func TestWhyARequestIsRefused(t *testing.T) {
	rack := open(t)
	answer, err := rack.Request(1, 1, exchange)
	if err != nil || answer.Rule != "NotActive" {
		t.Fatal(answer, err)
	}
	sentence, facts, err := rack.Why(1, answer.Place)
	if err != nil || sentence != "refused: NotActive. Slave 5 is in Wait_Prm, where Data_Exchange is off." || facts.Reason != 19 || facts.Slave != 5 {
		t.Fatal(sentence, facts, err)
	}
	if _, _, err := rack.Why(1, 2); err != NoEntry {
		t.Fatal(err)
	}
}

func TestClosedRack(t *testing.T) {
	rack := open(t)
	rack.Close()
	if err := rack.Tick(1, 1); err != Closed {
		t.Fatal(err)
	}
}

func TestWrongText(t *testing.T) {
	if _, err := Open("[[line]]\n", false); err == nil {
		t.Fatal("a wrong rack is opened")
	}
}

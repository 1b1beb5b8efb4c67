// Tests an emulator with flat files of chipbench-steps: go run run_steps.go machine.go schip/*.txt
//
// machine.go has your emulator: a struct Machine with the fields below, a function NewMachine(profile string) *Machine, and a
// method Step(keys uint16, tick bool, random func() byte). Key k is bit k of keys. The first difference of each file is printed.
package main

import (
	"encoding/hex"
	"fmt"
	"os"
	"reflect"
	"strings"
)

// Fields are the fields of a line that are still to be read.
type Fields []string

func (fields *Fields) text() (first string) {
	first, *fields = (*fields)[0], (*fields)[1:]
	return first
}

func (fields *Fields) number() (value int) { fmt.Sscanf(fields.text(), "%x", &value); return value }

// list reads as many items as the next field says.
func (fields *Fields) list(item func()) {
	for count := fields.number(); count > 0; count-- {
		item()
	}
}

// state reads a state over another one, of memory and screen only what the line has, and returns the random bytes.
func (fields *Fields) state(machine *Machine) (random []byte) {
	machine.PC, machine.I, machine.Stack = uint16(fields.number()), uint16(fields.number()), nil
	machine.DT, machine.ST, machine.High = byte(fields.number()), byte(fields.number()), fields.number() == 1
	hex.Decode(machine.V[:], []byte(fields.text()))
	hex.Decode(machine.Flags[:], []byte(fields.text()))
	fields.list(func() { machine.Stack = append(machine.Stack, uint16(fields.number())) })
	fields.list(func() { address := fields.number(); machine.Memory[address] = byte(fields.number()) })
	fields.list(func() { row := fields.number(); hex.Decode(machine.Screen[row][:], []byte(fields.text())) })
	fields.list(func() { random = append(random, byte(fields.number())) })
	return random
}

// try prints what differs after the step of a case, and says whether something does.
func try(profile, name string, fields Fields) bool {
	machine := NewMachine(profile)
	machine.Memory = [4096]byte{}
	stop, keys, tick := fields.number(), fields.number(), fields.number() == 1
	random := fields.state(machine)
	expected := *machine
	left := fields.state(&expected)
	expected.Stop = byte(stop)
	machine.Step(uint16(keys), tick, func() byte { next := random[0]; random = random[1:]; return next })
	is, wanted := reflect.ValueOf(*machine), reflect.ValueOf(expected)
	for at := 0; at < is.NumField(); at++ {
		if found := fmt.Sprint(is.Field(at)); found != fmt.Sprint(wanted.Field(at)) || len(random) != len(left) {
			fmt.Printf("%s: %s is %s, and has to be %v; random bytes left: %v\n", name, is.Type().Field(at).Name, found, wanted.Field(at), random)
			return true
		}
	}
	return false
}

func main() {
	for _, name := range os.Args[1:] {
		content, missing := os.ReadFile(name)
		for _, line := range strings.Split(string(content), "\n") {
			fields := strings.Fields(line)
			if isStep := len(fields) > 5 && fields[0] == "step"; missing != nil || isStep && fields[1] != "1" {
				fmt.Println(name, "can't be read, or has another format")
				os.Exit(2)
			} else if isStep && try(fields[2], fields[3]+" case "+fields[4], fields[5:]) {
				defer os.Exit(1)
				break
			}
		}
	}
}

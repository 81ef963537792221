// Holds the heads of make_vectors.py to Sia's own encoder. SIP-0001's Program, marshalled, is its head and then its data.
//
// The encoder is the package encoding of Sia 1.3.0 (Debian's source package sia, sia_1.3.0.orig.tar.gz), under
// $GOPATH/src/github.com/NebulousLabs/Sia/encoding:
//
//	GO111MODULE=off go build -o marshal ./marshal && ./make_vectors.py --heads | ./marshal
package main

import (
	"bufio"
	"bytes"
	"encoding/hex"
	"encoding/json"
	"fmt"
	"os"
	"strconv"

	"github.com/NebulousLabs/Sia/encoding"
)

// The types of SIP-0001, in its order of fields.
type Operand struct {
	Offset uint64
	Len    uint64
}

type InstructionInfo struct {
	OpCode        [16]byte
	Operands      []Operand
	ProofRequired bool
}

type Program struct {
	Contract     [32]byte
	Instructions []InstructionInfo
	Data         []byte
}

type line struct {
	Contract     string
	Instructions []struct {
		Name     string
		Operands [][2]string
		Proof    bool
	}
	Length int
	Head   string
}

func fail(err error) {
	if err != nil {
		fmt.Println(err)
		os.Exit(1)
	}
}

func number(text string) uint64 {
	n, err := strconv.ParseUint(text, 10, 64)
	fail(err)
	return n
}

func raw(text string) []byte {
	b, err := hex.DecodeString(text)
	fail(err)
	return b
}

func main() {
	in := bufio.NewScanner(os.Stdin)
	in.Buffer(make([]byte, 1<<20), 1<<20)
	same, differ := 0, 0
	for in.Scan() {
		var l line
		fail(json.Unmarshal(in.Bytes(), &l))
		var p Program
		copy(p.Contract[:], raw(l.Contract))
		for _, i := range l.Instructions {
			var info InstructionInfo
			copy(info.OpCode[:], raw(i.Name))
			for _, o := range i.Operands {
				info.Operands = append(info.Operands, Operand{number(o[0]), number(o[1])})
			}
			info.ProofRequired = i.Proof
			p.Instructions = append(p.Instructions, info)
		}
		p.Data = make([]byte, l.Length)
		whole := encoding.Marshal(p)
		if bytes.Equal(whole[:len(whole)-l.Length], raw(l.Head)) {
			same++
		} else {
			differ++
			fmt.Printf("differs: %s\n", l.Head)
		}
	}
	fail(in.Err())
	fmt.Printf("%d the same, %d differ\n", same, differ)
}

// Writes what `tree_vectors` must write, by the Sia team's own Merkle tree over golang.org/x/crypto's BLAKE2b: every root, and every hash of a
// proof, is the root of a run of segments as `merkletree.Tree` gives it. The walk and the checker are document 01's sentences. A proof of one
// segment is also held against the library's own proof set. The lines of the counts 4194304 and 4194305 are ../make_large.py's: they stand behind
// that of 4097.
//
// Debian: golang-go golang-github-nebulouslabs-merkletree-dev golang-golang-x-crypto-dev, then
// GO111MODULE=off GOPATH=/usr/share/gocode go run main.go > ../stdout
//
// `go run main.go TEST..` leaves tests of the checker out (zero, limit, empty, past, bytes, hashes): the lines that change are refused by
// these tests alone.
package main

import (
	"bytes"
	"fmt"
	"os"

	"github.com/NebulousLabs/merkletree"
	"golang.org/x/crypto/blake2b"
)

const most = 4097

var counts = []int{1, 2, 3, 5, 7, 64, 65, 128, 192, 200, 320, 4096}

// ranges at both ends, at the middle, and at the edges of parts
func ranges(n int) [][2]int {
	r := [][2]int{{0, 1}, {n - 1, n}, {0, n}, {n / 2, n}}
	if 65 <= n {
		r = append(r, [2]int{63, 65})
	}
	if 129 <= n {
		r = append(r, [2]int{128, 129}, [2]int{64, 128})
	}
	return r
}

// parts of 64 segments: how many, which one, and a range within it
var within = [][4]int{{1, 0, 0, 1}, {2, 1, 0, 64}, {3, 2, 0, 1}, {3, 0, 63, 64}, {5, 3, 10, 20}, {5, 4, 0, 64}}

var segments [most][]byte

func tree() *merkletree.Tree {
	h, err := blake2b.New256(nil)
	if err != nil {
		panic(err)
	}
	return merkletree.New(h)
}

func rootOf(segments [][]byte) []byte {
	t := tree()
	for _, s := range segments {
		t.Push(s)
	}
	return t.Root()
}

func root(from, to int) []byte {
	return rootOf(segments[from:to])
}

// The largest power of two below n.
func half(n int) int {
	k := 1
	for 2*k < n {
		k *= 2
	}
	return k
}

// Outside the range the part's root, wholly inside nothing, else left then right.
func walk(at, n, first, end int) [][]byte {
	if end <= at || at+n <= first {
		return [][]byte{root(at, at+n)}
	}
	if first <= at && at+n <= end {
		return nil
	}
	k := half(n)
	return append(walk(at, k, first, end), walk(at+k, n-k, first, end)...)
}

// The library's proof of one segment has the same hashes, from the segment up.
func agrees(n, i int, hashes [][]byte) {
	t := tree()
	if err := t.SetIndex(uint64(i)); err != nil {
		panic(err)
	}
	for _, s := range segments[:n] {
		t.Push(s)
	}
	_, set, _, _ := t.Prove()
	if len(set) != len(hashes)+1 {
		panic("proof sets differ in length")
	}
	for _, h := range hashes {
		found := false
		for _, s := range set[1:] {
			found = found || bytes.Equal(s, h)
		}
		if !found {
			panic("proof sets differ")
		}
	}
}

// The same walk over what is given: the root rebuilt and the hash bytes left over; none where hashes are missing.
func rebuild(at, n, first, end int, given, hashes []byte) ([]byte, []byte) {
	if end <= at || at+n <= first {
		if len(hashes) < 32 {
			return nil, nil
		}
		return hashes[:32], hashes[32:]
	}
	if first <= at && at+n <= end {
		var inside [][]byte
		for i := at - first; i < at-first+n; i++ {
			inside = append(inside, given[64*i:64*i+64])
		}
		return rootOf(inside), hashes
	}
	k := half(n)
	left, rest := rebuild(at, k, first, end, given, hashes)
	right, rest := rebuild(at+k, n-k, first, end, given, rest)
	if left == nil || right == nil {
		return nil, nil
	}
	node := blake2b.Sum256(append(append([]byte{1}, left...), right...))
	return node[:], rest
}

func tested(test string) bool {
	for _, left := range os.Args[1:] {
		if left == test {
			return false
		}
	}
	return true
}

// "The checker (root, count 1 to 4,096, first, end, bytes, hashes) says yes exactly when first < end ≤ count, the bytes number
// 64 × (end - first), and the same walk rebuilds the root using up all hash bytes; else no."
func check(root []byte, n, first, end int, given, hashes []byte) bool {
	if tested("zero") && n < 1 || tested("limit") && 4194304 < n {
		return false
	}
	if tested("empty") && end <= first || tested("past") && n < end {
		return false
	}
	long := 64 * (end - first)
	if long < 0 {
		long = 0
	}
	if tested("bytes") && len(given) != long {
		return false
	}
	rebuilt, rest := rebuild(0, n, first, end, given, hashes)
	return bytes.Equal(rebuilt, root) && (len(rest) == 0 || !tested("hashes"))
}

func say(text string, root []byte, n, first, end int, given, hashes []byte) {
	said := "no"
	if check(root, n, first, end, given, hashes) {
		said = "yes"
	}
	fmt.Printf("%s: count %d, range %d %d, root bytes %d, segment bytes %d, hashes %d, hash bytes %d: %s\n",
		text, n, first, end, len(root), len(given), len(hashes)/32, len(hashes), said)
}

func joined(parts [][]byte) []byte {
	return bytes.Join(parts, nil)
}

// How often the checker does not say no to the proof of 63 up to 65 of 200 with a bit flipped in one byte of it.
func flipped(given, hashes []byte) int {
	all, times := joined([][]byte{root(0, 200), given, hashes}), 0
	for k := range all {
		all[k] ^= 1
		if check(all[:32], 200, 63, 65, all[32:160], all[160:]) {
			times++
		}
		all[k] ^= 1
	}
	return times
}

func damaged() {
	top, given, hashes := root(0, 200), joined(segments[63:65]), joined(walk(0, 200, 63, 65))
	say("whole", top, 200, 63, 65, given, hashes)
	fmt.Println("a bit flipped in each byte in turn: not refused", flipped(given, hashes))
	say("one hash more", top, 200, 63, 65, given, append(append([]byte{}, hashes...), make([]byte, 32)...))
	say("one hash fewer", top, 200, 63, 65, given, hashes[:len(hashes)-32])
	say("a hash of 31 bytes", top, 200, 63, 65, given, hashes[:len(hashes)-1])
	say("a root of 31 bytes", top[:31], 200, 63, 65, given, hashes)
	say("one segment fewer", top, 200, 63, 65, given[:64], hashes)
	last := joined(walk(0, 200, 199, 200))
	say("whole", top, 200, 199, 200, segments[199], last)
	say("range past the count", top, 200, 199, 201, joined(segments[199:201]), last)
	say("count 4096", root(0, 4096), 4096, 4094, 4096, joined(segments[4094:4096]), joined(walk(0, 4096, 4094, 4096)))
	say("count 4097", root(0, 4097), 4097, 4095, 4097, joined(segments[4095:4097]), joined(walk(0, 4097, 4095, 4097)))
	say("empty range", top, 200, 0, 0, nil, top)
	say("range swapped", top, 200, 1, 0, nil, top)
	say("count 0", top, 0, 0, 1, segments[0], top)
}

func main() {
	for i := range segments {
		segments[i] = make([]byte, 64)
		for j := range segments[i] {
			k := 64*i + j
			segments[i][j] = byte((k%251 + k/64%241) % 256)
		}
	}
	for _, n := range counts {
		fmt.Printf("root %d %x\n", n, root(0, n))
		for _, r := range ranges(n) {
			hashes := walk(0, n, r[0], r[1])
			if r[1] == r[0]+1 {
				agrees(n, r[0], hashes)
			}
			fmt.Printf("range %d %d %d %d %x yes\n", n, r[0], r[1], len(hashes), joined(hashes))
		}
	}
	for _, w := range within {
		n := 64 * w[0]
		hashes := walk(0, n, 64*w[1]+w[2], 64*w[1]+w[3])
		fmt.Printf("within %d %d %d %d %x %x\n", w[0], w[1], w[2], w[3], root(0, n), joined(hashes))
	}
	damaged()
}

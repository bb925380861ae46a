// Prints lengths of arrays whose nodes begin their search in one place of an arena's table: as many as are asked for, where the table
// has two to the power of so many groups. An arena hashes its nodes with the kit's FoldHasher, which has a fixed seed.
package main

import (
	"bufio"
	"fmt"
	"math/bits"
	"os"
	"strconv"
)

const (
	seed       = 0x243f6a8885a308d3
	multiplier = 0x9e3779b97f4a7c15
	arrayKind  = 6
	element    = 0
)

func fold(a, b uint64) uint64 {
	high, low := bits.Mul64(a, b)
	return high ^ low
}

func main() {
	count, _ := strconv.Atoi(os.Args[1])
	groups, _ := strconv.Atoi(os.Args[2])
	mask := uint32(1)<<groups - 1
	begun := fold(seed^arrayKind, multiplier^16)
	out := bufio.NewWriter(os.Stdout)
	defer out.Flush()
	for length := uint64(1); count > 0; length++ {
		hash := fold(fold(begun^length, multiplier^16)^(element|element<<32), multiplier^8)
		if uint32(hash^hash>>32)&mask == 0 {
			fmt.Fprintln(out, length)
			count--
		}
	}
}

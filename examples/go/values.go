// The values of the strings, names and integers in a file, with lines and columns, by the installed library: go run values.go FILE
package main

// #cgo pkg-config: thallusweb
// #include <thallusweb.h>
import "C"

import (
	"encoding/binary"
	"fmt"
	"os"
	"unsafe"
)

// whose says of which token a name is, by the last word of the answer.
var whose = map[C.uint64_t]string{C.THALLUSWEB_KIND_ID: "id ", C.THALLUSWEB_KIND_ANNOTATION: "annotation "}

// room has so many bytes and a place for one more, so that it has a pointer even for none.
func room(n int) []byte               { return make([]byte, n, n+1) }
func pointer(b []byte) *C.uint8_t     { return (*C.uint8_t)(unsafe.Pointer(&b[:1][0])) }
func length(b []byte) C.size_t        { return C.size_t(len(b)) }
func move(p *[3]C.uint32_t, b []byte) { C.thallusweb_move(&p[0], pointer(b), length(b)) }
func isInteger(kind uint16) bool      { return kind&C.THALLUSWEB_KIND_MASK == C.THALLUSWEB_KIND_INTEGER }
func isString(kind uint16) bool       { return kind == C.THALLUSWEB_KIND_STRING }
func hasName(kind uint16) bool        { return kind == C.THALLUSWEB_KIND_ID || kind == C.THALLUSWEB_KIND_ANNOTATION }

// value is what a token stands for, given just its own bytes, an integer as an int64; of a name first whose it is, which
// the call says; nothing if it is refused.
func value(own []byte, kind uint16) []byte {
	token, buffer := [3]C.uint64_t{C.uint64_t(kind), 0, C.uint64_t(len(own))}, room(len(own))
	var answer [6]C.uint64_t
	var part [3]C.uint64_t
	if isInteger(kind) {
		C.thallusweb_integer_64(pointer(own), length(own), &token[0], &answer[0])
		if answer[0] != 1 {
			return nil
		}
		return []byte(fmt.Sprint(int64(answer[1])))
	}
	if isString(kind) {
		C.thallusweb_read(pointer(own), length(own), C.THALLUSWEB_STRING, &token[0], pointer(buffer), length(buffer), &answer[0])
	} else {
		C.thallusweb_name(pointer(own), length(own), &token[0], pointer(buffer), length(buffer), &answer[0])
	}
	C.thallusweb_part(pointer(own), length(own), pointer(buffer), length(buffer), &answer[0], &part[0])
	if part[0] == 3 {
		own = buffer
	}
	return append([]byte(whose[answer[5]]), own[part[1]:part[1]+part[2]]...)
}

func main() {
	if len(os.Args) != 2 {
		fmt.Fprintln(os.Stderr, "usage: values FILE")
		os.Exit(2)
	}
	file, err := os.ReadFile(os.Args[1])
	if err != nil {
		fmt.Fprintln(os.Stderr, err)
		os.Exit(1)
	}
	text, list, place, at := append(room(0), file...), room(C.THALLUSWEB_RECORD*len(file)), [3]C.uint32_t{1, 1, 0}, 0
	var listed [7]C.uint64_t
	C.thallusweb_list(pointer(text), length(text), 0, 0, length(text), pointer(list), length(list), &listed[0])
	for ; listed[5] > 0; listed[5]-- {
		own := text[at : at+int(binary.LittleEndian.Uint32(list))]
		kind := binary.LittleEndian.Uint16(list[4:])
		if isString(kind) || hasName(kind) || isInteger(kind) {
			fmt.Printf("%d:%d %s\n", place[0], place[1], value(own, kind))
		}
		move(&place, own)
		at, list = at+len(own), list[C.THALLUSWEB_RECORD:]
	}
	if listed[0] == 2 {
		message, told := room(C.THALLUSWEB_MESSAGE), [5]C.uint64_t{}
		if int(listed[2]) > at {
			move(&place, text[at:listed[2]])
		}
		C.thallusweb_message(listed[1], listed[3], listed[4], pointer(message), length(message), &told[0])
		if told[0] != 1 {
			message = []byte(fmt.Sprintf("refused by %d", listed[1]))
		} else {
			message = message[:told[1]]
		}
		fmt.Fprintf(os.Stderr, "%s:%d:%d: %s\n", os.Args[1], place[0], place[1], message)
		os.Exit(1)
	}
}

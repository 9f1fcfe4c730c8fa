// Command lrc calls the C library through cgo: it encodes a stripe, loses three fragments and rebuilds them, and changes one.
//
//	CGO_CFLAGS=$(pkg-config --cflags lrc) CGO_LDFLAGS="$(pkg-config --libs lrc) -Wl,-rpath,$(pkg-config --variable=libdir lrc)" go run .
package main

/*
#include <lrc.h>
#include <stdlib.h>
*/
import "C"

import (
	"bytes"
	"crypto/rand"
	"errors"
	"fmt"
	"log"
	"unsafe"
)

// What the library answers where it doesn't do what was asked.
var (
	ErrContradiction = errors.New("no stripe has these fragments")
	ErrSeveral       = errors.New("the fragments that are left do not determine the lost one")
	ErrBadArgument   = errors.New("invalid argument")
)

func toError(status C.uint32_t) error {
	switch status {
	case C.LRC_OK:
		return nil
	case C.LRC_CONTRADICTION:
		return ErrContradiction
	case C.LRC_SEVERAL:
		return ErrSeveral
	default:
		return ErrBadArgument
	}
}

// Stripe has a fragment of one length at each place of the (6,2,2) code. The fragments are C's memory, since the library gets
// a table of pointers to them, and Go's memory may not hold such a table.
type Stripe struct {
	length    int
	fragments [C.LRC_PLACES]*C.uint8_t
	lost      [C.LRC_PLACES]bool
}

// NewStripe makes a stripe of zeros. Free gives its memory back.
func NewStripe(length int) *Stripe {
	s := &Stripe{length: length}
	for p := 0; p <= C.LRC_P1; p++ {
		s.fragments[p] = (*C.uint8_t)(C.calloc(C.size_t(length), 1))
	}
	return s
}

// Free gives the fragments' memory back.
func (s *Stripe) Free() {
	for p := range s.fragments {
		C.free(unsafe.Pointer(s.fragments[p]))
		s.fragments[p] = nil
	}
}

// Bytes are those of the fragment at a place, until Free.
func (s *Stripe) Bytes(place int) []byte {
	return unsafe.Slice((*byte)(unsafe.Pointer(s.fragments[place])), s.length)
}

// Lose says that the fragment at a place is lost.
func (s *Stripe) Lose(place int) {
	s.lost[place] = true
}

// Encode writes the parities.
func (s *Stripe) Encode() error {
	return toError(C.lrc_encode(C.LRC_6_2_2, &s.fragments[0], C.size_t(s.length)))
}

// Rebuild writes the fragment at a lost place from those that survive.
func (s *Stripe) Rebuild(place int) error {
	var left [C.LRC_PLACES]*C.uint8_t
	for p, fragment := range s.fragments {
		if !s.lost[p] {
			left[p] = fragment
		}
	}
	err := toError(C.lrc_rebuild(C.LRC_6_2_2, &left[0], C.enum_lrc_place(place), s.fragments[place], C.size_t(s.length)))
	if err == nil {
		s.lost[place] = false
	}
	return err
}

// Reads are the fewest available places that determine the lost ones.
func (s *Stripe) Reads() ([]int, error) {
	var wanted, available, reads C.uint32_t
	for p := 0; p <= C.LRC_P1; p++ {
		if s.lost[p] {
			wanted |= 1 << p
		} else {
			available |= 1 << p
		}
	}
	if err := toError(C.lrc_reads_into(C.LRC_6_2_2, wanted, available, &reads)); err != nil {
		return nil, err
	}
	var places []int
	for p := 0; p <= C.LRC_P1; p++ {
		if reads>>p&1 != 0 {
			places = append(places, p)
		}
	}
	return places, nil
}

// Update brings the parities up to date after the data fragment at a place changed by the difference.
func (s *Stripe) Update(place int, difference []byte) error {
	if len(difference) != s.length {
		return ErrBadArgument
	}
	var none C.uint8_t
	at := &none
	if len(difference) > 0 {
		at = (*C.uint8_t)(unsafe.Pointer(&difference[0]))
	}
	return toError(C.lrc_update(C.LRC_6_2_2, C.enum_lrc_place(place), at, &s.fragments[C.LRC_PX], C.size_t(s.length)))
}

func main() {
	if C.lrc_version() != C.LRC_VERSION_NUMBER {
		log.Fatal("another version of the library")
	}
	stripe := NewStripe(100_000)
	defer stripe.Free()
	for p := C.LRC_X0; p <= C.LRC_Y2; p++ {
		if _, err := rand.Read(stripe.Bytes(p)); err != nil {
			log.Fatal(err)
		}
	}
	if err := stripe.Encode(); err != nil {
		log.Fatal(err)
	}
	lost := []int{C.LRC_X0, C.LRC_Y1, C.LRC_P0}
	kept := make(map[int][]byte)
	for _, p := range lost {
		kept[p] = append([]byte(nil), stripe.Bytes(p)...)
		copy(stripe.Bytes(p), make([]byte, stripe.length))
		stripe.Lose(p)
	}
	if reads, err := stripe.Reads(); err != nil || len(reads) != 6 {
		log.Fatalf("reads %v for three lost ones: %v", reads, err)
	}
	for _, p := range lost {
		if err := stripe.Rebuild(p); err != nil {
			log.Fatal(err)
		}
		if !bytes.Equal(stripe.Bytes(p), kept[p]) {
			log.Fatalf("place %d has other bytes", p)
		}
	}
	difference := make([]byte, stripe.length)
	difference[1] = 5
	stripe.Bytes(C.LRC_Y0)[1] ^= 5
	if err := stripe.Update(C.LRC_Y0, difference); err != nil {
		log.Fatal(err)
	}
	stripe.Lose(C.LRC_Y0)
	if err := stripe.Rebuild(C.LRC_Y0); err != nil {
		log.Fatal(err)
	}
	empty := NewStripe(0)
	defer empty.Free()
	if err := empty.Update(C.LRC_Y0, nil); err != nil {
		log.Fatalf("an update of no bytes: %v", err)
	}
	if err := empty.Update(C.LRC_PX, nil); err != ErrBadArgument {
		log.Fatalf("an update of a parity: %v", err)
	}
	stripe.Bytes(C.LRC_X1)[0] ^= 1
	stripe.Lose(C.LRC_X0)
	if err := stripe.Rebuild(C.LRC_X0); err != ErrContradiction {
		log.Fatalf("a changed byte: %v", err)
	}
	fmt.Println("rebuilt three of ten fragments")
}

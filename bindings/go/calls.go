package dnsm

// #include <dnsm.h>
import "C"

import "unsafe"

// textCapacity is enough for nearly every text. A call whose result is longer says how long it is, and is made again.
const textCapacity = 256

// pointer is the address of octets, for a call that takes their number too.
func pointer(octets []byte) *C.uint8_t {
	if len(octets) == 0 {
		return nil
	}
	return (*C.uint8_t)(unsafe.Pointer(&octets[0]))
}

// chars is the address of the octets of a text.
func chars(octets []byte) *C.char {
	return (*C.char)(unsafe.Pointer(pointer(octets)))
}

// written is the octets that a call writes.
func written(write func(out []byte, length *C.size_t) C.dnsm_status) ([]byte, error) {
	return writtenInto(make([]byte, textCapacity), write)
}

// writtenInto is the octets that a call writes. It is made once if the capacity of the buffer suffices.
func writtenInto(out []byte, write func(out []byte, length *C.size_t) C.dnsm_status) ([]byte, error) {
	for {
		var length C.size_t
		switch status := write(out, &length); status {
		case C.DNSM_OK:
			return out[:length:length], nil
		case C.DNSM_NO_ROOM:
			// A text needs one octet more than its length.
			out = make([]byte, length+1)
		default:
			return nil, Status(status)
		}
	}
}

// failure is the error of a status, or nil.
func failure(status C.dnsm_status) error {
	if status == C.DNSM_OK {
		return nil
	}
	return Status(status)
}

// text is the text that a call writes. The call can't fail.
func text(write func(out []byte, length *C.size_t) C.dnsm_status) string {
	out, err := written(write)
	if err != nil {
		panic(err)
	}
	return string(out)
}

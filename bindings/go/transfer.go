package dnsm

// #include <dnsm.h>
import "C"

// FirstMessage is the first message of a stream, such as TCP, and the octets after it. The message is nil if octets of it are missing. Two
// octets with its length come before it (RFC 1035 section 4.2.2). The error is ShortInput if the length is less than 12: close the
// connection then.
func FirstMessage(stream []byte) (message, after []byte, err error) {
	var length, missing C.size_t
	switch status := C.dnsm_first_message(pointer(stream), C.size_t(len(stream)), &length, &missing); status {
	case C.DNSM_OK:
		end := 2 + int(length)
		return stream[2:end:end], stream[end:], nil
	case C.DNSM_END:
		return nil, stream, nil
	default:
		return nil, stream, Status(status)
	}
}

// MissingOctets is how many octets of the first message of a stream are missing: from its length or, once that is there, from the message.
func MissingOctets(stream []byte) int {
	var length, missing C.size_t
	C.dnsm_first_message(pointer(stream), C.size_t(len(stream)), &length, &missing)
	return int(missing)
}

// Transfer is a transfer of a zone, of which some messages were taken (RFC 5936, RFC 1995). TSIG isn't checked.
type Transfer struct {
	transfer C.dnsm_transfer
	steps    *Steps // of the last message
}

// NewAXFR is the transfer that a query by AXFR asks for: the whole zone. The zone is its name as uncompressed octets. The error is BadText
// if they aren't exactly one name.
func NewAXFR(id uint16, zone []byte, class Class) (*Transfer, error) {
	return newTransfer(id, zone, class, false, 0)
}

// NewIXFR is the transfer that a query by IXFR asks for: the changes since the version with serial known. The error is that of NewAXFR.
func NewIXFR(id uint16, zone []byte, class Class, known uint32) (*Transfer, error) {
	return newTransfer(id, zone, class, true, known)
}

func newTransfer(id uint16, zone []byte, class Class, changes bool, known uint32) (*Transfer, error) {
	t := new(Transfer)
	status := C.dnsm_begin_transfer(&t.transfer, C.uint16_t(id), pointer(zone), C.size_t(len(zone)), C.uint16_t(class), C.bool(changes),
		C.uint32_t(known))
	if status != C.DNSM_OK {
		return nil, Status(status)
	}
	return t, nil
}

// Take is an iterator over the steps of the next message. Take all of them: else the next call returns Incomplete, as steps would be left
// out. The error says why the message isn't the next one: ShortInput, AfterEnd, OtherQuery, NoResponse, BadRcode, Truncated, or that of
// reading a question. Each later call returns it again.
func (t *Transfer) Take(message []byte) (*Steps, error) {
	if !t.steps.areTaken() {
		return nil, Incomplete
	}
	s := &Steps{transfer: t, octets: message}
	if status := C.dnsm_open_transfer(&t.transfer, pointer(message), C.size_t(len(message)), &s.cursor); status != C.DNSM_OK {
		return nil, Status(status)
	}
	t.steps = s
	return s, nil
}

// HasEnded says whether it has ended without an error. Else it waits for a message: over UDP, ask again over TCP (RFC 1995 section 2).
func (t *Transfer) HasEnded() bool { return t.End() == nil }

// End says that no message follows. The error is the one that ended the transfer, or Incomplete if it hasn't ended.
func (t *Transfer) End() error {
	if !t.steps.areTaken() {
		return Incomplete
	}
	return failure(C.dnsm_end_transfer(&t.transfer))
}

// StepKind is what a record of a transfer does.
type StepKind uint8

// What a record of a transfer does.
const (
	StepBegin    StepKind = C.DNSM_STEP_BEGIN      // the version with this serial is transferred, and the record is its SOA record: part of a zone that is sent whole, but changes add it again
	StepUpToDate StepKind = C.DNSM_STEP_UP_TO_DATE // the server's version has this serial, and isn't newer: nothing follows
	StepWhole    StepKind = C.DNSM_STEP_WHOLE      // in place of changes the whole zone follows: forget the version before, and begin with the record of StepBegin
	StepRemove   StepKind = C.DNSM_STEP_REMOVE     // remove the record
	StepAdd      StepKind = C.DNSM_STEP_ADD        // add the record
	StepEnd      StepKind = C.DNSM_STEP_END        // the zone is now the version with this serial
)

// Step is what a record of a transfer does.
type Step struct {
	Kind StepKind
	// Serial is that of StepBegin, StepUpToDate and StepEnd, else 0.
	Serial uint32
	// Record is that of StepBegin, StepRemove and StepAdd. Of the others it is only the one that says so.
	Record Item
}

// Steps is an iterator, as of Transfer.Take.
type Steps struct {
	transfer *Transfer
	octets   []byte
	cursor   C.dnsm_cursor
	step     C.dnsm_step
	status   C.dnsm_status
}

// Next takes the next step, and says whether there is one.
func (s *Steps) Next() bool {
	if s.status == C.DNSM_OK {
		s.status = C.dnsm_next_step(&s.transfer.transfer, pointer(s.octets), C.size_t(len(s.octets)), &s.cursor, &s.step)
	}
	return s.status == C.DNSM_OK
}

// areTaken says whether all steps were taken, or an error.
func (s *Steps) areTaken() bool {
	return s == nil || s.status != C.DNSM_OK || s.cursor.left == 0
}

// Step is the step that Next has taken.
func (s *Steps) Step() Step {
	return Step{StepKind(s.step.kind), uint32(s.step.serial), Item{s.octets, s.step.item}}
}

// Err is why Next returned false, or nil at the end of the message. Each later call of the transfer returns it again.
func (s *Steps) Err() error {
	if s.status == C.DNSM_OK || s.status == C.DNSM_END {
		return nil
	}
	return Status(s.status)
}

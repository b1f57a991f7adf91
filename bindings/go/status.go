package dnsm

// #include <dnsm.h>
import "C"

// Status is why a call has no result: a status of dnsm.h.
type Status uint32

// The statuses that calls return.
const (
	ShortInput  Status = C.DNSM_SHORT_INPUT  // an octet that is needed is past the end of the message
	BadLabel    Status = C.DNSM_BAD_LABEL    // a length octet has the high bits 01 or 10
	BadPointer  Status = C.DNSM_BAD_POINTER  // a compression pointer doesn't lead to an offset before its own
	LongName    Status = C.DNSM_LONG_NAME    // a name has more than 255 octets
	Form        Status = C.DNSM_FORM         // octets follow the RDATA of an SOA record, in a transfer
	NoRoom      Status = C.DNSM_NO_ROOM      // the buffer or the limit of a builder leaves too few octets
	BadText     Status = C.DNSM_BAD_TEXT     // a text represents nothing, or octets are no valid name
	NoQuestion  Status = C.DNSM_NO_QUESTION  // the query doesn't have exactly one question
	BadSection  Status = C.DNSM_BAD_SECTION  // a section number exceeds 3, or comes before that of the last item
	NoMemory    Status = C.DNSM_NO_MEMORY    // an allocation failed
	LongData    Status = C.DNSM_LONG_DATA    // RDATA or an option of more than 65,535 octets
	TooMany     Status = C.DNSM_TOO_MANY     // more than 65,535 items for a section
	IsResponse  Status = C.DNSM_IS_RESPONSE  // the octets are a response, which gets no response
	OtherOpcode Status = C.DNSM_OTHER_OPCODE // the opcode isn't QUERY
	OtherClass  Status = C.DNSM_OTHER_CLASS  // the class of the question isn't IN
	OtherType   Status = C.DNSM_OTHER_TYPE   // the type of the question is neither A nor ANY
	NotOPT      Status = C.DNSM_NOT_OPT      // the item is no OPT record
	BadOption   Status = C.DNSM_BAD_OPTION   // an option isn't whole within the RDATA
	NoName      Status = C.DNSM_NO_NAME      // the RDATA has no such name
	BadData     Status = C.DNSM_BAD_DATA     // the octets are no RDATA of the record type
	NoOPT       Status = C.DNSM_NO_OPT       // the additional section has no OPT record
	TwoOPTs     Status = C.DNSM_TWO_OPTS     // the additional section has two OPT records
	BadOwner    Status = C.DNSM_BAD_OWNER    // the owner of the OPT record isn't the root
	NoResponse  Status = C.DNSM_NO_RESPONSE  // QR isn't set, so this is no response
	OtherQuery  Status = C.DNSM_OTHER_QUERY  // the ID, the opcode or the questions of a response aren't those of the query
	BadRcode    Status = C.DNSM_BAD_RCODE    // the rcode isn't NOERROR
	Truncated   Status = C.DNSM_TRUNCATED    // TC is set
	WrongClass  Status = C.DNSM_WRONG_CLASS  // a record has another class than the zone
	OutsideZone Status = C.DNSM_OUTSIDE_ZONE // the owner of a record is outside of the zone
	NoSOA       Status = C.DNSM_NO_SOA       // the first record of a transfer is no SOA record
	WrongSOA    Status = C.DNSM_WRONG_SOA    // an SOA record isn't the one that may come next in a transfer
	AfterEnd    Status = C.DNSM_AFTER_END    // a record or a message follows the end of a transfer
	Incomplete  Status = C.DNSM_INCOMPLETE   // a transfer hasn't ended
)

// Error is a sentence that says why, in English.
func (s Status) Error() string {
	return text(func(out []byte, length *C.size_t) C.dnsm_status {
		return C.dnsm_status_text(C.dnsm_status(s), chars(out), C.size_t(len(out)), length)
	})
}

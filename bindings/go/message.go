package dnsm

// #include <dnsm.h>
import "C"

// Header is the header of a message.
type Header struct {
	ID     uint16
	Flags  uint16    // the third and fourth octets: the flags, as QR, and opcode and rcode
	Counts [4]uint16 // indexed by section
	Opcode uint8
	Rcode  uint8
}

// Message is a message whose header has been read. It keeps the octets. Don't change them while it is used.
type Message struct {
	Header
	octets []byte
	start  C.dnsm_cursor
}

// Parse reads the header. The error is ShortInput if there are fewer than 12 octets.
func Parse(octets []byte) (*Message, error) {
	var header C.dnsm_header
	var start C.dnsm_cursor
	if status := C.dnsm_open(pointer(octets), C.size_t(len(octets)), &header, &start); status != C.DNSM_OK {
		return nil, Status(status)
	}
	m := &Message{octets: octets, start: start}
	m.ID, m.Flags = uint16(header.id), uint16(header.flags)
	m.Opcode, m.Rcode = uint8(header.opcode), uint8(header.rcode)
	for i, count := range header.counts {
		m.Counts[i] = uint16(count)
	}
	return m, nil
}

// Octets is the octets that were passed to Parse.
func (m *Message) Octets() []byte {
	return m.octets
}

// Items is an iterator over the questions and records, in order, up to the first that can't be read.
func (m *Message) Items() *Items {
	return &Items{octets: m.octets, cursor: m.start}
}

// Trailing is the octets after the last item, which are no part of the message. The error is that of the first item that can't be read.
func (m *Message) Trailing() ([]byte, error) {
	items := m.Items()
	for items.Next() {
	}
	if err := items.Err(); err != nil {
		return nil, err
	}
	return m.octets[items.Offset():], nil
}

// Section is the items of a section. With an error, they are those before the first that can't be read. What can't be read after
// the section makes no error. The error is BadSection for a number that exceeds 3.
func (m *Message) Section(section Section) ([]Item, error) {
	if section > Additional {
		return nil, BadSection
	}
	left := 0
	for _, count := range m.Counts[:section+1] {
		left += int(count)
	}
	var found []Item
	items := m.Items()
	for ; left > 0 && items.Next(); left-- {
		if item := items.Item(); item.Section() == section {
			found = append(found, item)
		}
	}
	return found, items.Err()
}

// Answers returns nil if this is the response to a query: QR is set, and ID, opcode and questions are those of the query. The error is
// NoResponse, OtherQuery, or ShortInput if the query has fewer than 12 octets.
func (m *Message) Answers(query []byte) error {
	return failure(C.dnsm_answers(pointer(query), C.size_t(len(query)), pointer(m.octets), C.size_t(len(m.octets))))
}

// FindOPT is the only OPT record, anywhere in the additional section, and the rcode of twelve bits; without one, nil and the rcode of
// the header. The error is TwoOPTs, that of the first item that can't be read, BadOwner if the owner isn't the root, or BadOption.
func (m *Message) FindOPT() (*OPT, Rcode, error) {
	var fields C.dnsm_opt
	var item C.dnsm_item
	var rcode C.uint16_t
	switch status := C.dnsm_find_opt(pointer(m.octets), C.size_t(len(m.octets)), &fields, &item, &rcode); status {
	case C.DNSM_OK:
		opt, err := Item{m.octets, item}.OPT()
		return opt, Rcode(rcode), err
	case C.DNSM_NO_OPT:
		return nil, Rcode(m.Rcode), nil
	default:
		return nil, Rcode(m.Rcode), Status(status)
	}
}

// OPT is the first OPT record of the additional section, or nil.
func (m *Message) OPT() (*OPT, error) {
	items := m.Items()
	for items.Next() {
		if item := items.Item(); item.Section() == Additional && item.Type() == TypeOPT {
			return item.OPT()
		}
	}
	return nil, items.Err()
}

// Items is an iterator, as of Message.Items.
type Items struct {
	octets []byte
	cursor C.dnsm_cursor
	item   C.dnsm_item
	status C.dnsm_status
}

// Next reads the next item, and says whether there is one.
func (i *Items) Next() bool {
	if i.status == C.DNSM_OK {
		i.status = C.dnsm_next(pointer(i.octets), C.size_t(len(i.octets)), &i.cursor, &i.item)
	}
	return i.status == C.DNSM_OK
}

// Offset is where the next item begins; after the last one, where the message ends.
func (i *Items) Offset() int { return int(i.cursor.place) }

// Item is the item that Next has read.
func (i *Items) Item() Item {
	return Item{i.octets, i.item}
}

// Err is why Next returned false, or nil at the end.
func (i *Items) Err() error {
	if i.status == C.DNSM_OK || i.status == C.DNSM_END {
		return nil
	}
	return Status(i.status)
}

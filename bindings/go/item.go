package dnsm

// #include <dnsm.h>
import "C"

import "fmt"

// Item is a question or a record of a message.
type Item struct {
	octets []byte
	item   C.dnsm_item
}

// Section is the section that it is in.
func (i Item) Section() Section { return Section(i.item.section) }

// Type is its type.
func (i Item) Type() Type { return Type(i.item._type) }

// Class is its class.
func (i Item) Class() Class { return Class(i.item.class_) }

// TTL is in seconds; 0 for a question.
func (i Item) TTL() uint32 { return uint32(i.item.ttl) }

// Name is its name as text, with a dot after each label. It can always be read.
func (i Item) Name() string {
	name, err := nameText(i.octets, i.item.place)
	if err != nil {
		panic(err)
	}
	return name
}

// NameOctets is its name, without compression pointers.
func (i Item) NameOctets() []byte {
	octets, err := nameOctets(i.octets, i.item.place)
	if err != nil {
		panic(err)
	}
	return octets
}

// Offset is the offset of its name in the message.
func (i Item) Offset() int { return int(i.item.place) }

// DataOffset is the offset of its RDATA in the message. The TTL of a record is six octets before it, in four octets, big-endian.
func (i Item) DataOffset() int { return int(i.item.data) }

// Data is its RDATA as it is in the message; names in it may be compressed. A question has none.
func (i Item) Data() []byte {
	return i.octets[i.item.data:][:i.item.data_len:i.item.data_len]
}

// DataText is its RDATA as in a zone file, or `\#` and the octets if it isn't that of its type. It is empty for a question.
func (i Item) DataText() string {
	if i.Section() == Question {
		return ""
	}
	return text(func(out []byte, length *C.size_t) C.dnsm_status {
		return C.dnsm_data_text(pointer(i.octets), C.size_t(len(i.octets)), &i.item, chars(out), C.size_t(len(out)), length)
	})
}

// DataName is a name in the RDATA, counted from 0 in the order of the fields; SOA has two. No octet after the RDATA belongs to it. The
// error is BadSection for a question, NoName if there is none, and BadData if the RDATA isn't that of its type.
func (i Item) DataName(index uint) (string, error) {
	offset, err := i.DataNameOffset(index)
	if err != nil {
		return "", err
	}
	return nameText(i.octets, C.size_t(offset))
}

// DataNameOctets is the octets of such a name, without compression pointers. The errors are those of DataName.
func (i Item) DataNameOctets(index uint) ([]byte, error) {
	return written(func(out []byte, length *C.size_t) C.dnsm_status {
		return C.dnsm_data_name_octets(pointer(i.octets), C.size_t(len(i.octets)), &i.item, C.size_t(index), pointer(out),
			C.size_t(len(out)), length)
	})
}

// DataNameOffset is the offset of such a name in the message. The errors are those of DataName.
func (i Item) DataNameOffset(index uint) (int, error) {
	var offset C.size_t
	status := C.dnsm_data_name(pointer(i.octets), C.size_t(len(i.octets)), &i.item, C.size_t(index), &offset)
	return int(offset), failure(status)
}

// String is a line of a zone file.
func (i Item) String() string {
	if i.Section() == Question {
		return fmt.Sprintf("%s %s %s", i.Name(), i.Class(), i.Type())
	}
	return fmt.Sprintf("%s %d %s %s %s", i.Name(), i.TTL(), i.Class(), i.Type(), i.DataText())
}

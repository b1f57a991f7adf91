package dnsm

// #include <dnsm.h>
import "C"

import "bytes"

// NewItem is a question or a record to write. The data is RDATA, with names in it uncompressed (NameFromText). A question has
// neither TTL nor data.
type NewItem struct {
	Section    Section
	Name       string // as text; if it is empty, NameOctets is the name
	NameOctets []byte // an uncompressed name, as Item.NameOctets and NameFromText return it
	Type       Type
	Class      Class
	TTL        uint32
	Data       []byte
}

func (i *NewItem) nameOctets() ([]byte, error) {
	if i.Name == "" && i.NameOctets != nil {
		return i.NameOctets, nil
	}
	return NameFromText(i.Name)
}

func (i *NewItem) nameText() (string, error) {
	if i.Name != "" || i.NameOctets == nil {
		return i.Name, nil
	}
	read, err := nameOctets(i.NameOctets, 0)
	if err != nil {
		return "", err
	}
	if !bytes.Equal(read, i.NameOctets) {
		return "", BadText
	}
	return NameToText(i.NameOctets)
}

// NameFromText is the octets of the name that a text represents, as in RDATA. The error is BadText if it represents none.
func NameFromText(name string) ([]byte, error) {
	from := []byte(name)
	return written(func(out []byte, length *C.size_t) C.dnsm_status {
		return C.dnsm_name_from_text(chars(from), C.size_t(len(from)), pointer(out), C.size_t(len(out)), length)
	})
}

// NameToText is the text of the name at the start of octets, with a dot after each label.
func NameToText(octets []byte) (string, error) {
	return nameText(octets, 0)
}

// nameText is the text of the name at an offset.
func nameText(octets []byte, offset C.size_t) (string, error) {
	name, err := written(func(out []byte, length *C.size_t) C.dnsm_status {
		return C.dnsm_name_text(pointer(octets), C.size_t(len(octets)), offset, chars(out), C.size_t(len(out)), length)
	})
	return string(name), err
}

// nameOctets is the octets of the name at an offset, without compression pointers.
func nameOctets(octets []byte, offset C.size_t) ([]byte, error) {
	return written(func(out []byte, length *C.size_t) C.dnsm_status {
		return C.dnsm_name_octets(pointer(octets), C.size_t(len(octets)), offset, pointer(out), C.size_t(len(out)), length)
	})
}

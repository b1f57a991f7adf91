package dnsm

// #include <dnsm.h>
import "C"

// FieldKind is what a field of RDATA is.
type FieldKind uint8

// The kinds of fields.
const (
	FieldNumber FieldKind = C.DNSM_FIELD_NUMBER // a number
	FieldType   FieldKind = C.DNSM_FIELD_TYPE   // a record type, in Number
	FieldIPv4   FieldKind = C.DNSM_FIELD_IPV4   // the octets of an IPv4 address
	FieldIPv6   FieldKind = C.DNSM_FIELD_IPV6   // the octets of an IPv6 address
	FieldName   FieldKind = C.DNSM_FIELD_NAME   // a name, in Name
	FieldString FieldKind = C.DNSM_FIELD_STRING // a string, without its length
	FieldSized  FieldKind = C.DNSM_FIELD_SIZED  // octets after their length of 16 bits
	FieldOctets FieldKind = C.DNSM_FIELD_OCTETS // other octets
)

// Field is a field of RDATA.
type Field struct {
	Kind   FieldKind
	Number uint64
	Name   string // as text, with a dot after each label
	Octets []byte
}

// DataOctets is its RDATA with names uncompressed, as NewItem has it. The error is BadSection for a question, and BadData if the
// RDATA isn't that of its type.
func (i Item) DataOctets() ([]byte, error) {
	return written(func(out []byte, length *C.size_t) C.dnsm_status {
		return C.dnsm_data_octets(pointer(i.octets), C.size_t(len(i.octets)), &i.item, pointer(out), C.size_t(len(out)), length)
	})
}

// CheckData returns the errors of DataOctets.
func (i Item) CheckData() error {
	return failure(C.dnsm_check_data(pointer(i.octets), C.size_t(len(i.octets)), &i.item))
}

// Fields is the fields of its RDATA, in order. The errors are those of DataOctets.
func (i Item) Fields() ([]Field, error) {
	var fields []Field
	var index C.size_t
	for {
		var field C.dnsm_data_field
		status := C.dnsm_next_field(pointer(i.octets), C.size_t(len(i.octets)), &i.item, &index, &field)
		if status == C.DNSM_END {
			return fields, nil
		}
		if status != C.DNSM_OK {
			return nil, Status(status)
		}
		made, err := i.field(&field)
		if err != nil {
			return nil, err
		}
		fields = append(fields, made)
	}
}

func (i Item) field(from *C.dnsm_data_field) (Field, error) {
	made := Field{Kind: FieldKind(from.kind), Number: uint64(from.number)}
	switch made.Kind {
	case FieldNumber, FieldType:
		return made, nil
	case FieldName:
		name, err := nameText(i.octets, from.place)
		made.Name = name
		return made, err
	default:
		made.Octets = i.octets[from.place:][:from.len:from.len]
		return made, nil
	}
}

// DataFromText is the RDATA that a text represents, as in a zone file. The error is BadText if it represents none, or NoMemory.
func DataFromText(type_ Type, data string) ([]byte, error) {
	from := []byte(data)
	return written(func(out []byte, length *C.size_t) C.dnsm_status {
		return C.dnsm_data_from_text(C.uint16_t(type_), chars(from), C.size_t(len(from)), pointer(out), C.size_t(len(out)), length)
	})
}

// RecordFromText is the record that a text represents, as in a line of a zone file, over octets of its own, for Builder.PutFrom. Its
// section is Answer. The error is BadText if it represents none, or NoMemory.
func RecordFromText(line string) (Item, error) {
	from := []byte(line)
	var item C.dnsm_item
	octets, err := written(func(out []byte, length *C.size_t) C.dnsm_status {
		return C.dnsm_record_from_text(chars(from), C.size_t(len(from)), pointer(out), C.size_t(len(out)), length, &item)
	})
	return Item{octets, item}, err
}

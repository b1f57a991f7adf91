package dnsm

// #include <dnsm.h>
import "C"

// OPT is an OPT record, read or to be written.
type OPT struct {
	UDPSize   uint16 // the most octets of a UDP payload that the sender can receive
	DO        bool   // asks for DNSSEC records
	RcodeHigh uint8  // the upper eight bits of the extended rcode
	Version   uint8
	Options   []Option
}

// Option is an option of an OPT record.
type Option struct {
	Code uint16
	Data []byte
}

// OPT is the fields and options of an OPT record. The error is NotOPT for another item, and BadOption for an option that isn't
// whole; with it the result has the options before that one.
func (i Item) OPT() (*OPT, error) {
	var fields C.dnsm_opt
	if status := C.dnsm_opt_fields(&i.item, &fields); status != C.DNSM_OK {
		return nil, Status(status)
	}
	opt := fieldsOf(fields)
	offset := i.item.data
	for {
		var found C.dnsm_opt_option
		switch status := C.dnsm_next_option(pointer(i.octets), C.size_t(len(i.octets)), &i.item, &offset, &found); status {
		case C.DNSM_OK:
			opt.Options = append(opt.Options, Option{uint16(found.code), i.octets[found.data:][:found.data_len:found.data_len]})
		case C.DNSM_END:
			return &opt, nil
		default:
			return &opt, Status(status)
		}
	}
}

// fieldsOf is an OPT record with these fields, without options.
func fieldsOf(fields C.dnsm_opt) OPT {
	return OPT{
		UDPSize:   uint16(fields.udp_size),
		DO:        fields.flags&C.DNSM_DO != 0,
		RcodeHigh: uint8(fields.rcode_high),
		Version:   uint8(fields.version),
	}
}

// fields is the fields that are in the class and the TTL of the record.
func (o *OPT) fields() C.dnsm_opt {
	fields := C.dnsm_opt{udp_size: C.uint16_t(o.UDPSize), rcode_high: C.uint8_t(o.RcodeHigh), version: C.uint8_t(o.Version)}
	if o.DO {
		fields.flags = C.DNSM_DO
	}
	return fields
}

// data is the octets of the options.
func (o *OPT) data() ([]byte, error) {
	var data []byte
	for _, option := range o.Options {
		octets, err := written(func(out []byte, length *C.size_t) C.dnsm_status {
			from := pointer(option.Data)
			return C.dnsm_option_octets(C.uint16_t(option.Code), from, C.size_t(len(option.Data)), pointer(out), C.size_t(len(out)), length)
		})
		if err != nil {
			return nil, err
		}
		data = append(data, octets...)
	}
	return data, nil
}

// Item is the record for Build and Builder.Put.
func (o *OPT) Item() (NewItem, error) {
	fields := o.fields()
	data, err := o.data()
	if err != nil {
		return NewItem{}, err
	}
	return NewItem{
		Section:    Additional,
		NameOctets: []byte{0},
		Type:       TypeOPT,
		Class:      Class(o.UDPSize),
		TTL:        uint32(C.dnsm_opt_ttl(&fields)),
		Data:       data,
	}, nil
}

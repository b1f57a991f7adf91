package dnsm

// #include <dnsm.h>
// #include <stdlib.h>
//
// // The item is made here, because no pointer to memory of Go may be stored in memory that is passed to C.
// static dnsm_status put(dnsm_draft *draft, uint8_t *out, size_t out_len, const uint8_t *name, size_t name_len,
//                        const uint8_t *data, size_t data_len, uint32_t ttl, uint16_t type, uint16_t class_, uint8_t section)
// {
//     const dnsm_put_item item = {name, name_len, data, data_len, ttl, type, class_, section};
//     return dnsm_put(draft, out, out_len, &item);
// }
//
// // Puts the items of a set, whose names and data follow one another in `octets`.
// static dnsm_status put_set(dnsm_draft *draft, uint8_t *out, size_t out_len, const uint8_t *octets, const dnsm_put_item *fields,
//                            size_t fields_len, bool required)
// {
//     dnsm_put_item *const items = malloc((fields_len + 1) * sizeof *items);
//     if (!items)
//         return DNSM_NO_MEMORY;
//     for (size_t i = 0; i < fields_len; i++) {
//         items[i] = fields[i];
//         items[i].name = octets;
//         octets += items[i].name_len;
//         items[i].data = octets;
//         octets += items[i].data_len;
//     }
//     const dnsm_status status = dnsm_put_set(draft, out, out_len, items, fields_len, required);
//     free(items);
//     return status;
// }
import "C"

import "unsafe"

// Builder writes a message into a buffer of the caller, item by item. Names are compressed. Make one with NewBuilder.
type Builder struct {
	out   []byte
	draft C.dnsm_draft
}

// Mark is how much of a message was written, as Builder.Mark returns it.
type Mark struct {
	draft C.dnsm_draft
}

// NewBuilder begins a message in a buffer. `flags` are the third and fourth octets of the header, as QR|AA. The error is NoRoom if
// the buffer has fewer than 12 octets.
func NewBuilder(out []byte, id, flags uint16) (*Builder, error) {
	b := &Builder{out: out}
	status := C.dnsm_begin(&b.draft, pointer(out), C.size_t(len(out)), C.uint16_t(id), C.uint16_t(flags))
	if status != C.DNSM_OK {
		return nil, Status(status)
	}
	return b, nil
}

// NewResponse begins the response to a query, with its question: with its ID, opcode, RD and CD, QR, and the low four bits of `rcode`.
// The error is ShortInput, IsResponse or NoQuestion for octets that are no query with one question, that of reading the question, or
// NoRoom.
func NewResponse(out, query []byte, rcode uint16) (*Builder, error) {
	b := &Builder{out: out}
	status := C.dnsm_begin_response(&b.draft, pointer(out), C.size_t(len(out)), pointer(query), C.size_t(len(query)),
		C.uint16_t(rcode))
	if status != C.DNSM_OK {
		return nil, Status(status)
	}
	return b, nil
}

// Respond begins the response to any query, with its question if it has exactly one that can be read: with its ID, opcode, RD and CD, QR,
// and the low four bits of the rcode. It returns also the rcode, and what the OPT record of the response says, or nil if the query has
// none. The rcode is FORMERR for several OPT records or without such a question, BADVERS for a version of EDNS above 0, else the low twelve
// bits of `rcode`. The UDPSize of the OPT record is the most octets of a UDP payload that the client can receive, at least 512: set it to
// your own. The 11 octets of an OPT record without options are reserved: before it is put, SetReserved(0). The error is ShortInput for less
// than a header, IsResponse or NoRoom.
func Respond(out, query []byte, rcode Rcode) (*Builder, Rcode, *OPT, error) {
	b := &Builder{out: out}
	said := C.uint16_t(rcode)
	var fields C.dnsm_opt
	status := C.dnsm_respond(&b.draft, pointer(out), C.size_t(len(out)), pointer(query), C.size_t(len(query)), &said, &fields)
	if status != C.DNSM_OK {
		return nil, 0, nil, Status(status)
	}
	if fields.udp_size > 0 {
		opt := fieldsOf(fields)
		return b, Rcode(said), &opt, nil
	}
	return b, Rcode(said), nil, nil
}

// SetLimit sets the most octets that the message may have. Before, its buffer is the only limit.
func (b *Builder) SetLimit(octets uint) { b.draft.limit = C.size_t(octets) }

// SetReserved keeps octets free for later items, as for an OPT record. 0 lets the next ones have them.
func (b *Builder) SetReserved(octets uint) { b.draft.reserved = C.size_t(octets) }

// SetUnchecked copies RDATA of other types than those with names of RFC 1035 as it is, if it is known to be well-formed. Before, all is
// checked.
func (b *Builder) SetUnchecked(unchecked bool) {
	b.draft.unchecked = 0
	if unchecked {
		b.draft.unchecked = 1
	}
}

// SetID sets the ID.
func (b *Builder) SetID(id uint16) { b.draft.id = C.uint16_t(id) }

// Flags is the third and fourth octets of the header.
func (b *Builder) Flags() uint16 { return uint16(b.draft.flags) }

// SetFlags sets the third and fourth octets of the header, as QR|TC.
func (b *Builder) SetFlags(flags uint16) { b.draft.flags = C.uint16_t(flags) }

// Len is the octets of the message so far. One without items has 12.
func (b *Builder) Len() int { return int(b.draft.len) }

// Put appends an item. Items come in the order of their sections. The error is NoRoom if the buffer or the limit leaves too few
// octets, without those that are reserved; BadSection for a section before that of the last item; BadText for a name that is none;
// LongData, BadData or TooMany. With an error the message is as before. The octets of the item may not be in the builder's buffer.
func (b *Builder) Put(item NewItem) error {
	name, err := item.nameOctets()
	if err != nil {
		return err
	}
	status := C.put(&b.draft, pointer(b.out), C.size_t(len(b.out)), pointer(name), C.size_t(len(name)),
		pointer(item.Data), C.size_t(len(item.Data)), C.uint32_t(item.TTL), C.uint16_t(item.Type), C.uint16_t(item.Class),
		C.uint8_t(item.Section))
	return failure(status)
}

// PutSet appends all items of a set, or leaves it out if they don't fit, and says whether they went in. If a required set doesn't fit, as
// one that answers the question, TC is set. Once TC is set each set is left out. The error is that of Put, but no NoRoom, or NoMemory. With
// an error the set is left out, too.
func (b *Builder) PutSet(items []NewItem, required bool) (bool, error) {
	var octets []byte
	fields := make([]C.dnsm_put_item, len(items)+1)
	for i, item := range items {
		name, err := item.nameOctets()
		if err != nil {
			return false, err
		}
		octets = append(append(octets, name...), item.Data...)
		fields[i] = C.dnsm_put_item{name_len: C.size_t(len(name)), data_len: C.size_t(len(item.Data)), ttl: C.uint32_t(item.TTL),
			_type: C.uint16_t(item.Type), class_: C.uint16_t(item.Class), section: C.uint8_t(item.Section)}
	}
	status := C.put_set(&b.draft, pointer(b.out), C.size_t(len(b.out)), pointer(octets), (*C.dnsm_put_item)(unsafe.Pointer(&fields[0])),
		C.size_t(len(items)), C.bool(required))
	switch status {
	case C.DNSM_OK:
		return true, nil
	case C.DNSM_NO_ROOM:
		return false, nil
	default:
		return false, Status(status)
	}
}

// PutFrom appends an item of another message, in a section and with a TTL: a cache lowers it by the age of the message. Names are
// compressed anew. The errors are those of Put.
func (b *Builder) PutFrom(item Item, section Section, ttl uint32) error {
	passed := item.item
	passed.section, passed.ttl = C.uint8_t(section), C.uint32_t(ttl)
	status := C.dnsm_put_from(&b.draft, pointer(b.out), C.size_t(len(b.out)), pointer(item.octets), C.size_t(len(item.octets)), &passed)
	return failure(status)
}

// Mark is what has been written so far, for Rewind.
func (b *Builder) Mark() Mark { return Mark{b.draft} }

// Rewind removes the items since a mark of this builder, and restores all that was set before it, as flags and limit. Marks that were
// made after it mean nothing from then on: with one of them, the octets needn't be a message.
func (b *Builder) Rewind(mark Mark) { b.draft = mark.draft }

// Finish writes the header, and returns the message, which is in the buffer. More items may follow; then call it again.
func (b *Builder) Finish() ([]byte, error) {
	var length C.size_t
	if status := C.dnsm_finish(&b.draft, pointer(b.out), C.size_t(len(b.out)), &length); status != C.DNSM_OK {
		return nil, Status(status)
	}
	return b.out[:length:length], nil
}

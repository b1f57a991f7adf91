package dnsm

// #include <dnsm.h>
// #include <stdlib.h>
import "C"

import "unsafe"

// Build writes a message, with its names compressed. `flags` are the third and fourth octets of the header, as QR|AA. The error is
// BadText, LongData, BadData, TooMany or BadSection for an item that can't be written, or NoMemory. An item whose name is octets
// has the errors of reading a name, and BadText if octets follow it, or it has a compression pointer.
func Build(id, flags uint16, items []NewItem) ([]byte, error) {
	items, err := withTexts(items)
	if err != nil {
		return nil, err
	}
	capacity := 12
	for i := range items {
		capacity += len(items[i].Name) + len(items[i].Data) + 12
	}
	if capacity > 65535 {
		capacity = 65535
	}
	passed, free, err := pass(items)
	if err != nil {
		return nil, err
	}
	defer free()
	// Enough for the message, or for what TCP carries. A longer message is written by a second call.
	return writtenInto(make([]byte, capacity), func(out []byte, length *C.size_t) C.dnsm_status {
		return C.dnsm_build(C.uint16_t(id), C.uint16_t(flags), passed, C.size_t(len(items)), pointer(out), C.size_t(len(out)), length)
	})
}

// withTexts is a copy of the items, each with its name as text.
func withTexts(items []NewItem) ([]NewItem, error) {
	copied := append([]NewItem(nil), items...)
	for i := range copied {
		name, err := copied[i].nameText()
		if err != nil {
			return nil, err
		}
		copied[i].Name = name
	}
	return copied, nil
}

// pass copies items, with names and data, to memory of C, because an array that is passed to C may not point to memory of Go.
func pass(items []NewItem) (passed *C.dnsm_new_item, free func(), err error) {
	size := len(items) * int(unsafe.Sizeof(C.dnsm_new_item{}))
	offset := size
	for i := range items {
		size += len(items[i].Name) + len(items[i].Data)
	}
	// One octet more, so that each pointer is within the memory.
	memory := C.calloc(1, C.size_t(size+1))
	if memory == nil {
		return nil, nil, NoMemory
	}
	octets := unsafe.Slice((*byte)(memory), size+1)
	array := unsafe.Slice((*C.dnsm_new_item)(memory), len(items))
	for i := range items {
		from, to := &items[i], &array[i]
		to.name = (*C.char)(unsafe.Pointer(&octets[offset]))
		to.name_len = C.size_t(len(from.Name))
		offset += copy(octets[offset:], from.Name)
		to.data = (*C.uint8_t)(unsafe.Pointer(&octets[offset]))
		to.data_len = C.size_t(len(from.Data))
		offset += copy(octets[offset:], from.Data)
		to.ttl, to._type, to.class_ = C.uint32_t(from.TTL), C.uint16_t(from.Type), C.uint16_t(from.Class)
		to.section = C.uint8_t(from.Section)
	}
	return (*C.dnsm_new_item)(memory), func() { C.free(memory) }, nil
}

// Query is a query with one question of class IN. Choose the ID at random if it goes over UDP. `recursion` sets RD. The error is
// BadText if the text is no name.
func Query(id uint16, recursion bool, name string, type_ Type) ([]byte, error) {
	return QueryClass(id, recursion, name, type_, ClassIN, nil)
}

// QueryOPT is a query like that of Query, with an OPT record. The error is BadText if the text is no name, or LongData for more than
// 65,535 octets of options.
func QueryOPT(id uint16, recursion bool, name string, type_ Type, opt *OPT) ([]byte, error) {
	return QueryClass(id, recursion, name, type_, ClassIN, opt)
}

// QueryClass is a query like that of QueryOPT, for a class, as ClassCH. Without an OPT record if `opt` is nil.
func QueryClass(id uint16, recursion bool, name string, type_ Type, class Class, opt *OPT) ([]byte, error) {
	from := []byte(name)
	if opt == nil {
		return written(func(out []byte, length *C.size_t) C.dnsm_status {
			return C.dnsm_query(C.uint16_t(id), C.bool(recursion), chars(from), C.size_t(len(from)), C.uint16_t(type_),
				C.uint16_t(class), pointer(out), C.size_t(len(out)), length)
		})
	}
	options, err := opt.data()
	if err != nil {
		return nil, err
	}
	fields := opt.fields()
	// Enough for each query with these options.
	out := make([]byte, 282+len(options))
	return writtenInto(out, func(out []byte, length *C.size_t) C.dnsm_status {
		return C.dnsm_query_opt(C.uint16_t(id), C.bool(recursion), chars(from), C.size_t(len(from)), C.uint16_t(type_), C.uint16_t(class),
			&fields, pointer(options), C.size_t(len(options)), pointer(out), C.size_t(len(out)), length)
	})
}

// RespondA is the response to a query of class IN for type A or ANY, with one address. The error is why it is no such query.
func RespondA(query []byte, authoritative bool, ttl uint32, address [4]byte) ([]byte, error) {
	return written(func(out []byte, length *C.size_t) C.dnsm_status {
		return C.dnsm_respond_a(pointer(query), C.size_t(len(query)), C.bool(authoritative), C.uint32_t(ttl),
			pointer(address[:]), pointer(out), C.size_t(len(out)), length)
	})
}

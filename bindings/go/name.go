package dnsm

// #include <dnsm.h>
import "C"

// NamesEqual says whether two uncompressed names are equal, ignoring ASCII case. An error is that of reading one of them.
func NamesEqual(one, other []byte) (bool, error) {
	var equal C.uint8_t
	status := C.dnsm_name_equal(pointer(one), C.size_t(len(one)), 0, pointer(other), C.size_t(len(other)), 0, &equal)
	return equal != 0, failure(status)
}

// NameBelow says whether the first name is the second or a subdomain of it, ignoring ASCII case. The errors are those of NamesEqual.
func NameBelow(name, above []byte) (bool, error) {
	var below C.uint8_t
	status := C.dnsm_name_below(pointer(name), C.size_t(len(name)), 0, pointer(above), C.size_t(len(above)), 0, &below)
	return below != 0, failure(status)
}

// CompareNames is -1, 0 or 1: the first name is before, equal to, or after the second as RFC 4034 section 6.1 orders names. The errors
// are those of NamesEqual.
func CompareNames(one, other []byte) (int, error) {
	order := C.uint8_t(1)
	status := C.dnsm_name_order(pointer(one), C.size_t(len(one)), 0, pointer(other), C.size_t(len(other)), 0, &order)
	return int(order) - 1, failure(status)
}

// NameKey is octets that compare, by bytes.Compare, as RFC 4034 section 6.1 orders names. The keys of subdomains begin with that of the
// name.
func NameKey(name []byte) ([]byte, error) {
	return written(func(out []byte, length *C.size_t) C.dnsm_status {
		return C.dnsm_name_key(pointer(name), C.size_t(len(name)), 0, pointer(out), C.size_t(len(out)), length)
	})
}

// NameHash is a hash of an uncompressed name, ignoring ASCII case. If others choose the names, the seed has to be secret and random,
// of 16 octets: else they can choose names with the same hash.
func NameHash(name, seed []byte) (uint32, error) {
	var hash C.uint32_t
	status := C.dnsm_name_hash(pointer(name), C.size_t(len(name)), 0, pointer(seed), C.size_t(len(seed)), &hash)
	return uint32(hash), failure(status)
}

// NameTextAt is the text of the name at an offset, with a dot after each label.
func NameTextAt(octets []byte, offset uint) (string, error) {
	return nameText(octets, C.size_t(offset))
}

// NameOctetsAt is the octets of the name at an offset, without compression pointers.
func NameOctetsAt(octets []byte, offset uint) ([]byte, error) {
	return nameOctets(octets, C.size_t(offset))
}

// NameEnd is the offset after the name at an offset. A compression pointer ends a name.
func NameEnd(octets []byte, offset uint) (int, error) {
	var end C.size_t
	status := C.dnsm_name_end(pointer(octets), C.size_t(len(octets)), C.size_t(offset), &end)
	return int(end), failure(status)
}

package dnsm

// #include <dnsm.h>
import "C"

// ReplyKind is what a reply says (RFC 1034 section 5.3.3).
type ReplyKind uint8

// What a reply says. "The name" is that at the end of the chain of aliases that begins at the question's name.
const (
	ReplyAnswer     ReplyKind = C.DNSM_REPLY_ANSWER     // the name owns records that the question asks for; they are in the answer section
	ReplyNoData     ReplyKind = C.DNSM_REPLY_NO_DATA    // the name owns no such records (RFC 2308 section 2.2)
	ReplyNoName     ReplyKind = C.DNSM_REPLY_NO_NAME    // the name doesn't exist (RFC 2308 section 2.1)
	ReplyReferral   ReplyKind = C.DNSM_REPLY_REFERRAL   // NS records of the authority section delegate the name to a zone below
	ReplyAlias      ReplyKind = C.DNSM_REPLY_ALIAS      // the name is outside the zone: other servers have to be asked for it
	ReplyDNAME      ReplyKind = C.DNSM_REPLY_DNAME      // a DNAME record redirects the name, without a CNAME record (RFC 6672 section 3.1)
	ReplyTruncated  ReplyKind = C.DNSM_REPLY_TRUNCATED  // TC is set: the query has to be sent again over TCP
	ReplyFailed     ReplyKind = C.DNSM_REPLY_FAILED     // the rcode says nothing of a name
	ReplyDone       ReplyKind = C.DNSM_REPLY_DONE       // NOERROR to a query that asks for no records
	ReplyUnreadable ReplyKind = C.DNSM_REPLY_UNREADABLE // a record can't be read. This reply and those below are of no use
	ReplyManyOPTs   ReplyKind = C.DNSM_REPLY_MANY_OPTS  // there is more than one OPT record
	ReplyLoop       ReplyKind = C.DNSM_REPLY_LOOP       // the chain of aliases has more than 20 names
	ReplyLame       ReplyKind = C.DNSM_REPLY_LAME       // NS records, but of no zone below the one that was asked
)

// Reply is what a reply says, and of which name. What doesn't belong to its kind is 0 or nil. Names are uncompressed octets.
type Reply struct {
	Kind ReplyKind
	// TTL is for how many seconds it may be cached: of ReplyAnswer the least TTL of its records and the aliases; of ReplyNoData and
	// ReplyNoName by the SOA record (RFC 2308 section 5), without which they shouldn't be; of ReplyAlias the least TTL of the aliases.
	TTL uint32
	// AliasTTL is for how many seconds the aliases may be cached, of ReplyNoData, ReplyNoName and ReplyReferral.
	AliasTTL uint32
	// Rcode is that of ReplyFailed, of twelve bits.
	Rcode Rcode
	// Name is the name, of the kinds up to ReplyDNAME.
	Name []byte
	// Owner is the owner of the records that say so: the SOA record of ReplyNoData and ReplyNoName if there is one, the NS records of
	// ReplyReferral, or the DNAME record of ReplyDNAME. ReplyNoData without it, of another name than the question's, may come of a
	// server that sends the alias alone: ask for Name.
	Owner []byte
	// Target is that of ReplyDNAME: the name to ask for has it in place of Owner, which is the end of Name.
	Target []byte
}

// ReplyTo is what the message says of the first question of a query, if it is a reply to that. The zone is the name of the zone that the
// server was asked about: the root, one zero octet, for a server that resolves. Only records whose owners are within it count, but NS
// records of a zone above can make it ReplyLame. Ask IsRegular first: another message can take seconds. The error is
// ShortInput if the query has fewer than 12 octets, BadText if the zone isn't exactly one uncompressed name, and NoResponse or OtherQuery
// if the message is no such reply.
func (m *Message) ReplyTo(query, zone []byte) (*Reply, error) {
	var saying C.dnsm_saying
	octets, size := pointer(m.octets), C.size_t(len(m.octets))
	status := C.dnsm_reply(pointer(query), C.size_t(len(query)), octets, size, pointer(zone), C.size_t(len(zone)), &saying)
	if status != C.DNSM_OK {
		return nil, Status(status)
	}
	return &Reply{
		Kind:     ReplyKind(saying.kind),
		TTL:      uint32(saying.ttl),
		AliasTTL: uint32(saying.alias_ttl),
		Rcode:    Rcode(saying.rcode),
		Name:     nameIn(saying.name[:saying.name_len]),
		Owner:    nameIn(saying.owner[:saying.owner_len]),
		Target:   nameIn(saying.target[:saying.target_len]),
	}, nil
}

// nameIn is the octets of a name, or nil if there is none.
func nameIn(octets []C.uint8_t) []byte {
	var name []byte
	for _, octet := range octets {
		name = append(name, byte(octet))
	}
	return name
}

// IsRegular says whether all items can be skipped, and each compression pointer leads to a label of an earlier name (RFC 1035
// section 4.1.4). To read a name of such a message, at most 128 pointers are followed, else some 8,000.
func (m *Message) IsRegular() bool {
	var regular C.uint8_t
	status := C.dnsm_is_regular(pointer(m.octets), C.size_t(len(m.octets)), &regular)
	return status == C.DNSM_OK && regular != 0
}

// MinTTL is the least TTL of the records, in seconds, and whether a record has one, as those of OPT, TSIG, TKEY and SIG haven't. The
// error is that of the first item that can't be skipped; pointers aren't followed.
func (m *Message) MinTTL() (uint32, bool, error) {
	var ttl C.uint32_t
	switch status := C.dnsm_min_ttl(pointer(m.octets), C.size_t(len(m.octets)), &ttl); status {
	case C.DNSM_OK:
		return uint32(ttl), true, nil
	case C.DNSM_END:
		return 0, false, nil
	default:
		return 0, false, Status(status)
	}
}

// RecordsEnd is the offset after the last item. The errors are those of MinTTL.
func (m *Message) RecordsEnd() (int, error) {
	var end C.size_t
	status := C.dnsm_records_end(pointer(m.octets), C.size_t(len(m.octets)), &end)
	return int(end), failure(status)
}

// AgeTTLs lowers the TTL of each record of a message by some seconds, but not below 0, in place: for a response that was in a cache for so
// long. Records of OPT, TSIG, TKEY and SIG have none. No other octet changes. With an error nothing does: ShortInput for fewer than 12
// octets, or why the message isn't regular: that of the first item that can't be skipped, or BadPointer.
func AgeTTLs(octets []byte, seconds uint32) error {
	return failure(C.dnsm_age(pointer(octets), C.size_t(len(octets)), C.uint32_t(seconds)))
}

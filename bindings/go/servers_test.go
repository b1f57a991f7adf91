package dnsm

import (
	"bytes"
	"errors"
	"reflect"
	"strings"
	"testing"
)

// A response for example.org: a question, MX with a pointer in its RDATA, SRV, and MINFO with two pointers.
const mailResponse = "\x12\x34\x85\x80\x00\x01\x00\x03\x00\x00\x00\x00\x07example\x03org\x00\x00\x0f\x00\x01" +
	"\xc0\x0c\x00\x0f\x00\x01\x00\x00\x0e\x10\x00\x09\x00\x0a\x04mail\xc0\x0c" +
	"\xc0\x0c\x00\x21\x00\x01\x00\x00\x00\x07\x00\x09\x00\x01\x00\x02\x00\x03\x01x\x00" +
	"\xc0\x0c\x00\x0e\x00\x01\x00\x00\x00\x07\x00\x06\x01a\xc0\x0c\xc0\x2b"

func itemsOf(t *testing.T, octets []byte) (found []Item) {
	message, err := Parse(octets)
	if err != nil {
		t.Fatal(err)
	}
	items := message.Items()
	for items.Next() {
		found = append(found, items.Item())
	}
	if items.Err() != nil {
		t.Fatal(items.Err())
	}
	return found
}

func octetsOf(t *testing.T, text string) []byte {
	octets, err := NameFromText(text)
	if err != nil {
		t.Fatal(err)
	}
	return octets
}

func TestDataIsUncompressed(t *testing.T) {
	items := itemsOf(t, []byte(mailResponse))
	mail := octetsOf(t, "mail.example.org")
	if data, err := items[1].DataOctets(); err != nil || !bytes.Equal(data, append([]byte{0, 10}, mail...)) {
		t.Error(data, err)
	}
	if data, err := items[3].DataOctets(); err != nil || !bytes.Equal(data, append(octetsOf(t, "a.example.org"), mail...)) {
		t.Error(data, err)
	}
	if text, err := items[3].DataName(1); err != nil || text != "mail.example.org." {
		t.Error(text, err)
	}
	if name, err := items[3].DataNameOctets(1); err != nil || !bytes.Equal(name, mail) {
		t.Error(name, err)
	}
	if name, err := items[3].DataNameOctets(2); !errors.Is(err, NoName) {
		t.Error(name, err)
	}
	if err := items[0].CheckData(); !errors.Is(err, BadSection) || items[1].CheckData() != nil {
		t.Error(err)
	}
}

func TestFields(t *testing.T) {
	items := itemsOf(t, []byte(mailResponse))
	fields, err := items[2].Fields()
	wanted := []Field{{Kind: FieldNumber, Number: 1}, {Kind: FieldNumber, Number: 2}, {Kind: FieldNumber, Number: 3},
		{Kind: FieldName, Name: "x."}}
	if err != nil || !reflect.DeepEqual(fields, wanted) {
		t.Error(fields, err)
	}
	octets := []byte("\x00\x00\x80\x00\x00\x00\x00\x01\x00\x00\x00\x00\x00\x00\x01\x00\x01\x00\x00\x00\x07\x00\x03\x01\x02\x03")
	if fields, err := itemsOf(t, octets)[0].Fields(); !errors.Is(err, BadData) {
		t.Error(fields, err)
	}
}

// RFC 1035 section 3.4.1, RFC 3596 section 2.2, RFC 8659 section 4.1, RFC 4034 section 3.1.
func TestFieldsOfOctets(t *testing.T) {
	address := []byte("0123456789abcdef")
	octets, err := Build(1, QR, []NewItem{
		answer(".", TypeA, address[:4]),
		answer(".", TypeAAAA, address),
		answer(".", TypeCAA, []byte("\x00\x05issuea")),
		answer(".", TypeRRSIG, []byte("\x00\x0f"+strings.Repeat("\x00", 17)+"sig")),
	})
	if err != nil {
		t.Fatal(err)
	}
	number := Field{Kind: FieldNumber}
	for i, wanted := range [][]Field{
		{{Kind: FieldIPv4, Octets: address[:4]}},
		{{Kind: FieldIPv6, Octets: address}},
		{number, {Kind: FieldString, Octets: []byte("issue")}, {Kind: FieldOctets, Octets: []byte("a")}},
		{{Kind: FieldType, Number: 15}, number, number, number, number, number, number, {Kind: FieldName, Name: "."},
			{Kind: FieldOctets, Octets: []byte("sig")}},
	} {
		if fields, err := itemsOf(t, octets)[i].Fields(); err != nil || !reflect.DeepEqual(fields, wanted) {
			t.Error(fields, err)
		}
	}
}

func TestNamesAreCompared(t *testing.T) {
	one, other := octetsOf(t, "www.Example"), octetsOf(t, "WWW.example")
	if equal, err := NamesEqual(one, other); err != nil || !equal {
		t.Error(equal, err)
	}
	if below, err := NameBelow(one, octetsOf(t, "EXAMPLE")); err != nil || !below {
		t.Error(below, err)
	}
	if below, err := NameBelow(octetsOf(t, "example"), one); err != nil || below {
		t.Error(below, err)
	}
	for _, pair := range [][2][]byte{{octetsOf(t, "example"), one}, {one, octetsOf(t, "z.example")}} {
		if order, err := CompareNames(pair[0], pair[1]); err != nil || order != -1 {
			t.Error(order, err)
		}
		if order, err := CompareNames(pair[1], pair[0]); err != nil || order != 1 {
			t.Error(order, err)
		}
	}
	if order, err := CompareNames(one, other); err != nil || order != 0 {
		t.Error(order, err)
	}
	if key, err := NameKey(one); err != nil || string(key) != "example\x00www\x00" {
		t.Error(key, err)
	}
	if _, err := NamesEqual([]byte{0x40}, one); !errors.Is(err, BadLabel) {
		t.Error(err)
	}
}

func TestNameHash(t *testing.T) {
	one, other := octetsOf(t, "www.Example"), octetsOf(t, "wwv.example")
	seed := []byte("0123456789abcdef")
	hash, err := NameHash(one, seed)
	if again, _ := NameHash(octetsOf(t, "WWW.example"), seed); err != nil || again != hash {
		t.Error(hash, again, err)
	}
	for _, differing := range []struct{ name, seed []byte }{{other, seed}, {one, seed[1:]}} {
		if found, err := NameHash(differing.name, differing.seed); err != nil || found == hash {
			t.Error(found, err)
		}
	}
}

func TestOffsets(t *testing.T) {
	items := itemsOf(t, []byte(mailResponse))
	if mx := items[1]; mx.Offset() != 29 || mx.DataOffset() != 41 || items[0].DataOffset() != 29 {
		t.Error(mx.Offset(), mx.DataOffset())
	}
	for offset, wanted := range map[uint]int{12: 25, 29: 31, 43: 50} {
		if end, err := NameEnd([]byte(mailResponse), offset); err != nil || end != wanted {
			t.Error(end, err)
		}
	}
	if _, err := NameEnd([]byte(mailResponse), uint(len(mailResponse))); !errors.Is(err, ShortInput) {
		t.Error(err)
	}
	if name, err := NameTextAt([]byte(mailResponse), 43); err != nil || name != "mail.example.org." {
		t.Error(name, err)
	}
	if name, err := NameOctetsAt([]byte(mailResponse), 43); err != nil || !bytes.Equal(name, octetsOf(t, "mail.example.org")) {
		t.Error(name, err)
	}
	if name, err := NameOctetsAt([]byte(mailResponse), uint(len(mailResponse))); name != nil || !errors.Is(err, ShortInput) {
		t.Error(name, err)
	}
}

func TestTrailing(t *testing.T) {
	for octets, wanted := range map[string]string{mailResponse: "", mailResponse + "more": "more"} {
		message, err := Parse([]byte(octets))
		if err != nil {
			t.Fatal(err)
		}
		if trailing, err := message.Trailing(); err != nil || string(trailing) != wanted {
			t.Error(trailing, err)
		}
	}
	message, err := Parse([]byte(mailResponse[:len(mailResponse)-1]))
	if err != nil {
		t.Fatal(err)
	}
	if trailing, err := message.Trailing(); !errors.Is(err, ShortInput) {
		t.Error(trailing, err)
	}
}

// SRV isn't of RFC 1035, and MX is.
func TestUncheckedData(t *testing.T) {
	builder, err := NewBuilder(make([]byte, 512), 1, 0)
	if err != nil {
		t.Fatal(err)
	}
	put := func(type_ Type) error {
		return builder.Put(NewItem{Section: Answer, Name: "a", Type: type_, Class: ClassIN, Data: []byte{0}})
	}
	if err := put(TypeSRV); !errors.Is(err, BadData) {
		t.Error(err)
	}
	builder.SetUnchecked(true)
	if err := put(TypeSRV); err != nil {
		t.Error(err)
	}
	if err := put(TypeMX); !errors.Is(err, BadData) {
		t.Error(err)
	}
	builder.SetUnchecked(false)
	if err := put(TypeSRV); !errors.Is(err, BadData) {
		t.Error(err)
	}
	builder.SetID(0x1234)
	if made, err := builder.Finish(); err != nil || made[0] != 0x12 || made[1] != 0x34 {
		t.Error(made, err)
	}
}

func TestResponses(t *testing.T) {
	query, err := Query(0x1234, true, "EXAMPLE.org", TypeMX)
	if err != nil {
		t.Fatal(err)
	}
	message, err := Parse([]byte(mailResponse))
	if err != nil || message.Answers(query) != nil || !errors.Is(message.Answers([]byte(mailResponse)[:12]), OtherQuery) {
		t.Error(err, message.Answers(query))
	}
	builder, err := NewResponse(make([]byte, 512), query, 0)
	if err != nil {
		t.Fatal(err)
	}
	for _, item := range itemsOf(t, []byte(mailResponse))[1:] {
		if err := builder.PutFrom(item, Additional, 5); err != nil {
			t.Error(err)
		}
	}
	made, err := builder.Finish()
	if items := itemsOf(t, made); err != nil || len(items) != 4 || items[3].TTL() != 5 || items[3].Section() != Additional {
		t.Error(items, err)
	}
	if _, err := NewResponse(made, []byte(mailResponse), 0); !errors.Is(err, IsResponse) {
		t.Error(err)
	}
	if builder, err := NewResponse(make([]byte, 512), query, 5); err != nil || builder.Flags() != QR|RD|5 {
		t.Error(builder, err)
	}
}

// RFC 6891 sections 6.1.1, 6.1.3 and 6.2.3.
func TestAnyQueryGetsAResponse(t *testing.T) {
	opt := func(size uint16, version byte) []byte {
		return []byte{0, 0, 41, byte(size >> 8), byte(size), 0, version, 0x80, 0, 0, 0}
	}
	asked, _ := Query(7, true, "example.org", TypeMX)
	for _, each := range []struct {
		opts          [][]byte
		wanted, rcode Rcode
		udpSize       uint16
		high          uint8
	}{
		{nil, 0x1003, 3, 0, 0},
		{[][]byte{opt(0, 0)}, 5, 5, 512, 0},
		{[][]byte{opt(4096, 0)}, 23, 23, 4096, 1},
		{[][]byte{opt(4096, 1)}, 5, 16, 4096, 1},
		{[][]byte{opt(4096, 0), opt(512, 0)}, 5, 1, 4096, 0},
	} {
		query := append(append([]byte{}, asked...), bytes.Join(each.opts, nil)...)
		query[11] = byte(len(each.opts))
		b, rcode, made, err := Respond(make([]byte, 512), query, each.wanted)
		if err != nil || rcode != each.rcode || b.Flags() != QR|RD|uint16(rcode)&15 || b.Len() != 29 || (made == nil) != (each.opts == nil) {
			t.Fatal(each, b, rcode, made, err)
		}
		if made == nil {
			continue
		}
		item, _ := made.Item()
		b.SetLimit(40)
		if made.UDPSize != each.udpSize || made.RcodeHigh != each.high || !made.DO || made.Version != 0 || !errors.Is(b.Put(item), NoRoom) {
			t.Error(each, made)
		}
		b.SetReserved(0)
		if err := b.Put(item); err != nil || b.Len() != 40 {
			t.Error(each, err)
		}
	}
	if b, rcode, _, err := Respond(make([]byte, 512), asked[:28], 5); err != nil || rcode != 1 || b.Len() != 12 {
		t.Error(b, rcode, err)
	}
	if b, _, _, err := Respond(make([]byte, 512), []byte(mailResponse), 0); b != nil || !errors.Is(err, IsResponse) {
		t.Error(b, err)
	}
}

// RFC 2181 sections 5 and 9.
func TestSetsArePutWhole(t *testing.T) {
	record := func(data ...byte) NewItem {
		return NewItem{Section: Answer, Name: "example.org", Type: TypeA, Class: ClassIN, TTL: 300, Data: data}
	}
	set := []NewItem{record(192, 0, 2, 1), record(192, 0, 2, 2)}
	b, _ := NewBuilder(make([]byte, 512), 7, QR)
	put := func(items []NewItem, required, in bool, wanted error, flags uint16, length int) {
		t.Helper()
		if found, err := b.PutSet(items, required); found != in || err != wanted || b.Flags() != flags || b.Len() != length {
			t.Error(found, err, b.Flags(), b.Len())
		}
	}
	b.SetLimit(12 + 27 + 16 - 1)
	put(set, false, false, nil, QR, 12)
	put([]NewItem{record(1)}, false, false, BadData, QR, 12)
	put(set, true, false, nil, QR|TC, 12)
	put(set[:1], false, false, nil, QR|TC, 12)
	b.SetLimit(12 + 27 + 16)
	b.SetFlags(QR)
	put(nil, true, true, nil, QR, 12)
	put(set, true, true, nil, QR, 55)
	made, err := b.Finish()
	if items := itemsOf(t, made); err != nil || len(items) != 2 || made[38] != 1 || made[54] != 2 {
		t.Error(items, err)
	}
}

func TestDataFromText(t *testing.T) {
	data, err := DataFromText(TypeMX, "10 mail.example.org.")
	if err != nil || !bytes.Equal(data, append([]byte{0, 10}, octetsOf(t, "mail.example.org")...)) {
		t.Error(data, err)
	}
	if _, err := DataFromText(TypeMX, "10"); !errors.Is(err, BadText) {
		t.Error(err)
	}
}

func TestRecordFromText(t *testing.T) {
	record, err := RecordFromText("a.org. 7 IN MX 10 b.org.")
	if err != nil || record.Section() != Answer || record.String() != "a.org. 7 IN MX 10 b.org." {
		t.Fatal(record, err)
	}
	builder, err := NewBuilder(make([]byte, 512), 1, QR)
	if err != nil || builder.PutFrom(record, Answer, 7) != nil {
		t.Fatal(err)
	}
	made, err := builder.Finish()
	if items := itemsOf(t, made); err != nil || len(items) != 1 || items[0].String() != record.String() {
		t.Error(items, err)
	}
	if _, err := RecordFromText("a.org. 7 IN MX 10"); !errors.Is(err, BadText) {
		t.Error(err)
	}
}

// RFC 6891 section 9: rcode 16 is BADVERS.
func TestFindOPT(t *testing.T) {
	const opt = "\x00\x00\x29\x04\xd0\x01\x00\x00\x00\x00\x00"
	find := func(octets string) (*OPT, Rcode, error) {
		message, err := Parse([]byte(octets))
		if err != nil {
			t.Fatal(err)
		}
		return message.FindOPT()
	}
	const before = "\x00\x07\x80\x00\x00\x00\x00\x00\x00\x00\x00"
	if found, rcode, err := find(before + "\x01" + opt); err != nil || rcode != 16 || found.UDPSize != 1232 {
		t.Error(found, rcode, err)
	}
	if found, rcode, err := find(mailResponse); err != nil || rcode != 0 || found != nil {
		t.Error(found, rcode, err)
	}
	for octets, wanted := range map[string]error{
		before + "\x02" + opt + opt:        TwoOPTs,
		before + "\x01\x01a" + opt:         BadOwner,
		before + "\x01" + opt[:len(opt)-1]: ShortInput,
	} {
		if _, _, err := find(octets); !errors.Is(err, wanted) {
			t.Error(err, wanted)
		}
	}
}

func TestTextsOfNumbers(t *testing.T) {
	texts := []string{Opcode(5).String(), Opcode(3).String(), Rcode(3).String(), Rcode(4095).String(), OptionCode(3).String()}
	if wanted := []string{"Update", "OPCODE3", "NXDomain", "RCODE4095", "NSID"}; !reflect.DeepEqual(texts, wanted) {
		t.Error(texts)
	}
	texts = []string{TypeNSAPPTR.String(), ClassNONE.String(), OpcodeIQuery.String(), RcodeBADCOOKIE.String(),
		OptionEDNSTCPKeepalive.String(), EDERRSIGsMissing.String()}
	wanted := []string{"NSAP-PTR", "NONE", "IQuery", "BADCOOKIE", "edns-tcp-keepalive", "RRSIGs Missing"}
	if !reflect.DeepEqual(texts, wanted) {
		t.Error(texts)
	}
	if major, _, _ := LibraryVersion(); major != 2 {
		t.Error(major)
	}
}

func TestNumbersFromTexts(t *testing.T) {
	rtype, _ := TypeFromText("mx")
	class, _ := ClassFromText("class2")
	opcode, _ := OpcodeFromText("update")
	rcode, _ := RcodeFromText("BadVers")
	option, _ := OptionCodeFromText("cookie")
	extended, _ := ExtendedErrorCodeFromText("stale answer")
	if rtype != TypeMX || class != 2 || opcode != 5 || rcode != 16 || option != 10 || extended != 3 {
		t.Error(rtype, class, opcode, rcode, option, extended)
	}
	if extended.String() != "Stale Answer" {
		t.Error(extended)
	}
	for _, text := range []string{"", "15", "TYPE", "TYPE65536", "\xff"} {
		if _, err := TypeFromText(text); !errors.Is(err, BadText) {
			t.Error(text, err)
		}
	}
	if _, err := OpcodeFromText("OPCODE256"); !errors.Is(err, BadText) {
		t.Error(err)
	}
	if _, err := RcodeFromText("RCODE4096"); !errors.Is(err, BadText) {
		t.Error(err)
	}
}

func parsed(t *testing.T, octets []byte) *Message {
	t.Helper()
	message, err := Parse(octets)
	if err != nil {
		t.Fatal(err)
	}
	return message
}

// RFC 2308 sections 2.1, 2.2 and 5: the lesser of the SOA record's TTL and its MINIMUM, 600. RFC 6672 section 2.2.
func TestRepliesSayOneThing(t *testing.T) {
	name, zone, other := octetsOf(t, "a.example"), octetsOf(t, "example"), octetsOf(t, "b.other")
	target := octetsOf(t, "b.example")
	address, soa := []byte{192, 0, 2, 1}, []byte("\x02ns\x00\x01h\x00"+strings.Repeat("\x00", 18)+"\x02\x58")
	query, err := Query(9, true, "a.example", TypeA)
	if err != nil {
		t.Fatal(err)
	}
	found := NewItem{Answer, "a.example", nil, TypeA, ClassIN, 300, address}
	alias := NewItem{Answer, "a.example", nil, TypeCNAME, ClassIN, 60, target}
	start := func(ttl uint32) NewItem { return NewItem{Authority, "example", nil, TypeSOA, ClassIN, ttl, soa} }
	for _, each := range []struct {
		flags   uint16
		records []NewItem
		wanted  Reply
	}{
		{0, []NewItem{found}, Reply{Kind: ReplyAnswer, TTL: 300, Name: name}},
		{0, []NewItem{start(900)}, Reply{Kind: ReplyNoData, TTL: 600, Name: name, Owner: zone}},
		{0, []NewItem{alias, start(900)}, Reply{Kind: ReplyNoData, TTL: 600, AliasTTL: 60, Name: target, Owner: zone}},
		{3, []NewItem{start(100)}, Reply{Kind: ReplyNoName, TTL: 100, Name: name, Owner: zone}},
		{0, []NewItem{{Answer, "example", nil, TypeDNAME, ClassIN, 50, other}},
			Reply{Kind: ReplyDNAME, TTL: 50, Name: name, Owner: zone, Target: other}},
		{2, []NewItem{found}, Reply{Kind: ReplyFailed, Rcode: RcodeSERVFAIL}},
	} {
		question := NewItem{Section: Question, Name: "a.example", Type: TypeA, Class: ClassIN}
		octets, err := Build(9, QR|each.flags, append([]NewItem{question}, each.records...))
		if err != nil {
			t.Fatal(err)
		}
		if reply, err := parsed(t, octets).ReplyTo(query, zone); err != nil || !reflect.DeepEqual(*reply, each.wanted) {
			t.Error(reply, err)
		}
	}
	for _, each := range []struct {
		received, query, zone []byte
		wanted                error
	}{
		{[]byte(mailResponse), query, nil, BadText},
		{query, query, zone, NoResponse},
		{[]byte(mailResponse), query, zone, OtherQuery},
		{[]byte(mailResponse), query[:11], zone, ShortInput},
	} {
		if reply, err := parsed(t, each.received).ReplyTo(each.query, each.zone); reply != nil || !errors.Is(err, each.wanted) {
			t.Error(reply, err)
		}
	}
}

func TestACacheAsksOfAllRecords(t *testing.T) {
	octets := []byte(mailResponse)
	message, cut := parsed(t, octets), parsed(t, octets[:len(octets)-1])
	if ttl, found, err := message.MinTTL(); ttl != 7 || !found || err != nil || !message.IsRegular() {
		t.Error(ttl, found, err)
	}
	if end, err := parsed(t, append([]byte(mailResponse), 'x')).RecordsEnd(); err != nil || end != len(octets) {
		t.Error(end, err)
	}
	if ttl, found, err := cut.MinTTL(); ttl != 0 || found || !errors.Is(err, ShortInput) || cut.IsRegular() {
		t.Error(ttl, found, err)
	}
	if end, err := cut.RecordsEnd(); !errors.Is(err, ShortInput) {
		t.Error(end, err)
	}
	if ttl, found, err := parsed(t, octets[:12:12]).MinTTL(); found || !errors.Is(err, ShortInput) {
		t.Error(ttl, found, err)
	}
	if ttl, found, err := parsed(t, make([]byte, 12)).MinTTL(); found || err != nil {
		t.Error(ttl, found, err)
	}
}

func TestTTLsAreLowered(t *testing.T) {
	octets, wanted := []byte(mailResponse), []byte(mailResponse)
	copy(wanted[35:], []byte{0, 0, 0x0b, 0xb8})
	wanted[59], wanted[80] = 0, 0
	if err := AgeTTLs(octets, 600); err != nil || !bytes.Equal(octets, wanted) {
		t.Error(octets, err)
	}
	if err := AgeTTLs(octets[:len(octets)-1], 600); !errors.Is(err, ShortInput) || !bytes.Equal(octets, wanted) {
		t.Error(octets, err)
	}
	octets[51] = 35
	if err := AgeTTLs(octets, 600); !errors.Is(err, BadPointer) || octets[37] != 0x0b {
		t.Error(octets, err)
	}
	if err := AgeTTLs(nil, 600); !errors.Is(err, ShortInput) {
		t.Error(err)
	}
}

func TestStreamsAreCutIntoMessages(t *testing.T) {
	stream := append([]byte{0, 12}, bytes.Repeat([]byte{7}, 12)...)
	message, after, err := FirstMessage(append(stream, 9))
	if !bytes.Equal(message, stream[2:]) || !bytes.Equal(after, []byte{9}) || err != nil {
		t.Error(message, after, err)
	}
	if message, _, err := FirstMessage(stream[:13]); message != nil || err != nil || MissingOctets(stream[:13]) != 1 || MissingOctets(nil) != 2 {
		t.Error(message, err)
	}
	if _, _, err := FirstMessage([]byte{0, 11}); !errors.Is(err, ShortInput) {
		t.Error(err)
	}
}

// transferred is a message of a transfer of the root: its question, if the type isn't 0, and SOA records with these serials, or an NS
// record for 0.
func transferred(id uint16, flags uint16, qtype Type, serials ...byte) []byte {
	octets := []byte{byte(id >> 8), byte(id), byte(flags >> 8), byte(flags), 0, 0, 0, byte(len(serials)), 0, 0, 0, 0}
	if qtype != 0 {
		octets[5] = 1
		octets = append(octets, 0, byte(qtype>>8), byte(qtype), 0, 1)
	}
	for _, serial := range serials {
		if serial == 0 {
			octets = append(octets, 0, 0, 2, 0, 1, 0, 0, 0, 9, 0, 1, 0)
		} else {
			octets = append(octets, 0, 0, 6, 0, 1, 0, 0, 0, 0, 0, 22, 0, 0, 0, 0, 0, serial)
			octets = append(octets, make([]byte, 16)...)
		}
	}
	return octets
}

// stepsOf is the kinds of the steps of a message, their serials and the types of their records, and the error that ends them.
func stepsOf(transfer *Transfer, message []byte) (said string, err error) {
	steps, err := transfer.Take(message)
	if err != nil {
		return "", err
	}
	for steps.Next() {
		step := steps.Step()
		said += string("bu w-+e"[[]int{0, 1, 3, 4, 5, 6}[step.Kind]])
		if step.Serial != 0 {
			said += string('0' + rune(step.Serial))
		}
		if step.Kind == StepBegin || step.Kind == StepRemove || step.Kind == StepAdd {
			said += step.Record.Type().String()
		}
	}
	return said, steps.Err()
}

// RFC 5936 section 2.2, RFC 1995 sections 2 and 4.
func TestTransfersAreRead(t *testing.T) {
	whole, _ := NewAXFR(7, []byte{0}, ClassIN)
	if said, err := stepsOf(whole, transferred(7, QR, TypeAXFR, 3, 0)); said != "b3SOA+NS" || err != nil || whole.HasEnded() {
		t.Error(said, err)
	}
	if err := whole.End(); !errors.Is(err, Incomplete) {
		t.Error(err)
	}
	if said, err := stepsOf(whole, transferred(7, QR, 0, 3)); said != "e3" || err != nil || !whole.HasEnded() || whole.End() != nil {
		t.Error(said, err)
	}
	for wanted, serials := range map[string][]byte{"b3SOA-SOA-NS+SOA+NSe3": {3, 1, 0, 3, 0, 3}, "b3SOAw+NSe3": {3, 0, 3}, "u1": {1}} {
		changes, _ := NewIXFR(7, []byte{0}, ClassIN, 1)
		if said, err := stepsOf(changes, transferred(7, QR, TypeIXFR, serials...)); said != wanted || err != nil || !changes.HasEnded() {
			t.Error(said, err)
		}
	}
}

// Steps that are left out end a transfer.
func TestAllStepsHaveToBeTaken(t *testing.T) {
	message := transferred(7, QR, TypeAXFR, 3, 0, 3)
	for taken := 0; taken < 5; taken++ {
		transfer, _ := NewAXFR(7, []byte{0}, ClassIN)
		steps, _ := transfer.Take(message)
		for i := 0; i < taken; i++ {
			steps.Next()
		}
		ended := transfer.End()
		_, again := transfer.Take(message)
		if taken < 3 && !(errors.Is(ended, Incomplete) && errors.Is(again, Incomplete)) {
			t.Error(taken, ended, again)
		}
		if taken >= 3 && !(ended == nil && errors.Is(again, AfterEnd)) {
			t.Error(taken, ended, again)
		}
	}
}

func TestOtherMessagesEndATransfer(t *testing.T) {
	for _, each := range []struct {
		message []byte
		said    string
		wanted  Status
	}{
		{transferred(8, QR, TypeAXFR, 3), "", OtherQuery},
		{transferred(7, QR, TypeIXFR, 3), "", OtherQuery},
		{transferred(7, 0, TypeAXFR, 3), "", NoResponse},
		{transferred(7, QR|5, TypeAXFR, 3), "", BadRcode},
		{transferred(7, QR|TC, TypeAXFR, 3), "", Truncated},
		{transferred(7, QR, TypeAXFR, 0), "", NoSOA},
		{transferred(7, QR, TypeAXFR, 3, 0, 4), "b3SOA+NS", WrongSOA},
		{transferred(7, QR, TypeAXFR, 3, 3, 0), "b3SOAe3", AfterEnd},
		{make([]byte, 11), "", ShortInput},
	} {
		transfer, _ := NewAXFR(7, []byte{0}, ClassIN)
		if said, err := stepsOf(transfer, each.message); said != each.said || !errors.Is(err, each.wanted) {
			t.Error(said, err)
		}
		if said, err := stepsOf(transfer, transferred(7, QR, TypeAXFR, 3, 3)); said != "" || !errors.Is(err, each.wanted) {
			t.Error(said, err)
		}
		if err := transfer.End(); !errors.Is(err, each.wanted) || transfer.HasEnded() {
			t.Error(err)
		}
	}
	other, _ := NewAXFR(7, []byte{0}, ClassCH)
	if _, err := stepsOf(other, transferred(7, QR, TypeAXFR, 3)); !errors.Is(err, OtherQuery) {
		t.Error(err)
	}
	if transfer, err := NewAXFR(7, []byte{0, 0}, ClassIN); transfer != nil || !errors.Is(err, BadText) {
		t.Error(err)
	}
}

package dnsm

import (
	"bytes"
	"errors"
	"fmt"
	"reflect"
	"testing"
)

// A message with an item in each section, by hand (RFC 1035 section 4.1, RFC 6891 section 6.1). It has opcode 5, rcode 3 and the
// flags QR, AA, AD and CD.
var whole = []byte("\x12\x34\xac\x33\x00\x01\x00\x01\x00\x01\x00\x02" +
	"\x07example\x00\x00\xff\x00\x03" +
	"\xc0\x0c\x00\x0f\x00\x01\x00\x01\x02\x03\x00\x07\x00\x0a\x02mx\xc0\x0c" +
	"\xc0\x0c\x00\x06\x00\x03\x00\x00\x1c\x20\x00\x20\x02ns\xc0\x0c\x04host\xc0\x0c" + numbers +
	"\xc0\x38\x00\x01\x00\x01\x00\x00\x01\x2c\x00\x04\xc0\x00\x02\x01" +
	"\x00\x00\x29\x10\x00\x01\x02\x80\x01\x00\x0a" + options)

const (
	numbers    = "\x00\x00\x00\x01\x00\x00\x00\x02\x00\x00\x00\x03\x00\x00\x00\x04\x00\x00\x00\x05"
	options    = "\x00\x03\x00\x00\x00\x0a\x00\x02\xab\xcd"
	wholeFlags = QR | AA | AD | CD | 5<<11 | 3
)

// The same message in items to write.
var wholeItems = []NewItem{
	{Section: Question, Name: "example", Type: TypeANY, Class: ClassCH},
	{Answer, "example", nil, TypeMX, ClassIN, 0x10203, []byte("\x00\x0a\x02mx\x07example\x00")},
	{Authority, "example", nil, TypeSOA, ClassCH, 7200, []byte("\x02ns\x07example\x00\x04host\x07example\x00" + numbers)},
	{Additional, "ns.example", nil, TypeA, ClassIN, 300, []byte{192, 0, 2, 1}},
	{Additional, "", []byte{0}, TypeOPT, 4096, 0x1028001, []byte(options)},
}

var wholeOPT = OPT{4096, true, 1, 2, []Option{{3, []byte{}}, {10, []byte("\xab\xcd")}}}

func read(t *testing.T, octets []byte) (*Message, []Item) {
	t.Helper()
	message, err := Parse(octets)
	if err != nil {
		t.Fatal(err)
	}
	var found []Item
	items := message.Items()
	for items.Next() {
		found = append(found, items.Item())
	}
	if err := items.Err(); err != nil {
		t.Fatal(err)
	}
	return message, found
}

// equal is an error of the test unless both are equal.
func equal(t *testing.T, found, wanted interface{}) {
	t.Helper()
	if !reflect.DeepEqual(found, wanted) {
		t.Errorf("%v isn't %v", found, wanted)
	}
}

func TestAllFieldsAreRead(t *testing.T) {
	message, items := read(t, whole)
	equal(t, message.Header, Header{0x1234, 0xac33, [4]uint16{1, 1, 1, 2}, 5, 3})
	equal(t, message.Octets(), whole)
	wanted := []string{
		"example. CH ANY",
		"example. 66051 IN MX 10 mx.example.",
		"example. 7200 CH SOA ns.example. host.example. 1 2 3 4 5",
		"ns.example. 300 IN A 192.0.2.1",
		`. 16941057 CLASS4096 OPT \# 10 00030000000a0002abcd`,
	}
	sections := []Section{Question, Answer, Authority, Additional, Additional}
	var texts []string
	for i, item := range items {
		texts = append(texts, item.String())
		equal(t, item.Section(), sections[i])
		equal(t, []uint32{uint32(item.Type()), uint32(item.Class()), item.TTL()},
			[]uint32{uint32(wholeItems[i].Type), uint32(wholeItems[i].Class), wholeItems[i].TTL})
	}
	equal(t, texts, wanted)
	from := 0
	for section, count := range message.Counts {
		found, err := message.Section(Section(section))
		equal(t, err, nil)
		texts = nil
		for _, item := range found {
			texts = append(texts, item.String())
		}
		equal(t, texts, wanted[from:from+int(count)])
		from += int(count)
	}
	equal(t, items[1].Data(), whole[37:44])
	equal(t, items[3].Data(), []byte{192, 0, 2, 1})
	equal(t, items[3].NameOctets(), []byte("\x02ns\x07example\x00"))
	equal(t, items[0].DataText(), "")
}

func TestItemsBeforeAnErrorAreRead(t *testing.T) {
	message, err := Parse(whole[:103])
	equal(t, err, nil)
	for section, wanted := range []error{nil, nil, nil, ShortInput} {
		found, err := message.Section(Section(section))
		equal(t, []interface{}{len(found), err}, []interface{}{int(message.Counts[section]) % 2, wanted})
	}
	opt, err := message.OPT()
	equal(t, []interface{}{opt, err}, []interface{}{(*OPT)(nil), ShortInput})
	// The section has an item before the one that is cut off.
	message, err = Parse(whole[:124])
	equal(t, err, nil)
	found, err := message.Section(Additional)
	equal(t, []interface{}{len(found), err}, []interface{}{1, ShortInput})
	equal(t, found[0].String(), "ns.example. 300 IN A 192.0.2.1")
}

func TestOptionsBeforeAnErrorAreRead(t *testing.T) {
	octets := append([]byte(nil), whole...)
	octets[122] = 3
	message, items := read(t, octets)
	wanted := wholeOPT
	wanted.Options = wanted.Options[:1]
	opt, err := items[4].OPT()
	equal(t, []interface{}{opt, err}, []interface{}{&wanted, BadOption})
	opt, err = message.OPT()
	equal(t, []interface{}{opt, err}, []interface{}{&wanted, BadOption})
}

func TestLongDataIsWhole(t *testing.T) {
	data := make([]byte, 65535)
	for i := range data {
		data[i] = byte(i % 251)
	}
	octets, err := Build(1, 0, []NewItem{answer(".", 65280, data)})
	equal(t, err, nil)
	_, items := read(t, octets)
	if !bytes.Equal(items[0].Data(), data) {
		t.Error(len(items[0].Data()))
	}
}

// Items with more octets than an address of 47 bits can tell apart.
func TestThereMayBeNoMemory(t *testing.T) {
	items, data := make([]NewItem, 1<<18), make([]byte, 1<<29)
	for i := range items {
		items[i] = answer(".", 65280, data)
	}
	if octets, err := Build(1, 0, items); octets != nil || !errors.Is(err, NoMemory) {
		t.Error(len(octets), err)
	}
}

func TestAllNamesAreFound(t *testing.T) {
	_, items := read(t, whole)
	for _, it := range []struct {
		item, index uint
		name        string
		offset      int
		err         error
	}{
		{0, 0, "", 0, BadSection},
		{1, 0, "mx.example.", 39, nil},
		{1, 1, "", 0, NoName},
		{2, 0, "ns.example.", 56, nil},
		{2, 1, "host.example.", 61, nil},
		{2, 2, "", 0, NoName},
	} {
		name, err := items[it.item].DataName(it.index)
		equal(t, []interface{}{name, err}, []interface{}{it.name, it.err})
		offset, err := items[it.item].DataNameOffset(it.index)
		equal(t, []interface{}{offset, err}, []interface{}{it.offset, it.err})
	}
}

func TestTheOPTRecordIsRead(t *testing.T) {
	message, _ := read(t, whole)
	opt, err := message.OPT()
	equal(t, []interface{}{opt, err}, []interface{}{&wholeOPT, nil})
	plain := append([]byte(nil), whole...)
	plain[111] = 0
	message, _ = read(t, plain)
	opt, err = message.OPT()
	if err != nil || opt.DO {
		t.Error(opt, err)
	}
	// An extended rcode of more than eight bits.
	plain[109] = 0x12
	message, _ = read(t, plain)
	if opt, err = message.OPT(); err != nil || opt.RcodeHigh != 0x12 {
		t.Error(opt, err)
	}
	// The first of two, in the additional section only.
	records := []NewItem{
		{Section: Answer, Name: ".", Type: TypeOPT, Class: 1},
		{Section: Additional, Name: ".", Type: TypeOPT, Class: 2},
		{Section: Additional, Name: ".", Type: TypeOPT, Class: 3},
	}
	octets, err := Build(1, 0, records)
	equal(t, err, nil)
	message, _ = read(t, octets)
	if opt, err = message.OPT(); err != nil || opt.UDPSize != 2 {
		t.Error(opt, err)
	}
	octets, err = Build(1, 0, records[:1])
	equal(t, err, nil)
	message, _ = read(t, octets)
	if opt, err = message.OPT(); err != nil || opt != nil {
		t.Error(opt, err)
	}
}

func TestAllFieldsAreWritten(t *testing.T) {
	octets, err := Build(0x1234, wholeFlags, wholeItems)
	equal(t, []interface{}{octets, err}, []interface{}{whole, nil})
	builder, err := NewBuilder(make([]byte, 512), 0x1234, wholeFlags)
	equal(t, err, nil)
	for _, item := range wholeItems {
		equal(t, builder.Put(item), nil)
	}
	equal(t, []int{builder.Len(), int(builder.Flags())}, []int{len(whole), 0xac33})
	octets, err = builder.Finish()
	equal(t, []interface{}{octets, err}, []interface{}{whole, nil})
	item, err := wholeOPT.Item()
	equal(t, err, nil)
	octets, err = Build(0, 0, []NewItem{item})
	equal(t, []interface{}{string(octets[12:]), err}, []interface{}{"\x00\x00\x29\x10\x00\x01\x02\x80\x00\x00\x0a" + options, nil})
	item, err = (&OPT{RcodeHigh: 0x12}).Item()
	equal(t, []interface{}{item.TTL, err}, []interface{}{uint32(0x12000000), nil})
}

func TestQueriesAndResponsesHaveAllFields(t *testing.T) {
	asked, err := Query(0x102, false, "a.b", TypeMX)
	equal(t, []interface{}{string(asked), err}, []interface{}{"\x01\x02" + "\x00\x00\x00\x01\x00\x00\x00\x00\x00\x00\x01a\x01b\x00\x00\x0f\x00\x01", nil})
	asked, err = QueryClass(0x102, false, "a.b", TypeTXT, ClassCH, nil)
	wanted := "\x01\x02" + "\x00\x00\x00\x01\x00\x00\x00\x00\x00\x00\x01a\x01b\x00\x00\x10\x00\x03"
	equal(t, []interface{}{string(asked), err}, []interface{}{wanted, nil})
	asked, err = Query(0x102, true, "a.b.", TypeA)
	question := "\x01a\x01b\x00\x00\x01\x00\x01"
	equal(t, []interface{}{string(asked), err}, []interface{}{"\x01\x02\x01\x00\x00\x01\x00\x00\x00\x00\x00\x00" + question, nil})
	for authoritative, flags := range map[bool]string{true: "\x85\x00", false: "\x81\x00"} {
		response, err := RespondA(asked, authoritative, 0x1020304, [4]byte{192, 0, 2, 9})
		wanted = "\x01\x02" + flags + "\x00\x01\x00\x01\x00\x00\x00\x00" + question
		wanted += "\xc0\x0c\x00\x01\x00\x01\x01\x02\x03\x04\x00\x04\xc0\x00\x02\x09"
		equal(t, []interface{}{string(response), err}, []interface{}{wanted, nil})
	}
}

func TestAQueryHasAnOPTRecord(t *testing.T) {
	asked, err := QueryOPT(0x102, true, "a.b", TypeMX, &wholeOPT)
	wanted := "\x01\x02\x01\x00\x00\x01\x00\x00\x00\x00\x00\x01\x01a\x01b\x00\x00\x0f\x00\x01"
	wanted += "\x00\x00\x29\x10\x00\x01\x02\x80\x00\x00\x0a" + options
	equal(t, []interface{}{string(asked), err}, []interface{}{wanted, nil})
	asked, err = QueryOPT(1, false, ".", TypeA, &OPT{UDPSize: 512})
	wanted = "\x00\x01\x00\x00\x00\x01\x00\x00\x00\x00\x00\x01\x00\x00\x01\x00\x01"
	wanted += "\x00\x00\x29\x02\x00\x00\x00\x00\x00\x00\x00"
	equal(t, []interface{}{string(asked), err}, []interface{}{wanted, nil})
	asked, err = QueryClass(1, false, ".", TypeTXT, ClassCH, &OPT{UDPSize: 512})
	wanted = "\x00\x01\x00\x00\x00\x01\x00\x00\x00\x00\x00\x01\x00\x00\x10\x00\x03"
	wanted += "\x00\x00\x29\x02\x00\x00\x00\x00\x00\x00\x00"
	equal(t, []interface{}{string(asked), err}, []interface{}{wanted, nil})
	_, unnamed := QueryOPT(1, true, "", TypeA, &OPT{})
	_, long := QueryOPT(1, true, ".", TypeA, &OPT{Options: []Option{{1, make([]byte, 65532)}}})
	equal(t, []error{unnamed, long}, []error{BadText, LongData})
}

func ExampleQueryOPT() {
	octets, err := QueryOPT(4660, true, "www.example.com", TypeA, &OPT{UDPSize: 1232, DO: true, Options: []Option{{Code: 3}}})
	fmt.Println(len(octets), err)
	// Output: 48 <nil>
}

func TestALimitMayBeLong(t *testing.T) {
	builder, err := NewBuilder(make([]byte, 4096), 1, 0)
	equal(t, err, nil)
	builder.SetLimit(1500)
	item := NewItem{Section: Answer, Name: ".", Type: 65280, Class: ClassIN, Data: make([]byte, 1478)}
	equal(t, builder.Put(item), error(NoRoom))
	item.Data = item.Data[1:]
	equal(t, builder.Put(item), nil)
	equal(t, builder.Len(), 1500)
	builder.SetLimit(4096)
	equal(t, builder.Put(item), nil)
	octets, err := builder.Finish()
	equal(t, []interface{}{len(octets), err}, []interface{}{12 + 2*(11+1477), nil})
}

func TestARewindRestoresLimitAndReservedOctets(t *testing.T) {
	builder, err := NewBuilder(make([]byte, 64), 1, 0)
	equal(t, err, nil)
	builder.SetLimit(16)
	limited := builder.Mark()
	builder.SetLimit(64)
	builder.SetReserved(48)
	reserved := builder.Mark()
	builder.SetReserved(0)
	builder.Rewind(reserved)
	equal(t, builder.Put(question(".")), error(NoRoom))
	builder.Rewind(limited)
	equal(t, builder.Put(question(".")), error(NoRoom))
	builder.SetLimit(17)
	equal(t, builder.Put(question(".")), nil)
}

func TestTheEmptyTextIsNoName(t *testing.T) {
	item := NewItem{Type: TypeA, Class: ClassIN}
	_, asked := Query(1, true, "", TypeA)
	_, built := Build(1, 0, []NewItem{item})
	equal(t, []error{asked, built, putting(item)}, []error{BadText, BadText, BadText})
}

func TestANameInOctetsIsWhole(t *testing.T) {
	for name, wanted := range map[string]Status{
		"\x00x":             BadText,
		"\x01a\x00\x00":     BadText,
		"\x02\x00b\xc0\x01": BadText,
		"":                  ShortInput,
		"\x01a":             ShortInput,
		"\x40":              BadLabel,
	} {
		item := NewItem{NameOctets: []byte(name), Type: TypeA, Class: ClassIN}
		if octets, err := Build(1, 0, []NewItem{item}); !errors.Is(err, wanted) {
			t.Errorf("%q %x %v", name, octets, err)
		}
		builder, err := NewBuilder(make([]byte, 64), 1, 0)
		equal(t, err, nil)
		if err := builder.Put(item); !errors.Is(err, BadText) {
			t.Errorf("%q %v", name, err)
		}
	}
}

// asking is the error of reading a message of one question with these octets.
func asking(question string) error {
	message, err := Parse([]byte("\x00\x00\x00\x00\x00\x01\x00\x00\x00\x00\x00\x00" + question))
	if err == nil {
		_, err = message.Section(Question)
	}
	return err
}

// answering is what RespondA says of a question after the first half of a header.
func answering(head, question string) error {
	_, err := RespondA([]byte(head+"\x00\x00\x00\x00\x00\x00"+question), false, 0, [4]byte{})
	return err
}

func putting(items ...NewItem) error {
	builder, err := NewBuilder(make([]byte, 64), 1, 0)
	for i := 0; err == nil && i < len(items); i++ {
		err = builder.Put(items[i])
	}
	return err
}

func TestEachErrorHasItsNumber(t *testing.T) {
	_, items := read(t, whole)
	noOption := append([]byte(nil), whole...)
	noOption[122] = 3
	broken, _ := read(t, noOption)
	_, tooShort := Parse(make([]byte, 11))
	_, noName := NameFromText("a..b")
	many := make([]NewItem, 65536)
	for i := range many {
		many[i] = question(".")
	}
	_, tooMany := Build(1, 0, many)
	_, notOPT := items[3].OPT()
	_, badOption := broken.OPT()
	_, noSuchName := items[3].DataName(0)
	four := make([]byte, 4)
	for i, it := range []struct {
		err    error
		wanted Status
		number uint32
	}{
		{tooShort, ShortInput, 2},
		{asking("\x40\x00\x00\x01\x00\x01"), BadLabel, 3},
		{asking("\xc0\x0c\x00\x01\x00\x01"), BadPointer, 4},
		{asking(string(bytes.Repeat([]byte{63}, 256)) + "\x00\x00\x01\x00\x01"), LongName, 5},
		{putting(answer(".", 65280, make([]byte, 64))), NoRoom, 7},
		{noName, BadText, 8},
		{answering("\x00\x00\x00\x00\x00\x00", ""), NoQuestion, 9},
		{putting(answer(".", TypeA, four), question(".")), BadSection, 10},
		{putting(answer(".", TypeA, make([]byte, 65536))), LongData, 12},
		{tooMany, TooMany, 13},
		{answering("\x00\x00\x80\x00\x00\x01", "\x00\x00\x01\x00\x01"), IsResponse, 14},
		{answering("\x00\x00\x08\x00\x00\x01", "\x00\x00\x01\x00\x01"), OtherOpcode, 15},
		{answering("\x00\x00\x00\x00\x00\x01", "\x00\x00\x01\x00\x03"), OtherClass, 16},
		{answering("\x00\x00\x00\x00\x00\x01", "\x00\x00\x02\x00\x01"), OtherType, 17},
		{notOPT, NotOPT, 18},
		{badOption, BadOption, 19},
		{noSuchName, NoName, 20},
		{putting(answer(".", TypeMX, four)), BadData, 21},
	} {
		if it.err != it.wanted || uint32(it.wanted) != it.number {
			t.Error(i, it.err, it.wanted, it.number)
		}
	}
	equal(t, NoRoom.Error(), "the output buffer is too short")
	equal(t, []interface{}{uint32(NoMemory), NoMemory.Error()}, []interface{}{uint32(11), "an allocation failed"})
	equal(t, []error{failure(11), failure(99), failure(0)}, []error{NoMemory, Status(99), nil})
}

package dnsm

import (
	"bytes"
	"errors"
	"strings"
	"sync"
	"testing"
)

// A response with the question example.com. IN A, and its address by a pointer to that name.
var response = []byte("\x12\x34\x81\x80\x00\x01\x00\x01\x00\x00\x00\x00\x07example\x03com\x00\x00\x01\x00\x01" +
	"\xc0\x0c\x00\x01\x00\x01\x00\x00\x0e\x10\x00\x04\xc0\x00\x02\x01")

func TestReads(t *testing.T) {
	message, err := Parse(response)
	if err != nil || message.ID != 0x1234 || message.Flags != 0x8180 || message.Counts != [4]uint16{1, 1, 0, 0} {
		t.Fatal(message, err)
	}
	items, err := message.Section(Answer)
	if err != nil || len(items) != 1 {
		t.Fatal(items, err)
	}
	if got := items[0].String(); got != "example.com. 3600 IN A 192.0.2.1" {
		t.Error(got)
	}
	if got := items[0].NameOctets(); string(got) != "\x07example\x03com\x00" {
		t.Errorf("%q", got)
	}
	if got := items[0].Data(); !bytes.Equal(got, []byte{192, 0, 2, 1}) {
		t.Error(got)
	}
	if _, err := items[0].DataName(0); !errors.Is(err, NoName) {
		t.Error(err)
	}
	if _, err := items[0].OPT(); !errors.Is(err, NotOPT) {
		t.Error(err)
	}
	if opt, err := message.OPT(); opt != nil || err != nil {
		t.Error(opt, err)
	}
	for _, section := range []Section{4, 255} {
		if items, err := message.Section(section); items != nil || !errors.Is(err, BadSection) {
			t.Error(section, items, err)
		}
	}
}

func TestNamesInRDATAEndWithIt(t *testing.T) {
	for _, octets := range []string{
		// An NS record of one octet, which would be a label with octets after the RDATA.
		"\x00\x00\x80\x00\x00\x00\x00\x01\x00\x00\x00\x00\x00\x00\x02\x00\x01\x00\x00\x00\x00\x00\x01\x01a\x00",
		// And one of a pointer to such a label.
		"\x00\x00\x80\x00\x00\x00\x00\x01\x00\x00\x00\x00\x00\x00\x02\x00\x01\x00\x00\x00\x06\x00\x02\xc0\x14aa\x00",
	} {
		message, err := Parse([]byte(octets))
		if err != nil {
			t.Fatal(err)
		}
		items, err := message.Section(Answer)
		if err != nil || len(items) != 1 {
			t.Fatal(items, err)
		}
		if name, err := items[0].DataName(0); !errors.Is(err, BadData) {
			t.Error(name, err)
		}
		if got := items[0].DataText(); !strings.HasPrefix(got, "\\# ") {
			t.Error(got)
		}
	}
}

func TestNumbersHaveTheirRegisteredNames(t *testing.T) {
	for number, text := range map[Type]string{33: "SRV", 65: "HTTPS", 255: "ANY", 65280: "TYPE65280"} {
		if got := number.String(); got != text {
			t.Error(number, got)
		}
	}
	for number, text := range map[Class]string{254: "NONE", 255: "ANY", 2: "CLASS2"} {
		if got := number.String(); got != text {
			t.Error(number, got)
		}
	}
}

func TestEveryPrefixEndsInAnError(t *testing.T) {
	for length := range response {
		message, err := Parse(response[:length])
		if err != nil {
			if length >= 12 || !errors.Is(err, ShortInput) {
				t.Error(length, err)
			}
			continue
		}
		items := message.Items()
		for items.Next() {
		}
		if items.Err() == nil || items.Next() {
			t.Error(length, "octets are read to the end")
		}
		if _, err := message.Section(Question); (err == nil) != (length >= 29) {
			t.Error(length, err)
		}
	}
}

func question(name string) NewItem {
	return NewItem{Section: Question, Name: name, Type: TypeA, Class: ClassIN}
}

func answer(name string, type_ Type, data []byte) NewItem {
	return NewItem{Section: Answer, Name: name, Type: type_, Class: ClassIN, TTL: 3600, Data: data}
}

func TestOptionsAreReadAsWritten(t *testing.T) {
	written := OPT{1232, true, 1, 0, []Option{{3, []byte{}}, {10, []byte("12345678")}}}
	item, err := written.Item()
	if err != nil {
		t.Fatal(err)
	}
	octets, err := Build(1, RD, []NewItem{question("a"), item})
	if err != nil {
		t.Fatal(err)
	}
	message, _ := Parse(octets)
	read, err := message.OPT()
	if err != nil || read.UDPSize != 1232 || !read.DO || read.RcodeHigh != 1 || len(read.Options) != 2 {
		t.Fatal(read, err)
	}
	if last := read.Options[1]; last.Code != 10 || string(last.Data) != "12345678" {
		t.Error(last)
	}
}

// Errors that are the same from Build and from a builder.
var refused = map[Status]NewItem{
	BadText:    question("a..b"),
	LongData:   answer("a", TypeTXT, make([]byte, 65536)),
	BadSection: {Section: 4, Name: "a", Type: TypeA, Class: ClassIN},
}

func TestWhatCannotBeWrittenIsAnError(t *testing.T) {
	for want, item := range refused {
		if _, err := Build(1, 0, []NewItem{item}); !errors.Is(err, want) {
			t.Error(want, err)
		}
	}
	if _, err := Build(1, 0, []NewItem{answer("a", TypeA, []byte{1})}); !errors.Is(err, BadData) {
		t.Error(err)
	}
	if _, err := Build(1, 0, []NewItem{{NameOctets: []byte{1}}}); !errors.Is(err, ShortInput) {
		t.Error(err)
	}
	if octets, err := Build(1, 0, nil); err != nil || len(octets) != 12 {
		t.Error(octets, err)
	}
	if _, err := NameFromText(""); err.Error() != "the text, or the name of an item, isn't valid" {
		t.Error(err)
	}
}

func TestWhatCannotBePutIsAnError(t *testing.T) {
	if _, err := NewBuilder(make([]byte, 11), 1, 0); !errors.Is(err, NoRoom) {
		t.Error(err)
	}
	builder, err := NewBuilder(make([]byte, 512), 1, 0)
	if err != nil {
		t.Fatal(err)
	}
	for want, item := range refused {
		if err := builder.Put(item); !errors.Is(err, want) || builder.Len() != 12 {
			t.Error(want, err, builder.Len())
		}
	}
	if err := builder.Put(NewItem{NameOctets: []byte{1, 'a'}, Type: TypeA, Class: ClassIN}); !errors.Is(err, BadText) {
		t.Error(err)
	}
	if err := builder.Put(answer("a", TypeA, make([]byte, 4))); err != nil {
		t.Error(err)
	}
	if err := builder.Put(question("a")); !errors.Is(err, BadSection) {
		t.Error(err)
	}
	if octets, err := builder.Finish(); err != nil || len(octets) != 12+17 {
		t.Error(octets, err)
	}
}

func TestNamesMayBeTextOrOctets(t *testing.T) {
	owner := []byte("\x07example\x03com\x00")
	byOctets := answer("", TypeA, []byte{192, 0, 2, 1})
	byOctets.NameOctets = owner
	for _, record := range []NewItem{answer("example.com", TypeA, byOctets.Data), byOctets} {
		items := []NewItem{{NameOctets: owner, Type: TypeA, Class: ClassIN}, record}
		if octets, err := Build(0x1234, 0x8180, items); err != nil || !bytes.Equal(octets, response) {
			t.Errorf("%x %v", octets, err)
		}
		builder, err := NewBuilder(make([]byte, 64), 0x1234, 0x8180)
		if err != nil {
			t.Fatal(err)
		}
		for _, item := range items {
			if err := builder.Put(item); err != nil {
				t.Error(err)
			}
		}
		if octets, err := builder.Finish(); err != nil || !bytes.Equal(octets, response) {
			t.Errorf("%x %v", octets, err)
		}
	}
}

func TestMessagesHaveALimit(t *testing.T) {
	builder, err := NewBuilder(make([]byte, 512), 0x1234, 0x8180)
	if err != nil || builder.Put(question("example.com")) != nil {
		t.Fatal(err)
	}
	mark, record := builder.Mark(), answer("example.com", TypeA, []byte{192, 0, 2, 1})
	for _, it := range []struct {
		limit, reserved uint
		want            error
		length          int
	}{{44, 0, NoRoom, 29}, {45, 1, NoRoom, 29}, {45, 0, nil, 45}, {45, 0, NoRoom, 45}} {
		builder.SetLimit(it.limit)
		builder.SetReserved(it.reserved)
		if err := builder.Put(record); err != it.want || builder.Len() != it.length {
			t.Error(it, err, builder.Len())
		}
	}
	builder.SetFlags(0)
	if builder.Flags() != 0 {
		t.Error(builder.Flags())
	}
	builder.Rewind(mark)
	if builder.Flags() != 0x8180 || builder.Len() != 29 {
		t.Error(builder.Flags(), builder.Len())
	}
	if err := builder.Put(record); err != nil {
		t.Error(err)
	}
	if octets, err := builder.Finish(); err != nil || !bytes.Equal(octets, response) {
		t.Errorf("%x %v", octets, err)
	}
}

func TestAnswers(t *testing.T) {
	query, err := Query(7, true, "a.example", TypeA)
	if err != nil {
		t.Fatal(err)
	}
	answered, err := RespondA(query, true, 60, [4]byte{192, 0, 2, 9})
	if err != nil {
		t.Fatal(err)
	}
	message, _ := Parse(answered)
	if items, _ := message.Section(Answer); items[0].String() != "a.example. 60 IN A 192.0.2.9" {
		t.Error(items)
	}
	if _, err := RespondA(answered, true, 60, [4]byte{}); !errors.Is(err, IsResponse) {
		t.Error(err)
	}
}

func TestLongTextsAreWhole(t *testing.T) {
	data := []byte(strings.Repeat("\xff"+strings.Repeat("a", 255), 40))
	octets, err := Build(1, 0, []NewItem{answer("a", TypeTXT, data)})
	if err != nil {
		t.Fatal(err)
	}
	message, _ := Parse(octets)
	items, _ := message.Section(Answer)
	if got := len(items[0].DataText()); got != 40*258-1 {
		t.Error(got)
	}
}

func TestManyGoroutines(t *testing.T) {
	var all sync.WaitGroup
	for i := 0; i < 16; i++ {
		all.Add(1)
		go func() {
			defer all.Done()
			for j := 0; j < 500; j++ {
				TestAnswers(t)
			}
		}()
	}
	all.Wait()
}

package dnsm_test

import (
	"errors"
	"fmt"
	"log"

	"example.org/dnsm"
)

// A response, read up to the first item that can't be read.
func ExampleParse() {
	query, err := dnsm.Query(4660, true, "www.example.com", dnsm.TypeA)
	if err != nil {
		log.Fatal(err)
	}
	response, err := dnsm.RespondA(query, true, 300, [4]byte{192, 0, 2, 1})
	if err != nil {
		log.Fatal(err)
	}
	message, err := dnsm.Parse(response)
	if err != nil {
		log.Fatal(err)
	}
	items := message.Items()
	for items.Next() {
		fmt.Println(items.Item())
	}
	fmt.Println(items.Err())
	// Output:
	// www.example.com. IN A
	// www.example.com. 300 IN A 192.0.2.1
	// <nil>
}

// A response within a limit. If the addresses don't fit, it has none of them, and TC says so.
func ExampleBuilder() {
	query, err := dnsm.Query(4660, true, "www.example.com", dnsm.TypeA)
	if err != nil {
		log.Fatal(err)
	}
	builder, err := dnsm.NewResponse(make([]byte, 65535), query, 0)
	if err != nil {
		log.Fatal(err)
	}
	builder.SetLimit(512)
	mark := builder.Mark()
	for last := byte(1); last <= 100; last++ {
		err := builder.Put(dnsm.NewItem{Section: dnsm.Answer, Name: "www.example.com", Type: dnsm.TypeA, Class: dnsm.ClassIN,
			TTL: 300, Data: []byte{192, 0, 2, last}})
		if errors.Is(err, dnsm.NoRoom) {
			builder.Rewind(mark)
			builder.SetFlags(builder.Flags() | dnsm.TC)
			break
		}
		if err != nil {
			log.Fatal(err)
		}
	}
	response, err := builder.Finish()
	fmt.Println(len(response), response[2]&2 != 0, err)
	// Output: 33 true <nil>
}

// A message by one call. Names in RDATA are made from their texts, or all of it from the text of a zone file.
func ExampleBuild() {
	target, err := dnsm.DataFromText(dnsm.TypeMX, "10 mail.example.com.")
	if err != nil {
		log.Fatal(err)
	}
	octets, err := dnsm.Build(4660, dnsm.QR|dnsm.AA, []dnsm.NewItem{
		{Section: dnsm.Question, Name: "example.com", Type: dnsm.TypeMX, Class: dnsm.ClassIN},
		{Section: dnsm.Answer, Name: "example.com", Type: dnsm.TypeMX, Class: dnsm.ClassIN, TTL: 300, Data: target},
	})
	fmt.Println(len(octets), err)
	// Output: 50 <nil>
}

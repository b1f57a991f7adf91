// Answers queries as a name server does over UDP: reads them from standard input, in hexadecimal, one a line, and prints the
// responses. A question for AAAA gets 20 addresses. If these don't fit, the response has none of them, and TC is set. A line that
// isn't in hexadecimal is reported on standard error. The exit status is 1 if there is one, or if the input can't be read.
package main

import (
	"bufio"
	"encoding/hex"
	"errors"
	"fmt"
	"io"
	"log"
	"os"
	"strings"

	"example.org/dnsm"
)

const (
	addresses  = 20
	ttl        = 300
	optOctets  = 11   // of an OPT record without options
	plainLimit = 512  // the most octets of a message for a client without EDNS
	most       = 1232 // the most octets of a message
)

var errIgnored = errors.New("not a query (opcode 0) with one question")

// readQuery reads the question, and the OPT record if there is one. It reads the message to its end.
func readQuery(message *dnsm.Message) (question dnsm.Item, opt *dnsm.OPT, err error) {
	if message.Flags&dnsm.QR != 0 || message.Opcode != 0 || message.Counts[dnsm.Question] != 1 {
		return question, nil, errIgnored
	}
	items := message.Items()
	for items.Next() {
		item := items.Item()
		if item.Section() == dnsm.Question {
			question = item
		} else if opt == nil && item.Section() == dnsm.Additional && item.Type() == dnsm.TypeOPT {
			opt, _ = item.OPT()
		}
	}
	return question, opt, items.Err()
}

func limitFor(opt *dnsm.OPT) uint {
	if opt == nil || opt.UDPSize < plainLimit {
		return plainLimit
	}
	if opt.UDPSize < most {
		return uint(opt.UDPSize)
	}
	return most
}

func putAddresses(builder *dnsm.Builder, owner []byte) error {
	address := [16]byte{0x20, 1, 0xd, 0xb8}
	for address[15] < addresses {
		address[15]++
		item := dnsm.NewItem{Section: dnsm.Answer, NameOctets: owner, Type: dnsm.TypeAAAA, Class: dnsm.ClassIN, TTL: ttl}
		item.Data = address[:]
		if err := builder.Put(item); err != nil {
			return err
		}
	}
	return nil
}

// putAnswers puts the addresses, or none of them with TC.
func putAnswers(builder *dnsm.Builder, question dnsm.Item) {
	if question.Type() != dnsm.TypeAAAA || question.Class() != dnsm.ClassIN {
		return
	}
	mark := builder.Mark()
	if putAddresses(builder, question.NameOctets()) != nil {
		builder.Rewind(mark)
		builder.SetFlags(builder.Flags() | dnsm.TC)
	}
}

func respond(header dnsm.Header, question dnsm.Item, opt *dnsm.OPT, out []byte) ([]byte, error) {
	builder, err := dnsm.NewBuilder(out, header.ID, dnsm.QR|dnsm.AA|header.Flags&dnsm.RD)
	if err != nil {
		return nil, err
	}
	builder.SetLimit(limitFor(opt))
	item := dnsm.NewItem{NameOctets: question.NameOctets(), Type: question.Type(), Class: question.Class()}
	if err := builder.Put(item); err != nil {
		return nil, err
	}
	if opt == nil {
		putAnswers(builder, question)
		return builder.Finish()
	}
	builder.SetReserved(optOctets)
	putAnswers(builder, question)
	builder.SetReserved(0)
	if item, err = (&dnsm.OPT{UDPSize: most}).Item(); err != nil {
		return nil, err
	}
	if err := builder.Put(item); err != nil {
		return nil, err
	}
	return builder.Finish()
}

func answer(query []byte) ([]byte, error) {
	message, err := dnsm.Parse(query)
	if err != nil {
		return nil, err
	}
	question, opt, err := readQuery(message)
	if err != nil {
		return nil, err
	}
	return respond(message.Header, question, opt, make([]byte, most))
}

func main() {
	status := 0
	input, output := bufio.NewReader(os.Stdin), bufio.NewWriter(os.Stdout)
	for number := 1; ; number++ {
		line, err := input.ReadString('\n')
		if err != nil && err != io.EOF {
			log.Fatal(err)
		}
		if line == "" && err != nil {
			os.Exit(status)
		}
		query, err := hex.DecodeString(strings.TrimSuffix(line, "\n"))
		if err != nil {
			fmt.Fprintf(os.Stderr, "line %d: not two hexadecimal digits for each octet\n", number)
			status = 1
		} else if response, err := answer(query); err != nil {
			fmt.Fprintln(output, "ignored")
		} else {
			fmt.Fprintf(output, "%x\n", response)
		}
		if err := output.Flush(); err != nil {
			log.Fatal(err)
		}
	}
}

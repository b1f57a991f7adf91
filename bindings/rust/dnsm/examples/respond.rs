//! Answers queries as a name server does over UDP: reads them from standard input, in hexadecimal, one a line, and prints the
//! responses. A question for AAAA gets 20 addresses. If these don't fit, the response has none of them, and TC is set. A line that
//! isn't in hexadecimal is reported on standard error, and then the exit status is 1.
use dnsm::{Builder, Class, Error, Header, Item, Message, NewItem, NewOpt, Rtype, Section, AA, QR, RD, TC};
use std::io::BufRead;
use std::process::ExitCode;

const ADDRESSES: u8 = 20;
const TTL: u32 = 300;
/// The most octets of a message for a client without EDNS.
const PLAIN_LIMIT: u16 = 512;
/// The most octets of a message.
const MOST: u16 = 1232;

/// The question of a query (opcode 0) with one, and the octets that its client can receive if it has EDNS.
fn read_query<'a>(message: &Message<'a>) -> Option<(Item<'a>, Option<u16>)> {
    let header = message.header();
    if header.flags & QR != 0 || header.opcode != 0 || header.counts[0] != 1 {
        return None;
    }
    let items = message.items().collect::<Result<Vec<_>, _>>().ok()?;
    let opt = items.iter().find_map(|item| item.opt().ok());
    Some((*items.first()?, opt.map(|opt| opt.udp_size())))
}

fn put_addresses(builder: &mut Builder<'_>, owner: &[u8]) -> Result<(), Error> {
    let mut address = [0x20, 1, 0xd, 0xb8, 0, 0, 0, 0, 0, 0, 0, 0, 0, 0, 0, 0];
    for last in 1..=ADDRESSES {
        address[15] = last;
        builder.put(&NewItem::record(Section::Answer, owner, Rtype::AAAA, TTL, &address))?;
    }
    Ok(())
}

fn respond<'a>(header: Header, question: &Item<'_>, udp_size: Option<u16>, out: &'a mut [u8]) -> Result<&'a mut [u8], Error> {
    let (rtype, class, owner) = (question.rtype(), question.class(), question.name().to_octets());
    let opt = NewOpt::new(MOST, false, 0, &[])?;
    let mut builder = Builder::new(out, header.id, QR | AA | header.flags & RD)?;
    builder.set_limit(usize::from(udp_size.unwrap_or(0).clamp(PLAIN_LIMIT, MOST)));
    builder.put(&NewItem::question(&owner, rtype, class))?;
    if udp_size.is_some() {
        builder.set_reserved(opt.octets());
    }
    let mark = builder.mark();
    if rtype == Rtype::AAAA && class == Class::IN && put_addresses(&mut builder, &owner).is_err() {
        builder.rewind(&mark);
        builder.set_flags(builder.flags() | TC);
    }
    builder.set_reserved(0);
    if udp_size.is_some() {
        builder.put(&opt.item())?;
    }
    builder.finish()
}

/// The response in hexadecimal, or none.
fn answer(query: &[u8]) -> Option<String> {
    let message = Message::new(query).ok()?;
    let (question, udp_size) = read_query(&message)?;
    let mut out = [0; MOST as usize];
    let response = respond(message.header(), &question, udp_size, &mut out).ok()?;
    Some(response.iter().map(|octet| format!("{octet:02x}")).collect())
}

/// The octets that a line has two hexadecimal digits for each of.
fn octets_of(line: &[u8]) -> Option<Vec<u8>> {
    let digit = |octet: u8| char::from(octet).to_digit(16).map(|digit| digit as u8);
    line.chunks(2).map(|pair| Some(digit(pair[0])? << 4 | digit(*pair.get(1)?)?)).collect()
}

fn main() -> std::io::Result<ExitCode> {
    let mut failed = false;
    for (line, number) in std::io::stdin().lock().split(b'\n').zip(1..) {
        match octets_of(&line?) {
            Some(query) => println!("{}", answer(&query).unwrap_or_else(|| "ignored".to_owned())),
            None => {
                eprintln!("line {number}: not two hexadecimal digits for each octet");
                failed = true;
            }
        }
    }
    Ok(ExitCode::from(u8::from(failed)))
}

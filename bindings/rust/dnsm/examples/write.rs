//! Writes a response by one call, and prints it in hexadecimal.
use dnsm::{build, name_from_text, Class, Error, NewItem, NewOpt, Rtype, Section, QR, RA, RD};

const ADDRESS: [u8; 4] = [192, 0, 2, 7];

fn main() -> Result<(), Error> {
    let target = name_from_text("ns.example.com")?;
    let opt = NewOpt::new(1232, false, 0, &[])?;
    let items = [
        NewItem::question("www.example.com", Rtype::A, Class::IN),
        NewItem::record(Section::Answer, "www.example.com", Rtype::A, 300, &ADDRESS),
        NewItem::record(Section::Authority, "example.com", Rtype::NS, 3600, &target),
        NewItem::record(Section::Additional, "ns.example.com", Rtype::A, 300, &ADDRESS),
        opt.item(),
    ];
    for octet in build(4660, QR | RD | RA, &items)? {
        print!("{octet:02x}");
    }
    println!();
    Ok(())
}

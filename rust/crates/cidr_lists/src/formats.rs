//! Sets as other tools read them: nft, ipset, iptables, Cisco IOS, Junos, BIRD, and as JSON.
//!
//! Each tool has a set for IPv4, `netset4`, and one for IPv6, `netset6`. A format is a [`Layout`] for each family, so that
//! a further one is such a layout.

use cidr_support::vec::Vec;
use crate::sets::Sets;
use cidr_support::arrayvec::ArrayString;
use cidr::{BitString, Family, FamilyCidr, IpCidr};
use cidr_io::decimal::decimal_text;
use cidr_support::alloc::{AllocError, Global};

/// The most bytes of a network in any notation.
const MOST: usize = 200;

/// What sets are printed for.
#[derive(Clone, Copy, Debug, PartialEq)]
pub enum Format {
    /// A network a line: `192.0.2.0/24`.
    Plain,
    /// An object of JSON a line:
    /// `{"network":"192.0.2.0/24","first":"192.0.2.0","last":"192.0.2.255","length":24,"family":"IPv4"}`.
    Json,
    /// Commands for `nft -f`: the sets `netset4` and `netset6` in the table `inet netset`.
    Nft,
    /// Commands for `ipset -exist restore`: sets of type `hash:net`. Such a set takes no network of length 0, so that its
    /// two halves stand for it.
    Ipset,
    /// A chain `netset` that accepts what comes from the addresses, both for `iptables-restore -n` and for
    /// `ip6tables-restore -n`.
    Iptables,
    /// Prefix lists of Cisco IOS that permit each route all of whose addresses are in the set.
    Cisco,
    /// Prefix lists of Junos, for `load replace`.
    Juniper,
    /// Prefix sets of BIRD 2, which has no empty one: a comment stands for it.
    Bird,
}

/// How lines are written that have more than a network: changes, for instance.
#[derive(Clone, Copy, Debug, PartialEq)]
pub enum LineFormat {
    /// As text.
    Plain,
    /// As an object of JSON.
    Json,
}

/// A format, and two strings for [`Format::Plain`]; the others do without them.
#[derive(Clone, Copy, Debug)]
pub struct Style<'a> {
    /// What the sets are printed for.
    pub format: Format,
    /// In front of each network.
    pub prefix: &'a str,
    /// Behind each network.
    pub suffix: &'a str,
}

/// How a network is written.
#[derive(Clone, Copy, Debug, PartialEq)]
pub enum Notation {
    /// Without a full prefix length: `192.0.2.0/24`, `192.0.2.1`.
    Plain,
    /// Always with its prefix length: `192.0.2.1/32`.
    WithLength,
    /// With its prefix length and, unless that is full, ` le 32` or ` le 128` behind it.
    AndLonger,
    /// Without a full prefix length; for the network of length 0 its two halves, for `ipset`.
    Halved,
    /// The members of an object of JSON, from behind the quote in front of the network to the prefix length.
    Members,
}

/// What is printed of the networks of a family.
#[derive(Clone, Copy, Debug)]
pub struct Layout<'a> {
    /// All of it, where there is no network.
    pub none: &'a str,
    /// In front of the first one.
    pub head: &'a str,
    /// In front of each.
    pub before: &'a str,
    /// How each is written.
    pub notation: Notation,
    /// Behind each.
    pub behind: &'a str,
    /// Between two.
    pub between: &'a str,
    /// Behind the last one.
    pub tail: &'a str,
}

/// A string with room for any notation.
#[inline]
fn widened(text: &str) -> ArrayString<MOST> {
    let mut wide = ArrayString::new();
    wide.push_str(text);
    wide
}

/// A network with its prefix length, and those inside it.
#[inline]
fn and_longer(network: &str, len: u8, width: u8) -> ArrayString<MOST> {
    let mut text = widened(network);
    if len != width {
        text.push_str(" le ");
        text.push_str(decimal_text(u128::from(width)).as_str());
    }
    text
}

/// The two halves of the network of length 0.
#[inline]
fn both_halves(lower: &str, gap: &str, upper: &str) -> ArrayString<MOST> {
    let mut text = widened(lower);
    text.push_str(gap);
    text.push_str(upper);
    text
}

/// The members of an object of JSON.
fn members(network: &str, first: &str, last: &str, len: u8) -> ArrayString<MOST> {
    let mut text = widened(network);
    text.push_str("\",\"first\":\"");
    text.push_str(first);
    text.push_str("\",\"last\":\"");
    text.push_str(last);
    text.push_str("\",\"length\":");
    text.push_str(decimal_text(u128::from(len)).as_str());
    text
}

/// A half of all addresses of a family.
#[inline]
fn half<C: FamilyCidr>(is_upper: bool) -> C {
    let mut half = C::null();
    half.append(is_upper);
    half
}

/// What stands between the two halves of the network of length 0: they are in two lines.
#[inline]
fn second_half(family: Family) -> &'static str {
    match family {
        Family::Ipv4 => "\nadd netset4 ",
        Family::Ipv6 => "\nadd netset6 ",
    }
}

/// A network, or its two halves in two lines where it has all addresses.
fn halved<C: FamilyCidr>(network: &C) -> ArrayString<MOST> {
    if network.network_length() > 0 {
        return widened(network.to_text().as_str());
    }
    both_halves(
        half::<C>(false).to_text().as_str(),
        second_half(C::FAMILY),
        half::<C>(true).to_text().as_str(),
    )
}

/// A network of one family in a notation: at most 200 bytes.
pub fn written<C: FamilyCidr>(network: &C, notation: Notation) -> ArrayString<MOST> {
    match notation {
        Notation::Plain => widened(network.to_text().as_str()),
        Notation::WithLength => widened(network.to_text_with_length().as_str()),
        Notation::AndLonger => and_longer(
            network.to_text_with_length().as_str(),
            network.network_length(),
            C::FAMILY.len(),
        ),
        Notation::Halved => halved(network),
        Notation::Members => members(
            network.to_text().as_str(),
            C::address_text(&network.first_address()).as_str(),
            C::address_text(&network.last_address()).as_str(),
            network.network_length(),
        ),
    }
}

/// A network of either family in a notation: at most 200 bytes.
#[inline]
pub fn network_text(network: &IpCidr, notation: Notation) -> ArrayString<MOST> {
    match network {
        IpCidr::V4(network) => written(network, notation),
        IpCidr::V6(network) => written(network, notation),
    }
}

/// A network a line, between two texts.
fn plain<'a>(prefix: &'a str, suffix: &'a str) -> Layout<'a> {
    Layout {
        none: "",
        head: "",
        before: prefix,
        notation: Notation::Plain,
        behind: suffix,
        between: "\n",
        tail: "\n",
    }
}

/// What ends an object of JSON behind the members of a network: `,"family":"IPv4"}`.
#[inline]
pub fn object_end(family: Family) -> &'static str {
    match family {
        Family::Ipv4 => ",\"family\":\"IPv4\"}",
        Family::Ipv6 => ",\"family\":\"IPv6\"}",
    }
}

/// An object of JSON a line.
fn json(family: Family) -> Layout<'static> {
    Layout {
        none: "",
        head: "",
        before: "{\"network\":\"",
        notation: Notation::Members,
        behind: object_end(family),
        between: "\n",
        tail: "\n",
    }
}

/// A head, and lines that each stand for themselves.
fn lines<'a>(head: &'a str, before: &'a str, notation: Notation, behind: &'a str) -> Layout<'a> {
    Layout {
        none: head,
        head,
        before,
        notation,
        behind,
        between: "\n",
        tail: "\n",
    }
}

/// Commands for `nft -f`.
fn nft(family: Family) -> Layout<'static> {
    match family {
        Family::Ipv4 => lines(
            "add table inet netset\nadd set inet netset netset4 { type ipv4_addr; flags interval; }\nflush set inet netset netset4\n",
            "add element inet netset netset4 { ",
            Notation::Plain,
            " }",
        ),
        Family::Ipv6 => lines(
            "add table inet netset\nadd set inet netset netset6 { type ipv6_addr; flags interval; }\nflush set inet netset netset6\n",
            "add element inet netset netset6 { ",
            Notation::Plain,
            " }",
        ),
    }
}

/// Commands for `ipset -exist restore`.
fn ipset(family: Family) -> Layout<'static> {
    match family {
        Family::Ipv4 => lines(
            "create netset4 hash:net family inet maxelem 4294967295\nflush netset4\n",
            "add netset4 ",
            Notation::Halved,
            "",
        ),
        Family::Ipv6 => lines(
            "create netset6 hash:net family inet6 maxelem 4294967295\nflush netset6\n",
            "add netset6 ",
            Notation::Halved,
            "",
        ),
    }
}

/// A chain for `iptables-restore -n` and `ip6tables-restore -n`.
fn iptables(family: Family) -> Layout<'static> {
    match family {
        Family::Ipv4 => lines(
            "*filter\n:netset - [0:0]\n",
            "-4 -A netset -s ",
            Notation::Plain,
            " -j ACCEPT",
        ),
        Family::Ipv6 => Layout {
            none: "COMMIT\n",
            head: "",
            before: "-6 -A netset -s ",
            notation: Notation::Plain,
            behind: " -j ACCEPT",
            between: "\n",
            tail: "\nCOMMIT\n",
        },
    }
}

/// Prefix lists of Cisco IOS.
fn cisco(family: Family) -> Layout<'static> {
    match family {
        Family::Ipv4 => Layout {
            none: "no ip prefix-list netset4\nip prefix-list netset4 deny 0.0.0.0/0 le 32\n",
            head: "no ip prefix-list netset4\n",
            before: "ip prefix-list netset4 permit ",
            notation: Notation::AndLonger,
            behind: "",
            between: "\n",
            tail: "\n",
        },
        Family::Ipv6 => Layout {
            none: "no ipv6 prefix-list netset6\nipv6 prefix-list netset6 deny ::/0 le 128\n",
            head: "no ipv6 prefix-list netset6\n",
            before: "ipv6 prefix-list netset6 permit ",
            notation: Notation::AndLonger,
            behind: "",
            between: "\n",
            tail: "\n",
        },
    }
}

/// Prefix lists of Junos.
fn juniper(family: Family) -> Layout<'static> {
    match family {
        Family::Ipv4 => Layout {
            none: "policy-options {\n    replace:\n    prefix-list netset4 {\n    }\n",
            head: "policy-options {\n    replace:\n    prefix-list netset4 {\n",
            before: "        ",
            notation: Notation::WithLength,
            behind: ";",
            between: "\n",
            tail: "\n    }\n",
        },
        Family::Ipv6 => Layout {
            none: "    replace:\n    prefix-list netset6 {\n    }\n}\n",
            head: "    replace:\n    prefix-list netset6 {\n",
            before: "        ",
            notation: Notation::WithLength,
            behind: ";",
            between: "\n",
            tail: "\n    }\n}\n",
        },
    }
}

/// Prefix sets of BIRD 2.
fn bird(family: Family) -> Layout<'static> {
    let (none, head): (&'static str, &'static str) = match family {
        Family::Ipv4 => ("# netset4 has no network\n", "define netset4 = [\n"),
        Family::Ipv6 => ("# netset6 has no network\n", "define netset6 = [\n"),
    };
    Layout {
        none,
        head,
        before: "    ",
        notation: Notation::WithLength,
        behind: "+",
        between: ",\n",
        tail: "\n];\n",
    }
}

/// What is printed of the networks of a family.
pub fn layout_of<'a>(style: &Style<'a>, family: Family) -> Layout<'a> {
    match style.format {
        Format::Plain => plain(style.prefix, style.suffix),
        Format::Json => json(family),
        Format::Nft => nft(family),
        Format::Ipset => ipset(family),
        Format::Iptables => iptables(family),
        Format::Cisco => cisco(family),
        Format::Juniper => juniper(family),
        Format::Bird => bird(family),
    }
}

/// A network a line, and nothing else.
fn lines_alone() -> Layout<'static> {
    Layout {
        none: "",
        head: "",
        before: "",
        notation: Notation::Plain,
        behind: "\n",
        between: "",
        tail: "",
    }
}

/// What is printed of the networks of a family where they come one after the other: in a style, or a network a line where
/// there is none.
#[inline]
pub fn walk_layout<'a>(style: Option<Style<'a>>, family: Family) -> Layout<'a> {
    match style {
        None => lines_alone(),
        Some(style) => layout_of(&style, family),
    }
}

/// Appends a network.
#[inline]
fn push_network<C: FamilyCidr>(
    text: &mut Vec<u8>,
    layout: &Layout<'_>,
    network: &C,
) -> Result<(), AllocError> {
    text.extend_from_slice(layout.before.as_bytes())?;
    text.extend_from_slice(written(network, layout.notation).as_str().as_bytes())?;
    text.extend_from_slice(layout.behind.as_bytes())?;
    Ok(())
}

/// Appends the networks behind the first.
#[inline]
fn push_later_rows<C: FamilyCidr>(
    text: &mut Vec<u8>,
    layout: &Layout<'_>,
    networks: &[C],
) -> Result<(), AllocError> {
    for network in networks {
        text.extend_from_slice(layout.between.as_bytes())?;
        push_network(text, layout, network)?;
    }
    Ok(())
}

/// Appends what is printed of the networks of a family.
fn push_layout<C: FamilyCidr>(
    text: &mut Vec<u8>,
    layout: &Layout<'_>,
    networks: &[C],
) -> Result<(), AllocError> {
    let Some((first, rest)) = networks.split_first() else {
        text.extend_from_slice(layout.none.as_bytes())?;
        return Ok(());
    };
    text.extend_from_slice(layout.head.as_bytes())?;
    push_network(text, layout, first)?;
    push_later_rows(text, layout, rest)?;
    text.extend_from_slice(layout.tail.as_bytes())?;
    Ok(())
}

impl Sets {
    /// What is printed of the addresses in this style, as bytes: the networks of the shortest list, ascending, IPv4 before
    /// IPv6. It takes time in the length of the text. The error is that there is no memory.
    #[inline]
    pub fn to_style(&self, alloc: Global, style: &Style<'_>) -> Result<Vec<u8>, AllocError> {
        let mut text = Vec::new(alloc);
        let v4 = layout_of(style, Family::Ipv4);
        push_layout(&mut text, &v4, self.v4.as_slice())?;
        let v6 = layout_of(style, Family::Ipv6);
        push_layout(&mut text, &v6, self.v6.as_slice())?;
        Ok(text)
    }
}

/// The formats, in the order in which they are told.
static FORMATS: [Format; 8] = [
    Format::Plain,
    Format::Json,
    Format::Nft,
    Format::Ipset,
    Format::Iptables,
    Format::Cisco,
    Format::Juniper,
    Format::Bird,
];

/// The name of a format.
pub fn format_name(format: Format) -> &'static str {
    match format {
        Format::Plain => "plain",
        Format::Json => "json",
        Format::Nft => "nft",
        Format::Ipset => "ipset",
        Format::Iptables => "iptables",
        Format::Cisco => "cisco",
        Format::Juniper => "juniper",
        Format::Bird => "bird",
    }
}

/// The formats, in the order in which they are told.
#[inline]
pub fn formats() -> &'static [Format] {
    &FORMATS
}

/// The format of a name, in lower case as `format_name` has it, or `None` where there is none.
#[inline]
pub fn format_of(name: &str) -> Option<Format> {
    formats()
        .iter()
        .find(|format| format_name(**format) == name)
        .copied()
}

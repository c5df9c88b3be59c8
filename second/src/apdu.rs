//! The length form of a command APDU.

#[derive(Clone, Copy, Debug, PartialEq, Eq)]
pub struct Apdu<'a> {
    pub class: u8,
    pub instruction: u8,
    pub p1: u8,
    pub p2: u8,
    /// Empty means no data: Lc is at least 1 where it is present.
    pub data: &'a [u8],
    /// 1 to 256.
    pub le: Option<usize>,
}

/// "Le 00 means 256."
fn le_of(byte: u8) -> usize {
    if byte == 0 { 256 } else { byte as usize }
}

/// "4 bytes: no data, no Le. 5: Le. 6 or more: Lc in byte 5, at least 1,
/// total 5+Lc or 6+Lc (then the last byte is Le)."
pub fn parse(bytes: &[u8]) -> Option<Apdu<'_>> {
    let (data, le): (&[u8], Option<usize>) = match bytes.len() {
        0..=3 => return None,
        4 => (&[], None),
        5 => (&[], Some(le_of(bytes[4]))),
        total => {
            let lc = bytes[4] as usize;
            if lc == 0 {
                return None;
            } else if total == 5 + lc {
                (&bytes[5..], None)
            } else if total == 6 + lc {
                (&bytes[5..5 + lc], Some(le_of(bytes[total - 1])))
            } else {
                return None;
            }
        }
    };
    Some(Apdu { class: bytes[0], instruction: bytes[1], p1: bytes[2], p2: bytes[3], data, le })
}

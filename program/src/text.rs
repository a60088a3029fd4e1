//! Texts from outside: numbers that were typed, and names that are shown.

use std::ffi::OsStr;
use std::os::unix::ffi::OsStrExt;

/// A figure with the text that it was typed as, to be shown back.
#[derive(Clone, Debug)]
pub struct Typed {
    pub figure: f64,
    pub text: String,
}

pub fn typed(text: &str) -> Result<Typed, String> {
    Ok(Typed { figure: figure(text)?, text: text.to_owned() })
}

/// A figure that was typed: 14097700, 14,097,700.125 or -50. Commas may stand between groups of three digits.
pub fn figure(typed: &str) -> Result<f64, String> {
    const HOW: &str = "write a number as 14097700, 14,097,700 or 14097700.125, without a unit";
    let bare = typed.strip_prefix(['-', '+']).unwrap_or(typed);
    let (whole, part) = match bare.split_once('.') {
        Some((whole, part)) => (whole, Some(part)),
        None => (bare, None),
    };
    let digits = |text: &str| !text.is_empty() && text.bytes().all(|b| b.is_ascii_digit());
    let mut groups = whole.split(',');
    let first = groups.next().unwrap_or_default();
    let mut grouped = groups.clone();
    let whole_right = match grouped.next() {
        None => digits(first),
        Some(_) => digits(first) && first.len() <= 3 && groups.all(|g| digits(g) && g.len() == 3),
    };
    if !whole_right && digits(&whole.replace(',', "")) {
        return Err("a comma stands between groups of three digits, and a point before decimals".to_owned());
    }
    if !whole_right || !part.map_or(true, digits) {
        return Err(HOW.to_owned());
    }
    match typed.replace(',', "").parse::<f64>() {
        Ok(figure) if figure.is_finite() => Ok(figure),
        _ => Err(HOW.to_owned()),
    }
}

/// Whether a character would do something to a terminal in place of being seen.
fn unseen(c: char) -> bool {
    c.is_control()
        || matches!(c, '\u{61c}' | '\u{200b}'..='\u{200f}' | '\u{2028}'..='\u{202e}' | '\u{2060}'..='\u{206f}' | '\u{feff}')
}

/// A name as it is shown: what would not be seen, and bytes that are no text, by their numbers.
pub fn shown(name: &OsStr) -> String {
    let mut out = String::new();
    let mut rest = name.as_bytes();
    while !rest.is_empty() {
        let (good, bad) = match std::str::from_utf8(rest) {
            Ok(all) => (all, 0),
            Err(e) => {
                let good = std::str::from_utf8(&rest[..e.valid_up_to()]).unwrap_or_default();
                (good, e.error_len().unwrap_or(rest.len() - e.valid_up_to()))
            }
        };
        for c in good.chars() {
            match c {
                _ if unseen(c) => out.extend(c.escape_unicode()),
                _ => out.push(c),
            }
        }
        for byte in &rest[good.len()..good.len() + bad] {
            out.push_str(&format!("\\x{byte:02x}"));
        }
        rest = &rest[good.len() + bad..];
    }
    out
}

#[cfg(test)]
mod tests {
    use super::*;

    #[test]
    fn figures() {
        assert_eq!(figure("14097700"), Ok(14_097_700.0));
        assert_eq!(figure("14,097,700.125"), Ok(14_097_700.125));
        assert_eq!(figure("-50"), Ok(-50.0));
        assert_eq!(figure("0"), Ok(0.0));
        for wrong in ["", "-", ".5", "5.", "1e6", "nan", "inf", "14097,7", "1,0000", ",100", "14.097.700", "7k", "0x7"]
        {
            assert!(figure(wrong).is_err(), "{wrong}");
        }
    }

    #[test]
    fn names() {
        assert_eq!(shown(OsStr::new("a b.bin")), "a b.bin");
        assert_eq!(shown(OsStr::new("a\x1b[2J\n")), "a\\u{1b}[2J\\u{a}");
        assert_eq!(shown(OsStr::new("\u{202e}nib")), "\\u{202e}nib");
        assert_eq!(shown(OsStr::from_bytes(b"a\xffb\xc3")), "a\\xffb\\xc3");
        assert_eq!(shown(OsStr::new("Ostafjörður")), "Ostafjörður");
    }
}

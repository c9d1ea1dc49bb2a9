//! A file cut into rows, fields and numbers, by the rules of `shelf`.

use std::fmt::Display;

/// One row of a file.
#[derive(Clone, Copy)]
pub struct Row<'a> {
    /// What the file holds, for messages.
    pub file: &'static str,
    /// The row's number, from 1.
    pub number: usize,
    /// The bytes before the row's CR LF.
    pub text: &'a [u8],
    /// Whether the row has its CR LF.
    pub ended: bool,
}

/// The message about a row.
pub fn fault(file: &str, row: usize, what: impl Display) -> String {
    format!("{file}, row {row}: {what}")
}

/// Cuts a file at each CR LF. Bytes after the last one are a row without its end.
pub fn cut<'a>(file: &'static str, bytes: &'a [u8]) -> Vec<Row<'a>> {
    let mut rows = Vec::new();
    let mut rest = bytes;
    while !rest.is_empty() {
        let end = rest.windows(2).position(|pair| pair == b"\r\n");
        let text = &rest[..end.unwrap_or(rest.len())];
        rows.push(Row { file, number: rows.len() + 1, text, ended: end.is_some() });
        rest = end.map_or(&[], |end| &rest[end + 2..]);
    }
    rows
}

impl<'a> Row<'a> {
    /// The message about this row.
    pub fn fault(&self, what: impl Display) -> String {
        fault(self.file, self.number, what)
    }

    /// The row's fields, if there are just as many.
    pub fn fields<const N: usize>(&self) -> Result<[&'a [u8]; N], String> {
        let fields: Vec<&[u8]> = self.text.split(|&byte| byte == b',').collect();
        let found = fields.len();
        fields.try_into().map_err(|_| self.fault(format!("needs {N} fields, has {found}")))
    }

    /// The number in a field: 1 to 10 digits, at most 4,294,967,295.
    pub fn number_in(&self, name: &str, field: &[u8]) -> Result<u64, String> {
        let digits = str::from_utf8(field).ok().filter(|text| text.bytes().all(|byte| byte.is_ascii_digit()));
        let number = digits.filter(|text| text.len() <= 10).and_then(|text| text.parse::<u32>().ok());
        number.map(u64::from).ok_or_else(|| {
            self.fault(format!("{name} is no number: '{}'", String::from_utf8_lossy(field).escape_debug()))
        })
    }

    /// Fields with nothing to say.
    pub fn empty(&self, fields: &[&[u8]]) -> Result<(), String> {
        match fields.iter().all(|field| field.is_empty()) {
            true => Ok(()),
            false => Err(self.fault("a field that should be empty is not")),
        }
    }
}

#[cfg(test)]
mod tests {
    use super::*;

    fn row(text: &str) -> Row<'_> {
        Row { file: "test", number: 3, text: text.as_bytes(), ended: true }
    }

    #[test]
    fn a_file_is_cut_at_each_cr_lf() {
        let texts =
            |bytes| cut("test", bytes).iter().map(|row| (row.text.to_vec(), row.ended)).collect::<Vec<_>>();
        assert_eq!(texts(b""), []);
        assert_eq!(
            texts(b"a\r\n\r\nb"),
            [(b"a".to_vec(), true), (b"".to_vec(), true), (b"b".to_vec(), false)]
        );
        assert_eq!(texts(b"a\nb\r\r\n"), [(b"a\nb\r".to_vec(), true)]);
        assert_eq!(cut("test", b"a\r\nb\r\n")[1].number, 2);
    }

    #[test]
    fn fields_are_counted() {
        assert_eq!(row("a,,b").fields::<3>().unwrap(), [&b"a"[..], b"", b"b"]);
        assert_eq!(row("a,b").fields::<3>().unwrap_err(), "test, row 3: needs 3 fields, has 2");
    }

    #[test]
    fn numbers_have_ten_digits_and_fit_a_word() {
        let number = |text: &str| row("").number_in("start", text.as_bytes());
        assert_eq!(number("0"), Ok(0));
        assert_eq!(number("0000000007"), Ok(7));
        assert_eq!(number("4294967295"), Ok(4_294_967_295));
        for none in ["", "4294967296", "00000000007", "+1", "-1", " 1", "1x", "\u{664}"] {
            assert_eq!(number(none), Err(format!("test, row 3: start is no number: '{none}'")));
        }
    }
}

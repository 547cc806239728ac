//! The picture of a page: a cell for each of its characters.

use super::COLUMNS;
use std::fmt;

const CELL_WIDTH: usize = 16;
const CELL_HEIGHT: usize = 28;

const BEGIN: &str = r##"<svg xmlns="http://www.w3.org/2000/svg" width="416" height="340" viewBox="0 0 416 340">
<defs><pattern id="cell" x="16" y="16" width="16" height="28" patternUnits="userSpaceOnUse"><rect width="15" height="26" rx="2" fill="#1c1a17"/></pattern></defs>
<rect width="416" height="340" rx="8" fill="#0b0a09"/>
<rect x="16" y="16" width="384" height="308" fill="url(#cell)"/>
<g fill="#ffb000" font-family="monospace" font-size="20" text-anchor="middle">
"##;

const END: &str = "</g>\n</svg>\n";

/// A page as a picture.
pub struct Picture<'a>(pub &'a [u8]);

impl fmt::Display for Picture<'_> {
    fn fmt(&self, f: &mut fmt::Formatter<'_>) -> fmt::Result {
        f.write_str(BEGIN)?;
        for (row, number) in self.0.chunks(COLUMNS).zip(1..) {
            for (&byte, column) in row.iter().zip(1..) {
                write_character(f, byte, number, column)?;
            }
        }
        f.write_str(END)
    }
}

/// Writes the character that stands here, unless it is a blank.
fn write_character(f: &mut fmt::Formatter<'_>, byte: u8, row: usize, column: usize) -> fmt::Result {
    let (x, y) = (CELL_WIDTH * column + 8, CELL_HEIGHT * row + 8);
    let text = match byte {
        b' ' => return Ok(()),
        b'&' => "&amp;".to_owned(),
        b'<' => "&lt;".to_owned(),
        b'>' => "&gt;".to_owned(),
        _ => char::from(byte).to_string(),
    };
    writeln!(f, r#"<text x="{x}" y="{y}">{text}</text>"#)
}

#[cfg(test)]
mod tests {
    use super::{Picture, BEGIN, END};
    use crate::board::page::{BYTES, COLUMNS};

    #[test]
    fn blanks_have_no_text() {
        assert_eq!(Picture(&[b' '; BYTES]).to_string(), format!("{BEGIN}{END}"));
    }

    #[test]
    fn where_characters_stand() {
        let mut page = [b' '; BYTES];
        page[0] = b'H';
        page[COLUMNS - 1] = b'&';
        page[COLUMNS] = b'<';
        page[COLUMNS + 1] = b'>';
        page[BYTES - 1] = b'"';
        let texts = "<text x=\"24\" y=\"36\">H</text>\n\
            <text x=\"392\" y=\"36\">&amp;</text>\n\
            <text x=\"24\" y=\"64\">&lt;</text>\n\
            <text x=\"40\" y=\"64\">&gt;</text>\n\
            <text x=\"392\" y=\"316\">\"</text>\n";
        assert_eq!(Picture(&page).to_string(), format!("{BEGIN}{texts}{END}"));
    }
}

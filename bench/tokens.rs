// What the yardsticks of programs and of set files share: letters, comments and places.

/// A line and a column, from 1; a column counts bytes.
pub type Place = (u32, u32);

pub fn is_letter(byte: u8) -> bool {
    byte.is_ascii_alphabetic() || byte == b'_'
}

pub fn run(bytes: &[u8], goes_on: impl Fn(u8) -> bool) -> usize {
    bytes.iter().take_while(|byte| goes_on(**byte)).count()
}

pub fn comment_len(rest: &[u8]) -> Result<usize, &'static str> {
    if rest[1] == b'/' {
        return Ok(run(rest, |byte| byte != b'\n'));
    }
    rest[2..].windows(2).position(|pair| pair == b"*/").map(|len| len + 4).ok_or("OpenComment")
}

pub fn place_behind(at: Place, bytes: &[u8]) -> Place {
    bytes.iter().fold(at, |(line, column), byte| if *byte == b'\n' { (line + 1, 1) } else { (line, column + 1) })
}

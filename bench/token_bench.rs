//! A plain tokenizer of LP files, to measure beside the proved one: it prints `tokens N` of standard input. The kinds, the
//! line of each token and the end of the list are those of `sp_lp_tokens`; numbers are read as floats.
use std::io::Read;

#[allow(dead_code)]
enum Kind {
    Name,
    Number(f64),
    Symbol(u8),
}

#[allow(dead_code)]
struct Token {
    kind: Kind,
    start: u32,
    end: u32,
    line: u32,
}

/// How many of the bytes from a place on are of a kind.
fn run(file: &[u8], from: usize, is: impl Fn(u8) -> bool) -> usize {
    file[from..].iter().take_while(|byte| is(**byte)).count()
}

fn is_name_byte(byte: u8) -> bool {
    byte.is_ascii_alphanumeric() || b"!\"#$%&'(),.;?@_`{}~".contains(&byte)
}

/// The place behind the number that begins here.
fn number_end(file: &[u8], start: usize) -> usize {
    let mut end = start + run(file, start, |byte| byte.is_ascii_digit());
    if file.get(end) == Some(&b'.') {
        end += 1;
        end += run(file, end, |byte| byte.is_ascii_digit());
    }
    if matches!(file.get(end), Some(b'e' | b'E')) {
        let digits = end + 1 + usize::from(matches!(file.get(end + 1), Some(b'+' | b'-')));
        let count = file.get(digits..).map_or(0, |_| run(file, digits, |byte| byte.is_ascii_digit()));
        if count > 0 {
            end = digits + count;
        }
    }
    end
}

/// The length of the symbol that begins here.
fn symbol_length(file: &[u8], start: usize) -> Option<usize> {
    let rest = &file[start..];
    let longer: [&[u8]; 7] = [b"<->", b"<=", b"=<", b"=>", b">=", b"->", b"::"];
    match longer.iter().find(|symbol| rest.starts_with(symbol)) {
        Some(symbol) => Some(symbol.len()),
        None => b"+-:<>=[]*^/".contains(&rest[0]).then_some(1),
    }
}

/// Whether the list of tokens ends with the name from `start` to `end`, the first one of its line.
fn ends_list(file: &[u8], start: usize, end: usize) -> bool {
    file[start..end].eq_ignore_ascii_case(b"end")
        && file.get(end + run(file, end, |byte| b" \t\r".contains(&byte))) != Some(&b':')
}

fn tokens(file: &[u8]) -> Option<Vec<Token>> {
    let (mut tokens, mut place, mut line, mut before) = (Vec::new(), 0, 1, 0);
    while let Some(byte) = file.get(place).copied() {
        let start = place;
        let kind = match byte {
            b' ' | b'\t' | b'\r' | b'\n' => {
                line += u32::from(byte == b'\n');
                place += 1;
                continue;
            }
            b'\\' => {
                place += run(file, place, |byte| byte != b'\n');
                continue;
            }
            b'0'..=b'9' | b'.' => {
                place = number_end(file, start);
                Kind::Number(std::str::from_utf8(&file[start..place]).ok()?.parse().ok()?)
            }
            _ if is_name_byte(byte) => {
                place += run(file, start, is_name_byte);
                Kind::Name
            }
            _ => {
                place += symbol_length(file, start)?;
                Kind::Symbol(byte)
            }
        };
        let is_last = matches!(kind, Kind::Name) && before < line && ends_list(file, start, place);
        tokens.push(Token { kind, start: start as u32, end: place as u32, line });
        if is_last {
            break;
        }
        before = line;
    }
    Some(tokens)
}

fn main() {
    let mut file = Vec::new();
    if std::io::stdin().lock().take((1 << 26) + 1).read_to_end(&mut file).is_err() || file.len() > 1 << 26 {
        eprintln!("no file of at most 2^26 bytes");
        return;
    }
    match tokens(&file) {
        Some(tokens) => println!("tokens {}", std::hint::black_box(tokens).len()),
        None => println!("fault"),
    }
}

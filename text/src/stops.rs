//! Stop names and CD-TEXT packs in a readable form: names stand one a line,
//! packs as hex, one a line. Names and packs go to a request for the program
//! that answers `cdtext_requests`, and its answers come back as text.

use second::cdtext::{MOST_CHARACTERS, MOST_PACKS, MOST_RUN, PACK};
use second::cdtext_requests::{Operation, Request, ANSWER_HEAD, MOST_PAYLOAD};
use second::hex;
use second::units::MOST_TRACKS;

/// Room for all packs, and for the titles of all packs.
const PACKS_LENT: usize = MOST_PACKS * PACK;
const NAMES_LENT: usize = MOST_RUN;

/// Why an answer gives no text.
#[derive(Clone, PartialEq, Eq, Debug)]
pub enum Fault {
    /// The answer is a refusal with this number.
    Refused(u8),
    /// The bytes are no answer; says why.
    NoAnswer(String),
}

// ---- requests ----

/// A request for packs from a list of names. A zero byte in a line is a fault,
/// since in the request it would end the name; other bytes are passed as they
/// are.
pub fn packs_request(list: &[u8]) -> Result<Vec<u8>, String> {
    let mut run = Vec::with_capacity(list.len() + 1);
    for (number, line) in (1u64..).zip(lines_of(list)) {
        if let Some(at) = line.iter().position(|&byte| byte == 0) {
            return Err(format!("line {number}: {}", character_fault(line, at)));
        }
        run.extend(line);
        run.push(0);
    }
    let length = run.len();
    request(Operation::MakePacks, PACKS_LENT, run).ok_or(format!(
        "the names take {length} bytes with their ends; a request holds {MOST_PAYLOAD} at most"
    ))
}

/// The lines of a list. One may end in CR and LF, the last one without.
fn lines_of(list: &[u8]) -> impl Iterator<Item = &[u8]> {
    let lines = list.split_inclusive(|&byte| byte == b'\n');
    lines.map(|line| {
        let line = line.strip_suffix(b"\n").unwrap_or(line);
        line.strip_suffix(b"\r").unwrap_or(line)
    })
}

/// A request for names from packs in hex. Blank lines are left out; an error
/// names its line.
pub fn names_request(text: &str) -> Result<Vec<u8>, String> {
    let mut packs = Vec::new();
    for (number, line) in (1u64..).zip(text.lines()) {
        for word in line.split_whitespace() {
            let fault = || format!("line {number}: `{word}` is no byte of two hex digits");
            packs.push(hex::byte(word).ok_or_else(fault)?);
        }
    }
    let length = packs.len();
    request(Operation::ReadPacks, NAMES_LENT, packs).ok_or(format!(
        "the packs take {length} bytes; a request holds {MOST_PAYLOAD} at most"
    ))
}

fn request(operation: Operation, lent: usize, payload: Vec<u8>) -> Option<Vec<u8>> {
    Request::new(operation, lent, payload).map(|request| request.bytes())
}

// ---- answers ----

/// The packs of an answer in hex, one a line.
pub fn pack_lines(answer: &[u8]) -> Result<Vec<u8>, Fault> {
    let packs = answer_bytes(answer, PACKS_LENT, PACK)?;
    let mut lines = Vec::with_capacity(3 * packs.len());
    for pack in packs.chunks(PACK) {
        hex::push(&mut lines, pack);
        lines.push(b'\n');
    }
    Ok(lines)
}

/// The names of an answer, one a line.
pub fn name_lines(answer: &[u8]) -> Result<Vec<u8>, Fault> {
    let run = answer_bytes(answer, NAMES_LENT, 1)?;
    let ends = |&byte: &u8| if byte == 0 { b'\n' } else { byte };
    Ok(run.iter().map(ends).collect())
}

/// What an answer put into its lent buffer: a number of units of some bytes.
fn answer_bytes(answer: &[u8], lent: usize, unit: usize) -> Result<&[u8], Fault> {
    let fault = |what: &str| Fault::NoAnswer(format!("no answer to the request: {what}"));
    let Some((&[status, high, low], buffer)) = answer.split_first_chunk::<ANSWER_HEAD>() else {
        return Err(fault("the input is empty or cut short"));
    };
    if buffer.len() != lent {
        let (had, wanted) = (answer.len(), ANSWER_HEAD + lent);
        return Err(fault(&format!("it has {had} bytes and not {wanted}")));
    }
    if status != 0 {
        return Err(Fault::Refused(status));
    }
    let number = usize::from(u16::from_be_bytes([high, low]));
    let bytes = buffer.get(..number * unit);
    bytes.ok_or_else(|| fault("it claims more than its buffer holds"))
}

/// What a refusal means for names and packs.
pub fn meaning(refusal: u8) -> &'static str {
    match refusal {
        11 => "the buffer lent for the answer is too short",
        17 => "there must be 1 to 99 names, each of 1 to 160 characters from 20h to 7Eh",
        18 => "these bytes are not the packs of any names",
        19 => "the names need more than 255 packs",
        _ => "a number that isn't given for names or packs",
    }
}

/// Why a list of names is refused with 17: its first line that is no name, or
/// how many there are.
pub fn why_refused(list: &[u8]) -> Option<String> {
    let faults = (1u64..).zip(lines_of(list).map(name_fault));
    let mut told = faults.filter_map(|(number, fault)| Some(format!("line {number}: {}", fault?)));
    told.next().or_else(|| match lines_of(list).count() {
        0 => Some(format!("no names; a list has 1 to {MOST_TRACKS}")),
        1..=MOST_TRACKS => None,
        count => Some(format!("{count} names; a list has 1 to {MOST_TRACKS}")),
    })
}

fn name_fault(line: &[u8]) -> Option<String> {
    if line.is_empty() {
        return Some("empty; a name has at least one character".to_string());
    }
    if let Some(at) = line.iter().position(|byte| !(0x20..=0x7E).contains(byte)) {
        return Some(character_fault(line, at));
    }
    let length = line.len();
    (length > MOST_CHARACTERS)
        .then(|| format!("{length} characters; a name has {MOST_CHARACTERS} at most"))
}

/// Says which byte of a line is no character of a name.
fn character_fault(line: &[u8], at: usize) -> String {
    let (number, byte) = (at + 1, line[at]);
    format!("character {number} is {byte:02X}h; a name has characters from 20h to 7Eh only")
}

#[cfg(test)]
mod tests {
    use super::*;
    use second::cdtext_requests::requests_in;

    fn answer(request: &[u8]) -> Vec<u8> {
        let requests = requests_in(request).unwrap();
        assert_eq!(requests.len(), 1);
        requests[0].answer()
    }

    fn packs(list: &[u8]) -> Result<String, Fault> {
        let lines = pack_lines(&answer(&packs_request(list).unwrap()))?;
        Ok(String::from_utf8(lines).unwrap())
    }

    fn names(hex: &str) -> Result<Vec<u8>, Fault> {
        name_lines(&answer(&names_request(hex).unwrap()))
    }

    const ONE: &str = "80 01 00 00 41 00 00 00 00 00 00 00 00 00 00 00 87 47\n\
                        8F 00 01 00 01 01 01 00 01 00 00 00 00 00 00 00 06 5F\n\
                        8F 01 02 00 00 00 00 00 00 00 00 03 03 00 00 00 A3 A4\n\
                        8F 02 03 00 00 00 00 00 09 00 00 00 00 00 00 00 17 E7\n";

    #[test]
    fn one_name() {
        for list in [&b"A\n"[..], b"A", b"A\r\n", b"A\r"] {
            assert_eq!(packs(list).unwrap(), ONE);
        }
        assert_eq!(names(ONE).unwrap(), b"A\n");
        let loose = ONE.to_lowercase().replace('\n', "\r\n\n  \n");
        assert_eq!(names(&loose).unwrap(), b"A\n");
    }

    #[test]
    fn requests_have_room_for_all() {
        let request = packs_request(b"A\nB\n").unwrap();
        assert_eq!(request, [1, 0x11, 0xEE, 0, 4, b'A', 0, b'B', 0]);
        assert_eq!(
            names_request("8f 00\n").unwrap()[..5],
            [2, 0x0B, 0xD0, 0, 2]
        );
        let list = [vec![b'A'; 160], vec![b'\n']].concat().repeat(18);
        let list = [list, vec![b'B'; 125], vec![b'\n']].concat();
        let hex = packs(&list).unwrap();
        assert_eq!(hex.lines().count(), 255);
        assert_eq!(names(&hex).unwrap(), list);
    }

    #[test]
    fn refusals() {
        assert_eq!(packs(b""), Err(Fault::Refused(17)));
        assert_eq!(packs(b"A\n\nB\n"), Err(Fault::Refused(17)));
        assert_eq!(packs("Mühle\n".as_bytes()), Err(Fault::Refused(17)));
        let long = [vec![b'A'; 100], vec![b'\n']].concat().repeat(50);
        assert_eq!(packs(&long), Err(Fault::Refused(19)));
        assert_eq!(names(""), Err(Fault::Refused(18)));
        assert_eq!(names(&ONE.replace("41", "42")), Err(Fault::Refused(18)));
        for refusal in [11, 17, 18, 19] {
            assert_ne!(meaning(refusal), meaning(0));
        }
    }

    #[test]
    fn reasons_of_17() {
        let long = |length: usize| [b"A\nB\nC\nD\n", &vec![b'~'; length][..], b"\nE\n"].concat();
        let many = |count: usize| b"A\n".repeat(count);
        let character = "a name has characters from 20h to 7Eh only";
        for (list, reason) in [
            (vec![], "no names; a list has 1 to 99".to_string()),
            (many(100), "100 names; a list has 1 to 99".to_string()),
            (many(300), "300 names; a list has 1 to 99".to_string()),
            (
                b"A\n\nB\n".to_vec(),
                "line 2: empty; a name has at least one character".to_string(),
            ),
            (
                b"\r\n".to_vec(),
                "line 1: empty; a name has at least one character".to_string(),
            ),
            (
                "A\r\nB\r\nMol\u{e9}\r\n".into(),
                format!("line 3: character 4 is C3h; {character}"),
            ),
            (
                b"Mill\tLane".to_vec(),
                format!("line 1: character 5 is 09h; {character}"),
            ),
            (
                b"A\nB\x7F\n".to_vec(),
                format!("line 2: character 2 is 7Fh; {character}"),
            ),
            (
                b"A\r\r\n".to_vec(),
                format!("line 1: character 2 is 0Dh; {character}"),
            ),
            (
                long(161),
                "line 5: 161 characters; a name has 160 at most".to_string(),
            ),
        ] {
            assert_eq!(packs(&list), Err(Fault::Refused(17)));
            assert_eq!(why_refused(&list), Some(reason));
        }
        for list in [long(160), many(99), b" ~".to_vec()] {
            assert!(packs(&list).is_ok());
            assert_eq!(why_refused(&list), None);
        }
    }

    /// The reason is found just where the list is refused with 17.
    #[test]
    fn reasons_for_each_byte() {
        for byte in 1..=255 {
            let list = [b'A', byte, b'B', b'\n', b'C', byte];
            let refused = packs(&list) == Err(Fault::Refused(17));
            assert_eq!(why_refused(&list).is_some(), refused, "{byte:02X}h");
        }
    }

    #[test]
    fn a_zero_byte_is_no_end_of_a_name() {
        let error = |list: &[u8]| packs_request(list).unwrap_err();
        let told = |line: u64, at: u64| {
            format!(
                "line {line}: character {at} is 00h; a name has characters from 20h to 7Eh only"
            )
        };
        assert_eq!(error(b"A\nMill\0Farm\nB\n"), told(2, 5));
        assert_eq!(error(b"\0"), told(1, 1));
        assert_eq!(error(b"A\nB\0\r\n"), told(2, 2));
    }

    #[test]
    fn faults() {
        let error = names_request("80 01\n\n80 0x\n").unwrap_err();
        assert_eq!(error, "line 3: `0x` is no byte of two hex digits");
        assert!(packs_request(&vec![b'A'; MOST_PAYLOAD - 1]).is_ok());
        let error = packs_request(&vec![b'A'; MOST_PAYLOAD]).unwrap_err();
        assert!(error.contains("32769 bytes"), "{error}");
        assert!(names_request(&"00 ".repeat(MOST_PAYLOAD + 1)).is_err());
        for length in [0, 1, 3, 100, 3 + PACKS_LENT + 1] {
            assert!(matches!(
                pack_lines(&vec![0; length]),
                Err(Fault::NoAnswer(_))
            ));
            assert!(matches!(
                name_lines(&vec![0; length]),
                Err(Fault::NoAnswer(_))
            ));
        }
        let mut claims = vec![0; 3 + PACKS_LENT];
        claims[1] = 1;
        assert!(matches!(pack_lines(&claims), Err(Fault::NoAnswer(_))));
    }
}

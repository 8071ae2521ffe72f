//! The desk's program: from a job's bytes to the bytes printed, with answer 14.

use crate::answers::{answer, Answer, Case};

/// Bytes of the program's job buffer and of its output buffer.
pub const BUFFER: usize = 65_536;

/// The header's commands in their order.
pub const HEADER: [u8; 3] = [0x10, 0x11, 0x12];

/// What the program prints for a job.
pub fn printed(job: &[u8]) -> Vec<u8> {
    layout(job).unwrap_or_else(refusal_line)
}

/// The layout of a job in the program's output buffer, or the refusal.
pub fn layout(job: &[u8]) -> Result<Vec<u8>, Answer> {
    let answered = answer(&read(job)?);
    match answered.laid_out {
        Answer { number: 0, second } => Ok(answered.space[..second as usize].to_vec()),
        refusal => Err(refusal),
    }
}

/// The call that a job asks for, lent the program's output buffer, or answer 14.
pub fn read(job: &[u8]) -> Result<Case, Answer> {
    call(job).map(|case| Case { space: vec![0; BUFFER], ..case })
}

/// The call that a job asks for, lent no space, or answer 14.
pub fn call(job: &[u8]) -> Result<Case, Answer> {
    if job.len() > BUFFER {
        return Err(Answer { number: 14, second: BUFFER as u64 });
    }
    let (width, rest) = byte_operand(job, HEADER[0]).ok_or(Answer { number: 14, second: 0 })?;
    let (case, rest) = byte_operand(rest, HEADER[1]).ok_or(Answer { number: 14, second: 2 })?;
    let (text, tape) = text_operand(rest).ok_or(Answer { number: 14, second: 4 })?;
    Ok(Case {
        text: text.to_vec(),
        tape: tape.to_vec(),
        width: u64::from(width),
        case: u64::from(case),
        space: Vec::new(),
    })
}

/// The job that asks for a call; settings above one byte are cut to their low byte.
pub fn write(case: &Case) -> Vec<u8> {
    let mut job = vec![HEADER[0], case.width as u8, HEADER[1], case.case as u8, HEADER[2]];
    job.extend((case.text.len() as u32).to_le_bytes());
    job.extend(&case.text);
    job.extend(&case.tape);
    job
}

fn byte_operand(bytes: &[u8], command: u8) -> Option<(u8, &[u8])> {
    match bytes {
        [first, operand, rest @ ..] if *first == command => Some((*operand, rest)),
        _ => None,
    }
}

/// The text and what follows it; none if the command is missing or wrong, or the length or the text is cut short.
fn text_operand(bytes: &[u8]) -> Option<(&[u8], &[u8])> {
    let [command, a, b, c, d, rest @ ..] = bytes else { return None };
    let length = u32::from_le_bytes([*a, *b, *c, *d]) as usize;
    if *command != HEADER[2] || length > rest.len() {
        return None;
    }
    Some(rest.split_at(length))
}

/// The line that a program prints for a refusal.
pub fn refusal_line(refusal: Answer) -> Vec<u8> {
    format!("refused {} at {}\n", refusal.number, refusal.second).into_bytes()
}

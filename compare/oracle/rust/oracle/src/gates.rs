//! The mode `gates`: gate cases in, the Rust's values out. main.rs has the format.
use crate::input::read_or_end;
use crate::listing::{self, LAST_CLASS};
use crate::values::{self, TEXT};
use std::io::{Read, Write};
use wirescript_ir::semantics::{CertifiedTable, Value};

const OPERAND: usize = 33;
const CASE: usize = 1 + 3 * OPERAND;

pub fn run(input: &mut impl Read, output: &mut impl Write) -> Result<(), String> {
    let mut case = [0; CASE];
    for number in 0u64.. {
        if !read_or_end(input, &mut case).map_err(|cut| format!("case {number} is {cut}"))? {
            break;
        }
        let answer = answer(&case).map_err(|fault| format!("case {number}: {fault}"))?;
        output
            .write_all(&answer)
            .map_err(|e| format!("writing fails: {e}"))?;
    }
    Ok(())
}

fn answer(case: &[u8; CASE]) -> Result<[u8; OPERAND], String> {
    let class = case[0];
    if !(6..=LAST_CLASS).contains(&class) {
        return Err(format!("class {class} is none of 6 to {LAST_CLASS}"));
    }
    let mut operands = Vec::new();
    for (i, bytes) in case[1..].chunks(OPERAND).enumerate() {
        operands.push(operand(bytes).map_err(|fault| format!("operand {i}: {fault}"))?);
        if bytes[0] == TEXT && listing::is_order(class) {
            return Err(format!("operand {i}: class {class} takes no text"));
        }
    }
    let count = listing::input_count(class);
    if let Some(i) = operands[count..].iter().position(Option::is_some) {
        return Err(format!(
            "operand {}: class {class} has no such input",
            count + i
        ));
    }
    let value =
        CertifiedTable::eval_in_fold(listing::CLASSES[usize::from(class)], &operands[..count]);
    Ok(written(value.as_ref()))
}

fn operand(bytes: &[u8]) -> Result<Option<Value>, String> {
    let (variant, words) = (bytes[0], &bytes[1..]);
    if variant > TEXT {
        return Err(format!("variant {variant} is none of 0 to {TEXT}"));
    }
    let used = if variant == 0 {
        0
    } else {
        values::length(variant)
    };
    if words[used..].iter().any(|&b| b != 0) {
        return Err(format!(
            "a byte past the {used} of variant {variant} is not 0"
        ));
    }
    if variant == 3 && words[0] > 1 {
        return Err(format!("{} is no Bool", words[0]));
    }
    if variant == TEXT && !values::is_text(words) {
        return Err("the length or a byte is not one of a text".to_string());
    }
    Ok((variant > 0).then(|| values::read(variant, words)))
}

fn written(value: Option<&Value>) -> [u8; OPERAND] {
    let mut bytes = Vec::with_capacity(OPERAND);
    if let Some(value) = value {
        bytes.push(values::variant(value));
        values::write(value, &mut bytes);
    }
    bytes.resize(OPERAND, 0);
    bytes.try_into().expect("resized to its length")
}

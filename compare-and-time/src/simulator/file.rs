//! The trace file (rules F1 to F5, O5) and the report (T1, T2).

use super::{first, first_bad_page, refusal, trace, Refusal, CAPACITIES, REFERENCES};

#[derive(Clone, PartialEq, Eq, Debug, Default)]
pub struct File {
    pub capacities: Vec<u16>,
    pub references: Vec<u16>,
}

/// A 16-bit number, low byte first, off the front of what is left.
fn number(left: &mut &[u8]) -> Option<u16> {
    if left.len() < 2 {
        return None;
    }
    let value = u16::from(left[0]) + 256 * u16::from(left[1]);
    *left = &left[2..];
    Some(value)
}

/// Reads on past a fault as far as the bytes allow, so that every refusal that applies is listed, in order O5.
fn parse(bytes: &[u8]) -> (File, Vec<Refusal>) {
    let (mut file, mut faults, mut left) = (File::default(), Vec::new(), bytes);
    for (limit, over) in [(CAPACITIES, 9), (REFERENCES, 2)] {
        let Some(count) = number(&mut left) else {
            faults.push(refusal(8));
            return (file, faults);
        };
        if usize::from(count) > limit {
            faults.push(refusal(over));
        }
        let mut values = Vec::new();
        for _ in 0..count {
            let Some(value) = number(&mut left) else {
                faults.push(refusal(8));
                return (file, faults);
            };
            values.push(value);
        }
        if over == 2 {
            file.references = values;
        } else {
            if bad_capacities(&values) {
                faults.push(refusal(9));
            }
            file.capacities = values;
        }
    }
    if !left.is_empty() {
        faults.push(refusal(10));
    }
    faults.extend(first_bad_page(&file.references));
    (file, faults)
}

/// Rule R9.
fn bad_capacities(values: &[u16]) -> bool {
    let outside = values.iter().any(|&c| c < 1 || usize::from(c) > CAPACITIES);
    outside || values.windows(2).any(|pair| pair[0] >= pair[1])
}

pub fn faults(bytes: &[u8]) -> Vec<Refusal> {
    parse(bytes).1
}

pub fn read(bytes: &[u8]) -> Result<File, Refusal> {
    let (file, faults) = parse(bytes);
    first(&faults)?;
    Ok(file)
}

pub fn report(bytes: &[u8]) -> String {
    let file = match read(bytes) {
        Ok(file) => file,
        Err(refused) => return format!("refused {}\n", refused.number),
    };
    let mut tables = [[0; CAPACITIES]; 3];
    for (policy, table) in tables.iter_mut().enumerate() {
        trace::count(&file.references, policy as u32, CAPACITIES, table).unwrap();
    }
    let mut text = String::from("capacity lru lfu opt\n");
    for &c in &file.capacities {
        let at = usize::from(c) - 1;
        text += &format!("{} {} {} {}\n", c, tables[0][at], tables[1][at], tables[2][at]);
    }
    text + &format!("references {}\n", file.references.len())
}

//! The proved library as a subject: each call is one of `musselrung`.

mod banks;
mod row;
mod session;

use crate::compare::{self, file, list, misuse, trace, Subject};
use crate::guarded::Guarded;
use crate::musselrung::{self, Answer, Banks, Refused, Row, Session, CAPACITIES, REFERENCES, REPORT};
use crate::simulator::file::File;
use crate::simulator::Refusal;
use crate::subject::{self, Counts, Files, Lists};

pub fn subjects() -> Vec<Subject> {
    let mut subjects = trace::subjects::<Proved>();
    subjects.extend(list::subjects::<Proved>());
    subjects.extend(compare::session::subjects::<Session>());
    subjects.extend(compare::row::subjects::<Row>());
    subjects.extend(compare::banks::subjects::<Banks>());
    subjects.extend(file::subjects::<Proved>());
    subjects.extend(misuse::subjects());
    subjects
}

pub struct Proved;

/// What a lent table has where the library has not written.
const UNTOUCHED: u16 = 0xa5a5;

fn refusal(refused: Refused) -> Refusal {
    Refusal { number: refused.number.try_into().expect("the number of a refusal"), place: refused.place as usize }
}

/// A number that was asked for.
#[inline]
fn found(answer: Answer) -> Result<usize, Refusal> {
    answer.map(|value| value as usize).map_err(refusal)
}

/// Nothing is told beside an accepted call; anything else would show as a refusal that no rule has.
#[inline]
fn done(answer: Answer) -> Result<(), Refusal> {
    match found(answer)? {
        0 => Ok(()),
        place => Err(Refusal { number: 0, place }),
    }
}

/// The slots examined, of a call that may squeeze; a refused one has examined none.
#[inline]
fn examined(answer: Answer) -> subject::Answer {
    match found(answer) {
        Ok(slots) => (Ok(()), slots),
        Err(refused) => (Err(refused), 0),
    }
}

impl Counts for Proved {
    #[inline]
    fn count(trace: &[u16], policy: u32, k: usize, table: &mut [u32]) -> Result<(), Refusal> {
        done(musselrung::count(trace, policy, k as u64, table))
    }
}

impl Lists for Proved {
    fn list(trace: &[u16], policy: u32, k: usize, t: usize) -> Result<(usize, Vec<u16>), Refusal> {
        let mut places = Guarded::new([UNTOUCHED; CAPACITIES]);
        let answer = musselrung::list(trace, policy, k as u64, t as u64, &mut places.it);
        assert!(places.whole(), "a list wrote beside its table");
        assert!(answer.is_ok() || places.it == [UNTOUCHED; CAPACITIES], "a refusal wrote a list");
        Ok((found(answer)?, places.it.to_vec()))
    }
}

impl Files for Proved {
    fn read(bytes: &[u8]) -> Result<File, Refusal> {
        let mut capacities = Guarded::new([UNTOUCHED; CAPACITIES]);
        let mut references = Guarded::new([UNTOUCHED; REFERENCES]);
        let mut counts = Guarded::new([7; 2]);
        let answer = musselrung::read(bytes, &mut capacities.it, &mut references.it, &mut counts.it);
        assert!(capacities.whole() && references.whole() && counts.whole(), "the reader wrote beside its tables");
        let (capacities, references, counts) = (capacities.it, references.it, counts.it);
        let [some, many] = if answer.is_ok() { counts.map(|count| count as usize) } else { [0; 2] };
        let unwritten = capacities[some..].iter().chain(&references[many..]).all(|&value| value == UNTOUCHED);
        assert!(unwritten, "the reader wrote past its values, or a refusal wrote");
        assert!(answer.is_ok() || counts == [7; 2], "a refusal wrote counts");
        done(answer)?;
        Ok(File { capacities: capacities[..some].to_vec(), references: references[..many].to_vec() })
    }

    fn report(bytes: &[u8]) -> Vec<u8> {
        let mut out = Guarded::new([0xa5; REPORT]);
        let length = musselrung::report(bytes, &mut out.it);
        assert!(out.whole() && out.it[length..].iter().all(|&byte| byte == 0xa5), "the report wrote past its end");
        out.it[..length].to_vec()
    }
}

//! Faults of a map call, each a change of what the oracle gives.

mod answers;
mod maps;
mod spaces;

pub use answers::ANSWERS;
pub use maps::{Known, MAPS, NONE};
pub use spaces::SPACES;

use oracle::answers::Answer;
use oracle::map::{needed, MapCase, Mapped};

pub enum Fault {
    /// Other numbers for the map of an accepted call; what becomes of them is right.
    Map(fn(&Known) -> Vec<u64>),
    /// Another answer, or other spaces afterwards.
    Given(fn(&MapCase, &mut Mapped)),
}

impl Fault {
    pub fn change(&self, asked: &MapCase, given: &mut Mapped) {
        match self {
            Fault::Given(change) => change(asked, given),
            Fault::Map(numbers) => {
                if let Some(known) = Known::of(&asked.call) {
                    *given = filled(asked, known.output(), &numbers(&known));
                }
            }
        }
    }
}

/// What a call gives that has this layout and this map to write.
fn filled(asked: &MapCase, output: &[u8], numbers: &[u64]) -> Mapped {
    let (mut space, mut map) = (asked.call.space.clone(), asked.map.clone());
    let answer = if space.len() < output.len() {
        answered(13, output.len())
    } else if map.len() < numbers.len() {
        answered(17, numbers.len())
    } else {
        space[..output.len()].copy_from_slice(output);
        map[..numbers.len()].copy_from_slice(numbers);
        answered(0, output.len())
    };
    Mapped { answer, space, map }
}

fn answered(number: u64, second: usize) -> Answer {
    Answer { number, second: second as u64 }
}

/// The numbers of an accepted call's map.
fn count(asked: &MapCase) -> usize {
    needed(&asked.call).expect("an accepted call")
}

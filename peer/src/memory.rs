//! The memory that a planning or timetable is lent, held to what must be in it afterwards.

use crate::dijkstra::Answer;
use crate::proved;
use crate::random::Random;
use crate::search::Search;

/// How many words are 0 after this answer, as document 01 has it, for a table with so many nodes, if
/// it follows the layout.
pub fn zeroed(answer: &Answer, nodes: Option<u64>) -> usize {
    nodes.filter(|_| answer.is_searched()).map_or(0, |nodes| 2 * nodes as usize)
}

/// What a call is handed. Table, words, route bytes and the two numbers each lie between guards,
/// which no call may change.
#[derive(Clone, PartialEq)]
pub struct Memory {
    search: Search,
    table: Vec<u8>,
    words: Vec<u32>,
    route: Vec<u8>,
    charge: [u32; 3],
    /// The number of steps or pairs.
    count: [usize; 3],
    /// What the call returned.
    returned: u8,
}

pub const GUARD_BYTES: usize = 32;
const GUARD_WORDS: usize = 16;
/// No call returns this.
pub const NOT_CALLED: u8 = 254;

impl Memory {
    pub fn new(
        search: Search,
        table: &[u8],
        words: usize,
        route_bytes: usize,
        random: &mut Random,
    ) -> Memory {
        let [low, high] = [(); 2].map(|()| random.bytes(GUARD_BYTES));
        Memory {
            search,
            table: [&low, table, &high].concat(),
            words: (0..words + 2 * GUARD_WORDS).map(|_| random.draw() as u32).collect(),
            route: random.bytes(route_bytes + 2 * GUARD_BYTES),
            charge: [(); 3].map(|()| random.draw() as u32),
            count: [(); 3].map(|()| random.draw() as usize),
            returned: NOT_CALLED,
        }
    }

    /// The same with every bit of what a call may write the other way round: nothing that it writes can
    /// look untouched in both.
    pub fn inverted(mut self) -> Memory {
        inside(&mut self.words, GUARD_WORDS).iter_mut().for_each(|word| *word = !*word);
        inside(&mut self.route, GUARD_BYTES).iter_mut().for_each(|byte| *byte = !*byte);
        self.charge[1] = !self.charge[1];
        self.count[1] = !self.count[1];
        self
    }

    /// After the proved call.
    pub fn called(mut self) -> Memory {
        self.returned = self.search.proved(
            inside(&mut self.table, GUARD_BYTES),
            inside(&mut self.words, GUARD_WORDS),
            inside(&mut self.route, GUARD_BYTES),
            &mut self.charge[1],
            &mut self.count[1],
        );
        self
    }

    /// After a call that gives this answer and leaves so many words 0.
    pub fn after(mut self, answer: &Answer, zeroed: usize) -> Memory {
        inside(&mut self.words, GUARD_WORDS)[..zeroed].fill(0);
        self.returned = match answer {
            Answer::Refused(number) => *number,
            Answer::NoRoute => proved::NO_ROUTE,
            Answer::Route { charge, steps } => {
                inside(&mut self.route, GUARD_BYTES)[..steps.len()].copy_from_slice(steps);
                self.charge[1] = *charge;
                self.count[1] = self.search.count(steps);
                proved::ROUTE
            }
        };
        self
    }

    /// Tells where another is not the same.
    pub fn unlike(&self, got: &Memory) -> String {
        let [_, counted] = self.search.names();
        let numbers = |Memory { returned, charge, count, .. }: &Memory| {
            format!("{returned}, charge {charge:?}, {counted} {count:?}")
        };
        let mut text = format!("must return {}\ngot         {}", numbers(self), numbers(got));
        text += &first_unlike("table byte", GUARD_BYTES, &self.table, &got.table);
        text += &first_unlike("word", GUARD_WORDS, &self.words, &got.words);
        text += &first_unlike("route byte", GUARD_BYTES, &self.route, &got.route);
        text + &format!(
            "\nroute bytes got {:?}",
            &got.route[GUARD_BYTES..got.route.len() - GUARD_BYTES]
        )
    }
}

/// What lies between the guards.
pub fn inside<T>(memory: &mut [T], guard: usize) -> &mut [T] {
    let end = memory.len() - guard;
    &mut memory[guard..end]
}

/// The first place that differs, counted from the first that is lent.
pub fn first_unlike<T: PartialEq + std::fmt::Debug>(
    what: &str,
    guard: usize,
    must: &[T],
    got: &[T],
) -> String {
    match must.iter().zip(got).position(|(must, got)| must != got) {
        Some(at) => {
            let place = at as isize - guard as isize;
            format!("\n{what} {place} must be {:?}, is {:?}", must[at], got[at])
        }
        None => String::new(),
    }
}

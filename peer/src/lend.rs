//! How much to lend: what the documents say, and what the proved call gives.

use crate::dijkstra::Answer;
use crate::proved;
use crate::random::Random;

#[derive(Clone, Copy, Debug, PartialEq, Eq)]
pub enum Needs {
    Refused(u8),
    Memory { words: usize, route_bytes: usize },
}

/// Of a table with so many nodes, if it follows the layout, that is answered so where memory is
/// without limit: "Tables refused by 1 to 8 get the same number here", and otherwise 2E and E - 1.
pub fn of(answer: &Answer, nodes: Option<u64>) -> Needs {
    if let Answer::Refused(number) = answer {
        return Needs::Refused(*number);
    }
    let nodes = nodes.expect("a table that is not refused follows the layout") as usize;
    Needs::Memory { words: 2 * nodes, route_bytes: nodes - 1 }
}

/// What the proved call gives; an error if it touched what it may not.
pub fn proved(table: &[u8], random: &mut Random) -> Result<Needs, String> {
    let before = [(); 3].map(|()| random.draw() as usize);
    let (mut words, mut route_bytes) = (before, before);
    let returned = proved::lend(table, &mut words[1], &mut route_bytes[1]);
    let around = [&words, &route_bytes].map(|numbers| [numbers[0], numbers[2]]);
    if around != [[before[0], before[2]]; 2] {
        return Err("lend: a number beside those lent was touched".to_string());
    }
    match returned {
        proved::OK => Ok(Needs::Memory { words: words[1], route_bytes: route_bytes[1] }),
        number if (words[1], route_bytes[1]) == (before[1], before[1]) => {
            Ok(Needs::Refused(number))
        }
        number => Err(format!("lend: refused by {number}, and the numbers lent were touched")),
    }
}

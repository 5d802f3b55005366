//! Two put-ins into one block, one after the other, in either order (02, viii).

use crate::call::Call;
use crate::judge::{self, Answer, Outcome, LONGEST};
use crate::record::{u16_at, LIMIT};

/// What a put-in asks for: a line, and the text of a variation.
pub type Asked = (u64, Vec<u8>);

/// The first put-in, and the second into what it made, its line adjusted for the new line; one call if that is refused.
pub fn in_order(block: &[u8], first: &Asked, second: &Asked) -> Vec<(Call, Outcome)> {
    let (call, outcome) = judged(block.to_vec(), first.0, &first.1);
    let then = match &outcome {
        Outcome::Made { result, answer } => {
            Some(judged(result.clone(), second.0.saturating_add((second.0 >= answer.second).into()), &second.1))
        }
        _ => None,
    };
    [Some((call, outcome)), then].into_iter().flatten().collect()
}

fn judged(block: Vec<u8>, line: u64, text: &[u8]) -> (Call, Outcome) {
    let outcome = judge::put_in(&block, line, text);
    (Call::PutIn { block, line, text: text.to_vec(), from_text: false }, outcome)
}

/// The answer of an order where each call is lent a buffer of this length: that of the second call, or the first's refusal.
fn answer_in(order: &[(Call, Outcome)], room: usize) -> Answer {
    let answers = order.iter().map(|(_, outcome)| outcome.answer_in(room));
    answers.reduce(|first, second| if first.number == 0 { second } else { first }).expect("an order has a call")
}

/// Holds both orders to 02's words, and answers the number of the first: with buffers of one length one meets a refusal where the other
/// does; else the blocks are the same, and so are the numbers of the new lines.
pub fn agree(block: &[u8], one: &Asked, other: &Asked) -> u64 {
    let (there, back) = (in_order(block, one, other), in_order(block, other, one));
    // 02 says it of version 1; of equals in version 2 the later stands first.
    if u16_at(block, 2) == Some(2) {
        return answer_in(&there, LONGEST).number;
    }
    let needed = there.iter().chain(&back).filter_map(|(_, outcome)| outcome.needed());
    for room in needed.flat_map(|needed| [needed - 1, needed]).chain([0, LIMIT, LONGEST]) {
        let (a, b) = (answer_in(&there, room), answer_in(&back, room));
        assert_eq!(a.number == 0, b.number == 0, "with {room} bytes one order meets a refusal: {a:?} {b:?}");
    }
    let made = |order: &[(Call, Outcome)]| match order {
        [(_, Outcome::Made { answer: first, .. }), (_, Outcome::Made { result, answer: second })] => {
            Some((result.clone(), first.second + u64::from(first.second >= second.second), second.second))
        }
        _ => None,
    };
    let turned = made(&back).map(|(block, other, one)| (block, one, other));
    assert!(made(&there) == turned, "the blocks or the new lines' numbers differ");
    answer_in(&there, LONGEST).number
}

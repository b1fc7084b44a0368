//! The named cases of the start-up message, examples/messages.txt: each a call with the number and the place that were worked out by hand.
//! examples/README.md has their form.

use crate::bim;
use crate::calls::{on_message_peer, MessageCase};
use crate::init;
use crate::vectors::{decimal, line_of, numbers, vectors_of};
use crate::words::{hex, unhex, words_of};
use std::sync::LazyLock;

/// A named call with its answer.
#[derive(Clone, Debug)]
pub struct Case {
    /// What the case shows.
    pub name: String,
    /// The call.
    pub call: MessageCase,
    /// Its number and place; of a message written, its bytes.
    pub answer: [u32; 3],
}

static ALL: LazyLock<Vec<Case>> = LazyLock::new(|| {
    let case = |block: &str| case_of(block).unwrap_or_else(|| panic!("not understood: {block}"));
    vectors_of(include_str!("../../examples/messages.txt")).map(case).collect()
});

/// All of them.
pub fn all() -> &'static [Case] {
    &ALL
}

/// The case that a block holds; none where it is no block of a start-up message.
pub fn case_of(block: &str) -> Option<Case> {
    let (asked, answer) = block.split_at(block.find("\nanswer ")? + 1);
    let line = |key: &str| line_of(asked, key);
    let words = |key: &str| numbers::<u32>(line(key)?);
    let call = match line("init") {
        Some(_) => {
            MessageCase::write(&words("init")?, &words("codecs")?, &unhex(line("given")?)?, line("room")?.parse().ok()?)
        }
        None => MessageCase::read(&unhex(line("message")?)?, line("words")?.parse().ok()?),
    };
    let mut answer = numbers(line_of(answer, "answer")?)?;
    answer.resize(3, 0);
    Some(Case { name: line("case")?.to_string(), call, answer: answer.try_into().ok()? })
}

/// The block's lines from the answer on, as the peer answers now.
pub fn answered(call: &MessageCase) -> String {
    let left = on_message_peer(call);
    let words = left.words();
    match call {
        MessageCase::Read { .. } if left.is_accepted() => {
            let codecs = words_of(&left.outputs[0]);
            let used = &codecs[..words[init::CODEC_WORDS] as usize];
            format!("answer 0 0\ninit {}\ncodecs {}\n", decimal(&words), decimal(used))
        }
        MessageCase::Write { .. } if left.is_accepted() => {
            let bytes = words[1];
            format!("answer {} 0 {bytes}\nmessage {}\n", bim::ACCEPTED, hex(&left.outputs[0][..bytes as usize]))
        }
        _ => format!("answer {} {}\n", left.number, words[0]),
    }
}

//! Makes one call on each of some square banks, to be counted by callgrind: instructions CALL SIDE BANKS SIZE BITS.

use bench::{seeds, Call, Input, Side};

/// What callgrind collects.
#[no_mangle]
#[inline(never)]
pub fn measured(inputs: &mut [Input], call: Call, side: Side) {
    for input in inputs {
        input.call(call, side);
    }
}

fn main() {
    let words: Vec<String> = std::env::args().skip(1).collect();
    let call = Call::named(&words[0]).expect("a call");
    let side = Side::named(&words[1]).expect("a side");
    let number = |index: usize| words[index].parse::<usize>().expect("a number");
    let (banks, size, bits) = (number(2), number(3), number(4) as u32);
    let mut inputs: Vec<Input> = seeds(banks)
        .map(|seed| Input::of_seed(seed, size, size, bits, call.vectors()))
        .collect();
    measured(&mut inputs, call, side);
}

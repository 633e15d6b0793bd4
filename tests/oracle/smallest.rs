//! Makes the input of a difference smaller as long as the difference stays the same.
use crate::asked::{Call, Function::Load};
use crate::sides::{Given, Pair};
use crate::tally::Tally;
use crate::{compare, loading};
use std::time::{Duration, Instant};

/// what is wrong with one call on one font
pub fn wrong(bytes: &[u8], call: &Call, given: Given) -> Option<String> {
    let mut tally = Tally::default();
    let mut ask = |pair: &Pair, tally: &mut Tally| match call.function {
        Load => Ok(()),
        _ => compare::call(pair, call, tally),
    };
    loading::given(given, bytes, &mut tally, &mut ask).err()
}

pub fn smallest(bytes: &[u8], call: &Call, given: Given, said: &str) -> (Vec<u8>, Call) {
    let (mut bytes, mut call) = (bytes.to_vec(), call.clone());
    let until = Instant::now() + Duration::from_secs(20);
    let still =
        |bytes: &[u8], call: &Call| Instant::now() < until && wrong(bytes, call, given).as_deref() == Some(said);
    loop {
        let old = (bytes.clone(), call.clone());
        shorten(&mut call, &mut |call| still(&bytes, call));
        for cut in [256, 64, 16, 4, 1] {
            while bytes.len() > cut && still(&bytes[..bytes.len() - cut], &call) {
                bytes.truncate(bytes.len() - cut);
            }
        }
        for i in 0..bytes.len() {
            let byte = bytes[i];
            for smaller in [0, byte / 2, byte.saturating_sub(1)] {
                bytes[i] = smaller;
                if smaller < byte && still(&bytes, &call) {
                    break;
                }
                bytes[i] = byte;
            }
        }
        if (bytes.clone(), call.clone()) == old || Instant::now() >= until {
            return (bytes, call);
        }
    }
}

fn shorten(call: &mut Call, still: &mut dyn FnMut(&Call) -> bool) {
    let mut at = 0;
    while at < call.text.len() {
        let mut shorter = call.clone();
        shorter.text.remove(at);
        while at < shorter.text.len() && shorter.text[at] & 0xC0 == 0x80 {
            shorter.text.remove(at);
        }
        if still(&shorter) {
            *call = shorter;
        } else {
            at += 1;
        }
    }
    if call.wrap.is_some() {
        let without = Call { wrap: None, ..call.clone() };
        if still(&without) {
            *call = without;
        }
    }
    for k in 0..call.numbers().len() {
        let mut step = *call.numbers()[k];
        while step > 0 {
            let mut smaller = call.clone();
            *smaller.numbers()[k] = smaller.numbers()[k].saturating_sub(step);
            if smaller != *call && still(&smaller) {
                *call = smaller;
            } else {
                step /= 2;
            }
        }
    }
}

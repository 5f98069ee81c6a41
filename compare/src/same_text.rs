//! A user changes the `use` line and nothing else: the same text with the source's types and with ours.

mod theirs {
    use softposit::{P32E2, Q32E2};
    include!("user_code.rs");
}

mod ours {
    use stallhitch::{P32E2, Q32E2};
    include!("user_code.rs");
}

/// Whether both give the same. Of the fused forms, two of which are wrong in the source, one sum is tried that it gets right.
pub fn agrees() -> bool {
    let minutes: Vec<u32> = (0..1000u32).map(|i| 0x4000_0000 + i * 0x1_2345).collect();
    let rates: Vec<u32> = (0..1000u32).map(|i| 0x3000_0000 + i * 0x4_5679).collect();
    let one = 0x4000_0000;
    let same = theirs::bill(&minutes, &rates) == ours::bill(&minutes, &rates)
        && theirs::fused(one, one, one)[0] == ours::fused(one, one, one)[0];
    println!("The same code with either crate's types: {}", if same { "the same results" } else { "OTHER RESULTS" });
    same
}

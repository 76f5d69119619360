//! Rolls up two states and prints the written one: the states of document 01's case B1.

mod filmoed;

use filmoed::{RollUp, BAD_ENDS};

fn main() -> Result<(), filmoed::Refused> {
    let state = *b"\x08\x70\x10\x02\x18\x02\x20\x08\x82\x07\x0c\x10\x02\x18\x0a\x20\x0f\x32\x04\x21\xe2\x80\x04";
    let mut roll_up = RollUp::new(65536, 16384);
    roll_up.add(&state)?;
    println!("1 0");
    for (i, answer) in roll_up.fold(&state, &[23]).into_iter().enumerate() {
        answer?;
        println!("{} 0", i + 2);
    }
    // An end past the states: none is added.
    assert_eq!(roll_up.fold(&state, &[23, 24]), [Err(BAD_ENDS); 2]);
    let mut out = [0; 65536];
    let written = roll_up.write(&mut out)?.to_vec();
    println!("{:?} {}", roll_up.precisions(), roll_up.num_values());
    println!("{}", written.iter().map(|b| format!("{b:02x}")).collect::<String>());
    Ok(())
}

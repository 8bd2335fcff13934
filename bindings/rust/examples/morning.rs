//! A designer's morning in Rust: build an XOR program, open it, break a gate, look, ask which lines make its row, mend it; give a
//! row a constant and make its gate an XNOR; store; build it for an input that comes late; read an equation file with a slip, mend
//! it, open it with its table; append a gate in another's place, point an output at it, sweep the other out.

use allpawasi::{build, build_late, distance, equations, Bench, Limits, Refusal};

fn main() -> Result<(), Refusal> {
    let rows = [3, 7, 6];
    let mut room = [0; 1341];
    let mut bench = Bench::new();
    println!("{:?}", bench.report());

    let count = build(3, &rows, 2, &mut room)?;
    println!("built {count} bytes");
    let with_constants = [3, 7, 6, 0, 0, 0]; // the masks, and a constant for each
    bench.open_matrix(&room[..count], &with_constants, Limits { gates: 3, depth: 2, and_depth: 0 })?;
    println!("{:?}", bench.report()?.verdict);

    println!("reworked {:?}", bench.replace_gate(0, 0, 0, 2)?);
    println!("{:?}", bench.report()?.verdict);
    println!("{:?}", bench.hint(0, 2)?); // row 0 is lines 0 and 1
    println!("{:?}", bench.hint(0, 0)?);
    println!("{:?}", bench.hint(3, 2));
    println!("{:?}", bench.replace_gate(0, 2, 0, 1));
    bench.replace_gate(0, 0, 0, 1)?;
    println!("{:?}", bench.report()?.verdict);
    bench.change_entry(2, 6, 1)?; // row 2 is to be the opposite
    println!("{:?}", bench.report()?.verdict);
    println!("reworked {:?}", bench.replace_gate(2, 1, 1, 2)?);
    println!("{:?}", bench.report()?.verdict);
    println!("stored {} bytes", bench.store(&mut room)?);
    println!("{:?}", distance(3, &rows, &[0, 0, 0], 5, 4)?);

    let arrivals = [2, 0, 0]; // the first input goes in last
    let count = build_late(3, &arrivals, &rows, &[3, 3, 1], &mut room)?;
    println!("built {count} bytes, last gate {} ^ {}, outputs {:?}", room[18], room[19], [room[22], room[25], room[28]]);
    println!("{:?}", build_late(3, &arrivals, &rows, &[3, 2, 1], &mut room)); // 4 + 1 + 1 is more than 2^2

    println!("{:?}", equations(b"half = x0 ^ x1\ny0 = hall ^ x2\n", &mut room));
    let text = b"half = x0 ^ x1\ny0 = half ^ x2\ny1 = x0 & x1 | half & x2\n";
    let count = equations(text, &mut room).map_err(|not_read| not_read.refusal)?;
    println!("read {count} bytes");
    let ones = [0, 1, 1, 2, 1, 2, 2, 3]; // how many of three inputs are 1
    bench.open_table(&room[..count], &ones, Limits { gates: 5, depth: 3, and_depth: 2 })?;
    println!("{:?}", bench.report()?.verdict);

    println!("reworked {:?}", bench.append_gate(0, 5, 6)?); // an XOR, which does as well as the OR on line 7
    println!("{:?}", bench.report()?.verdict);
    bench.point_output(1, 8)?;
    println!("reworked {:?}", bench.sweep()?);
    println!("{:?}", bench.report()?.verdict);
    Ok(())
}

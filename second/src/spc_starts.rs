// The starts of the program spc, each its arguments and a trace on standard input: right and refused arguments,
// traces at the limits of request 3, and drawn ones.

use crate::random::Random;
use crate::traces;

pub struct Start {
    pub arguments: Vec<Vec<u8>>,
    pub trace: Vec<u8>,
}

/// A trace in which the units 0, 7 and 4,294,967,295 read other pages, and no other unit reads.
const THREE: &str = "0,8,1,r,0.0\n7,16,513,r,0.1\n4294967295,24,512,R,0.2,\n7,32,4096,W,0.3,x\n00007,40,4097,R,0.4\n";

const UNITS: [&str; 8] = ["0", "00", "7", "007", "00000000000000000000000000000000000000000007", "4294967295", "000004294967295", "1"];

/// No unit each: signs, blanks, letters and other bytes, too large ones that wrap to 0 or 7.
const NO_UNITS: [&str; 26] = [
    "", " ", "+7", "-7", "-0", " 7", "7 ", "7\n", "7\r", "x", "7x", "x7", "0x7", "7.0", "7,0", "7e0", "0_7", "4294967296", "4294967303",
    "18446744073709551616", "18446744073709551623", "340282366920938463463374607431768211463", "9999999999999999999999999999999999999999",
    "\u{667}", "--", "--help",
];

/// The named starts, then so many drawn ones.
pub fn spc_starts(random: &mut Random, drawn: usize) -> Vec<Start> {
    let mut starts: Vec<Start> = UNITS.iter().chain(&NO_UNITS).map(|unit| start(&[unit.as_bytes()], THREE.as_bytes())).collect();
    let refused: [&[&[u8]]; 5] = [&[], &[b"7", b"7"], &[b"7", b""], &[b"0", b"x", b"7"], &[b"7\xff"]];
    starts.extend(refused.map(|arguments| start(arguments, THREE.as_bytes())));
    starts.push(start(&[b"x"], b""));
    starts.extend(limits(random).iter().map(|trace| start(&[b"0"], trace)));
    starts.extend((0..drawn).map(|_| drawn_start(random)));
    starts
}

fn start(arguments: &[&[u8]], trace: &[u8]) -> Start {
    Start { arguments: arguments.iter().map(|argument| argument.to_vec()).collect(), trace: trace.to_vec() }
}

/// For unit 0.
fn limits(random: &mut Random) -> Vec<Vec<u8>> {
    let (last, over) = (traces::of_reads(&[(34_359_738_367, 512)]), traces::of_reads(&[(8, 1), (34_359_738_367, 513)]));
    let thousand = [traces::of_reads(&[(0, 4_096_000)]), traces::of_reads(&[(8, 1); 1000])];
    let too_many = [traces::of_reads(&[(0, 4_096_001)]), traces::of_reads(&[(8, 1); 1001])];
    let lengths = [15_999, 16_000, 16_001].map(|length| traces::of_length(random, 0, length));
    let form = [&b"0,8,1,r,0.0\n0,8,1,w,0\n"[..], b"0,8,1,r,0.0\n0,8,1,r,0.0", b"\n"].map(<[u8]>::to_vec);
    [&[vec![], last, over][..], &thousand, &too_many, &lengths, &form, &[vec![b'\n'; 100_000]]].concat()
}

/// One start in eight has a refused argument.
fn drawn_start(random: &mut Random) -> Start {
    let unit = traces::any_unit(random);
    let trace = traces::any_trace(random, unit);
    let zeros = "0".repeat(random.pick(&[0, 0, 0, 1, 30]));
    let right = format!("{zeros}{unit}");
    let wrong = [random.pick(&NO_UNITS).to_string(), format!("+{right}"), format!("{right} "), ((1u64 << 32) + unit as u64).to_string()];
    let argument = if random.chance(88) { right } else { random.pick(&wrong) };
    start(&[argument.as_bytes()], &trace)
}

#[cfg(test)]
mod tests {
    use super::*;
    use crate::programs::{spc, unit_of};

    const LISTED: usize = 54;

    #[test]
    fn the_listed_starts() {
        let starts = spc_starts(&mut Random::new(1), 10);
        assert_eq!(starts.len(), LISTED + 10);
        let units: Vec<Option<u32>> = starts.iter().map(|start| unit_of(&start.arguments)).collect();
        assert_eq!(units[..8], [0, 0, 7, 7, 7, u32::MAX, u32::MAX, 1].map(Some));
        assert!(units[8..40].iter().all(Option::is_none) && units[40..LISTED].iter().all(|&unit| unit == Some(0)));
        let outputs: Vec<String> = starts[40..LISTED].iter().map(|start| String::from_utf8(spc(&start.trace, 0)).unwrap()).collect();
        assert_eq!(outputs[..3], ["", "page=4294967295\n", "refused=11\nline=2\n"]);
        assert!(outputs[3].ends_with("\npage=999\n") && outputs[3].lines().count() == 1000 && outputs[4] == "page=1\n".repeat(1000));
        assert_eq!(outputs[5..7], ["refused=5\nline=1\n", "refused=5\nline=1001\n"]);
        assert!(outputs[7].ends_with("\npage=2\n") && outputs[8].ends_with("\npage=2\n"));
        let refused = ["refused=7\nline=0\n", "refused=10\nline=2\n", "refused=10\nline=2\n", "refused=10\nline=1\n", "refused=7\nline=0\n"];
        assert_eq!(outputs[9..], refused);
        let three: Vec<Vec<u8>> = [0, 7, u32::MAX, 1].iter().map(|&unit| spc(THREE.as_bytes(), unit)).collect();
        assert_eq!(three, [&b"page=1\n"[..], b"page=2\npage=5\npage=6\n", b"page=3\n", b""]);
    }

    #[test]
    fn drawn_starts_are_of_all_kinds() {
        let (mut usages, mut page_lines, mut refused) = (0, 0, 0);
        for start in spc_starts(&mut Random::new(2), 350).split_off(LISTED) {
            match unit_of(&start.arguments).map(|unit| spc(&start.trace, unit)) {
                None => usages += 1,
                Some(output) => {
                    page_lines += output.starts_with(b"page=") as usize;
                    refused += output.starts_with(b"refused=") as usize;
                }
            }
        }
        println!("{usages} wrong uses, {page_lines} with pages, {refused} refused");
        assert!(usages > 20 && page_lines > 70 && refused > 100);
    }
}

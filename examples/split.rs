//! Splits 01's polynomial B at each left degree, asks there for the quick answer, and prints its chain.

#[path = "../rust/desk.rs"]
mod desk;

use desk::{desk_chain, desk_part, desk_quick, desk_split, TERMS, WORDS};

fn print(name: &str, f: &[u32]) {
    let n = f.iter().rposition(|&c| c != 0).unwrap_or(0);
    let words: Vec<String> = f[..=n].iter().map(u32::to_string).collect();
    println!("{name} {}", words.join(" "));
}

fn main() {
    let mut f = [0; TERMS];
    f[..7].copy_from_slice(&[96, 3, 9, 1, 6, 0, 1]);
    for r in 2..=3 {
        let (mut g, mut h) = ([0; TERMS], [0; TERMS]);
        let refused = unsafe { desk_split(101, &f, r, &mut g, &mut h) };
        println!("r = {r}: No. {}", refused.number);
        if refused.number == 0 {
            print("  g", &g);
            print("  h", &h);
        }
        assert!(refused.polynomial == 0 && refused.power == 0);
        let mut answer = [0; 2];
        let refused = unsafe { desk_quick(101, &f, r, &mut answer) };
        assert!(refused.number == 0);
        match answer {
            [1, 0] => println!("  quick: yes"),
            [_, power] => println!("  quick: no, at x^{power}"),
        }
    }
    let (mut area, mut numbers) = ([0; WORDS], [0; 3]);
    unsafe { desk_chain(101, &f, area.as_mut_ptr(), WORDS, &mut numbers) };
    println!("parts {}, tries {}, price {}", numbers[0], numbers[1], numbers[2]);
    for i in 0..numbers[0] {
        let mut place = [0; 2];
        unsafe { desk_part(area.as_ptr(), WORDS, i, &mut place) };
        print("  part", &area[place[0]..place[0] + place[1]]);
    }
}

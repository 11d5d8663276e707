//! Writes a page for crate `directory` that states, call by call, what the second program answers
//! on random inputs. The checker then computes the definitions and refuses the page if one differs.

mod calls;
mod growing;
mod inputs;
mod page;

use calls::{Tally, Trials};
use inputs::Input;
use page::Page;
use second::random::Random;
use std::process::ExitCode;

const USAGE: &str = "usage: crosscheck SEED LISTS";

/// Changed copies of each file that is built.
const COPIES: u64 = 11;

/// Lists, after the others, in which more codes wait later than at the start.
const GROWING: u64 = 4;

fn main() -> ExitCode {
    let arguments = std::env::args().skip(1);
    let numbers: Option<Vec<u64>> = arguments.map(|word| word.parse().ok()).collect();
    let Some(&[seed, lists]) = numbers.as_deref() else {
        eprintln!("crosscheck: two numbers are wanted\n{USAGE}");
        return ExitCode::from(2);
    };
    let mut random = Random::new(seed);
    let mut page = Page::new(seed, lists);
    let mut tally = Tally::default();
    for number in 0..lists + GROWING {
        let input = if number < lists {
            inputs::input(number, &mut random)
        } else {
            growing::input(&mut random)
        };
        list(number, &input, &mut random, &mut page, &mut tally);
    }
    print!("{}", page.text());
    eprintln!("crosscheck: seed {seed}: {tally}");
    match tally.absent() {
        None => ExitCode::SUCCESS,
        Some(answer) => {
            eprintln!("crosscheck: no call was answered with {answer}; try more lists");
            ExitCode::FAILURE
        }
    }
}

/// One random list: its build, and if it builds, the calls on its file and on changed copies.
fn list(number: u64, input: &Input, random: &mut Random, page: &mut Page, tally: &mut Tally) {
    let mut trials = Trials::new(tally);
    let lent = format!("I{number}");
    page.define(&lent, "Lent", &page::lent(input));
    let mut defined = vec![lent.clone()];
    if let Some(file) = calls::build(input, &lent, &mut trials) {
        let name = format!("F{number}");
        page.define(&name, "List ℕ", &page::bytes(&file));
        calls::on_file(&file, &name, &input.codes, random, &mut trials);
        for _ in 0..COPIES {
            let (copy, text) = inputs::changed(&file, &name, random);
            calls::on_file(&copy, &text, &input.codes, random, &mut trials);
        }
        defined.push(name);
    }
    page.state(number, &defined, &trials.list);
}

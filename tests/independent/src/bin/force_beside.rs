//! Runs the engine's call who can force the price (document 02, request 11) beside the independent
//! implementation: games with stated answers, and random ones between rounds, with questions that are
//! refused among them. Every byte of the lent buffers, and of their surroundings, is compared.
//! One line a group of questions, with `ok` or the first difference; below it, what the games and the
//! refused questions show. The exit status is 0 only if no group differs and no kind of game or
//! refusal is too rare among the random questions.

#[path = "../comparisons/engine.rs"]
mod engine;

use independent::comparisons::report::{few, listed, verdict, Compared};
use independent::coverage::{Asked, QUESTIONS};
use independent::generators::games::{question, stated, Question};
use independent::generators::lent::{difference, lend};
use independent::model::forcing::{write_move, Forced};
use std::process::ExitCode;

/// Random questions.
const RANDOM: u64 = 40_000;

/// The fewest games or refusals of each kind among them.
const FEWEST: u64 = 200;

fn main() -> ExitCode {
    let stated = stated_games().report();
    let random = Compared::generated(QUESTIONS, RANDOM, |questions, seed| {
        compare(questions, &Asked::new(question(seed)));
    });
    let agrees = random.report();
    verdict(&[stated, agrees, few() || random.holds_enough(FEWEST)])
}

/// Compares answer and memory of a call.
fn compare(questions: &mut Compared<Asked>, asked: &Asked) {
    questions.count(asked);
    let engine = asked.question.ask(&engine::who_can_force);
    let expected = written(&asked.question, asked.forced());
    if let Some(why) = difference(asked.question.buffer, &engine, &expected) {
        differ(questions, &asked.question, &why);
    }
}

fn differ(questions: &mut Compared<Asked>, question: &Question, why: &str) {
    questions.differ(|| {
        let Question {
            first,
            second,
            prices,
            ..
        } = question;
        let record = listed(&question.record);
        format!("differs: first {first}, second {second}, prices {prices:?}, {why}\n{record}")
    });
}

/// What a call with this answer gives, before the buffer is looked at.
fn written(asked: &Question, answer: Result<Forced, u8>) -> (u64, Vec<u8>) {
    lend(asked.buffer, |buffer| write_move(answer, buffer))
}

/// Both implementations are held to answers that are written out, so that an error which they have in
/// common shows.
fn stated_games() -> Compared<Asked> {
    let mut questions = Compared::new("stated games", QUESTIONS);
    for (question, stated) in stated::questions() {
        let asked = Asked::new(question);
        let answers = [stated, asked.forced()];
        let [expected, independent] = answers.map(|answer| written(&asked.question, answer));
        if independent != expected {
            let why = format!("independent {:?}, stated {stated:?}", asked.forced());
            differ(&mut questions, &asked.question, &why);
        }
        compare(&mut questions, &asked);
    }
    questions
}

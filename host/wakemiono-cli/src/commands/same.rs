//! `same`: whether two modules have the same names.

use std::cmp::Ordering;
use std::iter::Peekable;

use wakemiono::NamePayload;

use crate::edition::Edition;
use crate::entries::Subsection;
use crate::input::Input;
use crate::json::Json;
use crate::payloads;
use crate::question::{self, Answer, Kind, Question, KEPT_MEANS};
use crate::report::{Failure, Report, Status};

/// Which differences are shown.
#[derive(Clone, Copy, Debug, PartialEq, Eq)]
pub enum Shown {
    /// The first.
    First,
    /// Every one.
    All,
}

/// Compares the names of two modules, within one edition.
pub fn run<E: Edition>(
    a: &Input<E>,
    b: &Input<E>,
    shown: Shown,
    json: bool,
) -> Result<Report, Failure> {
    let differences = differences(a, b, shown)?;
    let status = Status::good_if(differences.is_empty());
    if json {
        return Ok(Report::json(status, &document(a, b, shown, &differences)));
    }
    let is_kept = |it: &Difference<'_>| it.question.kind() == Kind::Kept;
    let has_kept = differences.iter().any(is_kept);
    let said = if has_kept { KEPT_MEANS } else { "" };
    Ok(Report::ending(status, lines(a, b, &differences)).saying(said))
}

fn differences<'a, E: Edition>(
    a: &'a Input<E>,
    b: &'a Input<E>,
    shown: Shown,
) -> Result<Vec<Difference<'a>>, Failure> {
    let of_a = input_names(a)?;
    let of_b = input_names(b)?;
    let both = Both {
        a: entries(a, of_a)?.into_iter().peekable(),
        b: entries(b, of_b)?.into_iter().peekable(),
    };
    let mut differing = both.filter(|it| it.answers_differ());
    let differences: Vec<Difference<'a>> = match shown {
        Shown::First => differing.next().into_iter().collect(),
        Shown::All => differing.collect(),
    };
    // Canonical payloads are equal exactly where every answer is.
    let are_equal = payloads::canonical_names(of_a)? == payloads::canonical_names(of_b)?;
    if differences.is_empty() != are_equal {
        return Err(Failure::Misfit);
    }
    Ok(differences)
}

fn input_names<E: Edition>(input: &Input<E>) -> Result<Option<NamePayload<'_, E>>, Failure> {
    input.accepted(payloads::names(input.module()))
}

/// An answer, and the id of the subsection that has it.
struct Entry<'a> {
    subsection: u8,
    question: Question,
    answer: Answer<'a>,
}

impl Entry<'_> {
    /// Its place in the order of payloads: the subsection's id, and then the indices.
    fn order(&self) -> (u8, Vec<u32>) {
        (self.subsection, self.question.indices())
    }
}

/// All that an accepted payload has, in its order; nothing without one.
fn entries<'a, E: Edition>(
    input: &'a Input<E>,
    payload: Option<NamePayload<'a, E>>,
) -> Result<Vec<Entry<'a>>, Failure> {
    let mut entries = Vec::new();
    let Some(payload) = payload else {
        return Ok(entries);
    };
    for subsection in Subsection::all(payload, None)? {
        entries.extend(subsection.rows(payload)?.map(|(question, name)| Entry {
            subsection: subsection.id,
            question,
            answer: Answer::new(question, input.bytes(), name),
        }));
    }
    Ok(entries)
}

/// The entries of two payloads side by side, in the order of payloads.
struct Both<A: Iterator, B: Iterator> {
    a: Peekable<A>,
    b: Peekable<B>,
}

impl<'a, A, B> Iterator for Both<A, B>
where
    A: Iterator<Item = Entry<'a>>,
    B: Iterator<Item = Entry<'a>>,
{
    type Item = Difference<'a>;

    fn next(&mut self) -> Option<Difference<'a>> {
        let order = match (self.a.peek(), self.b.peek()) {
            (Some(a), Some(b)) => a.order().cmp(&b.order()),
            (Some(_), None) => Ordering::Less,
            (None, _) => Ordering::Greater,
        };
        let of_a = order.is_le().then(|| self.a.next()).flatten();
        let of_b = order.is_ge().then(|| self.b.next()).flatten();
        let question = of_a.as_ref().or(of_b.as_ref())?.question;
        Some(Difference {
            question,
            of_a: of_a.map(|it| it.answer),
            of_b: of_b.map(|it| it.answer),
        })
    }
}

/// A question, and the answers of two modules, which may tell them apart.
struct Difference<'a> {
    question: Question,
    of_a: Option<Answer<'a>>,
    of_b: Option<Answer<'a>>,
}

impl Difference<'_> {
    fn answers_differ(&self) -> bool {
        let [of_a, of_b] = [self.of_a, self.of_b].map(|answer| answer.map(|it| it.bytes()));
        of_a != of_b
    }

    /// The question and both answers, as members of a JSON object.
    fn members(&self) -> Vec<(&'static str, Json)> {
        let answers = [self.of_a, self.of_b].map(question::json);
        vec![
            ("question", Json::Object(self.question.members())),
            ("answers", answers.into_iter().collect()),
        ]
    }
}

fn lines<E: Edition>(a: &Input<E>, b: &Input<E>, differences: &[Difference<'_>]) -> String {
    if differences.is_empty() {
        return "same\n".to_owned();
    }
    let (of_a, of_b) = (a.label(), b.label());
    let block = |difference: &Difference<'_>| {
        format!(
            "{}\n{of_a}: {}\n{of_b}: {}\n",
            difference.question,
            question::shown(difference.of_a),
            question::shown(difference.of_b)
        )
    };
    let blocks: String = differences.iter().map(block).collect();
    format!("not the same\n{blocks}")
}

fn document<E: Edition>(
    a: &Input<E>,
    b: &Input<E>,
    shown: Shown,
    differences: &[Difference<'_>],
) -> Json {
    let files = [a.file(), b.file()];
    let mut members = vec![("files", files.into_iter().collect())];
    members.extend(E::members());
    members.push(("same", Json::Bool(differences.is_empty())));
    let mut told = differences.iter().map(Difference::members);
    match shown {
        Shown::First => members.extend(told.next().into_iter().flatten()),
        Shown::All => members.push(("differences", told.map(Json::Object).collect())),
    }
    Json::Object(members)
}

//! The auditor's file as an answer and as a page: outlines, sameness, the slide, the reason with
//! every line, the inspection plan, versions and refusals.

use super::by_hand::ByHand;
use super::html::{page, Sections};
use crate::answers::one_move::OneMove;
use crate::answers::same::Sameness;
use crate::answers::shift::Plan;
use crate::answers::slide::Slide;
use crate::drawing::Drawing;
use crate::told::{Line, Weight};
use crate::words::moved::Telling;
use crate::{help, pictures, plain, words, Result};
use byrlygent::nfp_sliding::StopReason;
use byrlygent::wkb::Fault as Wrong;
use byrlygent::{Entries, List, Refusal};

/// A drawing, with what is said of each of its rings.
pub struct Shown {
    /// The drawing.
    pub drawing: Drawing,
    /// How each ring is measured, and what is to be mended.
    pub measured: Vec<Vec<Line>>,
}

/// What an auditor asked about, and what came of it.
pub struct Report {
    /// The ring that stays.
    pub carrier: Shown,
    /// The ring that moves.
    pub disc: Shown,
    /// Another drawing of the carrier, and what they differ in.
    pub same: Option<(Shown, Sameness)>,
    /// The slide, or why there is none.
    pub slide: Option<Result<Slide>>,
    /// The move.
    pub one_move: Option<OneMove>,
    /// The inspection.
    pub plan: Option<Plan>,
}

impl Report {
    /// What was found, in the order of the sections.
    pub fn findings(&self) -> Vec<Line> {
        let mut found = Vec::new();
        if let Some((_, same)) = &self.same {
            let not = if same.is_well() { "" } else { "not " };
            let [a, b] = &same.names;
            let words = format!("{a} and {b} are {not}the same outline.");
            found.push(Line::weighed(!same.is_well(), words));
        }
        let mended = [&self.carrier, &self.disc].into_iter().flat_map(|shown| &shown.measured);
        found.extend(mended.flatten().filter(|line| line.warns()).cloned());
        match &self.slide {
            Some(Ok(slide)) => found.extend(
                words::slide::verdict(slide)
                    .into_iter()
                    .map(|line| Line { words: format!("The slide: {}.", line.words), ..line }),
            ),
            Some(Err(fault)) => found.push(Line::warning(format!("There is no slide: {fault}."))),
            None => {}
        }
        found.extend(self.one_move.iter().map(words::one_move::finding));
        if let Some(plan) = &self.plan {
            let so_far = words::shift::so_far(plan.state.as_ref());
            found.push(Line::plain(format!("Inspection: {so_far}.")));
        }
        found
    }

    /// Whether all is well: nothing warns, and the move is known to be clear.
    pub fn is_well(&self) -> bool {
        let warns = self.findings().iter().any(Line::warns);
        !warns && self.one_move.as_ref().is_none_or(OneMove::is_well)
    }

    /// The page; of what moved to a grid it tells so much.
    pub fn page(&self, telling: Telling) -> String {
        let mut page_of = Sections::default();
        self.front(&mut page_of);
        page_of.heading("The outlines");
        page_of.paragraph("The decimals read back to the same bits. Corners count from 0.");
        outline(&mut page_of, &self.carrier);
        outline(&mut page_of, &self.disc);
        if let Some((other, same)) = &self.same {
            sameness(&mut page_of, other, same);
        }
        if let Some(Ok(slide)) = &self.slide {
            slid(&mut page_of, slide, telling);
        }
        if let Some(of) = &self.one_move {
            reason(&mut page_of, of, telling);
        }
        if let Some(plan) = &self.plan {
            inspection(&mut page_of, plan);
        }
        refusals(&mut page_of);
        page("Outlines, slide and inspection", &page_of)
    }

    /// What was found, for whom to sign.
    fn front(&self, page: &mut Sections) {
        let (disc, carrier) = (&self.disc.drawing.name, &self.carrier.drawing.name);
        let made = help::made_by();
        page.paragraph(&format!("A disc, {disc}, and its carrier, {carrier}. Made by {made}."));
        page.heading("What was found");
        self.findings().iter().for_each(|finding| page.told(finding));
        page.paragraph("Checked by: ______________________   on: ______________");
    }
}

/// A drawing with its picture, and of each ring the table.
fn outline(page: &mut Sections, Shown { drawing, measured }: &Shown) {
    page.smaller_heading(&drawing.name);
    page.lines(&[words::outline::drawing(drawing)]);
    page.small_picture(&pictures::outline::drawn(drawing, &measured.concat(), false));
    for (lines, (_, ring)) in measured.iter().zip(&drawing.rings) {
        page.lines(lines);
        page.columns(&words::outline::table(&ring.points));
    }
}

/// Whether the carrier is the same outline as another, which is shown where it is not.
fn sameness(page: &mut Sections, other: &Shown, same: &Sameness) {
    let [a, b] = &same.names;
    page.heading("Are they the same outline?");
    page.paragraph(&format!("{a} and {b}, wherever they begin and whichever way round they go."));
    page.lines(&words::same::told(same));
    if !same.is_well() {
        outline(page, other);
    }
}

/// Lines with their picture, and behind it how far each corner moved to the grid.
fn pictured(page: &mut Sections, lines: &[Line], picture: &str) {
    page.lines(lines.iter().filter(|line| line.is_main()));
    page.picture(picture);
    let details: Vec<&Line> = lines.iter().filter(|line| line.weight == Weight::Detail).collect();
    if !details.is_empty() {
        page.smaller_heading("How far each corner moved to the grid");
        page.lines(details);
    }
}

/// The slide, with its path.
fn slid(page: &mut Sections, slide: &Slide, telling: Telling) {
    page.heading("The slide");
    page.paragraph(
        "What the given rule traces, and then what is so: each leg of the path is asked on a grid \
         whether nothing lies in between. A leg that is clear there is clear in the drawing where \
         nothing moved to the grid; of other drawings nothing is proved. That a leg is not clear \
         rests on a search whose completeness is tested and not proved.",
    );
    let lines = words::slide::told(slide, telling);
    pictured(page, &lines, &pictures::slide::drawn(slide, &lines, false));
    page.smaller_heading("The points of the path");
    let point = |(at, p): (usize, &_)| format!("{at:>4}  {}", plain::point(*p));
    let points: Vec<String> = slide.path().iter().enumerate().map(point).collect();
    page.columns(&points);
}

/// Why a move is clear, or not, and how to check it by hand.
fn reason(page: &mut Sections, of: &OneMove, telling: Telling) {
    page.heading("Why is the move clear, or not?");
    let lines = words::one_move::told(of, telling, false);
    pictured(page, &lines, &pictures::one_move::drawn(of, &lines, false));
    if let Some(hand) = ByHand::of(of) {
        page.smaller_heading("How to check it by hand");
        hand.rules().iter().for_each(|rule| page.paragraph(rule));
        for (heading, lines) in hand.tables() {
            page.smaller_heading(&heading);
            page.columns(&lines);
        }
    }
}

/// Which shift inspects which places, and what has been given out so far.
fn inspection(page: &mut Sections, plan: &Plan) {
    page.heading("The inspection");
    page.paragraph(&words::shift::plan(plan));
    let given = plan.state.as_ref().map(|state| state.shifts);
    let is_given = |at, given| if at < given { "given out" } else { "not yet" };
    let row = |(at, places): (usize, &Vec<u64>)| {
        let places: Vec<String> = places.iter().map(u64::to_string).collect();
        let row = [(at + 1).to_string(), places.join(", ")];
        row.into_iter().chain(given.map(|given| is_given(at as u64, given).into())).collect()
    };
    let rows: Vec<Vec<String>> = plan.shifts.iter().enumerate().map(row).collect();
    let headings = ["shift", "places of the path", "so far"];
    page.table(&headings[..if given.is_some() { 3 } else { 2 }], &rows);
}

/// The refusals, each with an example of what it says.
fn refusals(page: &mut Sections) {
    page.heading("What is refused, and in what words");
    page.paragraph(
        "A question that cannot be answered is refused by its number. 1, 4 and 5 speak of lists and \
         rooms that this command always lends whole.",
    );
    let row = |refusal: Refusal| vec![refusal.number().to_string(), refusal.to_string()];
    page.table(&["number", "for example"], &examples().map(row));
}

/// A refusal of each number.
fn examples() -> [Refusal; 11] {
    let few = Entries { list: List::Orbiting, has: 2, least: 3, most: 256 };
    let many = Entries { has: 257, ..few };
    [
        Refusal::Number,
        Refusal::Setting,
        Refusal::ShortPath { passes: 0, stop: StopReason::Passes },
        Refusal::Book { place: 40 },
        Refusal::Few(few),
        Refusal::Many(many),
        Refusal::Wkb { place: 5, fault: Wrong::Rings(2) },
        Refusal::Remaining,
        Refusal::Quarter(3),
        Refusal::Inspection,
        Refusal::Grid,
    ]
}

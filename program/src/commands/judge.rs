//! `pamuklid judge`: the verdict on a transmission, the ceiling of rungs, the dials for data, and where to move the dial.

use clap::ArgAction;
use pamuklid::{ceiling, evaluate, fault_of, Edges, Fault, Kind, Policy, Refusal};
use serde::Serialize;

use crate::answer::{Answer, Failure, Status, Style};
use crate::args::{in_order, Asked, KindArgs, SignalArgs, StationArgs, TableArgs, VerdictArgs, PRACTICE_EDGES};
use crate::image::{self, Field};
use crate::json::{CeilingJson, DecisionJson, NearestJson, Question, RangeJson, RefusalJson, RowJson};
use crate::listing::{closing, list, list_remarks, notes, remarks, Listing};
use crate::nearest::Move;
use crate::text::{typed, Typed};
use crate::words;

/// Judges a transmission: whether it may be sent, why, and at which dials data may be
///
/// It goes by the practice table, which is made up, or by that of --table. The answer has the rule and the edges;
/// with --rung, how fast a rung may be sent; and for data the dials. What is not given is the practice station's.
///
/// Where data is blocked, the last line says where to move the dial: up or down, by how much, and to which dial, the
/// nearest at which it may be sent, 60 m left out; or that no dial will do; or why that was not judged.
///
/// Exit status: 0 may be sent, 1 blocked, 2 not judged.
#[derive(clap::Args, Debug)]
pub struct Args {
    #[command(flatten)]
    table: TableArgs,
    #[command(flatten)]
    verdict: VerdictArgs,
    #[command(flatten)]
    station: StationArgs,
    #[command(flatten)]
    kind: KindArgs,
    #[command(flatten)]
    signal: SignalArgs,
    #[command(flatten)]
    ceiling: CeilingArgs,
}

#[derive(clap::Args, Debug)]
#[command(next_help_heading = "The ceiling")]
struct CeilingArgs {
    /// The audio edges of a rung; give it for each rung, the slowest first, up to 256
    #[arg(
        long,
        num_args = 2,
        value_names = ["LOW", "HIGH"],
        value_parser = typed,
        allow_negative_numbers = true,
        action = ArgAction::Append,
    )]
    rung: Option<Vec<Typed>>,

    /// The audio edges of the control frames that go with the rungs [default: 1250 1750]
    #[arg(
        long,
        num_args = 2,
        value_names = ["LOW", "HIGH"],
        value_parser = typed,
        allow_negative_numbers = true,
        action = ArgAction::Set,
        requires = "rung",
    )]
    control_edges: Option<Vec<Typed>>,
}

/// The rungs that were given, and their control frames.
struct Rungs {
    rungs: Vec<[f64; 2]>,
    control: [f64; 2],
}

impl CeilingArgs {
    fn rungs(&self, asked: &mut Asked) -> Result<Option<Rungs>, Failure> {
        let Some(figures) = &self.rung else { return Ok(None) };
        let rungs = figures.chunks(2).map(|pair| in_order("--rung", pair)).collect::<Result<_, _>>()?;
        let control = match &self.control_edges {
            Some(pair) => in_order("--control-edges", pair)?,
            None => {
                asked.assumed.push(("--control-edges", "1250 1750"));
                PRACTICE_EDGES
            }
        };
        Ok(Some(Rungs { rungs, control }))
    }
}

#[derive(Serialize)]
struct Json {
    command: &'static str,
    status: u8,
    #[serde(flatten)]
    question: Question,
    decision: Option<DecisionJson>,
    refusal: Option<RefusalJson>,
    ceiling: Option<CeilingJson>,
    dials: Option<Vec<RowJson>>,
    /// of data that is blocked
    nearest: Option<NearestJson>,
    remarks: Vec<String>,
}

/// Where a refused image is wrong.
pub fn fault(refusal: Refusal, image: &[u8]) -> Option<(Fault, Vec<Field>)> {
    let fault = fault_of(image).err().filter(|fault| fault.refusal == refusal)?;
    let fields = image::fields(image, &fault);
    Some((fault, fields))
}

pub fn answer(args: &Args, style: Style) -> Result<Answer, Failure> {
    let Args { table, verdict, station, kind, signal, .. } = args;
    let mut asked = Asked::new(table, station, Some(verdict), signal, Some(kind))?;
    let rungs = args.ceiling.rungs(&mut asked)?;
    let image = &asked.table.image;
    let mut text = words::question(&asked, true, style) + "\n";
    let decision = match evaluate(&asked.station, asked.kind, asked.direction, &asked.edges, image) {
        Ok(decision) => decision,
        Err(refusal) => {
            let fault = fault(refusal, image);
            text.push_str(&words::refusal("Not judged", refusal, &asked.table, fault.as_ref(), style));
            let json = Json {
                command: "judge",
                status: Status::NotAnswered as u8,
                question: Question::of(&asked),
                decision: None,
                refusal: Some(RefusalJson::at(refusal, image, fault.as_ref())),
                ceiling: None,
                dials: None,
                nearest: None,
                remarks: Vec::new(),
            };
            return Answer::new(Status::NotAnswered, text, &json);
        }
    };
    let mut status = Status::of(decision.allowed());
    text.push_str(&words::decision(&decision, &asked.station, style));
    let mut remarks = remarks(&asked, Some(&decision));
    text.push_str(&notes(&remarks, style));

    let climbed = rungs.map(|Rungs { rungs, control }| {
        let edges: Vec<Edges> = rungs.iter().map(|rung| Edges::both(rung[0], rung[1])).collect();
        let frame = Edges::both(control[0], control[1]);
        let floors = vec![false; rungs.len()];
        let answer = ceiling(&asked.station, asked.direction, &frame, &frame, image, &edges, &floors);
        text.push('\n');
        text.push_str(&match &answer {
            Ok(ceiling) => words::ceiling(ceiling, &rungs, control, style),
            Err(refusal) => words::refusal("The ceiling was not judged", *refusal, &asked.table, None, style),
        });
        if answer.is_err() {
            status = Status::NotAnswered;
        }
        let found = answer.as_ref().ok();
        CeilingJson {
            control: RangeJson::pair(control),
            rungs: rungs.iter().map(|&rung| RangeJson::pair(rung)).collect(),
            rung: found.and_then(|c| c.rung),
            limit: found.and_then(|c| c.limit.as_ref()).map(DecisionJson::of),
            refusal: answer.as_ref().err().map(|&refusal| RefusalJson::of(refusal)),
        }
    });

    // the list is about data by a table's rules, and means nothing beside another question
    let mut listing = None;
    let mut refused = None;
    if asked.kind == Kind::Data && asked.station.policy == Policy::Rules {
        match list(&asked, |_| Ok(())) {
            Ok((Listing::Barred(_), _)) => {}
            Ok((found, _)) => {
                text.push('\n');
                text.push_str(&found.text(style));
                listing = Some(found);
            }
            Err(refusal) => {
                text.push('\n');
                text.push_str(&words::refusal("The dials were not listed", refusal, &asked.table, None, style));
                refused = Some(RefusalJson::of(refusal));
                status = Status::NotAnswered;
            }
        }
    }
    let on_list = listing.as_ref().map_or_else(Vec::new, |listing| list_remarks(&asked, listing));
    text.push_str(&closing(&asked, &on_list, style));
    remarks.extend(on_list);

    let mut nearest = None;
    if asked.kind == Kind::Data && !decision.allowed() {
        text.push('\n');
        match Move::of(&asked, &decision, listing.as_ref()) {
            Ok(to) => {
                text.push_str(&to.text(style));
                nearest = Some(NearestJson::of(&to));
            }
            Err(refusal) => {
                let head = "Where to move the dial was not judged";
                text.push_str(&words::refusal(head, refusal, &asked.table, None, style));
                refused.get_or_insert(RefusalJson::of(refusal));
                status = Status::NotAnswered;
            }
        }
    }
    let json = Json {
        command: "judge",
        status: status as u8,
        question: Question::of(&asked),
        decision: Some(DecisionJson::of(&decision)),
        refusal: refused,
        ceiling: climbed,
        dials: listing.as_ref().map(Listing::json),
        nearest,
        remarks,
    };
    Answer::new(status, text, &json)
}

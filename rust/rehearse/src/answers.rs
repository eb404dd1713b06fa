//! The library's answers as words, numbers and named values. Each is told as it came; none is made here.

use crate::edition;
use crate::header::{Header, Hop, Info};
use crate::hop_words;
use crate::json::Json;
use crate::sentences::{self, Call, Question};
use standard_path::{
    expiration, AdvanceError, AsRoutingAction, Edition, HeaderError, IngressNextAction, Interfaces, JourneyError,
    LocalAsRoutingAction, PathReverseError, Refusal, ScionNetworkTime, ScmpError, StandardRoutingError, Verdict,
};

/// An answer of the library.
pub struct Answer {
    /// A stable word for it.
    pub word: &'static str,
    /// The scope document's number for a refusal, else the library's, 100 and above.
    pub number: u16,
    pub values: Vec<(&'static str, Json)>,
    pub sentence: String,
    pub scmp: Option<ScmpError>,
    /// The question that was answered no.
    pub question: Option<&'static Question>,
    /// What more there is to do about it.
    more_advice: Option<&'static str>,
    /// The hops that a refusal is about, each with its index and info field.
    pub hops: Vec<(usize, Info, Hop)>,
    /// Whether the answer is one to be glad of, which ends the program with status 0.
    pub is_good: bool,
}

impl Answer {
    fn new(is_good: bool, word: &'static str, number: u16, sentence: impl ToString) -> Answer {
        Answer {
            word,
            number,
            values: Vec::new(),
            sentence: sentence.to_string(),
            scmp: None,
            question: sentences::of_number(number),
            more_advice: None,
            hops: Vec::new(),
            is_good,
        }
    }

    fn good(word: &'static str, number: u16, sentence: impl ToString) -> Answer {
        Answer::new(true, word, number, sentence)
    }

    fn refused(number: u16, sentence: impl ToString) -> Answer {
        Answer::new(false, "refused", number, sentence)
    }

    fn with(mut self, name: &'static str, value: impl TryInto<u64>) -> Answer {
        self.values.push((name, Json::number(value)));
        self
    }

    /// The answer of a call that was given one path and left another: its question, and the hops that it is about.
    pub fn of_call(mut self, call: Call, edition: Edition, before: &[u8], left: &[u8]) -> Answer {
        self.question = sentences::of_call((call, edition), self.number, &self.values, left);
        self.more_advice = edition::advice(edition, self.number, Header(before));
        let Some(("hop_index", Json::Number(index))) = self.values.first() else {
            return self;
        };
        let (first, header) = (*index as usize, Header(before));
        // 13 to 16 name the first of the two hops of a segment change, and the path has moved on to the second.
        let is_change = matches!(self.number, 13..=16) && *index != u64::from(Header(left).curr_hf());
        let hops = (first..).take(if is_change { 2 } else { 1 });
        self.hops = hops.filter_map(|index| header.hop_in_step(index)).collect();
        self
    }

    /// The answer of a journey check that was given this path.
    pub fn of_check(mut self, edition: Edition, path: &[u8]) -> Answer {
        self.question = sentences::of_check(edition, self.number, path);
        self.more_advice = edition::advice(edition, self.number, Header(path));
        self
    }

    /// What to do about a refusal.
    fn advice(&self) -> Option<String> {
        let advice = self.question.map(|question| question.advice);
        let advice: Vec<_> = advice.into_iter().chain(self.more_advice).collect();
        (!advice.is_empty()).then(|| advice.join(" "))
    }

    /// The answer in a sentence, with its number.
    pub fn headline(&self) -> String {
        let word = self.word.replace('_', " ");
        format!("{word}, number {}: {}", self.number, self.sentence)
    }

    /// What is to be said below the headline: a name and a text for each line.
    pub fn details(&self) -> Vec<(String, String)> {
        let mut lines = Vec::new();
        if !self.values.is_empty() {
            let values = self.values.iter().map(|(name, value)| match value {
                Json::Text(text) => format!("{name} {text}"),
                value => format!("{name} {value}"),
            });
            lines.push(("values".into(), values.collect::<Vec<_>>().join(", ")));
        }
        if let Some(scmp) = self.scmp {
            let last = match scmp {
                ScmpError::ParameterProblem { pointer, .. } => format!("pointer {pointer}"),
                ScmpError::ExternalInterfaceDown { interface_id } => format!("interface {interface_id}"),
            };
            let (kind, code) = (scmp.scmp_type(), scmp.code());
            lines.push(("SCMP error".into(), format!("type {kind}, code {code}, {last}")));
        }
        lines.extend(self.about());
        lines
    }

    /// The hops and the question behind a refusal, and what to do about it.
    pub fn about(&self) -> Vec<(String, String)> {
        let mut lines = Vec::new();
        for (index, info, hop) in &self.hops {
            lines.push((format!("hop {index}"), hop_words::words(Some(info), hop)));
            lines.push((String::new(), hop_words::segment_words(info)));
        }
        if let Some(question) = self.question {
            lines.push((
                format!("question {}", self.number),
                format!("{} No. {}", question.asked, question.no),
            ));
        }
        lines.extend(self.advice().map(|advice| ("what to do".into(), advice)));
        lines
    }

    /// The hops that a refusal is about, as `show` has them.
    pub fn hops_json(&self) -> Json {
        let hops = self.hops.iter();
        Json::List(
            hops.map(|(index, info, hop)| hop_words::json(*index, Some(info), hop))
                .collect(),
        )
    }

    /// The members that every command's JSON object starts with.
    pub fn json(&self, command: &'static str) -> Vec<(&'static str, Json)> {
        let question = self.question;
        let text = |text: Option<&'static str>| text.map_or(Json::Null, Json::text);
        vec![
            ("command", Json::text(command)),
            ("answer", Json::text(self.word)),
            ("number", Json::number(self.number)),
            ("sentence", Json::text(&self.sentence)),
            ("values", Json::Object(self.values.clone())),
            ("scmp", self.scmp.map_or(Json::Null, scmp_json)),
            ("question", text(question.map(|question| question.asked))),
            ("means", text(question.map(|question| question.no))),
            ("what_to_do", self.advice().map_or(Json::Null, Json::Text)),
        ]
    }
}

fn scmp_json(scmp: ScmpError) -> Json {
    let last = match scmp {
        ScmpError::ParameterProblem { pointer, .. } => ("pointer", Json::number(pointer)),
        ScmpError::ExternalInterfaceDown { interface_id } => ("interface", Json::number(interface_id)),
    };
    Json::Object(vec![
        ("type", Json::number(scmp.scmp_type())),
        ("code", Json::number(scmp.code())),
        last,
    ])
}

// ---- the step and its halves

pub fn of_step(answer: Result<AsRoutingAction, Refusal>) -> Answer {
    match answer {
        Ok(action) => of_action(action),
        Err(refusal) => of_refusal(refusal),
    }
}

pub fn of_ingress(answer: Result<IngressNextAction, Refusal>) -> Answer {
    match answer {
        Ok(IngressNextAction::Complete(action)) => of_action(action),
        Ok(action @ IngressNextAction::ContinueEgress { egress_interface_id }) => {
            Answer::good("goes_on", action.number(), action).with("egress_interface", egress_interface_id)
        }
        Err(refusal) => of_refusal(refusal),
    }
}

fn of_action(action: AsRoutingAction) -> Answer {
    let number = action.number();
    match action {
        AsRoutingAction::ForwardNextHop { egress_interface_id } => {
            Answer::good("forwarded", number, action).with("egress_interface", egress_interface_id)
        }
        AsRoutingAction::Local(local) => match local {
            LocalAsRoutingAction::ForwardLocal => Answer::good("delivered", number, action),
            LocalAsRoutingAction::IngressSCMPHandleRequest { interface_id } => {
                alert("ingress_alert", number, action, interface_id)
            }
            LocalAsRoutingAction::EgressSCMPHandleRequest { interface_id } => {
                alert("egress_alert", number, action, interface_id)
            }
        },
    }
}

fn alert(word: &'static str, number: u16, action: AsRoutingAction, interface: u16) -> Answer {
    Answer::new(false, word, number, action).with("interface", interface)
}

fn of_refusal(refusal: Refusal) -> Answer {
    Answer {
        values: refusal_values(refusal.error),
        scmp: refusal.to_scmp_error(),
        ..Answer::refused(refusal.number(), refusal)
    }
}

/// The values of a refusal by the crate's names, in the scope document's order.
fn refusal_values(error: StandardRoutingError) -> Vec<(&'static str, Json)> {
    use StandardRoutingError as Error;
    let hop = |hop_index: usize| ("hop_index", Json::number(hop_index));
    let mac = |name, mac: [u8; 6]| (name, Json::text(crate::hex::to_hex(&mac)));
    match error {
        Error::UnsoundTable | Error::MetaTooShort | Error::DataTooShort | Error::TooManyHops => vec![],
        Error::AdvanceFailed(
            AdvanceError::SingleHopSegment | AdvanceError::SegmentEnd | AdvanceError::MisplacedPeering,
        ) => vec![],
        Error::AdvanceFailed(AdvanceError::HopOutOfBounds(index) | AdvanceError::InfoOutOfBounds(index)) => {
            vec![("index", Json::number(index))]
        }
        Error::AdvanceFailed(AdvanceError::InvalidSegmentIndex { expected, actual }) => {
            vec![("expected", Json::number(expected)), ("actual", Json::number(actual))]
        }
        Error::InvalidIngressInterface {
            hop_index,
            expected,
            found,
            cons_dir,
        }
        | Error::InvalidEgressInterface {
            hop_index,
            expected,
            found,
            cons_dir,
        } => vec![
            hop(hop_index),
            ("expected", Json::number(expected)),
            ("found", Json::number(found)),
            ("cons_dir", Json::Flag(cons_dir)),
        ],
        Error::FutureTimestamp { hop_index }
        | Error::SegmentExpired { hop_index }
        | Error::InvalidSegmentChange { hop_index } => vec![hop(hop_index)],
        Error::UnknownIngressInterface {
            hop_index,
            if_id,
            cons_dir,
        }
        | Error::UnknownEgressInterface {
            hop_index,
            if_id,
            cons_dir,
        } => vec![
            hop(hop_index),
            ("interface", Json::number(if_id)),
            ("cons_dir", Json::Flag(cons_dir)),
        ],
        Error::InvalidMacError {
            hop_index,
            expected,
            actual,
        } => {
            vec![hop(hop_index), mac("expected", expected), mac("found", actual)]
        }
        Error::EgressInterfaceDown { hop_index, if_id } => vec![hop(hop_index), ("interface", Json::number(if_id))],
        Error::InvalidScmpAlert { hop_index, cons_dir } => vec![hop(hop_index), ("cons_dir", Json::Flag(cons_dir))],
        // One that came later is told by its number and sentence, until a test asks for its case.
        _ => vec![],
    }
}

// ---- the other calls

pub fn of_reversal(answer: Result<(), PathReverseError>) -> Answer {
    match answer {
        Ok(()) => Answer::good("reversed", 110, "the path is turned around"),
        Err(error) => Answer::refused(error.number(), error),
    }
}

pub fn of_expiration(answer: Result<u32, HeaderError>) -> Answer {
    match answer {
        Ok(0) => {
            let sentence = "no segment stands before the first empty one, so that the time is 0";
            Answer::good("expiration", 111, sentence).with("expiration", 0u8)
        }
        Ok(time) => {
            let sentence = format!("the path ends at {}", crate::dates::both(time));
            Answer::good("expiration", 111, sentence).with("expiration", time)
        }
        Err(error) => of_header_error(error),
    }
}

pub fn of_header_error(error: HeaderError) -> Answer {
    Answer::refused(error.number(), error)
}

/// Why a header is turned down by itself: by 2 to 4, or by 5 to 8 or 28 at ingress. An empty table is sound, and clock,
/// table and key are asked about behind these.
pub fn of_header(path: &[u8], edition: Edition) -> Option<Answer> {
    if let Err(error) = expiration(path) {
        return Some(of_header_error(error));
    }
    let mut left = Header(path).parts().0.to_vec();
    let (now, none) = (
        ScionNetworkTime::from_timestamp_secs(0),
        Interfaces { ids: &[], states: &[] },
    );
    let answer = edition.standard_path_ingress(&mut left, 0, now, &[0; 16], none, true);
    let answer = of_ingress(answer).of_call(Call::Ingress, edition, path, &left);
    matches!(answer.number, 5..=8 | 28).then_some(answer)
}

pub fn of_journey(answer: Result<Verdict, JourneyError>) -> Answer {
    match answer {
        Ok(verdict @ Verdict::Passed) => Answer::good("passed", verdict.number(), verdict),
        Ok(verdict @ Verdict::NotPassed { .. }) => Answer::new(false, "not_passed", verdict.number(), verdict),
        Err(error) => Answer::refused(error.number(), error),
    }
}

//! Faults that a plain machine can be given, to see that each of them is found. They are never in what it is compared with.
use crate::day::{Said, Thing};
use crate::glass::Glass;
use crate::screen::Screen;

#[derive(Clone, Copy, PartialEq, Eq, Debug)]
pub enum Fault {
    LateSignWrapsAtOnce,
    ColourLeftOn,
    CutSequenceForgotten,
    SizeNotTold,
    FocusOnGonePane,
    AnswerDoubled,
    KeySwallowed,
    EverythingSentAgain,
    WrittenWhileNobodyLooks,
    WriteTooLong,
    NeverWaits,
    CursorLeftBehind,
    HiddenCursorShown,
    SaveOutlivesSize,
    OriginOutlivesSize,
    StartAfterSizes,
    PrefixOutlivesAttach,
    OutTouchedBehindAnswer,
}

pub const ALL: [Fault; 18] = [
    Fault::LateSignWrapsAtOnce,
    Fault::ColourLeftOn,
    Fault::CutSequenceForgotten,
    Fault::SizeNotTold,
    Fault::FocusOnGonePane,
    Fault::AnswerDoubled,
    Fault::KeySwallowed,
    Fault::EverythingSentAgain,
    Fault::WrittenWhileNobodyLooks,
    Fault::WriteTooLong,
    Fault::NeverWaits,
    Fault::CursorLeftBehind,
    Fault::HiddenCursorShown,
    Fault::SaveOutlivesSize,
    Fault::OriginOutlivesSize,
    Fault::StartAfterSizes,
    Fault::PrefixOutlivesAttach,
    Fault::OutTouchedBehindAnswer,
];

impl Fault {
    pub fn named(name: &str) -> Option<Fault> {
        ALL.into_iter().find(|fault| fault.name() == name)
    }

    /// The words of its name in lower case, with hyphens between them.
    pub fn name(self) -> String {
        let mut name = String::new();
        for letter in format!("{self:?}").chars() {
            if letter.is_uppercase() && !name.is_empty() {
                name.push('-');
            }
            name.push(letter.to_ascii_lowercase());
        }
        name
    }

    /// One turn of a glass with this fault.
    pub fn turn(self, glass: &mut Glass, thing: &Thing) -> Vec<Said> {
        let before = glass.clone();
        let mut said = match (self, thing) {
            (Fault::KeySwallowed, Thing::Key(27)) => Vec::new(),
            (Fault::LateSignWrapsAtOnce, Thing::From { pane, bytes }) => wrap_at_once(glass, *pane, bytes),
            (Fault::CutSequenceForgotten, Thing::From { pane, .. }) => {
                if let Some(pane) = glass.pane_mut(*pane) {
                    pane.screen.parser = Default::default();
                }
                glass.turn(thing)
            }
            _ => glass.turn(thing),
        };
        self.spoil_glass(&before, glass, thing);
        self.spoil_said(&mut said, thing);
        said
    }

    fn spoil_glass(self, before: &Glass, glass: &mut Glass, thing: &Thing) {
        match self {
            Fault::FocusOnGonePane if matches!(thing, Thing::Gone { .. }) => keep_focus(before, glass),
            Fault::PrefixOutlivesAttach if before.attached => glass.prefix |= before.prefix && matches!(thing, Thing::Look { .. }),
            Fault::SaveOutlivesSize => each_resized(before, glass, |old, new| new.saved = old.saved),
            Fault::OriginOutlivesSize => each_resized(before, glass, |old, new| new.origin = old.origin),
            _ => {}
        }
    }

    fn spoil_said(self, said: &mut Vec<Said>, thing: &Thing) {
        match self {
            Fault::SizeNotTold => said.retain(|said| !matches!(said, Said::Size { .. })),
            Fault::StartAfterSizes => said.sort_by_key(|said| matches!(said, Said::Start { .. })),
            Fault::AnswerDoubled if matches!(thing, Thing::From { .. }) => said.extend(said.clone()),
            _ => {}
        }
    }
}

/// A character in the last column goes on to the next row, without waiting for another.
fn wrap_at_once(glass: &mut Glass, pane: u64, bytes: &[u8]) -> Vec<Said> {
    let mut answer = Vec::new();
    for &byte in bytes {
        for said in glass.turn(&Thing::From { pane, bytes: vec![byte] }) {
            if let Said::Send { bytes, .. } = said {
                answer.extend(bytes);
            }
        }
        if let Some(pane) = glass.pane_mut(pane).filter(|pane| pane.screen.pending_wrap) {
            pane.screen.index();
            pane.screen.set_cursor(pane.screen.row, 0);
        }
    }
    let send = Said::Send { pane, bytes: answer.clone() };
    Vec::from_iter((!answer.is_empty()).then_some(send))
}

/// Every window keeps the focus that it had before.
fn keep_focus(before: &Glass, glass: &mut Glass) {
    for window in &mut glass.windows {
        let first = window.layout.panes()[0];
        if let Some(old) = before.windows.iter().find(|old| old.layout.panes().contains(&first)) {
            window.focus = old.focus;
        }
    }
}

fn each_resized(before: &Glass, glass: &mut Glass, spoil: impl Fn(&Screen, &mut Screen)) {
    for pane in &mut glass.panes {
        let Some(old) = before.pane(pane.number) else { continue };
        let size = |screen: &Screen| (screen.columns(), screen.rows());
        if size(&old.screen) != size(&pane.screen) {
            spoil(&old.screen, &mut pane.screen);
        }
    }
}

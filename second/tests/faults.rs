//! Each fault of a broken machine is found within the gate's seeds.
use second::faults::{Fault, ALL};
use second::known::{CORE, EVERYTHING};
use second::options::SEEDS;
use second::run::found_by;

/// Faults that need more than one pane to show.
const NEED_PANES: [Fault; 2] = [Fault::FocusOnGonePane, Fault::StartAfterSizes];

#[test]
fn each_fault_is_found_with_every_key_known() {
    for fault in ALL {
        let found = found_by(fault, EVERYTHING, SEEDS);
        assert!(found.is_some(), "{} is not found", fault.name());
    }
}

#[test]
fn faults_of_one_pane_are_found_with_no_key_known() {
    for fault in ALL.into_iter().filter(|fault| !NEED_PANES.contains(fault)) {
        let found = found_by(fault, CORE, SEEDS);
        assert!(found.is_some(), "{} is not found", fault.name());
    }
}

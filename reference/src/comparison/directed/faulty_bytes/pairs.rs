//! Each rule broken alone, each two that go together, and many at once: the lowest byte is told.

use super::draft::{breaking, record, Make};
use crate::codes::scope;
use crate::comparison::faulty_byte_cases::{is_of_sdk_0, is_of_sdk_1, PageKind, RuleOfPage};
use crate::comparison::session::{Sink, Stage};
use crate::descriptors::DescriptorRule;
use crate::set_page::PageRule;
use crate::status_page::StatusRule;

pub fn sessions(sink: &mut Sink) {
    let mut stage = Stage::new("faulty bytes: rules alone, in pairs, and many", record(), sink);
    for rules in alone().into_iter().chain(pairs()).chain(many()) {
        for make in makes(&rules) {
            stage.call(breaking(&rules, make));
        }
    }
    stage.finish();
}

/// Each rule, and none.
fn alone() -> Vec<Vec<RuleOfPage>> {
    let every = PageKind::EVERY.into_iter().flat_map(RuleOfPage::every);
    [Vec::new()].into_iter().chain(every.map(|rule| vec![rule])).collect()
}

/// Each two rules.
fn pairs() -> Vec<Vec<RuleOfPage>> {
    let every = PageKind::EVERY.into_iter().flat_map(RuleOfPage::every_two);
    every.map(|(one, other)| vec![one, other]).collect()
}

/// From each rule on, all that go together. A SCOPE that there isn't goes with the page code alone, and with a key that
/// is cut nothing is left over.
fn many() -> Vec<Vec<RuleOfPage>> {
    let goes_with_few = |rule: &RuleOfPage| {
        let few = [PageRule::Scope, PageRule::KeyInPage, PageRule::SupplementalKeyInPage];
        few.map(RuleOfPage::Set).contains(rule)
    };
    let mut many = Vec::new();
    for page in PageKind::EVERY {
        let every = RuleOfPage::every(page);
        for at in 0..every.len() {
            let mut rules = vec![every[at]];
            for &other in every[at + 1..].iter().filter(|rule| !goes_with_few(rule)) {
                if rules.iter().all(|rule| rule.goes_with(other)) {
                    rules.push(other);
                }
            }
            many.push(rules);
        }
    }
    many
}

/// What pages that break these rules can be made of.
fn makes(rules: &[RuleOfPage]) -> Vec<Make> {
    let any = |is_so: fn(PageRule) -> bool| {
        rules.iter().any(|rule| matches!(rule, RuleOfPage::Set(rule) if is_so(*rule)))
    };
    let is_status = rules.iter().any(|rule| matches!(rule, RuleOfPage::Status(_)));
    let sdks: &[bool] = match (any(is_of_sdk_0) || is_status, any(is_of_sdk_1)) {
        (true, _) => &[false],
        (false, true) => &[true],
        (false, false) => &[false, true],
    };
    // In the record of the drafts no nexus is ALL with a set that reads nothing; a status page has one form.
    let is_local = is_status || rules.contains(&RuleOfPage::Set(PageRule::SupplementalModeReads));
    let scopes: &[u8] = if is_local { &[scope::LOCAL] } else { &[scope::LOCAL, scope::ALL] };
    let positions: &[bool] = if can_come_second(rules) { &[false, true] } else { &[false] };
    let mut makes = Vec::new();
    for &scope in scopes {
        for &sdk in sdks {
            makes.extend(positions.iter().map(|&after_u_kad| Make { scope, sdk, after_u_kad }));
        }
    }
    makes
}

/// Whether there are rules of a descriptor that one after a U-KAD can break.
fn can_come_second(rules: &[RuleOfPage]) -> bool {
    let of_list = rules.iter().filter_map(|rule| match rule {
        RuleOfPage::Set(PageRule::Descriptor(rule)) => Some(*rule),
        RuleOfPage::Status(StatusRule::Descriptor(rule)) => Some(*rule),
        _ => None,
    });
    let of_list: Vec<DescriptorRule> = of_list.collect();
    !of_list.is_empty() && !of_list.contains(&DescriptorRule::UKadLength)
}

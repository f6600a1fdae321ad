//! IN: a response page into a lent buffer.

use crate::account::Rule;
use crate::answer::Refused;
use crate::controller::Controller;
use crate::response_pages;
use std::cmp::Ordering;

impl Controller {
    /// 01, "Response pages", behind checks 1 to 6; gives the page's full length.
    pub fn security_in(
        &mut self,
        nexus: u8,
        protocol: u8,
        page_code: u16,
        lent: &mut [u8],
    ) -> Result<usize, Refused> {
        self.check_record()?;
        let nexus = self.check_nexus(nexus)?;
        self.check_pending(nexus)?;
        self.check_protocol(nexus, protocol)?;
        let Some(page) = response_pages::page(page_code, &self.record, nexus) else {
            self.account.note(Rule::PageNotSupported);
            return Err(Refused::PageNotSupported);
        };
        self.account.note(match lent.len().cmp(&page.len()) {
            Ordering::Less => Rule::BufferShorterThanPage,
            Ordering::Equal => Rule::BufferOfPageLength,
            Ordering::Greater => Rule::BufferLongerThanPage,
        });
        Ok(response_pages::fill(&page, lent))
    }
}

//! 01, "Response pages": the pages of IN and how a lent buffer gets them.

use crate::codes::page_code;
use crate::record::Record;
use crate::status_page;

/// The page a code names; nothing for answer 6. The status page is the nexus's.
pub fn page(code: u16, record: &Record, nexus: usize) -> Option<Vec<u8>> {
    match code {
        // 01: "0000h: 00 00 00 08 00 00 00 01 00 12 00 20."
        page_code::IN_SUPPORT => Some(vec![0, 0, 0, 8, 0, 0, 0, 1, 0, 0x12, 0, 0x20]),
        // 01: "0001h: 00 01 00 02 00 10."
        page_code::OUT_SUPPORT => Some(vec![0, 1, 0, 2, 0, 0x10]),
        // 01: "0012h (000, table 2): 00 12 00 0C 01 07 00 07, then 8 zeros."
        page_code::MANAGEMENT_CAPABILITIES => {
            Some(vec![0, 0x12, 0, 0x0C, 1, 7, 0, 7, 0, 0, 0, 0, 0, 0, 0, 0])
        }
        page_code::STATUS => {
            Some(status_page::write(record.nexuses[nexus].scope, record.selected_set(nexus)))
        }
        _ => None,
    }
}

/// 01: "The lent buffer gets the page's first bytes, as many as it holds; bytes beyond stay; the answer
/// tells the page's full length."
pub fn fill(page: &[u8], lent: &mut [u8]) -> usize {
    let count = page.len().min(lent.len());
    lent[..count].copy_from_slice(&page[..count]);
    page.len()
}

//! Descriptors of every type, and of every length around the limits, in Set pages.

use crate::codes::scope;
use crate::comparison::page_builder::{descriptor, SetPage};
use crate::comparison::record_builder::mixed;
use crate::comparison::session::{security_out, Sink, Stage};

/// Lists in order and out of order.
pub fn lists() -> Vec<Vec<u8>> {
    let mut lists = Vec::new();
    for kind in 0..=255 {
        lists.push(descriptor(kind, 1, 1));
        let mut second_byte = descriptor(0, 1, 1);
        second_byte[1] = kind;
        lists.push(second_byte);
    }
    for kind in [0, 1, 2] {
        for length in 0..=40 {
            for data in [length, length + 1, length + 4, length + 5, usize::saturating_sub(length, 1)] {
                lists.push(descriptor(kind, length as u16, data));
            }
            lists.push(descriptor(kind, 0x0100 + length as u16, length));
        }
        lists.push(descriptor(kind, 0x0100, 0x0100));
        lists.push(descriptor(kind, 0xFFFF, 40));
    }
    let lengths = [0, 1, 11, 12, 13, 31, 32, 33];
    for first in [0, 1, 2, 255] {
        for second in [0, 1, 2, 255] {
            for first_length in lengths {
                for second_length in lengths {
                    let [one, two] = [(first, first_length), (second, second_length)]
                        .map(|(kind, length)| descriptor(kind, length as u16, length));
                    lists.push([one, two].concat());
                }
            }
        }
    }
    for bits in 0..8 {
        let three = [0, 1, 2].map(|at| descriptor(bits >> at & 1, 2, 2));
        lists.push(three.concat());
    }
    for tail in 1..=4 {
        lists.push([descriptor(0, 3, 3), vec![1; tail]].concat());
        lists.push([descriptor(0, 3, 3), vec![0; tail]].concat());
        lists.push([descriptor(0, 32, 32), descriptor(1, 12, 12), vec![2; tail]].concat());
        lists.push([descriptor(1, 3, 3), vec![2, 0, 0, 1][..tail].to_vec()].concat());
        lists.push(vec![0; tail]);
    }
    lists
}

pub fn sessions(sink: &mut Sink) {
    let mut stage = Stage::new("descriptors", mixed(), sink);
    for list in lists() {
        stage.call(security_out(3, SetPage { list, ..SetPage::k() }.bytes()));
    }
    for list in lists().into_iter().step_by(17) {
        for page in [
            SetPage { encryption: 0, ..SetPage::k() },
            SetPage { encryption: 1, decryption: 0, key: Vec::new(), ..SetPage::k() },
            SetPage::supplemental(scope::LOCAL, 2, 5),
            SetPage::public(false),
            SetPage { decryption: 0, ..SetPage::all() },
        ] {
            stage.call(security_out(3, SetPage { list: list.clone(), ..page }.bytes()));
        }
    }
    stage.finish();
}

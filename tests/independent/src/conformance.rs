//! The conformance script: the bench list, the tables, the slips, the corners
//! and the requests.

mod bench;
mod book;
mod calls;
mod counter;
mod events;
mod leaving;
mod mending;
mod moves;
mod narrow;
mod personalities;
mod possible;
mod protection;
mod reading;
mod repainting;
mod rows;
mod sends;
mod setups;
mod tables;
mod texts;
mod wide;
mod widths;
mod writing;

use book::Book;

pub fn script() -> Vec<u8> {
    let mut book = Book { text: Vec::new() };
    book.bench_list();
    book.row_and_column_codes();
    book.attribute_codes();
    book.graphic_codes();
    book.screen_features();
    book.control_codes();
    book.escape_codes();
    book.split_rows();
    book.function_keys();
    book.slips();
    book.page_and_state_corners();
    book.call_corners();
    book.move_corners();
    book.writing_corners();
    book.protection_corners();
    book.texts();
    book.sends();
    book.counter();
    book.rows();
    book.personalities();
    book.narrow_sends();
    book.setups();
    book.widths();
    book.wide_pages();
    book.mending();
    book.repainting();
    book.leaving();
    book.events();
    book.reading();
    book.text
}

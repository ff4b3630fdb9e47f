//! Reading a page: fields, texts, places.

use super::book::{on_or_off, Book};
use super::widths::WIDE_CELLS;
use crate::state::{CELLS, COLUMNS, ROWS, WIDEST};
use crate::transcript::limits::{FARTHEST, LONGEST_PAGE};
use crate::transcript::Line;

const LABEL: u16 = b'L' as u16 | 128;
const OTHER_LENGTHS: [usize; 9] = [0, 1, 24, 1919, 1921, 1944, 3167, 3169, LONGEST_PAGE];

impl Book {
    pub(super) fn reading(&mut self) {
        self.fields_of_pages();
        self.fields_and_modes();
        self.texts_of_fields();
        self.texts_trimmed();
        self.texts_of_rows();
        self.texts_refused();
        self.places_of_cells();
        self.reads_of_other_lengths();
    }

    fn field(&mut self, from: usize) {
        self.line(Line::Field(from));
    }

    fn field_text(&mut self, start: usize, trim: bool, room: usize) {
        self.line(Line::FieldText { start, trim, room });
    }

    fn row_text(&mut self, row: usize, trim: bool, room: usize) {
        self.line(Line::RowText { row, trim, room });
    }

    /// A page of labels of that many columns, but for these fields.
    fn page_of_fields(&mut self, columns: usize, fields: &[(usize, usize)]) {
        self.line(Line::Length(ROWS * columns));
        self.fill(0, ROWS * columns, LABEL);
        for &(index, count) in fields {
            self.fill(index, count, b'f' as u16);
        }
    }

    fn fields_of_pages(&mut self) {
        for columns in [COLUMNS, WIDEST] {
            let last = ROWS * columns - 1;
            self.case("reading: fields at the ends of rows and over them");
            let fields = [
                (0, 1),
                (2, 3),
                (columns - 1, 2),
                (2 * columns + 5, columns - 5),
                (4 * columns, columns),
                (6 * columns - 1, columns + 2),
                (10 * columns, 3 * columns),
                (last, 1),
            ];
            self.page_of_fields(columns, &fields);
            for (index, count) in fields {
                for from in [index.saturating_sub(1), index, index + 1, index + count] {
                    self.field(from);
                }
            }
            for row in 0..ROWS {
                self.field(row * columns);
            }
            for from in [last, last + 1, CELLS, WIDE_CELLS, FARTHEST] {
                self.field(from);
            }
            self.case("reading: a page of one field a row, and one without any");
            self.line(Line::Length(ROWS * columns));
            for from in [0, 1, columns - 1, columns, last - columns, last] {
                self.field(from);
            }
            self.page_of_fields(columns, &[]);
            self.field(0);
            self.field_text(0, false, WIDEST);
            self.case("reading: short fields");
            self.line(Line::Length(ROWS * columns));
            self.line(Line::Noise {
                seed: 5,
                mask: 0x7F,
                share: 128,
            });
            for from in 0..columns {
                self.field(from);
                self.field_text(from, false, 9);
            }
        }
        self.line(Line::Length(CELLS));
    }

    fn fields_and_modes(&mut self) {
        for protect in [false, true] {
            self.case(&format!(
                "reading: fields go by the mark, protect {}",
                on_or_off(protect)
            ));
            self.form(&[(5, 3), (85, 2)]);
            self.protect(protect);
            self.pending(b"\x1b=");
            self.field(0);
            self.field_text(5, false, 10);
            self.row_text(0, false, 80);
            self.field(8);
        }
        self.case("reading: no state is looked at");
        self.form(&[(5, 3), (85, 2)]);
        self.line(Line::Split(1));
        self.line(Line::Wide(true));
        self.field(6);
        self.field_text(85, true, 2);
        self.row_text(1, true, 80);
        self.line(Line::Position(85));
        self.line(Line::Place { row: 1, column: 5 });
        self.line(Line::Wide(false));
        self.line(Line::Split(0));
        self.case("reading: kinds, flags and codes of cells in fields");
        for (index, value) in [
            0, 0x1F, 0x20, 0x7E, 0x7F, 0x41, 0x141, 0x241, 0x341, 0x7C41, 0x8041, 0xFF7F, 0x42,
            0x80, 0xC1, 0x8080, 0xFFFF,
        ]
        .into_iter()
        .enumerate()
        {
            self.cell(index, value);
        }
        self.field(0);
        self.field(1);
        self.field_text(0, false, 80);
        self.field_text(17, true, 80);
        self.row_text(0, false, 80);
        self.row_text(0, true, 80);
    }

    fn texts_of_fields(&mut self) {
        for columns in [COLUMNS, WIDEST] {
            self.case("reading: the texts of fields, and rooms about their lengths");
            let last = ROWS * columns - 1;
            let fields = [(3, 4), (2 * columns, columns), (last - 1, 2)];
            self.page_of_fields(columns, &fields);
            for (start, length) in fields {
                for trim in [false, true] {
                    for room in [0, 1, length - 1, length, length + 1, 2000] {
                        self.field_text(start, trim, room);
                    }
                }
            }
        }
        self.line(Line::Length(CELLS));
        self.case("reading: a text where no field starts");
        self.form(&[(5, 3), (79, 2)]);
        for start in [0, 4, 6, 7, 8, 78, 81, CELLS - 1, CELLS, FARTHEST] {
            for room in [0, 80] {
                self.field_text(start, false, room);
            }
        }
        self.field_text(79, false, 1);
        self.field_text(80, false, 1);
    }

    fn texts_trimmed(&mut self) {
        self.case("reading: trailing spaces, whatever cells give them");
        self.form(&[(5, 20), (100, 6), (200, 3)]);
        for (index, value) in [
            (5, 0x20),
            (6, 0x41),
            (7, 0x00),
            (8, 0x42),
            (9, 0x20),
            (10, 0x00),
            (11, 0x131),
            (12, 0x231),
            (13, 0x331),
            (14, 0x7F),
            (15, 0x1F),
            (16, 0x2020),
            (17, 0x8020),
        ] {
            self.cell(index, value);
        }
        self.fill(18, 7, 0x20);
        self.fill(100, 6, 0x20);
        self.cell(102, 0);
        self.cell(200, 0x20);
        self.cell(201, 0x7C43);
        self.cell(202, 0x0A);
        for start in [5, 100, 200] {
            for trim in [false, true] {
                for room in [0, 1, 2, 3, 4, 5, 6, 19, 20, 21] {
                    self.field_text(start, trim, room);
                }
            }
        }
    }

    fn texts_of_rows(&mut self) {
        for columns in [COLUMNS, WIDEST] {
            self.case("reading: the texts of rows, labels too");
            let last = (ROWS - 1) * columns;
            self.page_of_fields(columns, &[(5, 3), (columns, columns - 5), (last, columns)]);
            self.fill(2 * columns, columns, 0x20 | 128);
            self.fill(3 * columns + 4, columns - 4, 128);
            self.fill(last + 70, columns - 70, 0);
            for row in [0, 1, 2, 3, ROWS - 1, ROWS, ROWS + 1, FARTHEST] {
                for trim in [false, true] {
                    for room in [0, 3, 4, 69, 70, columns - 1, columns, 2000] {
                        self.row_text(row, trim, room);
                    }
                }
            }
        }
        self.line(Line::Length(CELLS));
    }

    fn texts_refused(&mut self) {
        self.case("reading: answers in the order 7, 3, 6");
        self.line(Line::Length(CELLS + 1));
        self.field_text(1, false, 0);
        self.row_text(ROWS, false, 0);
        self.line(Line::Position(CELLS + 1));
        self.line(Line::Length(CELLS));
        self.field_text(1, false, 0);
        self.row_text(ROWS, false, 0);
        self.field_text(0, false, 0);
        self.row_text(0, false, 0);
        self.field_text(0, true, 0);
        self.row_text(0, true, 0);
    }

    fn places_of_cells(&mut self) {
        for columns in [COLUMNS, WIDEST] {
            self.case("reading: places of cells, and cells at places");
            let cells = ROWS * columns;
            self.line(Line::Length(cells));
            for cell in [
                0,
                1,
                79,
                80,
                131,
                132,
                1919,
                1920,
                cells - 1,
                cells,
                FARTHEST,
            ] {
                self.line(Line::Position(cell));
            }
            for row in [0, 1, ROWS - 1, ROWS, FARTHEST] {
                for column in [0, 1, 79, 80, 131, 132, FARTHEST] {
                    self.line(Line::Place { row, column });
                }
            }
        }
        self.line(Line::Length(CELLS));
    }

    fn reads_of_other_lengths(&mut self) {
        self.case("reading: pages of other lengths");
        for length in OTHER_LENGTHS {
            self.line(Line::Length(length));
            for number in [0, length] {
                self.field(number);
                self.field_text(number, true, 132);
                self.row_text(number, true, 132);
                self.line(Line::Position(number));
                self.line(Line::Place {
                    row: number,
                    column: 0,
                });
            }
        }
        self.line(Line::Length(CELLS));
    }
}

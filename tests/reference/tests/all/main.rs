//! All tests of the second implementation, in one program.

mod common;
mod lattices;
mod letters;
mod obj_form;
mod paper_cases;
mod polygons;
mod refusals;
mod seam_test;
mod seams;
mod tally;
mod text_form;
mod wrong_readings;

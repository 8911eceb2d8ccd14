//! All tests of the generator, in one program.

mod accepted_nets;
mod extension;
mod face_points;
mod facts;
mod generated_cases;
mod letters;
mod moved_nets;
mod named_nets;
mod obj_texts;
mod polygon_nets;
mod properties;
mod seam_tests;
mod stored_calls;
mod stored_cases;
mod tallies;
mod valences;

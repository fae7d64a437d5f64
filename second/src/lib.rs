//! An independent program for the papers: walks, remembered translations and cards.

pub mod answer;
pub mod cache;
pub mod card;
pub mod case;
pub mod compare;
pub mod compare_decks;
pub mod compare_invpcid;
pub mod compare_machines;
pub mod compare_starts;
pub mod damage;
pub mod deal;
pub mod deck;
pub mod deck_drop_tally;
pub mod deck_tally;
pub mod draw;
pub mod draw_card;
pub mod draw_invpcid;
pub mod draw_machine;
pub mod draw_pieces;
pub mod draw_place;
pub mod draw_settings;
pub mod drop_tally;
pub mod fast;
pub mod fast_cache;
pub mod fill_tally;
pub mod host;
pub mod invpcid_tally;
pub mod lookup_tally;
pub mod machine;
pub mod machine_tally;
pub mod random;
pub mod record;
pub mod rewrite_tally;
pub mod root_tally;
pub mod seed;
pub mod settings;
pub mod settings_tally;
pub mod tally;
pub mod translate;
pub mod walk;

#[cfg(test)]
mod exercises;
#[cfg(test)]
mod space_numbers;

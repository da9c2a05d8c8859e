//! The cases that are run against another program: how they are written down
//! (`record`), what this reader answers (`answers`), and how they are made.

pub mod aim;
pub mod aimed;
pub mod answers;
pub mod apart;
pub mod caches;
pub mod cards;
pub mod compared;
pub mod controls;
pub mod counts;
pub mod damage;
pub mod edges;
pub mod extension_lists;
pub mod faults;
pub mod generate;
pub mod halves;
pub mod lists;
pub mod misfits;
pub mod odd;
pub mod out_of_range;
pub mod paired;
pub mod pairs;
pub mod paths;
pub mod prng;
pub mod published;
pub mod random;
pub mod record;
pub mod run;
pub mod runs;
pub mod scene;
pub mod small;
pub mod spots;
pub mod table;
pub mod unsigned;
pub mod version;
pub mod ways;

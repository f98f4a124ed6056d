//! What `ambig-certify`, `ambig-check`, `ambig-join`, `ambig-trees`, `ambig-draft` and `ambig-plan` share. Verdicts are the library's; here
//! they are put into words, lines and pages.

pub mod answers;
pub mod callers;
pub mod certify;
pub mod command;
pub mod confirmation;
pub mod diagnosis;
pub mod drafts;
pub mod drawing;
pub mod explanation;
pub mod fix;
pub mod fronts;
pub mod holes;
pub mod joins;
pub mod json;
pub mod layout;
pub mod lines;
pub mod markup;
pub mod page;
pub mod parting;
pub mod plans;
pub mod readings;
pub mod refusals;
pub mod rows;
pub mod shut;
pub mod spots;
pub mod strings;
pub mod trees_page;
pub mod warnings;
pub mod words;

//! The starred cases and the worked example of document 01, every number and every return code, the
//! Linux header, the need of code 22, the ranges of the commands' needs, the controller and the
//! connectors, phys held at spin-up, the state as bytes, the closing tally, firmware, all that the
//! program prints, and a walk over arbitrary inputs. What is expected stands here in the document's
//! own numbers, which holds `codes` and `layout` to it.

mod adapter;
mod arbitrary;
mod codes;
mod controller;
mod disk;
mod firmware;
mod header;
mod headers;
mod layout;
mod link_errors;
mod linux;
mod opening;
mod passthrough;
mod program;
mod ranges;
mod spinup;
mod starred;
mod tally;

//! The program `teplovist`, run as people and programs run it: on copies of the samples, on images that it made itself,
//! and on damaged ones.

#[path = "program/changing.rs"]
mod changing;
#[path = "program/damage.rs"]
mod damage;
#[path = "program/failing.rs"]
mod failing;
#[path = "program/json.rs"]
mod json;
#[path = "program/looking.rs"]
mod looking;
#[path = "program/naming.rs"]
mod naming;
#[path = "program/scene.rs"]
mod scene;
#[path = "program/signing.rs"]
mod signing;
mod support;
#[path = "program/usage.rs"]
mod usage;

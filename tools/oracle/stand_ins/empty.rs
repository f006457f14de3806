//! Stands in for `engine`, `label`, `speech` and `vocoder`, of which nothing is judged.

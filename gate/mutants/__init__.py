"""Mutation testing: shows that each contract rejects a body that does something else.

Mutants are in the files crates/NAME/wrong/MODULE.edits (`forms`, `edits`). The script `wrong` at
the top tries them. It makes mutants in a copy of the crate (`rooms`), many in one check
(`batches`), where it can by one search each (`quick`). By the output of the check it decides
whether the contract of its function rejected each one (`judging`). At a landing it tries those
whose verdict can have changed (`marks`) since all were last tried (`seen`, `kept`), in an order
(`landing`), as long as its CPU time lasts (`budget`).
"""

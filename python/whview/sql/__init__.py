"""What `whview sql` writes: a catalogue and a strategy as a script, in the words of PostgreSQL, SQLite or ClickHouse.

- `command.py` has the words of the command, `catalogue.py` reads what a script is made from, and `engines/` has a module for each engine.
- A script is made of tokens (`tokens.py`), which are written as text in one place (`written.py`).
- What an engine says in its own words is its dialect: `dialect.py`, `engine.py`, and `postgresql.py`, `sqlite.py`, `clickhouse.py`.
- What a catalogue wants of any engine: `shape.py`, `steps.py`, `tables.py`, `keys.py`. Combined rows: `terms.py`, `formulas.py`, and how they are found: `access.py`.
- SQLite goes statement by statement, `stepwise.py`: a Comp is in `comps.py`, a change in `changes.py`, an Inst in `insts.py`.
- PostgreSQL counts in a block, `block.py`; how a step of each kind is put is in `block_steps.py`, Comps in `block_comps.py`, a summary's groups in `groups.py`.
  Changes and Insts of one's own tables are in `one_pass_changes.py` and `one_pass_insts.py`, those of captured ones in `capture/merge_changes.py` and
  `capture/merge_insts.py`.
- ClickHouse has its nights in slots, `slots.py`, which `whview cluster` carries out.
- What is asked of a server before anything is changed: `postgresql_checks.py`, `one_pass_checks.py`, `sqlite_checks.py`. Who did it: `culprits.py`.
"""

"""Tests of the companion `rebuild-lists`. The built program serves the folders: crates/rebuild/out/rebuild."""

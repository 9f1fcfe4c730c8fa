"""What an operator needs besides `rebuild farm`: it reads and writes request lists, reports and fragments.

Each command of `rebuild-lists` has a module of its own: check, split, serve, merge, tell, put, damaged. It needs Python 3.8 and nothing
else."""

VERSION = "0.1.0"

#!/usr/bin/env bash
# Where the processor time of one of four validators goes under full load, by `perf`: a table of its parts, and with --raw its 40
# dearest symbols, who calls them, and the calls of the system. With --with PROGRAM that tmnode is taken; without it the proved one
# in bin/, which is brought up to date first.
# usage: bench/profile.sh [--with PROGRAM] [--seconds S] [--memory] [--links KEEPING] [--raw]
set -euo pipefail
top=$(dirname "${BASH_SOURCE[0]}")/..
case " $* " in *" --with"* | *" --help "* | *" -h "*) ;; *) "$top/build.sh" >&2 ;; esac
exec "$top/bench/profile.py" "$@"

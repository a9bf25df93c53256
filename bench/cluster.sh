#!/usr/bin/env bash
# What clusters of validators on this machine deliver, how late, and what that takes: a table with a line for each number of
# validators, length of a transaction and load. With --beside etcd it has lines of three nodes of etcd too; --rest measures in its
# place what validators take that get nothing. With --with PROGRAM that tmnode is taken; without it the proved one in bin/, which is
# brought up to date first.
# usage: bench/cluster.sh [--with PROGRAM] [--validators N,..] [--data BYTES,..] [--clients N [--window W]] [--seconds S] [--memory]
#                         [--links KEEPING] [--beside etcd] [--rest [--idle S]]
set -euo pipefail
top=$(dirname "${BASH_SOURCE[0]}")/..
case " $* " in *" --with"* | *" --help "* | *" -h "*) ;; *) "$top/build.sh" >&2 ;; esac
exec "$top/bench/cluster.py" "$@"

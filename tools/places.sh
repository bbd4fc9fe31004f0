#!/usr/bin/env bash
# Lists the places of docs/DESIGN-PASS.md's points in src/: places.sh [ROOT]. A line of it is a place to look at, and how many of them are places is said on the page.
set -u
cd "${1:-$(dirname "$0")/..}" || exit 2
S='crates/*/src/*.rt'
list() { # NAME PATTERN [EXCLUDED]
  echo "== $1: $(grep -nE "$2" $S | grep -vE "${3:-^$}" | wc -l)"
  grep -nE "$2" $S | grep -vE "${3:-^$}" | sed 's/^crates\///; s/src\///; s/  */ /g'
}
list '1a own enums' '^(pub )?enum '
list '1b fields that are a flag, or a number that says whether the others count' '^    (pub )?(verdict|turn|answer|sort|free|on): '
list '1c kinds, sorts, runs and refusals as numbers: constants' '(VOLUME|LEADER|IMAGE|TRAILER|COUNTS|COMPLEX): u64 ='
list '1d kinds, sorts, runs and refusals as numbers: fields and parameters' '\b(kind|sort|run|number): u64|-> u64$.*(sort|kind)' 'ensures|^crates/seobangyu'
list '1e tests of an own enum that hand the rest on' 'let (Verdict|Field|Checked|View|Stop|Turn)::'
list '3 loops that count by hand' '^ *while '
list '4a words::is, both, within in place of ==, && and ranges' 'words::(is|both|within)\('
list '4b answers yes or no by a match over every variant' '=> (true|false),' 
list '4c numbers of several bytes put together by hand' '\* 256|/ 256'
list '4d words and numbers printed by hand' 'try_commands::say|io::(print|write_all)'
list '5 parameters that always travel together' '(kind: u64, p: Plan|ordinal: u64, start: u64|start: u64, sort: u64|v: View, sort: u64|kind: u64, run: u64, p: Plan)' 'ensures'
list '6 buffers with a length beside, parallel arrays' '(counts|lengths): \[u64; |\[u8; 96\]|held: usize|buffer: &mut \[u8\]|out: &mut \[u(8|64)\], (at|to): usize'
list '7 switches on which step to run, tables of rows by number' '(match (i|kind|n|sort|form) \{|if (self\.)?kind [!=]= )'

#!/usr/bin/env bash
# Drives the built programs as a user would, both or those named: tests/cli.sh [check] [run].
# Its last line is 'N passed, M failed'. CHECK and RUN may name other programs to drive.
set -u
cd "$(dirname "$0")/.." || exit 1
# shellcheck source=tests/lib.sh
. tests/lib.sh

[ $# -gt 0 ] || set -- check run
for part; do
  case $part in
    check) . tests/check.sh ;;
    run) . tests/run.sh ;;
    *) echo 'usage: tests/cli.sh [check] [run]' >&2 && exit 1 ;;
  esac
done

echo "$passed passed, $failed failed"
[ "$failed" -eq 0 ]

#!/bin/bash
# Proves all crates, tries the wrong edits, and runs the tests and the program. Ends with the status
# of `rt ci`.
cd -- "$(dirname -- "$(readlink -f -- "${BASH_SOURCE[0]}")")" || exit 1
exec rt ci

#!/usr/bin/env bash
# Runs the proved program.
top=$(dirname "$(readlink -f "${BASH_SOURCE[0]}")")
program=$(bash "$top/.ci/program") || exit 70
exec "$program" "$@"

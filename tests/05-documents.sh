#!/usr/bin/env bash
# What the documents name is there: paths, functions, must-fail edits, links. It stands on no proved crate.
set -uo pipefail
cd "$(dirname "$0")/.."
python3 tests/documents.py

#!/usr/bin/env bash
cd "$(dirname "$0")/.." && exec python3 -B tests/calls/test_lines.py

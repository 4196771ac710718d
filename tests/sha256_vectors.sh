#!/usr/bin/env bash
# What the program sha256_vectors must print is what another implementation of SHA-256 computes.
exec python3 "$(dirname "$0")/make_sha256_vectors.py" --check

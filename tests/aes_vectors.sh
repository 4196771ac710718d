#!/usr/bin/env bash
# What the program aes_vectors must print is what other implementations of AES-128 and AES-CMAC compute.
exec python3 "$(dirname "$0")/make_aes_vectors.py" --check

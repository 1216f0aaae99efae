#!/bin/sh
# Builds oracle/target/oracle.
exec python3 "$(dirname "$0")/build.py"

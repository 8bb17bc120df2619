#!/bin/bash
# Compares the program with the plain models in tools/model on random scripts, outside the gate: a model is a second,
# slow statement of the rules in another language, written from the formats alone. Run it at the top of the repository.
# The words are the command (feed, replay, sample, drill or show), the first number and how many; without words it is
# 1,000 feeds. It ends with status 1 where one differs, and keeps the script with both outputs. Of `serve` the words are
# `serve`, what is compared (words, refused, settings, journals, datagrams, killed or crowd), the first number and how
# many. Of `stream` they are `stream`, the first number and how many: random streams in random pieces. Both run the
# proved program, which ./do prove builds.
cd "$(dirname "$0")/.." || exit 1
if [ "${1:-}" = stream ]; then
    exec python3 -B tools/model/against_stream.py "${2:-1}" "${3:-1000}" crates/cgf/out/cgf
fi
if [ "${1:-}" = serve ]; then
    exec python3 -B tools/model/against_serve.py "${2:-datagrams}" "${3:-1}" "${4:-100}" crates/cgf/out/cgf
fi
exec python3 -B tools/model/against.py "${1:-feed}" "${2:-1}" "${3:-1000}" ./cgf

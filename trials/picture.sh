#!/bin/bash
# Draws the program's pictures with headless Chromium and looks at each lamp: `trials/picture.sh [--program PATH] [--keep FOLDER]`.
set -e
cd "$(dirname "$0")/.."
case " $* " in *" --help "*) exec python3 -m trials.picture --help ;; esac
if ! command -v chromium > /dev/null; then
    echo "chromium is not there: apt-get install chromium" >&2
    exit 2
fi
exec python3 -m trials.picture "$@"

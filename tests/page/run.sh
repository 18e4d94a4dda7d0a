#!/usr/bin/env bash
# The page of `cesr judge --html`, looked at in headless Chromium: wide and narrow, light and dark, on paper. Screenshots go to
# target/page. Where there is no Chromium (Debian's package `chromium`) it says so and is no failure. CHROMIUM names another one.
set -euo pipefail
cd "$(dirname "${BASH_SOURCE[0]}")/../.."
for name in ${CHROMIUM:+"$CHROMIUM"} chromium chromium-browser google-chrome; do
  browser=$(command -v "$name") && break
done
if [ -z "${browser:-}" ]; then
  echo "no Chromium here: the page was not looked at"
  exit 0
fi
if [ ! -f target/staticlib/libexports.a ]; then
  tools/library
fi
(cd rust && cargo build --offline --quiet --release -p command)
exec python3 -B tests/page/look.py "$browser" rust/target/release/cesr target/page

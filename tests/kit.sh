# shellcheck shell=sh
# Read by the scripts that use the Rattle kit's own tools: finds rt, and sets `kit` (the kit's folder), `lib` (its C library for
# x86-64) and `own` (its tools for this machine). `die` is the script's own.
command -v rt >/dev/null || PATH=$PATH:/usr/local/bin
command -v rt >/dev/null || die 'rt is not found: install the Rattle kit, with its command rt on the PATH or in /usr/local/bin'
kit=$(cd "$(dirname "$(rt doc)")" && pwd)
# shellcheck disable=SC2034  # for the script that reads this
lib=$kit/toolchain/lib own=$kit/toolchain/bin
